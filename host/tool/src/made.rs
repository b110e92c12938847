//! Files that come to their places only once all of them are complete. Until then each has a hidden name in its folder.
//! Whatever fails, what was made is removed again, and a file that was to be replaced is as it was.
use crate::failure::{plain, Failure};
use crate::place::{id, Holds, Place, TAKEN};
use std::fs::{self, File, Permissions};
use std::io::{self, ErrorKind, Write};
use std::os::unix::fs::{MetadataExt, PermissionsExt};
use std::path::{Path, PathBuf};
use std::sync::atomic::{AtomicU32, Ordering};

/// Files that are complete, but not yet in their places. Dropped, they are removed again.
#[derive(Default)]
pub struct Made<'a>(Vec<Hidden<'a>>);

impl<'a> Made<'a> {
    /// Writes a whole file for a place; to a device or a pipe at once.
    pub fn write(&mut self, place: &'a Place, bytes: &[u8]) -> Result<(), Failure> {
        let mut file = self.begin(place)?;
        file.write(bytes)?;
        file.complete()
    }

    /// Begins a file for a place, to be written part by part; what goes to a device or a pipe is there at once.
    pub fn begin(&mut self, place: &'a Place) -> Result<Begun<'a>, Failure> {
        let file = match place.holds {
            Holds::Device => File::options().write(true).open(&place.path),
            _ => Hidden::begin(place).map(|(hidden, file)| {
                // Kept from the beginning, so that it is removed if it can't be completed.
                self.0.push(hidden);
                file
            }),
        };
        let file = file.map_err(|e| Failure::writing(&place.name, &e))?;
        Ok(Begun { place, file })
    }

    /// Puts all files in their places, or none.
    pub fn put(mut self, force: bool) -> Result<(), Failure> {
        for file in &mut self.0 {
            file.put(force).map_err(|e| match e.kind() {
                ErrorKind::AlreadyExists => Failure::wrong(&file.place.name, TAKEN),
                _ => Failure::wrong(&file.place.name, plain(&e)),
            })?;
        }
        self.0.into_iter().for_each(Hidden::settle);
        Ok(())
    }
}

/// A file that is being written for a place.
pub struct Begun<'a> {
    place: &'a Place,
    file: File,
}

impl Begun<'_> {
    pub fn write(&mut self, bytes: &[u8]) -> Result<(), Failure> {
        let done = self.file.write_all(bytes);
        done.map_err(|e| Failure::writing(&self.place.name, &e))
    }

    /// Ends the writing. Some systems tell only at the sync that there was no room; a device has none.
    pub fn complete(self) -> Result<(), Failure> {
        let done = match self.place.holds {
            Holds::Device => Ok(()),
            Holds::File(_) | Holds::Nothing => self.permit().and_then(|()| self.file.sync_all()),
        };
        done.map_err(|e| Failure::writing(&self.place.name, &e))
    }

    /// Ends the writing without a sync, for a file that can be made again at any time.
    pub fn end(self) -> Result<(), Failure> {
        let done = self.permit();
        done.map_err(|e| Failure::writing(&self.place.name, &e))
    }

    /// Gives the file the permissions of the one that it replaces.
    fn permit(&self) -> io::Result<()> {
        match self.place.holds {
            Holds::File(mode) if self.file.metadata()?.mode() & 0o777 != mode => {
                self.file.set_permissions(Permissions::from_mode(mode))
            }
            _ => Ok(()),
        }
    }
}

/// A file under a hidden name, on the way to its place.
struct Hidden<'a> {
    place: &'a Place,
    path: PathBuf,
    id: Option<(u64, u64)>,
    /// Whether it is in its place, and has its hidden name no more.
    put: bool,
    /// The hidden name of the file that it replaces.
    old: Option<PathBuf>,
    /// Whether all files are in their places, so that this one stays there.
    settled: bool,
}

impl<'a> Hidden<'a> {
    fn begin(place: &'a Place) -> io::Result<(Hidden<'a>, File)> {
        let (path, file) = under_hidden_name(&place.folder, |path| File::create_new(path))?;
        let hidden = Hidden {
            place,
            path,
            id: file.metadata().ok().as_ref().map(id),
            put: false,
            old: None,
            settled: false,
        };
        Ok((hidden, file))
    }

    fn put(&mut self, force: bool) -> io::Result<()> {
        match self.put_new() {
            Err(e) if force && e.kind() == ErrorKind::AlreadyExists => self.put_over(),
            done => done,
        }
    }

    /// Puts the file where nothing is. It gets a second name there, since that never takes the place of another file:
    /// one may have come after the place was looked at.
    fn put_new(&mut self) -> io::Result<()> {
        match fs::hard_link(&self.path, &self.place.path) {
            Ok(()) => {
                self.put = true;
                fs::remove_file(&self.path)
            }
            Err(e) if e.kind() == ErrorKind::AlreadyExists => Err(e),
            Err(_) => self.put_by_one_name(),
        }
    }

    /// The same on a file system where a file can't have two names: an empty file holds the name free, since that never
    /// takes the place of another file either.
    fn put_by_one_name(&mut self) -> io::Result<()> {
        File::create_new(&self.place.path)?;
        rename_over_empty(&self.path, &self.place.path)?;
        self.put = true;
        Ok(())
    }

    /// Puts the file where another is. That one keeps a hidden name until all files are in their places.
    fn put_over(&mut self) -> io::Result<()> {
        let path = &self.place.path;
        if !fs::symlink_metadata(path)?.is_file() {
            return Err(io::Error::other("isn't an ordinary file"));
        }
        let second_name = under_hidden_name(&self.place.folder, |old| fs::hard_link(path, old));
        self.old = Some(match second_name {
            Ok((old, ())) => old,
            Err(_) => move_away(path, &self.place.folder)?,
        });
        fs::rename(&self.path, path)?;
        self.put = true;
        Ok(())
    }

    /// Leaves the file in its place for good.
    fn settle(mut self) {
        self.settled = true;
        if let Some(old) = &self.old {
            // All files are in their places; that a hidden one stays beside them is no failure.
            let _ = fs::remove_file(old);
        }
    }
}

impl Drop for Hidden<'_> {
    /// Undoes what was done, unless it is settled. What can't be undone stays as it is; the failure that led here is
    /// the one to tell.
    fn drop(&mut self) {
        if self.settled {
            return;
        }
        let path = &self.place.path;
        let _ = match &self.old {
            Some(old) if self.put => fs::rename(old, path),
            Some(old) => match id_at(path) {
                None => fs::rename(old, path),
                // The old file is in its place, and the hidden name is its second one.
                at if at == id_at(old) => fs::remove_file(old),
                Some(_) => Ok(()),
            },
            // What came to the place since then is somebody else's.
            None if self.put && id_at(path) == self.id => fs::remove_file(path),
            None => Ok(()),
        };
        if !self.put {
            let _ = fs::remove_file(&self.path);
        }
    }
}

/// The device and the number of what is at a path, if anything is.
fn id_at(path: &Path) -> Option<(u64, u64)> {
    fs::symlink_metadata(path).ok().as_ref().map(id)
}

/// Makes something under a hidden name that nothing in the folder has.
fn under_hidden_name<T>(folder: &Path, make: impl Fn(&Path) -> io::Result<T>) -> io::Result<(PathBuf, T)> {
    // It counts on, so that no name is used twice.
    static NEXT: AtomicU32 = AtomicU32::new(0);
    loop {
        let number = NEXT.fetch_add(1, Ordering::Relaxed);
        let path = folder.join(format!(".svx-{}-{number}", std::process::id()));
        match make(&path) {
            Err(e) if e.kind() == ErrorKind::AlreadyExists => {}
            made => return made.map(|made| (path, made)),
        }
    }
}

/// Gives a file a hidden name in place of its own.
fn move_away(path: &Path, folder: &Path) -> io::Result<PathBuf> {
    let (hidden, _) = under_hidden_name(folder, |hidden| File::create_new(hidden))?;
    rename_over_empty(path, &hidden)?;
    Ok(hidden)
}

/// Gives a file the name that an empty one holds free for it. That one doesn't stay in any case.
fn rename_over_empty(path: &Path, to: &Path) -> io::Result<()> {
    let done = fs::rename(path, to);
    if done.is_err() {
        let _ = fs::remove_file(to);
    }
    done
}

#[cfg(test)]
mod tests {
    use super::*;
    use crate::files::Input;
    use crate::place;

    /// A folder for one test with an input in it, removed at its end.
    struct Folder(PathBuf);

    impl Folder {
        fn new(name: &str) -> Folder {
            let folder = Folder(std::env::temp_dir().join(format!("svx-made-{}-{name}", std::process::id())));
            fs::create_dir_all(&folder.0).expect("a folder for the test");
            fs::write(folder.path("in"), "input").expect("a file for the test");
            folder
        }

        fn path(&self, name: &str) -> PathBuf {
            self.0.join(name)
        }

        fn places(&self, names: &[&str], force: bool) -> Vec<Place> {
            let input = Input::read(self.path("in").as_os_str()).ok().expect("an input");
            let paths: Vec<PathBuf> = names.iter().map(|name| self.path(name)).collect();
            place::look(&paths, &[&input], force).ok().expect("places")
        }

        /// Each file with what is in it, hidden ones too, but for the input.
        fn has(&self, expected: &[(&str, &str)]) {
            let entries = fs::read_dir(&self.0).expect("the folder").flatten();
            let pair = |path: PathBuf| (path.clone(), fs::read_to_string(path).expect("a file"));
            let mut files: Vec<_> = entries.map(|entry| pair(entry.path())).collect();
            files.retain(|(path, _)| *path != self.path("in"));
            files.sort();
            let expected = expected.iter().map(|(name, text)| (self.path(name), text.to_string()));
            assert_eq!(files, expected.collect::<Vec<_>>());
        }
    }

    impl Drop for Folder {
        fn drop(&mut self) {
            let _ = fs::remove_dir_all(&self.0);
        }
    }

    fn made<'a>(places: &'a [Place], texts: &[&str]) -> Made<'a> {
        let mut made = Made::default();
        for (place, text) in places.iter().zip(texts) {
            assert!(made.write(place, text.as_bytes()).is_ok());
        }
        made
    }

    #[test]
    fn a_file_that_came_in_the_meantime_stays() {
        let folder = Folder::new("meantime");
        let places = folder.places(&["a", "b", "c"], false);
        let files = made(&places, &["1", "2", "3"]);
        fs::write(folder.path("b"), "theirs").expect("a file");
        assert!(matches!(files.put(false), Err(Failure::Wrong(words)) if words.ends_with(TAKEN)));
        folder.has(&[("b", "theirs")]);
        // With force it is replaced, though it wasn't there when the place was looked at.
        assert!(made(&places, &["1", "2", "3"]).put(true).is_ok());
        folder.has(&[("a", "1"), ("b", "2"), ("c", "3")]);
    }

    #[test]
    fn what_was_put_is_undone() {
        let folder = Folder::new("undone");
        fs::write(folder.path("a"), "old").expect("a file");
        let old = id_at(&folder.path("a"));
        let places = folder.places(&["a", "b", "c"], true);
        let mut files = made(&places, &["1", "2", "3"]);
        assert!(files.0.iter_mut().all(|file| file.put(true).is_ok()));
        // Somebody else's file in place of one is no longer this run's.
        fs::rename(folder.path("in"), folder.path("c")).expect("a file");
        drop(files);
        folder.has(&[("a", "old"), ("c", "input")]);
        assert_eq!(id_at(&folder.path("a")), old);
    }

    #[test]
    fn where_a_file_has_one_name_only() {
        let folder = Folder::new("one-name");
        let places = folder.places(&["a", "b"], false);
        let mut files = made(&places, &["1", "2"]);
        fs::write(folder.path("b"), "theirs").expect("a file");
        assert!(files.0[0].put_by_one_name().is_ok());
        assert!(matches!(files.0[1].put_by_one_name(), Err(e) if e.kind() == ErrorKind::AlreadyExists));
        drop(files);
        folder.has(&[("b", "theirs")]);
    }

    #[test]
    fn an_old_file_without_its_name_gets_it_back() {
        let folder = Folder::new("moved");
        fs::write(folder.path("a"), "old").expect("a file");
        let places = folder.places(&["a"], true);
        let mut files = made(&places, &["1"]);
        files.0[0].old = move_away(&folder.path("a"), &folder.0).ok();
        assert!(id_at(&folder.path("a")).is_none());
        drop(files);
        folder.has(&[("a", "old")]);
        // With a second name it has both until then.
        let mut files = made(&places, &["1"]);
        fs::hard_link(folder.path("a"), folder.path(".second")).expect("a second name");
        files.0[0].old = Some(folder.path(".second"));
        drop(files);
        folder.has(&[("a", "old")]);
    }
}

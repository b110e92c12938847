//! Where files are to go, looked at before anything is written.
use crate::failure::{plain, Failure};
use crate::files::Input;
use crate::words::shown;
use std::ffi::OsStr;
use std::fs::{self, File, Metadata};
use std::io::{self, ErrorKind};
use std::os::unix::ffi::OsStrExt;
use std::os::unix::fs::MetadataExt;
use std::path::{Path, PathBuf};

/// What is said of a name that is taken.
pub const TAKEN: &str = "is there already; --force writes over it";

/// As many links as the system itself follows from one to the next.
const LINKS: usize = 40;

/// Where a file is to go.
pub struct Place {
    /// The name for messages.
    pub name: String,
    /// The path; of a link to an ordinary file or to nothing the path that it leads to, so that the link stays.
    pub path: PathBuf,
    pub folder: PathBuf,
    pub holds: Holds,
    folder_id: (u64, u64),
}

/// What is at a place.
pub enum Holds {
    Nothing,
    /// An ordinary file, with the permissions that a file in its place gets too.
    File(u32),
    /// A device or a pipe. Nothing in it can be replaced: it is written to as it is.
    Device,
}

/// Looks at all places: at none is a folder or an input, nor anything else unless it may be replaced, and no two lead
/// to one file.
pub fn look(paths: &[PathBuf], inputs: &[&Input], force: bool) -> Result<Vec<Place>, Failure> {
    let mut places: Vec<Place> = Vec::new();
    for path in paths {
        let place = Place::look(path, inputs, force)?;
        if let Some(other) = places.iter().find(|other| place.is(other)) {
            let words = format!("leads to the same file as {}", other.name);
            return Err(Failure::wrong(&place.name, words));
        }
        places.push(place);
    }
    Ok(places)
}

impl Place {
    pub fn look(path: &Path, inputs: &[&Input], force: bool) -> Result<Place, Failure> {
        let name = shown(path.as_os_str());
        let wrong = |e: io::Error| Failure::wrong(&name, plain(&e));
        // A link that leads nowhere takes its name too.
        let taken = there(fs::symlink_metadata(path)).map_err(wrong)?.is_some();
        let about = there(fs::metadata(path)).map_err(wrong)?;
        if let Some(about) = &about {
            if about.is_dir() {
                return Err(Failure::wrong(&name, "is a directory"));
            }
            inputs.iter().try_for_each(|input| input.spare(&name, about))?;
        }
        if taken && !force {
            return Err(Failure::wrong(&name, TAKEN));
        }
        let holds = Holds::of(about.as_ref());
        let path = match holds {
            Holds::Device => path.to_path_buf(),
            _ => end_of_links(path),
        };
        let folder = match split(path.as_os_str()) {
            Some((folder, _)) if folder.is_empty() => PathBuf::from("."),
            Some((folder, _)) => PathBuf::from(folder),
            None => return Err(Failure::wrong(&name, "no such file or directory")),
        };
        let folder_id = id(&fs::metadata(&folder).map_err(wrong)?);
        let place = Place {
            path,
            folder,
            holds,
            folder_id,
            name: name.clone(),
        };
        place.judge_permission().map_err(wrong)?;
        Ok(place)
    }

    /// Whether a file here may be written to. Replacing it needs no such permission, but a protected file stays.
    fn judge_permission(&self) -> io::Result<()> {
        match self.holds {
            Holds::File(_) => File::options().write(true).open(&self.path).map(|_| ()),
            _ => Ok(()),
        }
    }

    /// Whether two places are one. A device may be written to twice.
    fn is(&self, other: &Place) -> bool {
        let same = self.folder_id == other.folder_id && self.path.file_name() == other.path.file_name();
        same && !matches!(self.holds, Holds::Device)
    }
}

impl Holds {
    fn of(about: Option<&Metadata>) -> Holds {
        match about {
            None => Holds::Nothing,
            Some(about) if about.is_file() => Holds::File(about.mode() & 0o777),
            Some(_) => Holds::Device,
        }
    }
}

/// What is known of a file. That there is none is no failure.
fn there(about: io::Result<Metadata>) -> io::Result<Option<Metadata>> {
    match about {
        Err(e) if e.kind() == ErrorKind::NotFound => Ok(None),
        about => about.map(Some),
    }
}

/// The device and the number of a file, which tell two names of one file.
pub fn id(about: &Metadata) -> (u64, u64) {
    (about.dev(), about.ino())
}

/// A path as its folder, with the slash at its end, and its name; none where it can only be a folder's.
pub fn split(path: &OsStr) -> Option<(&OsStr, &OsStr)> {
    let bytes = path.as_bytes();
    let start = bytes.iter().rposition(|&b| b == b'/').map_or(0, |slash| slash + 1);
    let (folder, name) = bytes.split_at(start);
    let only_folder = matches!(name, b"" | b"." | b"..");
    (!only_folder).then(|| (OsStr::from_bytes(folder), OsStr::from_bytes(name)))
}

/// The path that a path leads to, link by link. What is at its end need not be there.
fn end_of_links(path: &Path) -> PathBuf {
    let mut path = path.to_path_buf();
    for _ in 0..LINKS {
        let Ok(to) = fs::read_link(&path) else { break };
        let folder = split(path.as_os_str()).map_or(OsStr::new(""), |(folder, _)| folder);
        path = Path::new(folder).join(to);
    }
    path
}

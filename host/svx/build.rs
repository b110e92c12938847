//! Finds the archive of the proved library, or has it built, and links it.
use std::env;
use std::fs;
use std::io;
use std::path::{Path, PathBuf};
use std::process::{exit, Command};
use std::time::SystemTime;

const ARCHIVE: &str = "libsvx.a";

fn main() {
    println!("cargo:rerun-if-env-changed=SVX_LIB_DIR");
    println!("cargo:rerun-if-changed=build.rs");
    let found = match env::var_os("SVX_LIB_DIR").filter(|folder| !folder.is_empty()) {
        Some(folder) => named_folder(Path::new(&folder)),
        None => built_folder(),
    };
    match found {
        Ok(folder) => {
            println!("cargo:rustc-link-search=native={}", folder.display());
            println!("cargo:rustc-link-lib=static=svx");
        }
        Err(words) => {
            eprintln!("svx: {words}");
            exit(1);
        }
    }
}

/// The folder that SVX_LIB_DIR names.
fn named_folder(folder: &Path) -> Result<PathBuf, String> {
    let archive = folder.join(ARCHIVE);
    println!("cargo:rerun-if-changed={}", archive.display());
    if !archive.is_file() {
        return Err(format!(
            "SVX_LIB_DIR is {}, but there is no {ARCHIVE} in it",
            folder.display()
        ));
    }
    // The linker runs in another folder than this script, so the path has to be a whole one.
    fs::canonicalize(folder).map_err(|e| format!("{}: {e}", folder.display()))
}

/// The repository's own folder, after building the archive where it is missing or older than the library's sources.
fn built_folder() -> Result<PathBuf, String> {
    let root = root()?;
    let (folder, sources) = (root.join("target/staticlib"), root.join("crates"));
    let archive = folder.join(ARCHIVE);
    for watched in [&archive, &sources, &root.join("crates.txt")] {
        println!("cargo:rerun-if-changed={}", watched.display());
    }
    let newest = newest(&sources).map_err(|e| format!("{}: {e}", sources.display()))?;
    match fs::metadata(&archive).and_then(|m| m.modified()) {
        Ok(built) if built >= newest => {}
        Ok(_) => prove(&root, "is older than the library's sources")?,
        Err(_) => prove(&root, "is missing")?,
    }
    if !archive.is_file() {
        return Err(format!(
            "tools/archive.sh ended well, but there is no {}",
            archive.display()
        ));
    }
    Ok(folder)
}

/// The repository's root, two levels above this crate.
fn root() -> Result<PathBuf, String> {
    let crate_folder = env::var_os("CARGO_MANIFEST_DIR").ok_or("CARGO_MANIFEST_DIR is not set")?;
    let root = Path::new(&crate_folder).ancestors().nth(2).map(Path::to_path_buf);
    root.filter(|r| r.join("crates").is_dir()).ok_or_else(|| {
        format!("no library's sources beside this crate: let SVX_LIB_DIR name the folder that has {ARCHIVE}")
    })
}

/// When the newest file under a folder was changed.
fn newest(folder: &Path) -> io::Result<SystemTime> {
    let mut newest = SystemTime::UNIX_EPOCH;
    for entry in fs::read_dir(folder)? {
        let entry = entry?;
        if entry.file_name() == "out" {
            // what the toolchain made
            continue;
        }
        let changed = if entry.file_type()?.is_dir() {
            self::newest(&entry.path())?
        } else {
            entry.metadata()?.modified()?
        };
        newest = newest.max(changed);
    }
    Ok(newest)
}

/// Has the toolchain prove the library and write the archive.
fn prove(root: &Path, why: &str) -> Result<(), String> {
    eprintln!("svx: target/staticlib/{ARCHIVE} {why}; running tools/archive.sh.");
    eprintln!("svx: It proves the library first, which takes minutes from nothing.");
    // rt is asked first, so that its absence has words of its own
    let made = Command::new("rt")
        .arg("version")
        .output()
        .and_then(|_| Command::new(root.join("tools/archive.sh")).status());
    match made {
        Ok(status) if status.success() => Ok(()),
        Ok(status) => Err(format!("tools/archive.sh failed ({status})")),
        Err(e) if e.kind() == io::ErrorKind::NotFound => Err(format!(
            "target/staticlib/{ARCHIVE} {why}, and there is no rt on the PATH to build it: install the Rattle \
             toolchain, or let SVX_LIB_DIR name a folder that has the archive"
        )),
        Err(e) => Err(format!("rt can't be run: {e}")),
    }
}

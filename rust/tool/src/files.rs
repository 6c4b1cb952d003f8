//! Files, which are replaced only when the new one is whole.

use std::fs::{self, File, OpenOptions};
use std::io::{self, ErrorKind, Read, Write};
use std::path::{Path, PathBuf};

use crate::Trouble;

/// What stands for standard input, and for standard output, in place of a file's name.
pub const STANDARD: &str = "-";

/// Reads a file, or standard input for `-`.
///
/// # Errors
///
/// [`Trouble::File`], about the file.
pub fn read(path: &str) -> Result<Vec<u8>, Trouble> {
    let mut bytes = Vec::new();
    let read = match path {
        STANDARD => io::stdin().lock().read_to_end(&mut bytes),
        _ => File::open(path).and_then(|mut file| file.read_to_end(&mut bytes)),
    };
    read.map_err(|error| Trouble::File(error).about(name(path)))?;
    Ok(bytes)
}

/// What a file is called in messages.
pub fn name(path: &str) -> &str {
    match path {
        STANDARD => "standard input",
        _ => path,
    }
}

/// Writes a file whole, or to standard output for `-`: the bytes go to a file beside it,
/// which then takes its name.
///
/// # Errors
///
/// [`Trouble::File`], about the file, which is then as it was.
pub fn write(path: &str, bytes: &[u8]) -> Result<(), Trouble> {
    match path {
        STANDARD => print_bytes(bytes),
        _ => replace(Path::new(path), bytes).map_err(|error| Trouble::File(error).about(path)),
    }
}

/// Prints text on standard output.
///
/// # Errors
///
/// [`Trouble::File`], about standard output.
pub fn print(text: &str) -> Result<(), Trouble> {
    print_bytes(text.as_bytes())
}

/// Writes bytes to standard output.
fn print_bytes(bytes: &[u8]) -> Result<(), Trouble> {
    let mut out = io::stdout().lock();
    let written = out.write_all(bytes).and_then(|()| out.flush());
    written.map_err(|error| Trouble::File(error).about("standard output"))
}

/// Replaces a file by one with these bytes, or leaves it as it was.
fn replace(path: &Path, bytes: &[u8]) -> io::Result<()> {
    // A link stays one: what it leads to is replaced.
    let path = &fs::canonicalize(path).unwrap_or_else(|_| path.to_owned());
    if fs::metadata(path).is_ok_and(|it| !it.is_file()) {
        return write_into(path, bytes);
    }
    let (beside, file) = create_beside(path)?;
    let written = fill(file, path, bytes).and_then(|()| fs::rename(&beside, path));
    if written.is_err() {
        // The error that matters is the one before.
        let _ = fs::remove_file(&beside);
    }
    written
}

/// Writes to what is there and is no file, such as a device, which stays what it is.
fn write_into(path: &Path, bytes: &[u8]) -> io::Result<()> {
    OpenOptions::new().write(true).open(path)?.write_all(bytes)
}

/// Writes the bytes of the new file, which gets the rights of the old one.
fn fill(mut file: File, path: &Path, bytes: &[u8]) -> io::Result<()> {
    if let Ok(old) = fs::metadata(path) {
        file.set_permissions(old.permissions())?;
    }
    file.write_all(bytes)?;
    file.sync_all()
}

/// Creates a file of a new name in the folder of `path`.
fn create_beside(path: &Path) -> io::Result<(PathBuf, File)> {
    let name = path.file_name().ok_or(ErrorKind::InvalidInput)?;
    for attempt in 0..u32::MAX {
        let mut beside = std::ffi::OsString::from(".");
        beside.push(name);
        beside.push(format!(".{}.{attempt}.new", std::process::id()));
        let beside = path.with_file_name(beside);
        match OpenOptions::new()
            .write(true)
            .create_new(true)
            .open(&beside)
        {
            Err(error) if error.kind() == ErrorKind::AlreadyExists => {}
            created => return created.map(|file| (beside, file)),
        }
    }
    Err(ErrorKind::AlreadyExists.into())
}

#[cfg(test)]
mod tests {
    use super::*;

    /// A folder of its own for a test.
    fn folder(name: &str) -> PathBuf {
        let own = format!("rollmap-files-{name}-{}", std::process::id());
        let folder = std::env::temp_dir().join(own);
        fs::create_dir_all(&folder).unwrap();
        folder
    }

    #[test]
    fn a_file_is_replaced_and_nothing_is_left_beside_it() {
        let folder = folder("replaced");
        let path = folder.join("sheet").display().to_string();
        for bytes in [&b"old"[..], b"new and longer", b""] {
            write(&path, bytes).unwrap();
            assert_eq!(read(&path).unwrap(), bytes);
        }
        assert_eq!(fs::read_dir(&folder).unwrap().count(), 1);
        fs::remove_dir_all(folder).unwrap();
    }

    #[test]
    fn what_cannot_be_written_leaves_nothing() {
        let folder = folder("left");
        let inside = folder.join("inside");
        fs::create_dir(&inside).unwrap();
        for path in [inside.clone(), folder.join("nowhere/sheet")] {
            let trouble = write(&path.display().to_string(), b"new").unwrap_err();
            assert_eq!(trouble.status(), 2);
        }
        assert_eq!(fs::read_dir(&folder).unwrap().count(), 1);
        assert_eq!(fs::read_dir(&inside).unwrap().count(), 0);
        fs::remove_dir_all(folder).unwrap();
    }

    #[cfg(unix)]
    #[test]
    fn a_link_stays_a_link_and_rights_stay_what_they_are() {
        use std::os::unix::fs::{symlink, PermissionsExt};
        let folder = folder("link");
        let (file, link) = (folder.join("file"), folder.join("link"));
        fs::write(&file, b"old").unwrap();
        fs::set_permissions(&file, fs::Permissions::from_mode(0o640)).unwrap();
        symlink(&file, &link).unwrap();
        write(&link.display().to_string(), b"new").unwrap();
        assert_eq!(fs::read(&file).unwrap(), b"new");
        assert!(fs::symlink_metadata(&link).unwrap().is_symlink());
        assert_eq!(
            fs::metadata(&file).unwrap().permissions().mode() & 0o777,
            0o640
        );
        fs::remove_dir_all(folder).unwrap();
    }

    #[cfg(unix)]
    #[test]
    fn a_device_stays_a_device() {
        write("/dev/null", b"gone").unwrap();
        assert!(!fs::metadata("/dev/null").unwrap().is_file());
    }
}

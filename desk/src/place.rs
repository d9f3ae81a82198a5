//! A file that is written whole or not at all: into a new file beside its place, which takes the place once it is on the disk. Sticks get
//! pulled out, and the old file must not be half a new one then.

use std::fs::{self, File, OpenOptions};
use std::io::{self, ErrorKind, Write};
use std::os::unix::fs::MetadataExt;
use std::path::{Path, PathBuf};
use std::process;

/// How many names are tried for the new file before its folder is given up.
const TRIES: u32 = 1000;

pub struct Place {
    /// The file itself, where the path was a link to it.
    path: PathBuf,
    folder: PathBuf,
    old: Option<fs::Metadata>,
}

impl Place {
    /// A place where a file can be put: nothing is there yet, or a plain file that may be written. Anything else, a device for one, would
    /// be lost to the new file.
    pub fn new(path: &Path) -> io::Result<Place> {
        let (path, old) = match fs::canonicalize(path) {
            Ok(real) => (real.clone(), Some(fs::metadata(real)?)),
            Err(error) if error.kind() == ErrorKind::NotFound => (path.to_path_buf(), None),
            Err(error) => return Err(error),
        };
        match &old {
            Some(old) if old.is_dir() => return Err(io::Error::other("it is a folder")),
            Some(old) if !old.is_file() => return Err(io::Error::other("it is no plain file")),
            Some(old) if old.permissions().readonly() => return Err(io::Error::other("it is write-protected")),
            _ => {}
        }
        if path.file_name().is_none() {
            return Err(io::Error::other("it is no name of a file"));
        }
        let folder = match path.parent() {
            Some(folder) if folder != Path::new("") => folder.to_path_buf(),
            _ => PathBuf::from("."),
        };
        Ok(Place { path, folder, old })
    }

    /// Whether this very file is there already, under whatever name.
    pub fn holds(&self, file: &Path) -> bool {
        let same = |old: &fs::Metadata, other: fs::Metadata| (old.dev(), old.ino()) == (other.dev(), other.ino());
        self.old.as_ref().zip(fs::metadata(file).ok()).is_some_and(|(old, other)| same(old, other))
    }

    /// Puts the bytes there. After an error what was there is there still, unless it says otherwise.
    pub fn put(&self, bytes: &[u8]) -> io::Result<()> {
        let (new, file) = self.beside()?;
        let put = self.filled(file, bytes).and_then(|()| fs::rename(&new, &self.path));
        if let Err(error) = put {
            // The first error is the one to tell.
            let _ = fs::remove_file(&new);
            return Err(error);
        }
        self.sync_folder().map_err(|error| io::Error::new(error.kind(), format!("it is there, but may not last: {error}")))
    }

    /// A new file in the same folder, so that it can take the place in one step. Its name does not depend on the file's, which may be as
    /// long as a name can be.
    fn beside(&self) -> io::Result<(PathBuf, File)> {
        for at in 0..TRIES {
            let path = self.folder.join(format!(".molzaken-{}-{at}", process::id()));
            match OpenOptions::new().write(true).create_new(true).open(&path) {
                Ok(file) => return Ok((path, file)),
                Err(error) if error.kind() == ErrorKind::AlreadyExists => {}
                Err(error) => return Err(error),
            }
        }
        Err(io::Error::other("no name is free for a new file beside it"))
    }

    fn filled(&self, mut file: File, bytes: &[u8]) -> io::Result<()> {
        if let Some(old) = &self.old {
            keep_rights(&file, old)?;
        }
        file.write_all(bytes)?;
        file.sync_all()
    }

    /// The new name is on the disk only once the folder is. Some file systems have nothing to do for that, and say that they cannot.
    fn sync_folder(&self) -> io::Result<()> {
        match File::open(&self.folder)?.sync_all() {
            Err(error) if !matches!(error.kind(), ErrorKind::InvalidInput | ErrorKind::Unsupported) => Err(error),
            _ => Ok(()),
        }
    }
}

/// A stick's file system may have no rights to set; the file is as good without.
fn keep_rights(file: &File, old: &fs::Metadata) -> io::Result<()> {
    match file.set_permissions(old.permissions()) {
        Err(error) if !matches!(error.kind(), ErrorKind::PermissionDenied | ErrorKind::Unsupported) => Err(error),
        _ => Ok(()),
    }
}

#[cfg(test)]
mod tests {
    use super::*;
    use std::env;
    use std::os::unix::fs::{symlink, PermissionsExt};

    /// A folder of its own for each test, which goes with it.
    struct Folder(PathBuf);

    impl Folder {
        fn new(test: &str) -> Folder {
            let folder = env::temp_dir().join(format!("molzaken-{}-{test}", process::id()));
            fs::create_dir(&folder).unwrap();
            Folder(folder)
        }

        fn file(&self, name: &str) -> PathBuf {
            self.0.join(name)
        }

        fn names(&self) -> Vec<String> {
            let mut names: Vec<String> =
                fs::read_dir(&self.0).unwrap().map(|entry| entry.unwrap().file_name().into_string().unwrap()).collect();
            names.sort();
            names
        }
    }

    impl Drop for Folder {
        fn drop(&mut self) {
            let _ = fs::remove_dir_all(&self.0);
        }
    }

    fn put(path: &Path, bytes: &[u8]) -> io::Result<()> {
        Place::new(path)?.put(bytes)
    }

    #[test]
    fn a_file_takes_its_place_and_leaves_nothing_beside() {
        let folder = Folder::new("place");
        let file = folder.file(&"x".repeat(255));
        for bytes in [&b"a long one"[..], b"short", b""] {
            put(&file, bytes).unwrap();
            assert_eq!(fs::read(&file).unwrap(), bytes);
            assert_eq!(folder.names().len(), 1);
        }
    }

    #[test]
    fn names_that_are_taken_are_left_alone() {
        let folder = Folder::new("taken");
        let taken = folder.file(&format!(".molzaken-{}-0", process::id()));
        fs::write(&taken, "other").unwrap();
        put(&folder.file("plan"), b"new").unwrap();
        assert_eq!((fs::read(&taken).unwrap(), folder.names().len()), (b"other".to_vec(), 2));
    }

    #[test]
    fn a_link_stays_one_and_rights_are_kept() {
        let folder = Folder::new("link");
        let (file, link) = (folder.file("plan"), folder.file("link"));
        fs::write(&file, "old").unwrap();
        fs::set_permissions(&file, fs::Permissions::from_mode(0o640)).unwrap();
        symlink("plan", &link).unwrap();
        put(&link, b"new").unwrap();
        assert!(fs::symlink_metadata(&link).unwrap().is_symlink());
        assert_eq!(fs::read(&file).unwrap(), b"new");
        assert_eq!(fs::metadata(&file).unwrap().permissions().mode() & 0o777, 0o640);
        assert!(Place::new(&link).unwrap().holds(&file) && !Place::new(&folder.file("none")).unwrap().holds(&file));
    }

    #[test]
    fn what_is_no_plain_file_stays() {
        let folder = Folder::new("plain");
        let file = folder.file("plan");
        fs::write(&file, "old").unwrap();
        fs::set_permissions(&file, fs::Permissions::from_mode(0o444)).unwrap();
        for path in [&folder.0, &file, Path::new("/dev/null"), Path::new(""), Path::new(".."), &folder.file("none/plan")] {
            assert!(put(path, b"new").is_err(), "{}", path.display());
        }
        assert_eq!((fs::read(&file).unwrap(), folder.names().len()), (b"old".to_vec(), 1));
    }
}

//! The files that one run writes, beside those that it reads.

use super::identity::Identity;
use super::known::KnownFiles;
use super::not_writable::NotWritable;
use super::place::{self, Place};
use super::replacement::Replacement;
use super::{cannot, standard, Output, To};
use crate::failure::BadInput;
use std::ffi::OsStr;
use std::fs::{self, File, Metadata};
use std::io::ErrorKind;
use std::os::unix::ffi::OsStrExt;
use std::os::unix::fs::{FileTypeExt, MetadataExt};
use std::path::{Path, PathBuf};

pub struct Outputs {
    known: KnownFiles,
}

impl Outputs {
    /// Of a run that reads these files, each with what it is. `-` is standard input.
    pub fn new<'a>(inputs: impl IntoIterator<Item = (&'a str, &'a Path)>) -> Outputs {
        Outputs { known: KnownFiles::read(inputs) }
    }

    /// A file that will be written. A path at which none can be is refused at once.
    pub fn plan(&mut self, path: &Path) -> Result<Output, BadInput> {
        let to = self.to(path).map_err(|why| cannot(path, why))?;
        Ok(Output { path: path.to_owned(), to })
    }

    fn to(&mut self, path: &Path) -> Result<To, NotWritable> {
        match Place::of(path)? {
            Place::Standard(file) => {
                self.known.write(path, Identity::of(&file.metadata()?))?;
                Ok(To::Standard(file, Vec::new()))
            }
            Place::Open(open) => {
                let metadata = fs::metadata(&open)?;
                can_be_written(&metadata)?;
                self.known.write(path, Identity::of(&metadata))?;
                // How far its holder has written is not known here: bytes go to the end of a file.
                Ok(To::Stream(File::options().append(true).open(open)?))
            }
            Place::Named(target) => match fs::symlink_metadata(&target) {
                Ok(metadata) => self.there(path, target, &metadata),
                Err(error) if error.kind() == ErrorKind::NotFound => self.new_file(path, target),
                Err(error) => Err(error.into()),
            },
        }
    }

    fn there(&mut self, path: &Path, target: PathBuf, is: &Metadata) -> Result<To, NotWritable> {
        can_be_written(is)?;
        let identity = Identity::of(is);
        no_standard_stream(&identity)?;
        self.known.write(path, identity)?;
        // Of a pipe that no one reads yet, this waits for the reader.
        let file = File::options().write(true).open(&target)?;
        if is.is_file() {
            let replacement = Replacement::of(file, target).map_err(NotWritable::Beside)?;
            Ok(To::Replacement(replacement))
        } else {
            Ok(To::Stream(file))
        }
    }

    fn new_file(&mut self, path: &Path, target: PathBuf) -> Result<To, NotWritable> {
        let name = target.as_os_str().as_bytes().rsplit(|byte| *byte == b'/').next();
        let name = OsStr::from_bytes(name.unwrap_or_default());
        if ["", ".", ".."].iter().any(|folder| name == *folder) {
            return Err(NotWritable::Nameless);
        }
        let identity = Identity::of_new(place::folder(&target), name.to_owned())?;
        self.known.write(path, Some(identity))?;
        Ok(To::Replacement(Replacement::new(target)?))
    }
}

/// By its kind and its mode. Root may write what is write-protected, and does not here.
fn can_be_written(metadata: &Metadata) -> Result<(), NotWritable> {
    let kind = metadata.file_type();
    let mode = metadata.mode() & 0o7777;
    if kind.is_dir() {
        Err(NotWritable::Directory)
    } else if kind.is_socket() {
        Err(NotWritable::Socket)
    } else if kind.is_block_device() {
        Err(NotWritable::BlockDevice)
    } else if mode & 0o222 == 0 {
        Err(NotWritable::Protected(mode))
    } else {
        Ok(())
    }
}

/// What a shell has put standard output or standard error into is not replaced under it.
fn no_standard_stream(identity: &Option<Identity>) -> Result<(), NotWritable> {
    for (stream, name) in
        [(standard::output()?, "standard output"), (standard::error()?, "standard error")]
    {
        if identity.is_some() && *identity == Identity::of(&stream.metadata()?) {
            return Err(NotWritable::Same(name.to_owned()));
        }
    }
    Ok(())
}

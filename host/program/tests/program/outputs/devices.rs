//! What is there and no regular file is written to as it is, or refused. It stays what it is.

use super::{draws, folder, picture, shell};
use crate::folder::Folder;
use std::fs::{self, File, FileType};
use std::io::Read;
use std::os::unix::fs::FileTypeExt;
use std::os::unix::net::UnixListener;
use std::thread;

fn kind(folder: &Folder, path: &str) -> FileType {
    fs::symlink_metadata(folder.path().join(path)).expect("it is there").file_type()
}

fn pipe(folder: &Folder, name: &str) {
    assert_eq!(shell(folder, &format!("mkfifo {name}")).status, 0);
}

/// A node of one of Linux's memory devices, in the folder if this user may make one there.
fn device(folder: &Folder, name: &str, minor: u8) -> String {
    match shell(folder, &format!("mknod -m 666 {name} c 1 {minor}")).status {
        0 => name.to_owned(),
        _ => format!("/dev/{name}"),
    }
}

#[test]
fn pipes_and_devices() {
    let folder = folder("pipes_and_devices");
    let picture = picture(&folder);
    pipe(&folder, "pipe");
    let reader = folder.path().join("pipe");
    let reader = thread::spawn(|| fs::read_to_string(reader).expect("it can be read"));
    draws(&folder, "pipe");
    assert!(reader.join().expect("it ends") == picture, "the reader got another picture");
    assert!(kind(&folder, "pipe").is_fifo());

    let null = device(&folder, "null", 3);
    draws(&folder, &null);
    assert!(kind(&folder, &null).is_char_device());
    // It may be read in the same run: an empty profile, the loosest.
    let ran = folder.line(&format!("replay s --profile {null} --plot {null}"));
    assert_eq!((ran.status, ran.err.as_str()), (0, ""));
    assert!(kind(&folder, &null).is_char_device());

    let full = device(&folder, "full", 7);
    let ran = folder.line(&format!("replay s --plot {full}"));
    assert_eq!(ran.status, 2);
    let message = format!("{full}: cannot be written: No space left on device (os error 28)\n");
    assert_eq!(ran.err, message);
    assert!(kind(&folder, &full).is_char_device());
}

/// A picture that a pipe does not hold at once, of which only the beginning is read.
#[test]
fn a_reader_who_goes_away() {
    let session = "0 88 01 20 00 30 12\n5 BB 01 48 28 22 2C 1E\n100000 end\n";
    let folder = folder("a_reader_who_goes_away").with("long", session);
    let words = "replay long --against p.toml";
    let all = folder.line(&format!("{words} --plot picture.svg")).out;
    assert!(folder.text("picture.svg").len() > 1 << 16, "a pipe holds this");
    pipe(&folder, "pipe");
    let path = folder.path().join("pipe");
    let reader = thread::spawn(|| {
        let mut first = [0; 4];
        File::open(path).and_then(|mut pipe| pipe.read_exact(&mut first)).expect("it is written");
        first
    });
    let ran = folder.line(&format!("{words} --plot pipe"));
    assert_eq!((ran.status, ran.err.as_str()), (0, ""));
    assert!(ran.out == all, "it prints less");
    assert_eq!(&reader.join().expect("it ends"), b"<svg");
}

#[test]
fn sockets_and_directories() {
    let folder = folder("sockets_and_directories");
    let _socket = UnixListener::bind(folder.path().join("socket")).expect("it can be made");
    fs::create_dir(folder.path().join("inside")).expect("the folder can be written");
    folder.refuses("replay s --plot socket", "socket: cannot be written: this is a socket");
    assert!(kind(&folder, "socket").is_socket());
    for path in ["inside", "inside/", "inside/.", ".", "..", "/"] {
        let message = format!("{path}: cannot be written: this is a directory");
        folder.refuses(&format!("replay s --plot {path}"), &message);
    }
    for path in ["none/", "none/.", "none/../none"] {
        let ran = folder.line(&format!("replay s --plot {path}"));
        assert_eq!((ran.status, ran.out.as_str()), (2, ""), "{path}");
    }
    assert_eq!(folder.names(), ["inside", "p.toml", "q.toml", "s", "socket"]);
}

/// A picture on a disk would take its beginning.
#[test]
fn disks() {
    let folder = folder("disks");
    // A number of a loop device that no one has. Who is not root can make none.
    if shell(&folder, "mknod disk b 7 1000000").status == 0 {
        folder.refuses("replay s --plot disk", "disk: cannot be written: this is a block device");
        assert!(kind(&folder, "disk").is_block_device());
    }
}

//! The example of a Rust program around the library, in a folder that is not the repository's.

mod readme;

use std::fs;
use std::path::Path;
use std::process::{Command, Stdio};

const HOST: &str = env!("CARGO_MANIFEST_DIR");

/// The folder of a program as README has it, with the example's source.
fn copied() -> tempfile::TempDir {
    let example = Path::new(HOST).join("examples/silent_pc");
    let folder = tempfile::tempdir().expect("a folder for scratch files");
    let put = |name: &str, text: &str| {
        let file = folder.path().join(name);
        fs::create_dir_all(file.parent().expect("it lies in a folder")).expect("a folder");
        fs::write(file, text).unwrap_or_else(|error| panic!("{name}: {error}"));
    };
    let text = |name| {
        fs::read_to_string(example.join(name)).unwrap_or_else(|error| panic!("{name}: {error}"))
    };
    let manifest = text("Cargo.toml");
    let (own, _) = manifest.split_once("[dependencies]").expect("it has dependencies");
    let dependencies = readme::block("[dependencies]").replace("/path/to/yarrowbell/host", HOST);
    put("Cargo.toml", &(own.to_owned() + &dependencies));
    put(".cargo/config.toml", &readme::block("[source.crates-io]"));
    put("src/main.rs", &text("src/main.rs"));
    folder
}

/// What is built is put where the tests' own crates are, so that those crates are not built again.
#[test]
fn the_example_in_another_folder() {
    let folder = copied();
    let target = Path::new(env!("CARGO_TARGET_TMPDIR")).parent().expect("it lies in the target");
    let line = readme::block("cargo run");
    let ran = Command::new(env!("CARGO"))
        .args(line.split_whitespace().skip(1))
        .current_dir(&folder)
        .env("CARGO_TARGET_DIR", target)
        .stdin(Stdio::null())
        .output()
        .expect("cargo starts");
    let said = String::from_utf8_lossy(&ran.stderr);
    assert!(ran.status.success(), "{said}");
    assert_eq!(String::from_utf8_lossy(&ran.stdout), PRINTED, "{said}");
}

/// Document 01's case 12, but for the Update, which is here sent at clock 0.
const PRINTED: &str = "    0  command carried out, or tick taken, reply 01
    0  command carried out, or tick taken, reply 41
  100  channel 1: 200 µs, 40 mA
  115  channel 3: 300 µs, 30 mA
  145  channel 3: 300 µs, 30 mA
  200  channel 1: 200 µs, 40 mA
  215  channel 3: 300 µs, 30 mA
  245  channel 3: 300 µs, 30 mA
  250  trip: watchdog
the trace:
    0  Answer { ident: 0, answer: 0 }
    0  Answer { ident: 1, answer: 0 }
  100  Pulse { channel: 1, width: 200, current: 40 }
  115  Pulse { channel: 3, width: 300, current: 30 }
  145  Pulse { channel: 3, width: 300, current: 30 }
  200  Pulse { channel: 1, width: 200, current: 40 }
  215  Pulse { channel: 3, width: 300, current: 30 }
  245  Pulse { channel: 3, width: 300, current: 30 }
  250  Trip { cause: 2 }
";

//! Runs the command `bogslipper` on words and a standard input, with a limit on its time.

pub mod report;

use std::fs::File;
use std::io::{Read, Write};
use std::path::{Path, PathBuf};
use std::process::{Command, Stdio};
use std::sync::Once;
use std::thread;
use std::time::{Duration, Instant};

/// The longest that any report may take.
const LIMIT: Duration = Duration::from_secs(20);

/// How a run ended: its exit status, and what it wrote.
pub struct Ran {
    pub status: i32,
    pub out: String,
    pub err: String,
}

impl Ran {
    /// The run of these words ended with this status and wrote exactly these texts.
    pub fn ended(&self, words: &[&str], status: i32, out: &str, err: &str) {
        same_text(&self.out, out, words, "standard output");
        same_text(&self.err, err, words, "standard error");
        assert_eq!(
            self.status, status,
            "the exit status of bogslipper {words:?}"
        );
    }
}

/// Byte for byte; shows the first line that differs, with its end.
fn same_text(is: &str, expected: &str, words: &[&str], what: &str) {
    if is == expected {
        return;
    }
    let mut lines = is.split_inclusive('\n').chain([""]);
    let mut wanted = expected.split_inclusive('\n').chain([""]);
    let mut number = 1;
    loop {
        let (line, wanted) = (lines.next(), wanted.next());
        assert_eq!(
            line, wanted,
            "line {number} of {what}, bogslipper {words:?}"
        );
        number += 1;
    }
}

/// The repository's root.
pub fn root() -> PathBuf {
    Path::new(env!("CARGO_MANIFEST_DIR"))
        .parent()
        .unwrap()
        .to_path_buf()
}

/// A path of the samples, as a word.
pub fn sample(name: &str) -> String {
    root()
        .join("samples")
        .join(name)
        .to_str()
        .unwrap()
        .to_string()
}

/// The first use of the command may build it, which takes longer than any report.
static BUILT: Once = Once::new();

fn build() {
    let status = Command::new(root().join("bogslipper"))
        .arg("help")
        .stdout(Stdio::null())
        .status();
    assert!(
        status.expect("./bogslipper starts").success(),
        "./bogslipper is built"
    );
}

/// The command's answer to these words.
pub fn bogslipper(words: &[&str]) -> Ran {
    with_input(words, b"")
}

/// The command's answer to these words, with this standard input.
pub fn with_input(words: &[&str], input: &[u8]) -> Ran {
    BUILT.call_once(build);
    let mut child = Command::new(root().join("bogslipper"))
        .args(words)
        .stdin(Stdio::piped())
        .stdout(Stdio::piped())
        .stderr(Stdio::piped())
        .spawn()
        .expect("./bogslipper starts");

    let mut stdin = child.stdin.take().unwrap();
    let input = input.to_vec();
    let writer = thread::spawn(move || {
        // a command that has seen enough may close its input first
        let _ = stdin.write_all(&input);
    });
    let out = collect(child.stdout.take().unwrap());
    let err = collect(child.stderr.take().unwrap());

    let start = Instant::now();
    let status = loop {
        if let Some(status) = child.try_wait().unwrap() {
            break status;
        }
        if LIMIT < start.elapsed() {
            child.kill().unwrap();
            panic!("bogslipper {words:?} hangs");
        }
        thread::sleep(Duration::from_millis(1));
    };
    writer.join().unwrap();
    Ran {
        status: status
            .code()
            .unwrap_or_else(|| panic!("bogslipper {words:?} crashed: {status}")),
        out: out.join().unwrap(),
        err: err.join().unwrap(),
    }
}

fn collect(mut pipe: impl Read + Send + 'static) -> thread::JoinHandle<String> {
    thread::spawn(move || {
        let mut bytes = Vec::new();
        pipe.read_to_end(&mut bytes).unwrap();
        String::from_utf8(bytes).expect("plain text")
    })
}

/// A file of these bytes in a folder of the test's own.
pub fn file(name: &str, bytes: &[u8]) -> String {
    let folder = Path::new(env!("CARGO_MANIFEST_DIR")).join("target/files");
    std::fs::create_dir_all(&folder).unwrap();
    let path = folder.join(name);
    File::create(&path).unwrap().write_all(bytes).unwrap();
    path.to_str().unwrap().to_string()
}

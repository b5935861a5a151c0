//! Runs the program on a case, in a folder of its own.

use std::fs::{self, File};
use std::io::{Read, Write};
use std::path::Path;
use std::process::{Child, Command, ExitStatus, Stdio};
use std::thread;
use std::time::{Duration, Instant};

use crate::case::{Case, Entry, Feed};

/// Far more than any case takes.
const MOST_TIME: Duration = Duration::from_secs(60);

/// Nothing if the program prints what it must, or what is wrong. The folder is made anew and left as it is.
pub fn run(program: &Path, folder: &Path, case: &Case) -> Result<(), String> {
    let wrong = |wrong: std::io::Error| format!("the case could not be run: {wrong}");
    lay_out(folder, case).map_err(wrong)?;
    let mut child = start(program, folder, case).map_err(wrong)?;
    let feeder = feed(&mut child, case);
    let printer = drained(child.stdout.take().expect("it is piped"));
    let sayer = drained(child.stderr.take().expect("it is piped"));
    let status = ended(&mut child)?;
    feeder.join().expect("feeding does not panic");
    let printed = printer.join().expect("reading does not panic");
    let said = sayer.join().expect("reading does not panic");
    fs::write(folder.join("printed"), &printed).map_err(wrong)?;
    if !status.success() {
        return Err(format!("it ended with {status}"));
    }
    if !said.is_empty() {
        return Err(format!("it wrote {} bytes to standard error", said.len()));
    }
    if printed != case.expected {
        return Err(difference(&printed, &case.expected));
    }
    Ok(())
}

fn lay_out(folder: &Path, case: &Case) -> std::io::Result<()> {
    if folder.exists() {
        fs::remove_dir_all(folder)?;
    }
    fs::create_dir_all(folder.join("in"))?;
    for (name, entry) in [("net.trn", &case.network), ("labels.tlb", &case.labels)] {
        let path = folder.join("in").join(name);
        match entry {
            Entry::Missing => {}
            Entry::Directory => fs::create_dir(path)?,
            Entry::File(bytes) => fs::write(path, bytes)?,
        }
    }
    fs::write(folder.join("stdin"), &case.input)?;
    fs::write(folder.join("expected"), &case.expected)
}

fn start(program: &Path, folder: &Path, case: &Case) -> std::io::Result<Child> {
    let input = match case.feed {
        Feed::Whole => Stdio::from(File::open(folder.join("stdin"))?),
        Feed::Pieces(..) => Stdio::piped(),
    };
    Command::new(program)
        .current_dir(folder.join("in"))
        .stdin(input)
        .stdout(Stdio::piped())
        .stderr(Stdio::piped())
        .spawn()
}

fn feed(child: &mut Child, case: &Case) -> thread::JoinHandle<()> {
    let input = case.input.clone();
    let feed = case.feed;
    let pipe = child.stdin.take();
    thread::spawn(move || {
        let (Some(mut pipe), Feed::Pieces(size, pause)) = (pipe, feed) else {
            return;
        };
        for piece in input.chunks(size) {
            // A program that has read its 65,536 bytes may be gone.
            if pipe.write_all(piece).is_err() {
                return;
            }
            thread::sleep(pause);
        }
    })
}

fn drained(mut from: impl Read + Send + 'static) -> thread::JoinHandle<Vec<u8>> {
    thread::spawn(move || {
        let mut bytes = Vec::new();
        from.read_to_end(&mut bytes).expect("a pipe can be read");
        bytes
    })
}

fn ended(child: &mut Child) -> Result<ExitStatus, String> {
    let start = Instant::now();
    loop {
        match child.try_wait() {
            Ok(Some(status)) => return Ok(status),
            Ok(None) if start.elapsed() < MOST_TIME => thread::sleep(Duration::from_millis(1)),
            Ok(None) => {
                // It may have ended by now, which is no harm.
                let _ = child.kill();
                return Err(format!("it still ran after {} s", MOST_TIME.as_secs()));
            }
            Err(wrong) => return Err(format!("it could not be waited for: {wrong}")),
        }
    }
}

/// The first line that differs, as both have it.
fn difference(printed: &[u8], expected: &[u8]) -> String {
    let lines = |bytes: &[u8]| -> Vec<Vec<u8>> {
        let lines = bytes.split_inclusive(|&byte| byte == b'\n');
        lines.map(<[u8]>::to_vec).collect()
    };
    let (printed, expected) = (lines(printed), lines(expected));
    let place = (0..).find(|&place| printed.get(place) != expected.get(place));
    let place = place.expect("they differ somewhere");
    let shown = |lines: &[Vec<u8>]| match lines.get(place) {
        Some(line) => format!("{:.200}", line.escape_ascii().to_string()),
        None => "nothing".to_string(),
    };
    format!(
        "line {} is {}, and should be {}",
        place + 1,
        shown(&printed),
        shown(&expected)
    )
}

//! Inputs of which much could be gone through and little is placed: the lister must list each within a time.

use std::fs::{self, File};
use std::io::{self, Read};
use std::path::Path;
use std::process::{Command, Stdio};
use std::thread;
use std::time::{Duration, Instant};

/// In so little time each input must be listed.
pub const LIMIT: Duration = Duration::from_millis(100);

/// So often a run may be repeated, since other work on the machine may slow it down; and then a run is ended.
const TRIES: usize = 5;
const STOP: Duration = Duration::from_secs(1);

const CASES: &str = concat!(env!("CARGO_MANIFEST_DIR"), "/../crates/cases/data");

/// Those in the table "What places nothing" of conformance/cases.md.
pub const INPUTS: [&str; 15] = [
    "lay-grid-of-empty-rows",
    "lay-grid-of-empty-rows-and-a-piece",
    "lay-11-behind-grid-of-empty-rows",
    "lay-frames-of-traces-without-points",
    "lay-three-frames-without-points",
    "lay-11-third-frame-with-points",
    "lay-seven-arrays-of-alternatives",
    "lay-grid-by-flag-of-index",
    "lay-fan-out-over-six-levels",
    "lay-fan-out-over-eight-levels",
    "lay-13-behind-fan-out",
    "lay-500-pieces-behind-fan-out",
    "lay-512-pieces-and-grid-of-empty-rows",
    "lay-16-behind-grid-of-empty-rows",
    "lay-12-behind-grid-of-empty-rows",
];

/// The least time in which the lister lists an input; or none where no run of it ends soon.
pub fn least_time(lister: &Path, name: &str) -> Option<Duration> {
    let input = Path::new(CASES).join(name);
    let bytes = fs::read(&input).unwrap_or_else(|error| panic!("{}: {error}", input.display()));
    let wanted = plain::list(&bytes, plain::LISTER_PLACES);
    let mut least = None;
    for _ in 0..TRIES {
        let Some((time, text)) = run(lister, &input).unwrap_or_else(|error| panic!("{}: {error}", lister.display()))
        else {
            continue;
        };
        assert!(text == wanted, "{name}: the lister and plain Rust differ");
        least = Some(least.map_or(time, |least: Duration| least.min(time)));
        if time < LIMIT {
            break;
        }
    }
    least
}

/// Runs a program on an input; answers its time and what it prints, unless it had to be stopped.
fn run(program: &Path, input: &Path) -> io::Result<Option<(Duration, Vec<u8>)>> {
    let start = Instant::now();
    let mut child = Command::new(program).stdin(File::open(input)?).stdout(Stdio::piped()).spawn()?;
    let mut out = child.stdout.take().expect("it is a pipe");
    let reader = thread::spawn(move || {
        let mut text = Vec::new();
        out.read_to_end(&mut text).map(|_| (start.elapsed(), text))
    });
    while !reader.is_finished() && start.elapsed() < STOP {
        thread::sleep(Duration::from_millis(1));
    }
    let ended = reader.is_finished();
    if !ended {
        child.kill()?;
    }
    child.wait()?;
    let read = reader.join().expect("the reader does not panic")?;
    Ok(ended.then_some(read))
}

//! Construct, by the script construct_time.py.

use std::io::Write;
use std::process::{Command, Stdio};

const SCRIPT: &str = concat!(env!("CARGO_MANIFEST_DIR"), "/construct_time.py");

/// A Python that has construct.
pub struct Construct {
    python: &'static str,
    pub version: String,
}

/// Least nanoseconds.
#[derive(Clone, Copy)]
pub struct Times {
    pub parse: u64,
    pub parse_compiled: u64,
    pub list: u64,
    pub list_compiled: u64,
}

impl Construct {
    /// The first Python here that has construct. Debian's package is for /usr/bin/python3.
    pub fn find() -> Option<Construct> {
        let ask = "import construct, platform; print(construct.__version__, platform.python_version())";
        ["/usr/bin/python3", "python3"].into_iter().find_map(|python| {
            let asked = Command::new(python).args(["-c", ask]).output().ok().filter(|asked| asked.status.success())?;
            let told = String::from_utf8(asked.stdout).ok()?;
            let (construct, version) = told.trim().split_once(' ')?;
            Some(Construct { python, version: format!("construct {construct} on Python {version}") })
        })
    }

    /// What the script prints of a message.
    pub fn run(&self, format: &str, what: &str, message: &[u8]) -> Vec<u8> {
        let mut child = Command::new(self.python)
            .args([SCRIPT, format, what])
            .stdin(Stdio::piped())
            .stdout(Stdio::piped())
            .spawn()
            .expect("python runs");
        child.stdin.take().expect("it is piped").write_all(message).expect("the script reads all of its input");
        let output = child.wait_with_output().expect("python runs");
        assert!(output.status.success(), "construct_time.py {format} {what} fails");
        output.stdout
    }

    /// Of one run of the script.
    pub fn times(&self, format: &str, message: &[u8]) -> Times {
        let told = String::from_utf8(self.run(format, "times", message)).expect("the script prints numbers");
        let mut times = told.lines().map(|line| line.parse().expect("the script prints numbers"));
        let mut next = || times.next().expect("the script prints four numbers");
        Times { parse: next(), parse_compiled: next(), list: next(), list_compiled: next() }
    }
}

impl Times {
    pub fn min(self, other: Times) -> Times {
        Times {
            parse: self.parse.min(other.parse),
            parse_compiled: self.parse_compiled.min(other.parse_compiled),
            list: self.list.min(other.list),
            list_compiled: self.list_compiled.min(other.list_compiled),
        }
    }
}

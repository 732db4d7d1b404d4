//! One input through the proved programs, by standard input and output.

use reference::difference::{Difference, equal};
use reference::stamp;
use std::io::Write;
use std::path::{Path, PathBuf};
use std::process::{Command, Stdio};
use std::{env, io, thread};

/// The programs are run on each fixed input and on one random input in so many.
const INPUTS_PER_RUN: usize = 64;

/// The folder of `cue_format`, `cue_stamp` and `cue_desk`; without one, nothing is run.
pub struct Programs {
    folder: Option<PathBuf>,
}

impl Programs {
    /// The folder that the environment variable LIZKORPE_BIN names.
    pub fn from_environment() -> Programs {
        let folder = env::var_os("LIZKORPE_BIN").map(PathBuf::from);
        if folder.is_none() {
            println!("LIZKORPE_BIN is not set: the programs are not tried");
        }
        Programs { folder }
    }

    /// Whether they are run on the random input of this index.
    pub fn are_due(&self, index: usize) -> bool {
        index.is_multiple_of(INPUTS_PER_RUN)
    }

    pub fn compare_text(&self, text: &[u8], expected: &[u8]) -> Result<(), Difference> {
        self.compare("cue_format", text, expected)?;
        self.compare("cue_stamp", text, format!("{}\n", stamp::stamp(text)).as_bytes())
    }

    pub fn compare_desk(&self, input: &[u8], expected: &[u8]) -> Result<(), Difference> {
        self.compare("cue_desk", input, expected)
    }

    fn compare(&self, name: &str, input: &[u8], expected: &[u8]) -> Result<(), Difference> {
        let Some(folder) = &self.folder else { return Ok(()) };
        // Of a program that does not run, the output is why.
        let found = run(&folder.join(name), input).unwrap_or_else(|error| error.to_string().into_bytes());
        equal(&format!("output of {name}"), expected, &found)
    }
}

fn run(program: &Path, input: &[u8]) -> io::Result<Vec<u8>> {
    let mut child = Command::new(program).stdin(Stdio::piped()).stdout(Stdio::piped()).spawn()?;
    let mut stdin = child.stdin.take().expect("stdin is piped");
    thread::scope(|scope| {
        // A program may stop reading where it knows its answer: what it prints decides.
        scope.spawn(move || stdin.write_all(input));
        Ok(child.wait_with_output()?.stdout)
    })
}

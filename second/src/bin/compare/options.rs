//! What the command line asks for.

use std::env;
use std::thread;

pub struct Options {
    pub seed: u64,
    /// Small random files in one round; the listed cases come on top.
    pub files: u64,
    pub large: u64,
    /// Rounds with ever new seeds until the time is up; one round if absent.
    pub seconds: Option<u64>,
    /// Only groups whose name holds this text.
    pub only: Option<String>,
    pub threads: u64,
}

const USAGE: &str =
    "compare [--seed N] [--files N] [--large N] [--seconds N] [--only TEXT] [--threads N]";

impl Options {
    /// The gate's run is the one without options.
    fn default_run() -> Self {
        let threads = thread::available_parallelism().map_or(2, |count| count.get() as u64);
        Options { seed: 1, files: 240_000, large: 22, seconds: None, only: None, threads }
    }

    pub fn from_command_line() -> Result<Self, String> {
        let mut options = Options::default_run();
        let mut words = env::args().skip(1);
        while let Some(name) = words.next() {
            let value = words.next().ok_or(USAGE)?;
            if name == "--only" {
                options.only = Some(value);
                continue;
            }
            let number: u64 = value.parse().map_err(|_| format!("{name} {value}: {USAGE}"))?;
            match name.as_str() {
                "--seed" => options.seed = number,
                "--files" => options.files = number,
                "--large" => options.large = number,
                "--seconds" => options.seconds = Some(number),
                "--threads" => options.threads = number.max(1),
                _ => return Err(USAGE.to_string()),
            }
        }
        Ok(options)
    }
}

//! Replays scripts of calls on the independent implementation and prints their lines.

use independent::script::{replay, Independent};
use std::process::ExitCode;

fn main() -> ExitCode {
    for name in std::env::args().skip(1) {
        match lines(&name) {
            Ok(lines) => print!("{lines}"),
            Err(why) => {
                eprintln!("{name}: {why}");
                return ExitCode::FAILURE;
            }
        }
    }
    ExitCode::SUCCESS
}

fn lines(name: &str) -> Result<String, String> {
    let script = std::fs::read(name).map_err(|error| error.to_string())?;
    replay(&Independent, &script).ok_or_else(|| "not a script".into())
}

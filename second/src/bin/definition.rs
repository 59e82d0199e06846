//! The program over `second::definition`.

#![forbid(unsafe_code)]

use std::process::ExitCode;

fn main() -> ExitCode {
    match second::delivery::run(second::definition::check) {
        Ok(()) => ExitCode::SUCCESS,
        Err(error) => {
            eprintln!("definition: {error}");
            ExitCode::FAILURE
        }
    }
}

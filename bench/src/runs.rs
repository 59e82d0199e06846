//! The whole program as a shell line has it, from its start to its end.

use std::fs::File;
use std::process::{Command, Stdio};
use std::time::Instant;

const RUNS: usize = 200;

/// The seconds of each run, for each program, with the delivery on standard input. The programs take
/// turns; each must accept the delivery.
pub fn times(delivery: &str, programs: &[&str]) -> Vec<Vec<f64>> {
    for program in programs {
        let output = command(program, delivery)
            .output()
            .expect("the program starts");
        assert!(output.stdout.starts_with(b"0 0\n"), "{program} accepts");
    }
    let mut seconds = vec![Vec::new(); programs.len()];
    for _ in 0..RUNS {
        for (program, seconds) in programs.iter().zip(&mut seconds) {
            let mut command = command(program, delivery);
            command.stdout(Stdio::null());
            let start = Instant::now();
            let status = command.status().expect("the program starts");
            seconds.push(start.elapsed().as_secs_f64());
            assert!(status.success(), "{program} ends well");
        }
    }
    seconds
}

fn command(program: &str, delivery: &str) -> Command {
    let mut command = Command::new(program);
    command.stdin(File::open(delivery).expect("the delivery is there"));
    command
}

//! The programs as `rt ci` builds them, from the hosts' side: a process for each card.

use std::io::Write;
use std::path::{Path, PathBuf};
use std::process::{Command, Stdio};
use std::thread;

/// The threads that start processes.
const THREADS: usize = 2;

pub fn program(name: &str) -> PathBuf {
    let program = Path::new(env!("CARGO_MANIFEST_DIR")).join(format!("../../crates/{name}/out/{name}"));
    assert!(program.is_file(), "there is no {}, which `rt ci` writes, or `rt run` in the crate's folder", program.display());
    program
}

/// What a program prints for a card, if it ends well.
pub fn printed(program: &Path, card: &[u8]) -> Option<String> {
    let mut child = Command::new(program).stdin(Stdio::piped()).stdout(Stdio::piped()).spawn().expect("the program starts");
    child.stdin.take().expect("its input").write_all(card).expect("it reads the card");
    let output = child.wait_with_output().expect("it ends");
    output.status.success().then(|| String::from_utf8(output.stdout).expect("it prints text"))
}

/// What `run` gives for each case and its number, in the cases' order; each thread runs a part of them.
pub fn on_threads<Case: Sync, Given: Send>(cases: &[Case], run: impl Fn(usize, &Case) -> Given + Sync) -> Vec<Given> {
    let numbered: Vec<(usize, &Case)> = cases.iter().enumerate().collect();
    let run_part = |part: &[(usize, &Case)]| part.iter().map(|&(number, case)| run(number, case)).collect::<Vec<Given>>();
    let run_part = &run_part;
    thread::scope(|scope| {
        let parts = numbered.chunks(cases.len().div_ceil(THREADS));
        let threads: Vec<_> = parts.map(|part| scope.spawn(move || run_part(part))).collect();
        threads.into_iter().flat_map(|thread| thread.join().expect("no case fails")).collect()
    })
}

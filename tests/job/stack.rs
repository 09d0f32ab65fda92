//! How much stack a call needs: the least on which each of some jobs is answered, tried by `on SIZE FILE` of the
//! program that asks, in a process for each try, which dies where it is too little.

use std::path::Path;
use std::process::{Command, Stdio};

/// The sizes that are tried.
const FIRST: usize = 64 << 10;
const STEP: usize = 4 << 10;
const MOST: usize = 8 << 20;

/// The least stack for all of the jobs; it must be less than so many KB.
pub fn check(jobs: Vec<Vec<u8>>, most: usize) -> Result<String, String> {
    let mut needed = FIRST;
    for job in jobs {
        let path = std::env::temp_dir().join(format!("stack-{}", std::process::id()));
        std::fs::write(&path, job).expect("a file");
        let least = (needed..=MOST).step_by(STEP).find(|&size| fits(&path, size));
        std::fs::remove_file(&path).expect("removed");
        needed = least.ok_or("no stack suffices")?;
    }
    let told = format!("stack: a thread of {} KB suffices for the call", needed >> 10);
    if needed >> 10 >= most {
        return Err(format!("{told}, which is not less than {most} KB"));
    }
    Ok(told)
}

fn fits(path: &Path, size: usize) -> bool {
    let me = std::env::current_exe().expect("a path");
    let mut child = Command::new(me);
    child.args(["on", &size.to_string()]).arg(path).stdout(Stdio::null()).stderr(Stdio::null());
    child.status().expect("a process").success()
}

/// One call on the job of a file, on a thread with so much stack; the job must be answered well.
pub fn on(size: usize, path: &str, call: impl FnOnce(&[u8]) -> bool + Send + 'static) {
    let job = std::fs::read(path).expect("a job");
    let thread = std::thread::Builder::new().stack_size(size);
    let well = thread.spawn(move || call(&job)).expect("a thread").join();
    assert!(well.expect("no panic"), "the job is answered");
}

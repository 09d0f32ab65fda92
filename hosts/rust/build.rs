//! Host code, not proved: finds the proved archives, or has them built, and links them.
//!
//! They are looked for in the folder that ORDER_LIBS names (an absolute path): each crate's archive, or
//! liborder.a, which has all calls, as tools/install puts it into PREFIX/lib. Else they are those in
//! target/staticlib of the repository, where `tools/archives` builds what is missing or older than a
//! crate.

use std::path::{Path, PathBuf};
use std::process::{exit, Command, Output};

/// Each crate with exported calls. An archive's only global names are these, so that all go into one program.
const CRATES: [&str; 9] = [
    "host",
    "jobneeds",
    "jobtext",
    "replay",
    "ascending_replay",
    "reason",
    "alone_replay",
    "order_entries",
    "summary",
];
/// The library of an installation, with the calls of all of them.
const INSTALLED: [&str; 1] = ["order"];

fn main() {
    let root = Path::new(&variable("CARGO_MANIFEST_DIR")).join("../..");
    println!("cargo:rerun-if-env-changed=ORDER_LIBS");
    let named = std::env::var_os("ORDER_LIBS").filter(|name| !name.is_empty());
    let folder = match named.map(PathBuf::from) {
        // Cargo runs this from another folder than its caller's.
        Some(named) if named.is_relative() => fail("ORDER_LIBS must be an absolute path"),
        Some(named) => named,
        None => built(&root),
    };
    let absent = missing(&folder, &CRATES);
    let libraries: &[&str] = match absent.is_empty() {
        true => &CRATES,
        false if missing(&folder, &INSTALLED).is_empty() => &INSTALLED,
        false => fail(&format!(
            "no {} in {}: build them by tools/archives, or name in ORDER_LIBS their folder, or PREFIX/lib of an installation",
            absent.join(", "),
            folder.display()
        )),
    };
    let folder = folder.canonicalize().unwrap_or(folder);
    println!("cargo:rustc-link-search=native={}", folder.display());
    for name in libraries {
        println!("cargo:rustc-link-lib=static={name}");
        println!(
            "cargo:rerun-if-changed={}",
            archive(&folder, name).display()
        );
    }
    tell_version(&root.join("VERSION"));
}

fn variable(name: &str) -> String {
    std::env::var(name).unwrap_or_else(|_| fail(&format!("cargo gives no {name}")))
}

fn fail(message: &str) -> ! {
    eprintln!("witness-order: {message}");
    exit(1)
}

fn archive(folder: &Path, name: &str) -> PathBuf {
    folder.join(format!("lib{name}.a"))
}

/// The file names of these libraries that are not in the folder.
fn missing(folder: &Path, libraries: &[&str]) -> Vec<String> {
    let absent = libraries
        .iter()
        .filter(|name| !archive(folder, name).is_file());
    absent.map(|name| format!("lib{name}.a")).collect()
}

/// target/staticlib of the repository, where tools/archives has brought the archives up to date.
fn built(root: &Path) -> PathBuf {
    let script = root.join("tools/archives");
    if script.is_file() {
        for source in ["crates", "crates.txt"] {
            println!("cargo:rerun-if-changed={}", root.join(source).display());
        }
        match Command::new(&script).args(CRATES).output() {
            Ok(done) if done.status.success() => {}
            Ok(done) => fail(&last_lines(&done)),
            Err(error) => fail(&format!("tools/archives cannot be run: {error}")),
        }
    }
    root.join("target/staticlib")
}

/// The last lines that a command said.
fn last_lines(done: &Output) -> String {
    let said = [&done.stdout[..], &done.stderr].concat();
    let said = String::from_utf8_lossy(&said).into_owned();
    let lines: Vec<&str> = said.lines().collect();
    lines[lines.len().saturating_sub(8)..].join("\n")
}

/// The version is the repository's.
fn tell_version(path: &Path) {
    println!("cargo:rerun-if-changed={}", path.display());
    let version = match std::fs::read_to_string(path) {
        Ok(text) => text.trim().to_owned(),
        Err(_) => variable("CARGO_PKG_VERSION"),
    };
    println!("cargo:rustc-env=ORDER_VERSION={version}");
}

//! The kind of the machine, and what the programs were built by.

use std::env::consts::ARCH;
use std::fs;
use std::process::Command;
use std::thread::available_parallelism;

/// What cargo has taken.
const LOCK: &str = include_str!("../Cargo.lock");

pub fn print() {
    let cores = available_parallelism().map_or(1, usize::from);
    println!("processor: {}, {ARCH}, {cores} processors at hand", processor().unwrap_or("unknown".into()));
    println!("compiler:  {}", said_by("rustc", &["--version"]).unwrap_or("rustc".into()).trim());
    println!("memchr:    {}, {}", memchr_version().unwrap_or("unknown"), memchr_uses());
}

fn processor() -> Option<String> {
    let known = fs::read_to_string("/proc/cpuinfo").ok().and_then(|told| value(&told, "model name"));
    known.or_else(|| value(&said_by("lscpu", &[])?, "Model name"))
}

/// The value of the first line `KEY : VALUE`.
fn value(told: &str, key: &str) -> Option<String> {
    let (_, value) = told.lines().filter_map(|line| line.split_once(':')).find(|(name, _)| name.trim() == key)?;
    Some(value.trim().to_string())
}

/// What a program prints.
fn said_by(program: &str, arguments: &[&str]) -> Option<String> {
    let output = Command::new(program).args(arguments).env("LC_ALL", "C").output().ok()?;
    String::from_utf8(output.stdout).ok().filter(|said| !said.is_empty())
}

fn memchr_version() -> Option<&'static str> {
    let (_, entry) = LOCK.split_once("name = \"memchr\"\nversion = \"")?;
    entry.split('"').next()
}

/// The instructions that the crate's searches use here. They are chosen while the program runs; ours are those that the archive was built for.
#[cfg(target_arch = "x86_64")]
fn memchr_uses() -> &'static str {
    if is_x86_feature_detected!("avx2") {
        "which finds AVX2 here and uses it"
    } else {
        "which uses SSE2 here"
    }
}

#[cfg(not(target_arch = "x86_64"))]
fn memchr_uses() -> &'static str {
    "which uses NEON on aarch64 from 2.6 on, and no vectors before"
}

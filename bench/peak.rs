//! The most memory that a program takes, in bytes: `peak PROGRAM WORDS..` runs it and says so. It is small itself, for the system
//! counts the memory of the process that begins another one as the least that the other takes.

use std::env;
use std::process::{Command, Stdio};

unsafe extern "C" {
    fn getrusage(who: i32, usage: *mut [i64; 18]) -> i32;
}

/// The processes that have ended, and the place of their greatest memory, in kilobytes.
const CHILDREN: i32 = -1;
const GREATEST: usize = 4;

fn main() {
    let words: Vec<String> = env::args().skip(1).collect();
    let status = Command::new(&words[0]).args(&words[1..]).stdout(Stdio::null()).status().expect("a program");
    assert!(status.success());
    let mut usage = [0; 18];
    unsafe { getrusage(CHILDREN, &mut usage) };
    println!("{}", usage[GREATEST] * 1024);
}

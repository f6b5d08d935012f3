//! One call on a worked example, in a program that is refused one growth of memory.
//!
//! `rt try --fail-alloc N` builds it, so that its growth number N is refused. `refused copy PATH` copies the program to PATH, where it
//! can be run again. `refused CALL COUNT` allocates COUNT times, makes the call, and then allocates until it is refused, or often
//! enough. It prints `before` if the growth was refused before the call; else how the call ended (`right`, `refused` if it reported out
//! of memory and nothing had changed, `unready` if there was no memory for its example, or `wrong`), and `met` or `unmet`: whether the
//! growth was refused in the call or its example.
#![tactic(auto)]

mod calls;
mod ends;

use calls::call;
use ends::{Answer, End};
use std::alloc::Global;
use std::{env, fs, io};

// The number of allocations after a call, which is above the number of the growth that is refused.
const AFTER: u32 = 2_000;

// Whether so many allocations are all granted.
fn are_granted(alloc: Global, count: u32) -> bool {
    (0..count).all(|_| String::from_str(alloc, "x").is_ok())
}

// How a call ended, as a word.
fn word(answer: Answer) -> &'static str {
    match answer {
        Ok(End::Right) => "right",
        Ok(End::Refused) => "refused",
        Ok(End::Wrong) => "wrong",
        Err(_) => "unready",
    }
}

// What is printed of the call of this name, after so many allocations.
fn verdict(alloc: Global, name: &str, count: u32) -> (&'static str, &'static str) {
    if !are_granted(alloc, count) {
        return ("before", "");
    }
    let Some(answer) = call(alloc, name) else {
        return ("no such call", "");
    };
    let is_unmet = !are_granted(alloc, AFTER);
    (word(answer), if is_unmet { " unmet" } else { " met" })
}

fn main(rt: HostRuntime) -> io::Result<()> {
    let mut words = env::args(&rt)?;
    let program = words.next().unwrap_or(String::new(rt.alloc()));
    let name = words.next().unwrap_or(String::new(rt.alloc()));
    let argument = words.next().unwrap_or(String::new(rt.alloc()));
    if name.as_str() == "copy" {
        fs::copy(&rt, program.as_str(), argument.as_str())?;
        return Ok(());
    }
    let count = argument.parse().unwrap_or(0);
    let (end, met) = verdict(rt.alloc(), name.as_str(), count);
    print!(rt; "{end}{met}\n")
}

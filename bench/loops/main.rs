//! The loops that scripts of `bench/` time. The first word chooses one:
//!
//! - `memory ROUNDS`, for `memory.sh`: so many loads and stores through `Pages`. Writes the sum of what was loaded, the
//!   same as `bench/slice.rs`.
//! - `copies ROUNDS`, for `memory.sh`: so many fills and copies through `Pages`. Writes the sum of what they leave, the same as
//!   `bench/slice.rs`.
//! - `encode IN OUT`, for `encode.sh`: reads the module in the file IN, within the bounds of prepared modules, and writes
//!   it into the file OUT. Writes how many bytes it has.
//! - `read IN`, for `read.sh`: reads the module in the file IN in pieces, within the bounds of prepared modules, and drops
//!   it. Writes how many functions it defines.
//! - `interp IN`, for `interp.sh`: calls the exported function `run` of the module in the file IN, with no arguments and
//!   many steps. Writes what it returned as `wasm-interp` does, and then how many steps were used.
//!
//! With no words each goes once over little.
#![tactic(auto)]

mod memory;
mod running;

use anyhow::bail;
use interp::Turn;
use memory::{sum_of, sum_of_copies};
use wasm_reader::read_file;
use checks::rewrite;
use running::run;
use std::env;
use std::rt::{Env, Files};
use system_vaults::FileVault;
use vault_port::{fetch_whole, save_whole};
use wa_types::{Bounds, Value};

/// The most bytes of a prepared module's file, and one more.
const FETCH_LIMIT: u64 = 67_108_865;

/// A module whose function `run` returns 7.
const SEVEN: &[u8] =
    b"\0asm\x01\0\0\0\x01\x05\x01\x60\x00\x01\x7f\x03\x02\x01\x00\x07\x07\x01\x03run\x00\x00\x0a\x06\x01\x04\x00\x41\x07\x0b";

fn main(rt: HostRuntime) -> anyhow::Result<()> {
    let mut words = Vec::new(rt.alloc());
    for word in env::args(&rt)?.skip(1) {
        words.push(word)?;
    }
    match words.as_slice() {
        [] => each_once(&rt),
        [word, input] if word.as_str() == "memory" => loads(&rt, input.as_str().parse::<u64>()?),
        [word, input] if word.as_str() == "copies" => copies(&rt, input.as_str().parse::<u64>()?),
        [word, input, output] if word.as_str() == "encode" => encodes(&rt, input, output),
        [word, input] if word.as_str() == "read" => reads(&rt, input),
        [word, input] if word.as_str() == "interp" => {
            let bytes = fetched(&rt, input)?;
            runs(&rt, &bytes)
        }
        _ => bail!("the words are memory ROUNDS, copies ROUNDS, encode IN OUT, read IN or interp IN"),
    }
}

/// Each loop, over little.
fn each_once<R: Files + Print + AllocGlobal>(rt: &R) -> anyhow::Result<()> {
    loads(rt, 1_000)?;
    copies(rt, 10)?;
    println!(rt; "bytes {}", rewrite(rt.alloc(), SEVEN)?.len())?;
    runs(rt, SEVEN)
}

/// Loads and stores in so many rounds.
fn loads<R: Print + AllocGlobal>(rt: &R, rounds: u64) -> anyhow::Result<()> {
    let sum = sum_of(rt.alloc(), rounds / 4)?;
    println!(rt; "{sum}")?;
    Ok(())
}

/// Fills and copies in so many rounds.
fn copies<R: Print + AllocGlobal>(rt: &R, rounds: u64) -> anyhow::Result<()> {
    let sum = sum_of_copies(rt.alloc(), rounds)?;
    println!(rt; "{sum}")?;
    Ok(())
}

/// The bytes of a file.
fn fetched<R: Files + AllocGlobal + Clone + Drop>(rt: &R, input: &str) -> anyhow::Result<Vec<u8>> {
    let mut vault = FileVault::new(rt.clone()?);
    Ok(fetch_whole(rt.alloc(), &mut vault, input, FETCH_LIMIT)?)
}

/// Reads the one file and writes the other.
fn encodes<R: Files + Print + AllocGlobal + Clone + Drop>(
    rt: &R,
    input: &str,
    output: &str,
) -> anyhow::Result<()> {
    let bytes = fetched(rt, input)?;
    let written = rewrite(rt.alloc(), &bytes)?;
    let mut vault = FileVault::new(rt.clone()?);
    save_whole(&mut vault, output, &written)?;
    println!(rt; "bytes {}", written.len())?;
    Ok(())
}

/// Reads the module in a file in pieces, and drops it.
fn reads<R: Files + Print + AllocGlobal + Clone + Drop>(rt: &R, input: &str) -> anyhow::Result<()> {
    let mut vault = FileVault::new(rt.clone()?);
    let module = read_file(rt.alloc(), &mut vault, input, Bounds::prepared())?;
    let functions = module.funcs.len();
    drop(module);
    println!(rt; "functions {functions}")?;
    Ok(())
}

/// Runs the module that these bytes spell.
fn runs<R: Print + AllocGlobal>(rt: &R, bytes: &[u8]) -> anyhow::Result<()> {
    let (turn, steps) = run(rt.alloc(), bytes)?;
    match turn {
        Turn::Returned(Some(Value::I32(n))) => println!(rt; "run() => i32:{n}")?,
        Turn::Returned(Some(Value::I64(n))) => println!(rt; "run() => i64:{n}")?,
        Turn::Returned(None) => println!(rt; "run() =>")?,
        Turn::Trapped(trap) => println!(rt; "run() trapped: {trap:?}")?,
        Turn::Waiting(call) => println!(rt; "run() waits for import {}", call.import)?,
        Turn::StepsSpent => println!(rt; "run() has spent its steps")?,
    }
    println!(rt; "{steps} steps")?;
    Ok(())
}

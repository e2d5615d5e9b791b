//! The commands: play, vectors, generate, diff, time, diff-lib.

#![forbid(unsafe_code)]

use std::error::Error;
use std::io::{self, Read, Write};
use std::path::Path;
use std::process::ExitCode;
use std::{env, fs};

use board_bench::compare;
use board_bench::generate::JobKind;
use board_bench::timing;
use board_bench::twin::MOST_BYTES;

const USAGE: &str = "usage: board-bench COMMAND
  play [FILE]                        play a job from FILE or standard input
  vectors DIR                        play each .job in DIR and compare with its .out
  generate SEED COUNT KIND DIR       write random jobs into DIR; kinds: mixed locks races phases reads
                                     refusals damaged bytes
  diff SEED COUNT PROGRAM [WORD..]   compare with a program that plays its standard input
  time [ROUNDS [KIND]]               time the twin, and the proved player if it is linked
  diff-lib SEED COUNT                compare with the proved player, if it is linked";

/// How many rounds are timed where none are asked for.
const ROUNDS: usize = 31;

fn main() -> ExitCode {
    let words: Vec<String> = env::args().skip(1).collect();
    let words: Vec<&str> = words.iter().map(String::as_str).collect();
    match run(&words) {
        Ok(true) => ExitCode::SUCCESS,
        Ok(false) => ExitCode::FAILURE,
        Err(error) => {
            eprintln!("board-bench: {error}");
            ExitCode::from(2)
        }
    }
}

/// Does a command. The result is no where a comparison has found a difference.
fn run(words: &[&str]) -> Result<bool, Box<dyn Error>> {
    match *words {
        ["play"] => play(io::stdin())?,
        ["play", file] => play(fs::File::open(file)?)?,
        ["vectors", folder] => return Ok(compare::vectors(Path::new(folder))?),
        ["generate", seed, count, kind, folder] => {
            let kind = JobKind::from_name(kind).ok_or_else(|| format!("there is no kind '{kind}'"))?;
            compare::generate(seed.parse()?, count.parse()?, kind, Path::new(folder))?;
        }
        ["diff", seed, count, program, ref rest @ ..] => {
            let player = |job: &[u8]| compare::run_program(program, rest, job);
            return Ok(compare::all_agree(seed.parse()?, count.parse()?, player)?);
        }
        ["time"] => timing::run(ROUNDS, ""),
        ["time", rounds] => timing::run(rounds.parse::<usize>()?.max(1), ""),
        ["time", rounds, kind] => timing::run(rounds.parse::<usize>()?.max(1), kind),
        ["diff-lib", seed, count] => return diff_library(seed.parse()?, count.parse()?),
        _ => return Err(USAGE.into()),
    }
    Ok(true)
}

/// Plays a job and prints its lines in one write.
fn play(input: impl Read) -> io::Result<()> {
    let mut job = Vec::new();
    input.take(MOST_BYTES as u64).read_to_end(&mut job)?;
    io::stdout().write_all(&compare::twin_output(&job))
}

#[cfg(feature = "proved")]
fn diff_library(seed: u64, count: u64) -> Result<bool, Box<dyn Error>> {
    use board_bench::ffi;
    let mut out = vec![0; ffi::MOST_OUTPUT];
    let player = |job: &[u8]| {
        let length = ffi::lines(job, &mut out);
        let lines = out.get(..length).ok_or_else(|| io::Error::other("the length is beyond the table"))?;
        Ok(lines.to_vec())
    };
    Ok(compare::all_agree(seed, count, player)?)
}

#[cfg(not(feature = "proved"))]
fn diff_library(_seed: u64, _count: u64) -> Result<bool, Box<dyn Error>> {
    Err("diff-lib wants the feature 'proved': see README.md".into())
}

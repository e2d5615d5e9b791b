//! Comparisons of the twin with stored output, with a program and with the proved library.

use std::fs;
use std::io::{self, Write};
use std::path::{Path, PathBuf};
use std::process::{Command, Stdio};
use std::thread;

use crate::generate::{JobKind, random_job};
use crate::random::Random;
use crate::twin;

/// What playback prints for the job, by the twin.
pub fn twin_output(job: &[u8]) -> Vec<u8> {
    let mut out = Vec::new();
    twin::play(job, &mut out);
    out
}

/// The job number `index` of a comparison with this seed, with its kind. All kinds come in turn.
pub fn numbered_job(seed: u64, index: u64) -> (JobKind, Vec<u8>) {
    let kind = JobKind::ALL[(index % JobKind::ALL.len() as u64) as usize];
    let mut random = Random::new(seed ^ index.wrapping_mul(0xd134_2543_de82_ef95));
    (kind, random_job(&mut random, kind))
}

/// The place where two outputs differ first, in words.
pub fn first_difference(expected: &[u8], actual: &[u8]) -> String {
    let lines = |bytes: &[u8]| -> Vec<String> {
        String::from_utf8_lossy(bytes).split_inclusive('\n').map(|line| format!("{line:?}")).collect()
    };
    let (expected, actual) = (lines(expected), lines(actual));
    let index = expected.iter().zip(&actual).take_while(|(left, right)| left == right).count();
    let at = |lines: &[String]| lines.get(index).cloned().unwrap_or_else(|| "no line".to_string());
    format!("line {}: expected {}, got {}", index + 1, at(&expected), at(&actual))
}

/// Plays each NAME.job of the folder and compares with NAME.out. Tells whether all agree.
pub fn vectors(folder: &Path) -> io::Result<bool> {
    let mut jobs: Vec<PathBuf> =
        fs::read_dir(folder)?.map(|entry| entry.map(|entry| entry.path())).collect::<io::Result<_>>()?;
    jobs.retain(|path| path.extension().is_some_and(|extension| extension == "job"));
    jobs.sort();
    let mut agreed = 0;
    for path in &jobs {
        let expected = fs::read(path.with_extension("out"))?;
        let actual = twin_output(&fs::read(path)?);
        if actual == expected {
            agreed += 1;
        } else {
            println!("{} differs, {}", path.display(), first_difference(&expected, &actual));
        }
    }
    println!("{agreed} of {} vectors agree", jobs.len());
    Ok(agreed == jobs.len() && agreed > 0)
}

/// Writes `count` random jobs of one kind into the folder, as KIND-SEED-NUMBER.job.
pub fn generate(seed: u64, count: u64, kind: JobKind, folder: &Path) -> io::Result<()> {
    fs::create_dir_all(folder)?;
    let mut random = Random::new(seed);
    for number in 0..count {
        let name = format!("{}-{seed}-{number}.job", kind.name());
        fs::write(folder.join(name), random_job(&mut random, kind))?;
    }
    println!("{count} jobs written");
    Ok(())
}

/// Compares the twin with what `player` prints, for `count` random jobs of all kinds. At the first
/// difference the job and both outputs are written to files. Tells whether all agree.
pub fn all_agree(
    seed: u64,
    count: u64,
    mut player: impl FnMut(&[u8]) -> io::Result<Vec<u8>>,
) -> io::Result<bool> {
    let (mut lines, mut refused) = (0, 0);
    for index in 0..count {
        let (kind, job) = numbered_job(seed, index);
        let expected = twin_output(&job);
        let actual = player(&job)?;
        if actual != expected {
            let name = format!("difference-{seed}-{index}");
            fs::write(format!("{name}.job"), &job)?;
            fs::write(format!("{name}.twin"), &expected)?;
            fs::write(format!("{name}.other"), &actual)?;
            println!("{index} jobs agree; job {index} ({}) differs", kind.name());
            println!("{}", first_difference(&expected, &actual));
            println!("the job is in {name}.job, the outputs in {name}.twin and {name}.other");
            return Ok(false);
        }
        if expected.starts_with(b"refused") {
            refused += 1;
        } else {
            lines += expected.iter().filter(|&&byte| byte == b'\n').count();
        }
    }
    println!("{count} jobs agree: {refused} refused, {lines} lines of the others");
    Ok(true)
}

/// Runs a program with the job on its standard input, and gives what it prints. If it does not end well,
/// that is added, so that it counts as a difference.
pub fn run_program(program: &str, words: &[&str], job: &[u8]) -> io::Result<Vec<u8>> {
    let mut child = Command::new(program).args(words).stdin(Stdio::piped()).stdout(Stdio::piped()).spawn()?;
    let mut input = child.stdin.take().ok_or(io::ErrorKind::BrokenPipe)?;
    let mut output = thread::scope(|scope| {
        // The program need not read all of a job that is too long, so a broken pipe is no fault.
        scope.spawn(move || drop(input.write_all(job)));
        child.wait_with_output()
    })?;
    if !output.status.success() {
        writeln!(output.stdout, "the program ended with {}", output.status)?;
    }
    Ok(output.stdout)
}

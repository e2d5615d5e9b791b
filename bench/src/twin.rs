//! The twin: a fast job player in plain Rust, written from the rules and not from the proved code.

pub mod answer;
pub mod bloom;
pub mod board;
pub mod cache;
pub mod call;
pub mod figures;
pub mod job;
pub mod line;
pub mod locks;
pub mod page;
pub mod plan;
pub mod races;
pub mod word;

use answer::{Answer, AnswerRecord};
use board::Board;
use call::Call;
use job::{Job, JobFault};
use line::Lines;
use page::{Bank, PageStore, Table};

/// Playback looks at this many bytes of its input and no more.
pub const MOST_BYTES: usize = 65_536;

/// Plays a job and writes what playback prints: a line for each call, or one line for a refused job.
pub fn play(job: &[u8], out: &mut Vec<u8>) {
    let job = &job[..job.len().min(MOST_BYTES)];
    match Job::open(job) {
        Ok(job) => play_lines(&job, out),
        Err(fault) => out.extend_from_slice(line::fault_line(fault).as_bytes()),
    }
}

/// Plays a job and fills one answer record for each call; gives their number. Later records keep what
/// they held. Nothing is changed where the job is refused.
pub fn play_answers(job: &[u8], answers: &mut [AnswerRecord]) -> Result<usize, JobFault> {
    let job = Job::open(job)?;
    let answers = answers.get_mut(..job.count()).ok_or(JobFault::Table)?;
    let mut board = fresh_board(&job);
    for (call, answer) in job.calls().zip(answers.iter_mut()) {
        *answer = make(&mut board, call);
    }
    Ok(job.count())
}

/// Plays a checked job and adds its lines.
fn play_lines(job: &Job, out: &mut Vec<u8>) {
    let mut board = fresh_board(job);
    let mut lines = Lines::new(out);
    for call in job.calls() {
        lines.add(&make(&mut board, call));
    }
    lines.flush();
}

/// The board of playback: a bank over a table of words that are all 0.
fn fresh_board(job: &Job) -> Board<Bank<Table>> {
    Board::open(job.figures(), Bank::over(Table::new()))
}

/// Makes one call and tells its answer.
#[inline(always)]
pub fn make<P: PageStore>(board: &mut Board<P>, call: Call) -> AnswerRecord {
    let answer = match call {
        Call::Load { core, place } => {
            board.load(core, place).map(|(word, source)| Answer::Loaded { word, source })
        }
        Call::Store { core, place, value } => {
            board.store(core, place, value).map(|(answer, mark)| Answer::Stored { answer, mark })
        }
        Call::Evict { core, place } => board.evict(core, place).map(Answer::Done),
        Call::Acquire { core, lock } => board.acquire(core, lock).map(Answer::Done),
        Call::Release { core, lock } => board.release(core, lock).map(Answer::Done),
        Call::Phase { plan } => board.phase(plan).map(Answer::Done),
        Call::Settle => Ok(Answer::Done(board.settle())),
    };
    AnswerRecord { caller: call.core(), kind: call.kind(), answer: answer.unwrap_or_else(Answer::Refused) }
}

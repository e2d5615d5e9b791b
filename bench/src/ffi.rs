//! The proved player in a C static library. The names of its functions stand here only; build.rs finds
//! the library.

use crate::twin::job::MOST_RECORDS;
use crate::twin::line::LINE;

/// No job has more output than this.
pub const MOST_OUTPUT: usize = MOST_RECORDS * LINE;

unsafe extern "C" {
    /// Plays a job, writes what playback prints and gives its length.
    fn play_lines(job: *const u8, job_len: usize, out: *mut u8, out_len: usize) -> usize;
    /// Plays a job without writing lines.
    fn play_only(job: *const u8, job_len: usize) -> usize;
}

/// Plays a job with the proved player, writes its lines to `out` and gives their length.
pub fn lines(job: &[u8], out: &mut [u8]) -> usize {
    // SAFETY: both lengths are those of the slices. The function reads the job, writes `out` only within
    // its length and keeps neither.
    unsafe { play_lines(job.as_ptr(), job.len(), out.as_mut_ptr(), out.len()) }
}

/// Plays a job with the proved player, without lines.
pub fn answers(job: &[u8]) -> usize {
    // SAFETY: the length is that of the slice. The function reads the job and does not keep it.
    unsafe { play_only(job.as_ptr(), job.len()) }
}

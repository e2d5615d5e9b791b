//! Lines: answer records, or a refused job, in decimal numbers.

use super::answer::{Access, Answer, AnswerRecord, Refusal, Source};
use super::job::JobFault;

/// No line is longer than this.
pub const LINE: usize = 48;
/// How many bytes of lines are gathered before they are added to the output.
const GATHERED: usize = 4096;

/// Lines under way to the output. They are gathered in a table of fixed length, where a number can be
/// written as eight bytes at once, whatever its length: what is too much the next write covers.
pub struct Lines<'a> {
    out: &'a mut Vec<u8>,
    gathered: [u8; GATHERED],
    length: usize,
}

impl<'a> Lines<'a> {
    /// Lines that are added to `out`.
    pub fn new(out: &'a mut Vec<u8>) -> Lines<'a> {
        Lines { out, gathered: [0; GATHERED], length: 0 }
    }

    /// Adds the line of an answer.
    pub fn add(&mut self, record: &AnswerRecord) {
        if self.length > GATHERED - LINE {
            self.flush();
        }
        let (refusal, small, value, mark) = numbers_of(&record.answer);
        self.bytes([b'0' + record.caller_number(), b' ', record.kind.letter(), b' ']);
        self.number(u32::from(refusal), b' ');
        self.number(u32::from(small), b' ');
        self.number(value, b' ');
        self.number(mark, b'\n');
    }

    /// Adds what has been gathered to the output.
    pub fn flush(&mut self) {
        self.out.extend_from_slice(&self.gathered[..self.length]);
        self.length = 0;
    }

    fn bytes<const N: usize>(&mut self, bytes: [u8; N]) {
        self.gathered[self.length..][..N].copy_from_slice(&bytes);
        self.length += N;
    }

    /// Writes a number in decimal, and the byte that follows it.
    fn number(&mut self, number: u32, then: u8) {
        if number < 10 {
            return self.bytes([b'0' + number as u8, then]);
        }
        let (front, back) = (number / 100_000_000, number % 100_000_000);
        if front > 0 {
            self.digits(u64::from(front / 10) << 48 | u64::from(front % 10) << 56);
            self.bytes(ascii(eight_digits(back)));
        } else {
            self.digits(eight_digits(back));
        }
        self.bytes([then]);
    }

    /// Writes eight digits without the zeros in front. The first digit is in the lowest byte.
    fn digits(&mut self, digits: u64) {
        let zeros = digits.trailing_zeros() / 8;
        let end = self.length + 8 - zeros as usize;
        self.bytes(ascii(digits >> (8 * zeros)));
        self.length = end;
    }
}

/// Eight decimal digits of a number below 100,000,000, the first in the lowest byte. The number is split
/// in halves three times, each time in all parts at once: a division by 100 or 10 is a multiplication
/// and a shift that is exact for parts this small.
fn eight_digits(number: u32) -> u64 {
    let fours = u64::from(number / 10_000) | u64::from(number % 10_000) << 32;
    let hundreds = ((fours * 10_486) >> 20) & 0x0000_007f_0000_007f;
    let twos = hundreds | (fours - hundreds * 100) << 16;
    let tens = ((twos * 103) >> 10) & 0x000f_000f_000f_000f;
    tens | (twos - tens * 10) << 8
}

/// The digits as letters.
fn ascii(digits: u64) -> [u8; 8] {
    (digits + 0x3030_3030_3030_3030).to_le_bytes()
}

/// Refusal, small answer, value and mark of a line.
fn numbers_of(answer: &Answer) -> (u8, u16, u32, u32) {
    match *answer {
        Answer::Loaded { word, source } => {
            let source = match source {
                Source::Own => 0,
                Source::Page => 1,
                Source::Owner => 2,
            };
            (0, source, word.value, word.mark.number())
        }
        Answer::Stored { answer, mark } => (0, u16::from(answer), 0, mark.number()),
        Answer::Done(number) => (0, number, 0, 0),
        Answer::Refused(refusal) => {
            let (small, value) = match refusal {
                Refusal::Race { earlier, access: Access::Load } => (earlier.number(), 0),
                Refusal::Race { earlier, access: Access::Store } => (earlier.number(), 1),
                _ => (0, 0),
            };
            (refusal.number(), u16::from(small), value, 0)
        }
    }
}

/// The line of a refused job.
pub fn fault_line(fault: JobFault) -> String {
    format!("refused {} {} {}\n", fault.number(), fault.place(), fault.inner())
}

#[cfg(test)]
mod tests {
    use super::*;

    #[test]
    fn numbers_are_decimal() {
        let powers = (0..10).map(|power| 10u32.pow(power));
        let near = powers.flat_map(|power| [power - 1, power, power + 1, power.saturating_mul(9)]);
        let many = (0..2_000_000).map(|step: u32| step.wrapping_mul(2_654_435_761));
        for number in near.chain(many).chain(0..100_000).chain([u32::MAX]) {
            let mut out = Vec::new();
            let mut lines = Lines::new(&mut out);
            lines.number(number, b'\n');
            let length = lines.length;
            assert_eq!(lines.gathered[..length], *format!("{number}\n").as_bytes());
        }
    }

    #[test]
    fn the_longest_line_fits() {
        assert!("8 S 13 65535 4294967295 4294967295\n".len() + 8 < LINE);
    }
}

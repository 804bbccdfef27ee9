//! The bench program: records in, one line for each out, in constant memory.

use std::io::{self, ErrorKind, Read, Write};

use crate::numbers::{DONE, WRONG_RECORD};
use crate::record::{frame, read_body, said_length, Frame, HEADER, LONGEST};
use crate::table::{Answer, Table};
use crate::watch::Watch;

/// Bytes read ahead: room for the longest record and for many of the usual ones.
const INPUT: usize = 2 * LONGEST;

/// Bytes of lines gathered before they are written.
const OUTPUT: usize = 1 << 16;

/// "record number from 1, number given back, the two results, accepted, rejected"
/// A line is never longer than this.
const LONGEST_LINE: usize = 96;

/// "reads standard input: one byte, the site count, then records".
/// Gives back the table as the last record left it.
pub fn run<R: Read, O: Write, W: Watch>(input: R, output: O, watch: &mut W) -> io::Result<Box<Table>> {
    let mut source = Source::new(input);
    let mut lines = Lines::new(output);
    let table = answer_all(&mut source, &mut lines, watch)?;
    lines.flush()?;
    Ok(table)
}

fn answer_all<R: Read, O: Write, W: Watch>(
    source: &mut Source<R>,
    lines: &mut Lines<O>,
    watch: &mut W,
) -> io::Result<Box<Table>> {
    // "empty input `0 17 0 0 0 0`, and ends"
    let Some(count) = source.byte()? else {
        lines.put(&Answer::refused(WRONG_RECORD))?;
        return Ok(Box::default());
    };
    // "A bad site count prints `0 3 0 0 0 0`"
    let (number, table) = Table::fresh(count);
    let mut table = Box::new(table);
    if number != DONE {
        lines.put(&Answer::refused(number))?;
        return Ok(table);
    }
    loop {
        lines.record.next();
        match source.record()? {
            Frame::End => return Ok(table),
            // "a cut record, of known code or not, gives 17 and ends"
            Frame::Cut => {
                watch.unread(WRONG_RECORD);
                lines.put(&Answer::refused(WRONG_RECORD))?;
                return Ok(table);
            }
            Frame::Whole { code, body } => {
                let answer = answer_one(&mut table, code, body, watch);
                lines.put(&answer)?;
            }
        }
    }
}

/// "A wrong length gives 17 and goes on."
#[inline]
fn answer_one<W: Watch>(table: &mut Table, code: u8, body: &[u8], watch: &mut W) -> Answer {
    match read_body(code, body) {
        Ok(step) => {
            watch.before(table, &step);
            let answer = table.step(&step, watch);
            watch.after(table, &step, &answer);
            answer
        }
        Err(number) => {
            watch.unread(number);
            Answer::refused(number)
        }
    }
}

/// The bytes of the input, with whole records at the front.
struct Source<R> {
    input: R,
    buffer: Box<[u8]>,
    start: usize,
    end: usize,
    ended: bool,
}

impl<R: Read> Source<R> {
    fn new(input: R) -> Source<R> {
        Source { input, buffer: vec![0; INPUT].into(), start: 0, end: 0, ended: false }
    }

    fn byte(&mut self) -> io::Result<Option<u8>> {
        while self.start == self.end && !self.ended {
            self.refill()?;
        }
        let byte = self.buffer[self.start..self.end].first().copied();
        self.start += usize::from(byte.is_some());
        Ok(byte)
    }

    #[inline]
    fn record(&mut self) -> io::Result<Frame<'_>> {
        while self.wants_more() {
            self.refill()?;
        }
        let front = frame(&self.buffer[self.start..self.end]);
        if let Frame::Whole { body, .. } = front {
            self.start += HEADER + body.len();
        }
        Ok(front)
    }

    /// The record at the front is not whole yet, and more may come.
    #[inline]
    fn wants_more(&self) -> bool {
        let here = &self.buffer[self.start..self.end];
        let whole = said_length(here).is_some_and(|length| length <= here.len());
        !whole && !self.ended
    }

    #[cold]
    fn refill(&mut self) -> io::Result<()> {
        self.buffer.copy_within(self.start..self.end, 0);
        self.end -= self.start;
        self.start = 0;
        match self.input.read(&mut self.buffer[self.end..]) {
            Ok(0) => self.ended = true,
            Ok(read) => self.end += read,
            Err(error) if error.kind() == ErrorKind::Interrupted => {}
            Err(error) => return Err(error),
        }
        Ok(())
    }
}

/// The number of a record, kept as its digits: counting on changes mostly one of them.
struct RecordNumber {
    digits: [u8; DIGITS],
    length: usize,
}

/// More digits than any input has records.
const DIGITS: usize = 24;

impl RecordNumber {
    fn new() -> RecordNumber {
        RecordNumber { digits: [b'0'; DIGITS], length: 1 }
    }

    #[inline]
    fn next(&mut self) {
        for digit in self.digits[..self.length].iter_mut().rev() {
            if *digit < b'9' {
                *digit += 1;
                return;
            }
            *digit = b'0';
        }
        self.digits[0] = b'1';
        self.length += 1;
    }
}

/// The lines of the output.
struct Lines<O> {
    output: O,
    buffer: Box<[u8]>,
    end: usize,
    record: RecordNumber,
}

impl<O: Write> Lines<O> {
    fn new(output: O) -> Lines<O> {
        Lines { output, buffer: vec![0; OUTPUT].into(), end: 0, record: RecordNumber::new() }
    }

    #[inline]
    fn put(&mut self, answer: &Answer) -> io::Result<()> {
        if self.buffer.len() - self.end < LONGEST_LINE {
            self.write_out()?;
        }
        self.end += line(&mut self.buffer[self.end..], &self.record, answer);
        Ok(())
    }

    #[cold]
    fn write_out(&mut self) -> io::Result<()> {
        self.output.write_all(&self.buffer[..self.end])?;
        self.end = 0;
        Ok(())
    }

    fn flush(&mut self) -> io::Result<()> {
        self.write_out()?;
        self.output.flush()
    }
}

/// One line at the front of a buffer of at least the longest line; gives its length.
#[inline]
fn line(buffer: &mut [u8], record: &RecordNumber, answer: &Answer) -> usize {
    let buffer = &mut buffer[..LONGEST_LINE];
    // All places are copied at once; those behind the number are written over.
    buffer[..DIGITS].copy_from_slice(&record.digits);
    let mut end = field(buffer, record.length, u64::from(answer.number));
    buffer[end] = b' ';
    end += 1;
    if answer.first < 0 {
        buffer[end] = b'-';
        end += 1;
    }
    end = decimal(buffer, end, answer.first.unsigned_abs());
    end = field(buffer, end, answer.second);
    end = field(buffer, end, u64::from(answer.accepted));
    end = field(buffer, end, u64::from(answer.rejected));
    buffer[end] = b'\n';
    end + 1
}

/// A space and a number.
#[inline]
fn field(buffer: &mut [u8], end: usize, number: u64) -> usize {
    buffer[end] = b' ';
    decimal(buffer, end + 1, number)
}

/// A number in decimal digits; gives the new end.
#[inline]
fn decimal(buffer: &mut [u8], end: usize, number: u64) -> usize {
    if number < 10 {
        buffer[end] = b'0' + number as u8;
        return end + 1;
    }
    long_decimal(buffer, end, number)
}

/// Two digits at a time, from the last.
fn long_decimal(buffer: &mut [u8], end: usize, mut number: u64) -> usize {
    let length = number.ilog10() as usize + 1;
    let mut pairs = buffer[end..end + length].rchunks_exact_mut(2);
    for pair in &mut pairs {
        let two = (number % 100) as u8;
        number /= 100;
        pair[0] = b'0' + two / 10;
        pair[1] = b'0' + two % 10;
    }
    if let [first] = pairs.into_remainder() {
        *first = b'0' + number as u8;
    }
    end + length
}

#[cfg(test)]
mod tests {
    use super::*;

    fn printed(record: &RecordNumber, answer: &Answer) -> String {
        let mut buffer = [0; LONGEST_LINE];
        let end = line(&mut buffer, record, answer);
        String::from_utf8(buffer[..end].to_vec()).unwrap()
    }

    #[test]
    fn lines_are_as_printed_by_the_language() {
        let record = RecordNumber::new();
        for number in [0, 9, 10, 11, 99, 100, 101, 8001, 34_359_738_361, u64::MAX] {
            let answer =
                Answer { number: 255, first: i64::MIN, second: number, accepted: 255, rejected: 255 };
            let wanted = format!("0 255 {} {number} 255 255\n", i64::MIN);
            assert_eq!(printed(&record, &answer), wanted);
        }
        let answer = Answer { number: 0, first: -350, second: 8001, accepted: 0, rejected: 0 };
        assert_eq!(printed(&record, &answer), "0 0 -350 8001 0 0\n");
    }

    #[test]
    fn record_numbers_are_as_counted_by_the_language() {
        let mut record = RecordNumber::new();
        for number in 0..=10_001 {
            assert_eq!(printed(&record, &Answer::default()), format!("{number} 0 0 0 0 0\n"));
            record.next();
        }
    }
}

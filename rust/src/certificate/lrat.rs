//! Writing and reading LRAT text: a lemma `ID LITERAL .. 0 HINT .. 0`, a deletion `ID d ID .. 0`, one a line.
use super::clauses::Literal;
use super::elaborate::Refutation;
use crate::listing::push_number;
use std::io::{self, Write};

/// Writes a refutation. Each clause is deleted after its last use, and its number used again.
pub fn write(refutation: Refutation, out: &mut impl Write) -> io::Result<()> {
    let mut writer = Writer { numbers: refutation.listed as u32, free: Vec::new(), line: Vec::new(), refutation };
    writer.listed();
    for index in (0..writer.refutation.derivations.len()).rev() {
        writer.derivation(index);
        if writer.line.len() > 1 << 16 {
            out.write_all(&writer.line)?;
            writer.line.clear();
        }
    }
    out.write_all(&writer.line)
}

struct Writer {
    /// The highest number in use so far.
    numbers: u32,
    /// Numbers below that are free.
    free: Vec<u32>,
    line: Vec<u8>,
    refutation: Refutation,
}

impl Writer {
    /// Gives the listing's clauses their numbers, and deletes those that are not needed.
    fn listed(&mut self) {
        for (clause, number) in self.refutation.clauses.first(self.refutation.listed).into_iter().zip(1..) {
            if self.refutation.is_needed(clause) {
                self.refutation.clauses.set_tag(clause, number);
            } else {
                self.free.push(number);
            }
        }
        self.deletion(self.numbers, 0);
        self.free.reverse();
    }

    fn derivation(&mut self, index: usize) {
        let derivation = &self.refutation.derivations[index];
        let number = self.free.pop().unwrap_or_else(|| {
            self.numbers += 1;
            self.numbers
        });
        let freed = self.free.len();
        push_number(number, &mut self.line);
        for &literal in self.refutation.clauses.literals(derivation.clause) {
            push_literal(literal, &mut self.line);
        }
        self.line.extend_from_slice(b" 0");
        for hint in self.refutation.hints(derivation) {
            let number = self.refutation.clauses.tag(hint.clause);
            push_word(number, &mut self.line);
            if hint.last_use {
                self.free.push(number);
            }
        }
        self.line.extend_from_slice(b" 0\n");
        self.refutation.clauses.set_tag(derivation.clause, number);
        if index > 0 {
            self.deletion(number, freed);
        }
    }

    /// The deletion of the numbers that came free, from a place on.
    fn deletion(&mut self, number: u32, from: usize) {
        if from == self.free.len() {
            return;
        }
        push_number(number, &mut self.line);
        self.line.extend_from_slice(b" d");
        self.free[from..].iter().for_each(|&number| push_word(number, &mut self.line));
        self.line.extend_from_slice(b" 0\n");
    }
}

fn push_word(number: u32, line: &mut Vec<u8>) {
    line.push(b' ');
    push_number(number, line);
}

fn push_literal(literal: Literal, line: &mut Vec<u8>) {
    line.extend_from_slice(if literal % 2 == 1 { b" -" } else { b" " });
    push_number(literal / 2, line);
}

/// What a line says.
#[derive(Debug, PartialEq, Eq)]
pub enum Line {
    Lemma { number: u32, literals: Vec<i32>, hints: Vec<u32> },
    Deletion { numbers: Vec<u32> },
}

const MOST: i32 = 400_000_000;

/// Reads a line with its newline; none where it is no LRAT, or has a hint that only RAT has. A deletion's own number says nothing.
/// The empty clause ends a certificate: what follows the space or newline after it is not looked at.
pub fn read_line(line: &[u8]) -> Option<Line> {
    let whole = line.ends_with(b"\n");
    let end = line.iter().rposition(|&byte| byte == b' ' || byte == b'\n')?;
    let mut words = line[..end].split(|&byte| byte == b' ').filter(|word| !word.is_empty()).peekable();
    let number = read_number(words.next()?).filter(|&number| number >= 0)?;
    let line = if words.next_if_eq(&&b"d"[..]).is_some() {
        Line::Deletion { numbers: clause_numbers(&mut words)? }
    } else {
        let number = clause_number(number)?;
        Line::Lemma { number, literals: until_zero(&mut words)?, hints: clause_numbers(&mut words)? }
    };
    let empty = matches!(&line, Line::Lemma { literals, .. } if literals.is_empty());
    (empty || words.next().is_none() && whole).then_some(line)
}

fn clause_numbers<'a>(words: &mut impl Iterator<Item = &'a [u8]>) -> Option<Vec<u32>> {
    until_zero(words)?.into_iter().map(clause_number).collect()
}

fn clause_number(number: i32) -> Option<u32> {
    u32::try_from(number).ok().filter(|&number| number > 0)
}

fn until_zero<'a>(words: &mut impl Iterator<Item = &'a [u8]>) -> Option<Vec<i32>> {
    let mut numbers = Vec::new();
    loop {
        match read_number(words.next()?)? {
            0 => return Some(numbers),
            number => numbers.push(number),
        }
    }
}

fn read_number(word: &[u8]) -> Option<i32> {
    let digits = word.strip_prefix(b"-").unwrap_or(word);
    if !digits.iter().all(u8::is_ascii_digit) {
        return None;
    }
    let number: i32 = std::str::from_utf8(word).ok()?.parse().ok()?;
    let minus_zero = number == 0 && word.starts_with(b"-");
    (number.abs() <= MOST && !minus_zero).then_some(number)
}

#[cfg(test)]
mod tests {
    use super::*;

    #[test]
    fn lines() {
        assert_eq!(read_line(b"7 1 -2 0 3  4 0\n"), Some(Line::Lemma { number: 7, literals: vec![1, -2], hints: vec![3, 4] }));
        assert_eq!(read_line(b"7 d 5 6 0 \n"), Some(Line::Deletion { numbers: vec![5, 6] }));
        assert_eq!(read_line(b"0 d 0\n"), Some(Line::Deletion { numbers: vec![] }));
        for line in ["7 0 3 0\n", "7 0 3 0 0\n", "7 0 3 0 "] {
            assert_eq!(read_line(line.as_bytes()), Some(Line::Lemma { number: 7, literals: vec![], hints: vec![3] }), "{line:?}");
        }
    }

    #[test]
    fn what_is_no_line() {
        let lemmas = ["", "\n", "7\n", "7 1\n", "7 1 0\n", "7 1 0 3\n", "7 1 0 -3 0\n", "7 1 0 3 0 0\n", "7 1 0 3 0 ", "7 0 3 0", "0 1 0 3 0\n", "-7 0 0\n"];
        let deletions = ["7 d 5\n", "7 d -5 0\n", "7 d 0 0\n", "-7 d 5 0\n", "7 d 5 0", "d 5 0\n"];
        let numbers = ["7 x 0 0\n", "7 1 0 3 0\r\n", "7 1 -0 3 0\n", "7 1 0 3 -00\n", "7 +1 0 3 0\n", "7 400000001 0 3 0\n", "7 99999999999999999999 0 3 0\n"];
        for line in lemmas.iter().chain(&deletions).chain(&numbers) {
            assert_eq!(read_line(line.as_bytes()), None, "{line:?}");
        }
    }
}

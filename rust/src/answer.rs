//! Reading a solver's lines back into the lent marks (1 true, 2 false, any other byte unsaid).
use crate::refusal::*;

/// Whether a mark says true or false.
pub fn said(mark: u8) -> bool {
    mark == 1 || mark == 2
}

/// A `v` line's literals, and whether it ends with the closing 0.
struct Said {
    literals: Vec<i32>,
    closing: bool,
}

/// Takes one line, without its newline. A refused line changes nothing.
pub fn read_line(closed: &mut bool, line: &[u8], marks: &mut [u8]) -> Result<(), u32> {
    let said = match line.first() {
        Some(b'c' | b's') => return Ok(()),
        Some(b'v') if *closed => return Err(CLOSED),
        Some(b'v') => parse(&line[1..]).ok_or(FORM)?,
        _ => return Err(FORM),
    };
    mark_all(&said.literals, marks)?;
    *closed = said.closing;
    Ok(())
}

/// A whole answer from fresh marks: whether a closing 0 was said, and the marks. A refused line is reported, and the reading goes on.
pub fn read_lines(answer: &[u8], variables: usize, refused: &mut dyn FnMut(usize, u32)) -> (bool, Vec<u8>) {
    let (mut closed, mut marks) = (false, vec![0; variables]);
    for (index, line) in answer.split_inclusive(|&byte| byte == b'\n').enumerate() {
        let line = line.strip_suffix(b"\n").unwrap_or(line);
        if let Err(number) = read_line(&mut closed, line, &mut marks) {
            refused(index + 1, number);
        }
    }
    (closed, marks)
}

/// The form of the whole line after its `v`.
fn parse(mut rest: &[u8]) -> Option<Said> {
    let mut said = Said { literals: Vec::new(), closing: false };
    while !rest.is_empty() {
        if said.closing || rest[0] != b' ' {
            return None;
        }
        let word = &rest[1..];
        let end = word.iter().position(|&byte| byte == b' ').unwrap_or(word.len());
        match literal(&word[..end])? {
            0 => said.closing = true,
            literal => said.literals.push(literal),
        }
        rest = &word[end..];
    }
    Some(said)
}

/// A literal, or 0 for the closing 0.
fn literal(word: &[u8]) -> Option<i32> {
    if word == b"0" {
        return Some(0);
    }
    let (negative, digits) = match word {
        [b'-', digits @ ..] => (true, digits),
        digits => (false, digits),
    };
    if !(1..=9).contains(&digits.len()) || digits[0] == b'0' || !digits.iter().all(u8::is_ascii_digit) {
        return None;
    }
    let variable = digits.iter().fold(0, |number, digit| 10 * number + i32::from(digit - b'0'));
    Some(if negative { -variable } else { variable })
}

/// Marks literals from left to right; at the first offence the marks go back to what they were.
fn mark_all(literals: &[i32], marks: &mut [u8]) -> Result<(), u32> {
    let mut before = Vec::with_capacity(literals.len());
    for &literal in literals {
        let at = literal.unsigned_abs() as usize - 1;
        let offence = match marks.get_mut(at) {
            None => ABOVE,
            Some(mark) if said(*mark) => SAID,
            Some(mark) => {
                before.push((at, *mark));
                *mark = if literal > 0 { 1 } else { 2 };
                continue;
            }
        };
        before.iter().for_each(|&(at, mark)| marks[at] = mark);
        return Err(offence);
    }
    Ok(())
}

#[cfg(test)]
mod tests {
    use super::*;

    fn one(line: &str) -> (Result<(), u32>, bool, [u8; 3]) {
        let (mut closed, mut marks) = (false, [0, 7, 255]);
        let answer = read_line(&mut closed, line.as_bytes(), &mut marks);
        (answer, closed, marks)
    }

    #[test]
    fn good_lines() {
        let fresh = [0, 7, 255];
        for line in ["c", "s SATISFIABLE", "cnonsense", "v"] {
            assert_eq!(one(line), (Ok(()), false, fresh), "{line}");
        }
        assert_eq!(one("v 0"), (Ok(()), true, fresh));
        assert_eq!(one("v 1 -3"), (Ok(()), false, [1, 7, 2]));
        assert_eq!(one("v -2 0"), (Ok(()), true, [0, 2, 255]));
    }

    #[test]
    fn refused_lines_change_nothing() {
        for line in ["", "x", "V 1", "v 0 ", "v 1 ", "v  1", "v -0", "v 00", "v 01", "v +1", "v1", "v 1000000000", "v 0 1", "v 1\r", "v -"] {
            assert_eq!(one(line), (Err(10), false, [0, 7, 255]), "{line}");
        }
        assert_eq!(one("v 1 4 1 0"), (Err(11), false, [0, 7, 255]));
        assert_eq!(one("v 1 2 -1 4 0"), (Err(12), false, [0, 7, 255]));
        assert_eq!(one("v 999999999"), (Err(11), false, [0, 7, 255]));
    }

    #[test]
    fn after_the_closing_0() {
        let mut closed = true;
        for (line, wanted) in [("v", Err(25)), ("v x", Err(25)), ("c", Ok(())), ("s", Ok(())), ("", Err(10)), ("x", Err(10))] {
            assert_eq!(read_line(&mut closed, line.as_bytes(), &mut [0]), wanted, "{line}");
            assert!(closed);
        }
    }
}

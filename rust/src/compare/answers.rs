//! Solver lines and marks for the comparison: whole answers, pieces of them, and lines that are wrong.
use super::random::Random;

/// Lent marks as a caller may hand them over: unsaid, of any bytes, now and then some said already.
pub fn fresh(random: &mut Random, length: usize) -> Vec<u8> {
    let kind = random.below(4);
    let byte = |random: &mut Random| match kind {
        0 | 1 => 0,
        2 => random.pick(&[0, 3, 4, 127, 128, 255, b'1', b'2']),
        _ => random.pick(&[0, 0, 0, 0, 0, 0, 0, 1, 2, 3]),
    };
    (0..length).map(|_| byte(random)).collect()
}

/// Longer marks than this are said in part only.
const MOST_SAID: usize = 60_000;

/// Several lines in a row.
pub fn lines(random: &mut Random, length: usize) -> Vec<Vec<u8>> {
    if length <= MOST_SAID && random.chance(40) {
        return whole_answer(random, length);
    }
    (0..random.from_to(1, 6)).map(|_| line(random, length)).collect()
}

/// Every variable said once, over several lines, with a closing 0, and some lines between that do not belong.
fn whole_answer(random: &mut Random, length: usize) -> Vec<Vec<u8>> {
    let literals = (1..=length as i64).map(|variable| if random.chance(50) { variable } else { -variable }).collect();
    in_lines(random, literals)
}

/// What the marks say, in the same way.
pub fn saying(random: &mut Random, marks: &[u8]) -> Vec<Vec<u8>> {
    let literals = (1..).zip(marks).map(|(variable, &mark)| if mark == 1 { variable } else { -variable }).collect();
    in_lines(random, literals)
}

fn in_lines(random: &mut Random, mut literals: Vec<i64>) -> Vec<Vec<u8>> {
    let length = literals.len();
    if random.chance(50) {
        random.shuffle(&mut literals);
    }
    let mut lines = Vec::new();
    let mut rest = &literals[..];
    while !rest.is_empty() {
        let (now, later) = rest.split_at(random.from_to(1, rest.len()));
        lines.push(v_line(now));
        rest = later;
        if random.chance(30) {
            lines.push(line(random, length));
        }
    }
    match lines.last_mut() {
        Some(last) if random.chance(50) => last.extend_from_slice(b" 0"),
        _ => lines.push(b"v 0".to_vec()),
    }
    if random.chance(30) {
        lines.push(line(random, length));
    }
    lines
}

fn v_line(literals: &[i64]) -> Vec<u8> {
    let mut line = "v".to_string();
    literals.iter().for_each(|literal| line += &format!(" {literal}"));
    line.into_bytes()
}

/// One line of any kind.
pub fn line(random: &mut Random, length: usize) -> Vec<u8> {
    let mut line = match random.below(10) {
        0 => return passed_over(random),
        1 => return odd_line(random),
        _ => v_line(&literals(random, length)),
    };
    if random.chance(15) {
        line.extend_from_slice(b" 0");
    }
    if random.chance(15) {
        damage(random, &mut line);
    }
    line
}

/// A few literals, now and then above the marks' length or said twice.
fn literals(random: &mut Random, length: usize) -> Vec<i64> {
    let many = random.below(6);
    let above = random.chance(10);
    let literal = |random: &mut Random| {
        let variable = if above && random.chance(30) || length == 0 {
            length as i64 + random.pick(&[1, 2, 1000, 999_999_999 - length as i64])
        } else {
            random.from_to(1, length) as i64
        };
        if random.chance(50) {
            variable
        } else {
            -variable
        }
    };
    let mut literals: Vec<i64> = (0..many).map(|_| literal(random)).collect();
    if many > 0 && random.chance(15) {
        literals.push(random.pick(&literals) * random.pick(&[1, -1]));
    }
    literals
}

fn passed_over(random: &mut Random) -> Vec<u8> {
    random.pick(&["c", "s", "c v 1 0", "s SATISFIABLE", "sUNSATISFIABLE", "c\0\u{ff}", "s  "]).as_bytes().to_vec()
}

/// Lines that are wrong in one way each, and a few that only look so; the first is empty.
const ODD: &str = "|x|V 1|v1|v\t1|v 0 |v 1 |v |v  |v  1|v -0|v 00|v 01|v -01|v +1|v -|v --1|v - 1|v 1-|v 1\r|v 0 1|v 0 0|v 1a|v a| v 1|C|S|v 1 2 x\
    |v 1234567890|v -1234567890|v 999999999|v -999999999|v 4294967297|v 18446744073709551617";

fn odd_line(random: &mut Random) -> Vec<u8> {
    let odd: Vec<&str> = ODD.split('|').collect();
    random.pick(&odd).as_bytes().to_vec()
}

/// One byte changed, put in or taken out.
fn damage(random: &mut Random, line: &mut Vec<u8>) {
    let at = random.below(line.len());
    match random.below(3) {
        0 => line[at] = random.pick(b" -0123456789vcs\r\x80"),
        1 => line.insert(at, random.pick(b" -0123456789")),
        _ => drop(line.remove(at)),
    }
}

#[cfg(test)]
pub(super) mod tests {
    use super::super::{calls::settled, sheets};
    use super::*;
    use crate::close::close;
    use crate::encode::Encoding;
    use crate::fill::{fill, is_draw};
    use crate::model::Model;
    use crate::sheet::read;

    /// The groups that a word spells, n bits each.
    pub fn sets(model: &Model, word: u64) -> Vec<u64> {
        (0..model.groups.len()).map(|index| word >> (index as u32 * model.entrants) & model.everyone()).collect()
    }

    /// Each draw is filled and closed on again; with at most so many variables the satisfying assignments are counted, too: as many as there are draws.
    pub fn match_one_for_one(encoding: &Encoding, draws: &[Vec<u64>], most: usize) -> bool {
        for draw in draws {
            let mut marks = vec![0; encoding.variables];
            assert_eq!(fill(encoding, draw, &mut marks), Ok(()));
            assert_eq!(close(encoding, true, &marks).as_ref(), Ok(draw));
        }
        if encoding.variables > most {
            return false;
        }
        let marks = |word: u32| (0..encoding.variables).map(|at| 1 + (word >> at & 1) as u8).collect::<Vec<u8>>();
        let satisfying = (0..1 << encoding.variables).filter(|&word| close(encoding, true, &marks(word)).is_ok()).count();
        assert_eq!(satisfying, draws.len());
        true
    }

    /// Small sheets, all of whose draws and assignments can be gone through.
    fn small_models(many: usize) -> impl Iterator<Item = (Vec<u8>, Model)> {
        let mut random = Random(3);
        let models = std::iter::repeat_with(move || sheets::valid(&mut random).sheet).map(|sheet| (read(&sheet).unwrap(), sheet));
        models.filter(|(model, _)| model.entrants * model.groups.len() as u32 <= 12).map(|(model, sheet)| (sheet, model)).take(many)
    }

    #[test]
    fn draws_and_satisfying_assignments_match_one_for_one() {
        let (mut drawn, mut counted) = (0, 0);
        for (sheet, model) in small_models(3_000) {
            let bits = model.entrants * model.groups.len() as u32;
            let draws: Vec<Vec<u64>> = (0..1 << bits).map(|word| sets(&model, word)).filter(|sets| is_draw(&model, sets)).collect();
            let Ok(settled) = settled(&sheet) else {
                assert!(draws.is_empty(), "21 for a sheet with a draw");
                continue;
            };
            let encoding = Encoding::of(&settled);
            drawn += draws.len();
            counted += usize::from(match_one_for_one(&encoding, &draws, 12));
        }
        assert!(drawn > 1_000 && counted > 1_000, "{drawn} draws, {counted} sheets gone through");
    }

    /// Whether the header counts what the blocks hold.
    pub fn header_counts(encoding: &Encoding) -> bool {
        let (mut clauses, mut highest) = (0, 0);
        for block in 1..=encoding.blocks() {
            encoding.each_clause(block, &mut |clause| {
                clauses += 1;
                highest = clause.iter().fold(highest, |highest, literal| highest.max(literal.unsigned_abs() as usize));
            });
        }
        clauses == encoding.clauses() && highest <= encoding.variables
    }

    #[test]
    fn the_header_counts_what_the_blocks_hold() {
        for (sheet, _) in small_models(3_000) {
            let Ok(settled) = settled(&sheet) else { continue };
            assert!(header_counts(&Encoding::of(&settled)));
        }
    }
}

//! A model as the calls' words: n, s, c, then four words a group and nineteen a line, all 256 of each.
use crate::model::*;
use crate::refusal::OUT_OF_RANGE;

const MEMBERS: usize = 1 + UNION_MAX as usize;
pub const GROUP_WORDS: usize = 4;
pub const LINE_WORDS: usize = 2 + MEMBERS;
pub const FIRST_GROUP: usize = 3;
pub const FIRST_LINE: usize = FIRST_GROUP + GROUP_WORDS * GROUPS as usize;
pub const WORDS: usize = FIRST_LINE + LINE_WORDS * LINES as usize;

/// Which of a model's words stands at a place.
#[derive(Clone, Copy, Debug, PartialEq, Eq)]
pub enum Field {
    Entrants,
    Groups,
    Lines,
    Fixed,
    Possible,
    Low,
    High,
    Code,
    Count,
    Member,
}

/// The field at a place, and the number of its group or line, from 0.
pub fn field_at(place: usize) -> (Field, usize) {
    use Field::*;
    match place {
        0..FIRST_GROUP => ([Entrants, Groups, Lines][place], 0),
        FIRST_GROUP..FIRST_LINE => {
            let at = place - FIRST_GROUP;
            ([Fixed, Possible, Low, High][at % GROUP_WORDS], at / GROUP_WORDS)
        }
        _ => {
            let at = place - FIRST_LINE;
            ([Code, Count, Member][(at % LINE_WORDS).min(2)], at / LINE_WORDS)
        }
    }
}

/// The words of a model; what belongs to no group, line or member is `rest`.
pub fn to_words(model: &Model, rest: u64) -> Vec<u64> {
    let mut words = vec![rest; WORDS];
    let head = [model.entrants as usize, model.groups.len(), model.constraints.len()];
    words.iter_mut().zip(head).for_each(|(word, number)| *word = number as u64);
    for (row, group) in words[FIRST_GROUP..].chunks_exact_mut(GROUP_WORDS).zip(&model.groups) {
        row.copy_from_slice(&[group.fixed, group.possible, group.low.into(), group.high.into()]);
    }
    for (row, line) in words[FIRST_LINE..].chunks_exact_mut(LINE_WORDS).zip(&model.constraints) {
        row[0] = line.code.into();
        row[1] = if line.code == 6 { line.groups.len() as u64 - 1 } else { rest };
        row[2..].iter_mut().zip(&line.groups).for_each(|(word, &group)| *word = group as u64 + 1);
    }
    words
}

/// The model of words, or refusal 20: fewer words than a model has are refused as well, and so is a number that 32 bits do not hold.
pub fn from_words(words: &[u64]) -> Result<Model, u32> {
    model_of(words).ok_or(OUT_OF_RANGE)
}

/// A word as a number of 32 bits; above them it is the largest, which is in no range.
pub fn number(word: u64) -> u32 {
    u32::try_from(word).unwrap_or(u32::MAX)
}

fn model_of(words: &[u64]) -> Option<Model> {
    let words = words.get(..WORDS)?;
    let number = |at: usize| number(words[at]);
    let [n, s, c] = [0, 1, 2].map(number);
    if !sizes_in_range(n, s, c) {
        return None;
    }
    let group = |index: u32| group_of(n, group_at(words, index as usize));
    let line = |index: u32| {
        let at = FIRST_LINE + LINE_WORDS * index as usize;
        let members: Vec<u32> = (0..MEMBERS).map(|member| number(at + 2 + member)).collect();
        line_of(s, number(at), number(at + 1), &members)
    };
    Some(Model { entrants: n, groups: (0..s).map(group).collect::<Option<_>>()?, constraints: (0..c).map(line).collect::<Option<_>>()? })
}

/// A group as its words have it, in range or not.
pub fn group_at(words: &[u64], index: usize) -> Group {
    let word = |at: usize| words.get(FIRST_GROUP + GROUP_WORDS * index + at).copied().unwrap_or(0);
    Group { fixed: word(0), possible: word(1), low: number(word(2)), high: number(word(3)) }
}

/// Entrants up to n, fixed within possible, low ≤ high ≤ n.
fn group_of(n: u32, group: Group) -> Option<Group> {
    let good = group.possible & !first_entrants(n) == 0 && group.fixed & !group.possible == 0 && group.low <= group.high && group.high <= n;
    good.then_some(group)
}

/// A code and its k as on a sheet, groups 1 to s, all different.
fn line_of(s: u32, code: u32, k: u32, members: &[u32]) -> Option<Constraint> {
    let many = match code {
        1 | 2 | 7 => 2,
        3..=5 => 3,
        6 if (UNION_MIN..=UNION_MAX).contains(&k) => 1 + k as usize,
        _ => return None,
    };
    let members = &members[..many];
    let good = |at: usize| (1..=s).contains(&members[at]) && !members[..at].contains(&members[at]);
    (0..many).all(good).then(|| Constraint { code, groups: members.iter().map(|&number| number as usize - 1).collect() })
}

#[cfg(test)]
mod tests {
    use super::*;
    use crate::sheet::read;

    const SHEET: &str = "   1   3   2   1\n   2   1   1   1   1   1   1\n   2   2   0   3   1   1   0\n   3   2   1   2\n";

    #[test]
    fn words_and_back_whatever_stands_past_the_model() {
        let model = read(SHEET.as_bytes()).unwrap();
        for rest in [0, 7, u64::MAX] {
            assert_eq!(from_words(&to_words(&model, rest)), Ok(model.clone()));
        }
    }

    /// Its count is ignored, and what stands past its two groups.
    #[test]
    fn a_line_of_code_7() {
        let words = to_words(&read(SHEET.replace("   3   2   1   2\n", "   3   7   1   2\n").as_bytes()).unwrap(), 0);
        assert_eq!(words[1027..1032], [7, 0, 1, 2, 0]);
        let seven = 7 | 1 << 32;
        for (place, value, wanted) in
            [(1027, seven, Err(20)), (1028, 17, Ok(7)), (1028, u64::MAX, Ok(7)), (1031, 1, Ok(7)), (1031, 257, Ok(7)), (1029, 2, Err(20)), (1030, 3, Err(20))]
        {
            let mut words = words.clone();
            words[place] = value;
            assert_eq!(from_words(&words).map(|model| model.constraints[0].code), wanted, "word {place} as {value}");
        }
    }

    #[test]
    fn refusal_20_by_each_field() {
        let words = to_words(&read(SHEET.as_bytes()).unwrap(), 0);
        let bad = [(0, 65), (1, 257), (1, 1), (2, 257), (3, 16), (4, 8), (5, 2), (6, 4), (1027, 0), (1027, 6), (1027, 8), (1029, 3), (1029, 2), (1030, 0)];
        for (place, value) in bad {
            let mut words = words.clone();
            words[place] = value;
            assert_eq!(from_words(&words), Err(20), "word {place} as {value}");
        }
    }

    #[test]
    fn a_number_of_more_than_32_bits_is_20_in_every_field() {
        let words = to_words(&read(SHEET.as_bytes()).unwrap(), 0);
        for place in [0, 1, 2, 5, 6, 9, 10, 1027, 1029, 1030] {
            for more in [1 << 32, 1 << 63] {
                let mut words = words.clone();
                words[place] += more;
                assert_eq!(from_words(&words), Err(20), "word {place} and {more:#x} more");
            }
        }
    }

    #[test]
    fn fewer_words_than_a_model_has_are_20_and_more_are_ignored() {
        let model = read(SHEET.as_bytes()).unwrap();
        let words = to_words(&model, 0);
        for many in 0..WORDS {
            assert_eq!(from_words(&words[..many]), Err(20), "{many} words");
        }
        assert_eq!(from_words(&[&words[..], &[7]].concat()), Ok(model));
    }

    /// Groups past those of the sheet are empty, and have no entrant past n.
    #[test]
    fn up_to_64_entrants_and_96_groups_of_more_than_32() {
        let model = read(SHEET.as_bytes()).unwrap();
        for (n, s, good) in
            [(32, 256, true), (32, 257, false), (33, 96, true), (33, 97, false), (64, 96, true), (64, 97, false), (64, 256, false), (65, 1, false)]
        {
            let mut words = to_words(&model, 0);
            (words[0], words[1]) = (n, s);
            assert_eq!(from_words(&words).is_ok(), good, "{n} entrants, {s} groups");
        }
    }

    #[test]
    fn an_entrant_past_n_is_20_and_entrant_64_is_not() {
        for (n, last, good) in [(33, 32, true), (33, 33, false), (63, 62, true), (63, 63, false), (64, 63, true)] {
            let mut words = to_words(&read(SHEET.as_bytes()).unwrap(), 0);
            (words[0], words[FIRST_GROUP + 1]) = (n, 7 | 1 << last);
            assert_eq!(from_words(&words).is_ok(), good, "{n} entrants, bit {last}");
        }
    }
}

//! Two sheets over the same entrants and groups as one, by the desk's rule: refusals 31 to 33.
use crate::model::*;
use crate::refusal::*;
use std::fmt;

/// The combined model, or refusal 31, 32 or 33.
pub fn combine(first: &Model, second: &Model) -> Result<Model, u32> {
    if first.entrants != second.entrants || first.groups.len() != second.groups.len() {
        return Err(OTHER_SIZE);
    }
    if clash(first, second).is_some() {
        return Err(CLASH);
    }
    if first.constraints.len() + second.constraints.len() > LINES as usize {
        return Err(TOO_MANY_LINES);
    }
    let groups = first.groups.iter().zip(&second.groups).map(|(one, other)| both(one, other)).collect();
    Ok(Model { entrants: first.entrants, groups, constraints: [&first.constraints[..], &second.constraints[..]].concat() })
}

/// Barred if either bars, fixed if either fixes, the larger low, the smaller high.
fn both(one: &Group, other: &Group) -> Group {
    Group { fixed: one.fixed | other.fixed, possible: one.possible & other.possible, low: one.low.max(other.low), high: one.high.min(other.high) }
}

/// A group in which the sheets contradict each other, counted from 0, and the first entrant there whom one bars and the other fixes; none where only limits do.
#[derive(Clone, Copy, Debug, PartialEq, Eq)]
pub struct Clash {
    pub group: usize,
    pub entrant: Option<u32>,
}

impl fmt::Display for Clash {
    fn fmt(&self, f: &mut fmt::Formatter) -> fmt::Result {
        write!(f, "group {}", self.group + 1)?;
        self.entrant.map_or(Ok(()), |entrant| write!(f, ", entrant {}", entrant + 1))
    }
}

/// The first group with a clash.
pub fn clash(first: &Model, second: &Model) -> Option<Clash> {
    first.groups.iter().zip(&second.groups).enumerate().find_map(|(group, (one, other))| {
        let marks = barred_and_fixed(one, other) | barred_and_fixed(other, one);
        let both = both(one, other);
        let limits = both.low > both.high;
        (marks != 0 || limits).then(|| Clash { group, entrant: (marks != 0).then(|| marks.trailing_zeros()) })
    })
}

/// The entrants whom one group fixes and the other bars.
pub fn barred_and_fixed(bars: &Group, fixes: &Group) -> u64 {
    fixes.fixed & !bars.possible
}

#[cfg(test)]
mod tests {
    use super::*;
    use crate::compare::random::Random;
    use crate::fill::is_draw;
    use crate::sheet::{read, write};
    use std::collections::BTreeSet;

    const A: &str = "   1   3   2   1\n   2   1   1   1   1   1   1\n   2   2   0   3   1   1   0\n   3   2   1   2\n";

    /// The text of the combined sheet, or the refusal.
    fn combined(first: &str, second: &str) -> Result<String, u32> {
        let model = combine(&read(first.as_bytes()).unwrap(), &read(second.as_bytes()).unwrap())?;
        Ok(String::from_utf8(write(&model)).unwrap())
    }

    #[test]
    fn a_sheet_with_itself_has_its_lines_twice() {
        assert_eq!(combined(A, A), Ok(A.replace("2   1\n", "2   2\n") + "   3   2   1   2\n"));
    }

    #[test]
    fn marks_limits_and_lines_of_both() {
        let first = "   1   5   3   2\n   2   1   0   4   0   1   2   1   2\n   2   2   2   5   1   1   1   1   1\n   2   3   0   0   1   1   1   1   1\n   3   4   1   2   3\n   3   2   1   2\n";
        let second = "   1   5   3   1\n   2   1   1   5   0   0   1   2   2\n   2   2   1   3   1   1   1   1   1\n   2   3   0   5   1   1   1   1   1\n   3   6   2   3   2   1\n";
        let lines = ["   3   4   1   2   3\n   3   2   1   2\n", "   3   6   2   3   2   1\n"];
        let groups = "   2   1   1   4   0   0   2   2   2\n   2   2   2   3   1   1   1   1   1\n   2   3   0   0   1   1   1   1   1\n";
        assert_eq!(combined(first, second), Ok(format!("   1   5   3   3\n{groups}{}{}", lines[0], lines[1])));
        assert_eq!(combined(second, first), Ok(format!("   1   5   3   3\n{groups}{}{}", lines[1], lines[0])));
    }

    #[test]
    fn other_entrants_or_groups_are_31() {
        let (small, wide) = ("   1   1   1   0\n   2   1   0   1   1\n", "   1   2   1   0\n   2   1   0   1   1   1\n");
        let long = "   1   1   2   0\n   2   1   0   1   1\n   2   2   0   1   1\n";
        for (first, second) in [(small, wide), (wide, small), (small, long), (long, small), (wide, long), (long, wide)] {
            assert_eq!(combined(first, second), Err(31));
        }
        // a clash as well
        assert_eq!(combined("   1   1   1   0\n   2   1   0   1   0\n", "   1   2   1   0\n   2   1   0   1   2   1\n"), Err(31));
    }

    #[test]
    fn a_barred_mark_against_a_fixed_one_is_32() {
        let sheet = |marks: &str| format!("   1   3   2   0\n   2   1   0   3   1   1   1\n   2   2   0   3{marks}\n");
        let judge = |one: &str, other: &str| {
            let [one, other] = [one, other].map(|marks| read(sheet(marks).as_bytes()).unwrap());
            (combine(&one, &other).err(), clash(&one, &other))
        };
        for (one, other, entrant) in [("   0   1   1", "   2   1   1", 0), ("   1   1   0", "   1   1   2", 2), ("   1   2   0", "   1   0   2", 1)] {
            let wanted = (Some(32), Some(Clash { group: 1, entrant: Some(entrant) }));
            assert_eq!(wanted.1.unwrap().to_string(), format!("group 2, entrant {}", entrant + 1));
            assert_eq!(judge(one, other), wanted);
            assert_eq!(judge(other, one), wanted);
        }
        for (one, other) in [("   0   1   2", "   0   1   2"), ("   0   1   2", "   1   1   1"), ("   2   0   1", "   1   0   2")] {
            assert_eq!(judge(one, other), (None, None));
        }
    }

    #[test]
    fn entrant_64_by_the_desks_rule() {
        let sheet = |mark: u32| read(format!("   1  64   1   0\n   2   1   0  64{}{mark:4}\n", "   1".repeat(63)).as_bytes()).unwrap();
        for (one, other, mark) in [(0, 0, 0), (0, 1, 0), (1, 0, 0), (1, 1, 1), (1, 2, 2), (2, 1, 2), (2, 2, 2)] {
            assert_eq!(combine(&sheet(one), &sheet(other)), Ok(sheet(mark)));
        }
        for (one, other) in [(0, 2), (2, 0)] {
            assert_eq!(combine(&sheet(one), &sheet(other)), Err(32));
            assert_eq!(clash(&sheet(one), &sheet(other)).unwrap().to_string(), "group 1, entrant 64");
        }
    }

    #[test]
    fn a_low_above_a_high_is_32_and_an_equal_one_is_not() {
        let sheet = |low: u32, high: u32| format!("   1   3   1   0\n   2   1{low:4}{high:4}   1   1   1\n");
        for (one, other, wanted) in [((2, 3), (0, 1), Some(32)), ((2, 3), (0, 2), None), ((0, 0), (1, 1), Some(32)), ((3, 3), (0, 3), None)] {
            let (one, other) = (sheet(one.0, one.1), sheet(other.0, other.1));
            assert_eq!(combined(&one, &other).err(), wanted);
            assert_eq!(combined(&other, &one).err(), wanted);
        }
    }

    /// Two groups, so many lines, and a mark that group 1 has.
    fn sheet_of(lines: usize, mark: u32) -> String {
        format!("   1   1   2{lines:4}\n   2   1   0   1{mark:4}\n   2   2   0   1   1\n{}", "   3   1   1   2\n".repeat(lines))
    }

    #[test]
    fn more_than_256_lines_in_all_are_33_and_32_comes_first() {
        for (one, other, wanted) in [(128, 128, None), (256, 0, None), (0, 256, None), (129, 128, Some(33)), (256, 1, Some(33)), (1, 256, Some(33))] {
            assert_eq!(combined(&sheet_of(one, 1), &sheet_of(other, 1)).err(), wanted);
            assert_eq!(combined(&sheet_of(one, 0), &sheet_of(other, 2)).err(), Some(32));
        }
    }

    /// A model with up to three entrants, three groups and two lines, any marks and limits.
    fn small(random: &mut Random, entrants: u32, groups: usize) -> Model {
        let group = |random: &mut Random| {
            let (fixed, high) = (random.set(entrants, 15), random.from_to(0, entrants as usize) as u32);
            Group { fixed, possible: fixed | random.set(entrants, 80), low: random.below(high as usize + 1) as u32, high }
        };
        let mut model = Model { entrants, groups: (0..groups).map(|_| group(random)).collect(), constraints: Vec::new() };
        for _ in 0..random.below(3) {
            let mut numbers: Vec<usize> = (0..groups).collect();
            random.shuffle(&mut numbers);
            let (code, many) = match groups {
                1 => break,
                2 => (random.pick(&[1, 2, 7]), 2),
                _ => random.pick(&[(1, 2), (2, 2), (3, 3), (4, 3), (5, 3), (6, 3), (7, 2)]),
            };
            numbers.truncate(many);
            model.constraints.push(Constraint { code: code as u32, groups: numbers });
        }
        model
    }

    /// All lists of groups, each with every set of entrants.
    fn all(entrants: u32, groups: usize) -> impl Iterator<Item = Vec<u64>> {
        let everyone = (1 << entrants) - 1;
        (0..1u64 << (entrants as usize * groups)).map(move |word| (0..groups).map(|group| word >> (entrants as usize * group) & everyone).collect())
    }

    /// By going through all sets: the draws of the combined model are those of both, and where the sheets contradict each other there is none of both.
    #[test]
    fn the_draws_of_the_combined_sheet_are_those_of_both() {
        let mut random = Random(41);
        let mut met = BTreeSet::new();
        for _ in 0..3_000 {
            let (entrants, groups) = (random.from_to(1, 3) as u32, random.from_to(1, 3));
            let (first, second) = (small(&mut random, entrants, groups), small(&mut random, entrants, groups));
            let combined = combine(&first, &second);
            let mut draws = 0;
            for sets in all(entrants, groups) {
                let of_both = is_draw(&first, &sets) && is_draw(&second, &sets);
                draws += usize::from(of_both);
                assert_eq!(combined.as_ref().is_ok_and(|model| is_draw(model, &sets)), of_both, "{first:?} {second:?} {sets:?}");
            }
            met.insert((combined.err().unwrap_or(0), draws > 0));
        }
        assert_eq!(met, BTreeSet::from([(0, false), (0, true), (32, false)]));
    }
}

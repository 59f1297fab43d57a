//! Filling: from a draw to the marks of its one satisfying assignment.
use crate::encode::Encoding;
use crate::model::{Constraint, Group, Model};
use crate::refusal::*;

/// Every mark of the draw's assignment, or refusal 30 or 26, and no mark changes. A missing group is empty, those past s are ignored.
pub fn fill(encoding: &Encoding, groups: &[u64], marks: &mut [u8]) -> Result<(), u32> {
    if !is_draw(encoding.settled.model(), groups) {
        return Err(NO_DRAW);
    }
    if marks.len() != encoding.variables {
        return Err(MARKS);
    }
    marks.copy_from_slice(&assignment(encoding, groups));
    Ok(())
}

/// Whether there is a set for each group and they are a draw: all with mark 2, none with mark 0, low to high in number, every line true.
pub fn is_draw(model: &Model, groups: &[u64]) -> bool {
    let fits = |(group, &set): (&Group, &u64)| group.allows(set);
    groups.len() >= model.groups.len() && model.groups.iter().zip(groups).all(fits) && model.constraints.iter().all(|line| line.is_true(groups))
}

impl Group {
    /// Whether a set is within the group's marks and limits.
    pub fn allows(&self, set: u64) -> bool {
        let many = set.count_ones();
        self.fixed & !set == 0 && set & !self.possible == 0 && self.low <= many && many <= self.high
    }
}

impl Constraint {
    /// Whether the line is true of the groups, by its meaning.
    pub fn is_true(&self, groups: &[u64]) -> bool {
        let of = |at: usize| groups[self.groups[at]];
        match self.code {
            1 => of(0) == of(1),
            2 => of(0) & !of(1) == 0,
            3 => of(0) == of(1) & of(2),
            5 => of(0) == of(1) & !of(2),
            7 => of(0) != of(1),
            _ => of(0) == (1..self.groups.len()).fold(0, |union, at| union | of(at)),
        }
    }
}

/// The marks that groups give each open entrant's variable, each counter's outputs and each X.
pub fn assignment(encoding: &Encoding, groups: &[u64]) -> Vec<u8> {
    let mut marks = vec![2; encoding.variables];
    let model = encoding.settled.model();
    for (index, group) in model.groups.iter().enumerate() {
        let open: Vec<u32> = (0..model.entrants).filter(|e| group.open() >> e & 1 == 1).collect();
        for &entrant in open.iter().filter(|&e| groups[index] >> e & 1 == 1) {
            marks[encoding.variable(index, entrant) as usize - 1] = 1;
        }
        if let Some((mut next, size)) = encoding.counter_start(index) {
            count(encoding.variable(index, open[0]) as usize, size as usize, &mut next, &mut marks);
        }
    }
    for (index, line) in model.constraints.iter().enumerate().filter(|(_, line)| line.code == 7) {
        let (f, g) = (groups[line.groups[0]], groups[line.groups[1]]);
        for (entrant, x) in encoding.each_x(index) {
            marks[x as usize - 1] = if (f ^ g) >> entrant & 1 == 1 { 1 } else { 2 };
        }
    }
    marks
}

/// The number of true leaves of a tree, `size` of them from `leaf` on. Output i of each node is true where at least i of its leaves are.
fn count(leaf: usize, size: usize, next: &mut i32, marks: &mut [u8]) -> usize {
    if size < 2 {
        return (0..size).filter(|at| marks[leaf + at - 1] == 1).count();
    }
    let many = count(leaf, size / 2, next, marks) + count(leaf + size / 2, size - size / 2, next, marks);
    let first = *next as usize - 1;
    *next += size as i32;
    marks[first..first + many].fill(1);
    many
}

/// The longest `v` line, in columns.
const COLUMNS: usize = 78;

/// The marks as `v` lines with a closing 0.
pub fn lines(marks: &[u8]) -> String {
    let literals = marks.iter().enumerate().map(|(at, &mark)| format!(" {}{}", if mark == 1 { "" } else { "-" }, at + 1));
    let (mut text, mut line) = (String::new(), "v".to_string());
    for word in literals.chain([" 0".to_string()]) {
        if line.len() + word.len() > COLUMNS {
            text += &format!("{line}\n");
            line.truncate(1);
        }
        line += &word;
    }
    text + &line + "\n"
}

#[cfg(test)]
mod tests {
    use super::*;
    use crate::close::close;
    use crate::settle::{settle, Settled};
    use crate::sheet::read;

    const A: &str = "   1   3   2   1\n   2   1   1   1   1   1   1\n   2   2   0   3   1   1   0\n   3   2   1   2\n";
    const D_WITHOUT_LIMITS: &str = "   1   2   1   0\n   2   1   0   2   1   0\n";
    const E: &str = "   1   2   1   0\n   2   1   0   1   2   1\n";

    /// Bytes that no mark has.
    const JUNK: u8 = 0xA5;

    fn settled(sheet: &str) -> Settled {
        settle(read(sheet.as_bytes()).unwrap()).unwrap()
    }

    /// The answer on so many marks, and the marks afterwards.
    fn filled(sheet: &str, groups: &[u64], length: usize) -> (Result<(), u32>, Vec<u8>) {
        let settled = settled(sheet);
        let mut marks = vec![JUNK; length];
        let answer = fill(&Encoding::of(&settled), groups, &mut marks);
        (answer, marks)
    }

    #[test]
    fn example_b() {
        assert_eq!(filled(A, &[1, 1], 8), (Ok(()), vec![1, 2, 1, 2, 1, 2, 1, 2]));
    }

    #[test]
    fn the_four_draws_of_a_close_to_themselves() {
        let settled = settled(A);
        let encoding = Encoding::of(&settled);
        for draw in [[1, 1], [2, 2], [1, 3], [2, 3]] {
            let mut marks = vec![JUNK; encoding.variables];
            assert_eq!(fill(&encoding, &draw, &mut marks), Ok(()));
            assert_eq!(close(&encoding, true, &marks), Ok(draw.to_vec()));
        }
    }

    #[test]
    fn no_other_groups_are_draws_of_a() {
        let settled = settled(A);
        let draws = (0..64).filter(|word| is_draw(settled.model(), &[word & 7, word >> 3])).count();
        assert_eq!(draws, 4);
    }

    #[track_caller]
    fn is_refused(sheet: &str, groups: &[u64], length: usize, number: u32) {
        assert_eq!(filled(sheet, groups, length), (Err(number), vec![JUNK; length]));
    }

    #[test]
    fn a_refusal_changes_no_mark_and_30_comes_before_26() {
        for groups in [[1, 2], [0, 0], [3, 3], [4, 4], [1, 5], [1 | 1 << 3, 1 | 1 << 3], [1, 1 | 1 << 63]] {
            is_refused(A, &groups, 8, 30);
            is_refused(A, &groups, 7, 30);
        }
        for length in [0, 7, 9] {
            is_refused(A, &[1, 1], length, 26);
        }
    }

    #[test]
    fn missing_words_are_no_draw_and_those_past_s_are_ignored() {
        assert_eq!(filled(A, &[1, 1, u64::MAX, 4], 8), filled(A, &[1, 1], 8));
        is_refused(A, &[1], 8, 30);
        is_refused(A, &[], 8, 30);
        assert_eq!(filled(D_WITHOUT_LIMITS, &[0], 1), (Ok(()), vec![2]));
        is_refused(D_WITHOUT_LIMITS, &[], 1, 30);
    }

    #[test]
    fn example_e_has_no_variables() {
        assert_eq!(filled(E, &[1], 0), (Ok(()), vec![]));
        is_refused(E, &[3], 0, 30);
        is_refused(E, &[1], 1, 26);
    }

    const DIFFERENT: &str = "   1   2   2   1\n   2   1   0   2   1   1\n   2   2   0   2   1   1\n   3   7   1   2\n";

    #[test]
    fn x_is_true_for_who_is_in_just_one_of_two_groups() {
        assert_eq!(filled(DIFFERENT, &[1, 3], 6), (Ok(()), vec![1, 2, 1, 1, 2, 1]));
        assert_eq!(filled(DIFFERENT, &[1, 2], 6), (Ok(()), vec![1, 2, 2, 1, 1, 1]));
        for same in 0..4 {
            is_refused(DIFFERENT, &[same, same], 6, 30);
        }
        is_refused(DIFFERENT, &[1, 2], 4, 26);
        // they differ by an entrant past n
        is_refused(DIFFERENT, &[1, 1 | 1 << 2], 6, 30);
    }

    #[test]
    fn a_wrong_x_or_all_false_is_28() {
        let settled = settled(DIFFERENT);
        let encoding = Encoding::of(&settled);
        for groups in [[1, 3], [0, 3], [2, 1]] {
            let marks = assignment(&encoding, &groups);
            assert!(close(&encoding, true, &marks).is_ok());
            for x in [4, 5] {
                let mut wrong = marks.clone();
                wrong[x] = 3 - wrong[x];
                assert_eq!(close(&encoding, true, &wrong), Err(28));
            }
        }
        // every X as it should be, and the groups the same
        assert_eq!(close(&encoding, true, &[1, 2, 1, 2, 2, 2]), Err(28));
    }

    /// All marks and limits of two groups of two that must not be the same: as many satisfying assignments as draws, and each draw fills and closes.
    #[test]
    fn draws_match_assignments_one_for_one_where_groups_must_differ() {
        let marks = (0..4).flat_map(|possible| (0..4).filter(move |fixed| fixed & !possible == 0).map(move |fixed| (fixed, possible)));
        let limits = [(0, 2), (1, 1), (0, 1), (1, 2), (2, 2), (0, 0)];
        let groups: Vec<Group> = marks.flat_map(|(fixed, possible)| limits.map(|(low, high)| Group { fixed, possible, low, high })).collect();
        let (mut drawn, mut out) = (0, 0);
        for (f, g) in groups.iter().flat_map(|&f| groups.iter().map(move |&g| (f, g))) {
            let model = Model { entrants: 2, groups: vec![f, g], constraints: vec![Constraint { code: 7, groups: vec![1, 0] }] };
            let draws: Vec<[u64; 2]> = (0..16).map(|word| [word & 3, word >> 2]).filter(|sets| is_draw(&model, sets)).collect();
            assert!(draws.iter().all(|[f, g]| f != g));
            let Some(settled) = settle(model) else {
                assert!(draws.is_empty());
                out += 1;
                continue;
            };
            let encoding = Encoding::of(&settled);
            let marks = |word: u32| (0..encoding.variables).map(|at| 1 + (word >> at & 1) as u8).collect::<Vec<u8>>();
            let satisfying: Vec<_> = (0..1 << encoding.variables).map(marks).filter(|marks| close(&encoding, true, marks).is_ok()).collect();
            assert_eq!(satisfying.len(), draws.len());
            for draw in &draws {
                let mut marks = vec![JUNK; encoding.variables];
                assert_eq!(fill(&encoding, draw, &mut marks), Ok(()));
                assert_eq!(close(&encoding, true, &marks), Ok(draw.to_vec()));
                assert!(satisfying.contains(&marks));
                drawn += 1;
            }
        }
        assert!(drawn > 1_000 && out > 100, "{drawn} draws, {out} without");
    }

    #[test]
    fn lines_of_78_columns() {
        assert_eq!(lines(&[]), "v 0\n");
        assert_eq!(lines(&[1, 2, 1]), "v 1 -2 3 0\n");
        let text = lines(&[2; 1_000]);
        assert_eq!(text.lines().next(), Some("v -1 -2 -3 -4 -5 -6 -7 -8 -9 -10 -11 -12 -13 -14 -15 -16 -17 -18 -19 -20 -21"));
        assert!(text.lines().all(|line| line.len() <= COLUMNS));
        assert!(text.ends_with(" -1000 0\n"));
    }

    #[test]
    fn each_line_by_its_meaning() {
        let sets = [0b0011, 0b0101, 0b0001, 0b0111, 0b0010, 0b1000, 0b1111];
        let is_true = |code: u32, groups: &[usize]| Constraint { code, groups: groups.to_vec() }.is_true(&sets);
        assert!(is_true(1, &[0, 0]) && !is_true(1, &[0, 1]));
        assert!(is_true(2, &[2, 0]) && !is_true(2, &[0, 2]));
        assert!(is_true(3, &[2, 0, 1]) && !is_true(3, &[3, 0, 1]));
        assert!(is_true(4, &[3, 0, 1]) && !is_true(4, &[2, 0, 1]));
        assert!(is_true(5, &[4, 0, 1]) && !is_true(5, &[4, 1, 0]));
        assert!(is_true(6, &[6, 0, 1, 5]) && !is_true(6, &[3, 0, 1, 5]));
        assert!(is_true(7, &[0, 1]) && is_true(7, &[2, 0]) && !is_true(7, &[0, 0]));
    }
}

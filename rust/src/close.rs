//! The closing call: from the solver's marks to the groups.
use crate::answer::said;
use crate::encode::Encoding;
use crate::refusal::*;

/// Each group's entrants, or refusal 26, 27 or 28.
pub fn close(encoding: &Encoding, closed: bool, marks: &[u8]) -> Result<Vec<u64>, u32> {
    if marks.len() != encoding.variables {
        return Err(MARKS);
    }
    if !closed || !marks.iter().all(|&mark| said(mark)) {
        return Err(UNSAID);
    }
    if !satisfies(encoding, marks) {
        return Err(FALSE_CLAUSE);
    }
    Ok(groups(encoding, marks))
}

fn holds(literal: i32, marks: &[u8]) -> bool {
    (marks[literal.unsigned_abs() as usize - 1] == 1) == (literal > 0)
}

/// Whether every clause of the listing has a true literal.
fn satisfies(encoding: &Encoding, marks: &[u8]) -> bool {
    let mut all = true;
    for block in 1..=encoding.blocks() {
        encoding.each_clause(block, &mut |clause| all &= clause.iter().any(|&literal| holds(literal, marks)));
        if !all {
            return false;
        }
    }
    true
}

/// Per group the entrants fixed and the open ones whose variable is true.
pub(crate) fn groups(encoding: &Encoding, marks: &[u8]) -> Vec<u64> {
    let model = encoding.settled.model();
    let drawn = |index: usize, entrant: u32| {
        let open = model.groups[index].open() >> entrant & 1 == 1;
        open && holds(encoding.variable(index, entrant), marks)
    };
    let entrants = |index: usize| (0..model.entrants).filter(|&e| drawn(index, e)).fold(0, |set, e| set | 1 << e);
    model.groups.iter().enumerate().map(|(index, group)| group.fixed | entrants(index)).collect()
}

/// The groups, one a line, as `1: 3 7 9`.
pub fn table(groups: &[u64]) -> String {
    let mut text = String::new();
    for (index, set) in groups.iter().enumerate() {
        text += &format!("{}:", index + 1);
        (0..64).filter(|entrant| set >> entrant & 1 == 1).for_each(|entrant| text += &format!(" {}", entrant + 1));
        text.push('\n');
    }
    text
}

#[cfg(test)]
mod tests {
    use super::*;
    use crate::answer::read_line;
    use crate::settle::settle;
    use crate::sheet::read;

    const A: &str = "   1   3   2   1\n   2   1   1   1   1   1   1\n   2   2   0   3   1   1   0\n   3   2   1   2\n";
    const F: &str = "   1   2   6   3\n   2   1   1   1   1   1\n   2   2   1   1   1   1\n   2   3   1   1   1   1\n   2   4   0   0   1   1\n   2   5   0   0   1   1\n   2   6   0   0   1   1\n   3   3   4   1   2\n   3   3   5   1   3\n   3   3   6   2   3\n";

    fn answer(sheet: &str, line: &str) -> Result<Vec<u64>, u32> {
        let settled = settle(read(sheet.as_bytes()).unwrap()).unwrap();
        let encoding = Encoding::of(&settled);
        let (mut closed, mut marks) = (false, vec![0; encoding.variables]);
        read_line(&mut closed, line.as_bytes(), &mut marks).unwrap();
        close(&encoding, closed, &marks)
    }

    #[test]
    fn examples_b_and_c() {
        assert_eq!(answer(A, "v 1 -2 3 -4 5 -6 7 -8 0"), Ok(vec![1, 1]));
        assert_eq!(answer(A, "v 1 -2 3 -4 -5 -6 7 -8 0"), Err(28));
        assert_eq!(answer(A, "v 1 -2 3 -4 5 -6 7 -8"), Err(27));
        assert_eq!(answer(A, "v 1 -2 3 -4 5 -6 0"), Err(27));
    }

    /// The groups of every satisfying assignment.
    fn draws(sheet: &str) -> Vec<Vec<u64>> {
        let settled = settle(read(sheet.as_bytes()).unwrap()).unwrap();
        let encoding = Encoding::of(&settled);
        let marks = |word: u32| (0..encoding.variables).map(|at| 2 - (word >> at & 1) as u8).collect::<Vec<u8>>();
        (0..1 << encoding.variables).filter_map(|word| close(&encoding, true, &marks(word)).ok()).collect()
    }

    #[test]
    fn a_has_four_draws_and_f_has_none() {
        assert_eq!(draws(A), [[1, 1], [2, 2], [1, 3], [2, 3]].map(|draw| draw.to_vec()));
        assert!(draws(F).is_empty());
    }

    /// As many variables as there can be, said in one line: 96 groups of 64 entrants, each other than the next.
    #[test]
    fn the_most_variables_are_read_back() {
        let groups: String = (1..=96).map(|g| format!("   2{g:4}   1  63{}\n", "   1".repeat(64))).collect();
        let lines: String = (0..256).map(|j| format!("   3   7{:4}{:4}\n", j % 96 + 1, (j + 1) % 96 + 1)).collect();
        let sheet = format!("   1  64  96 256\n{groups}{lines}");
        let draw: Vec<u64> = (0..96).map(|g| 1 << 63 | 1 << (g % 2)).collect();
        let settled = settle(read(sheet.as_bytes()).unwrap()).unwrap();
        let marks = crate::fill::assignment(&Encoding::of(&settled), &draw);
        assert_eq!(marks.len(), 59_392);
        let said: String = marks.iter().zip(1..).map(|(&mark, variable)| format!(" {}", if mark == 1 { variable } else { -variable })).collect();
        assert_eq!(answer(&sheet, &format!("v{said} 0")), Ok(draw));
        assert_eq!(answer(&sheet, &format!("v{said}")), Err(27));
    }

    #[test]
    fn the_marks_length() {
        let settled = settle(read(A.as_bytes()).unwrap()).unwrap();
        let encoding = Encoding::of(&settled);
        assert_eq!(close(&encoding, false, &[]), Err(26));
        assert_eq!(close(&encoding, true, &[1; 7]), Err(26));
    }
}

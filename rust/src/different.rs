//! Groups that must not be the same, code 7: what a table has settled about the two.
use crate::model::{Constraint, Group};

/// The groups F and G of a line of code 7.
#[derive(Clone, Copy)]
pub struct Different<'a> {
    pub f: &'a Group,
    pub g: &'a Group,
}

impl Constraint {
    /// The groups of the line in a table, where its code is 7.
    pub fn different<'a>(&self, groups: &'a [Group]) -> Option<Different<'a>> {
        (self.code == 7).then(|| Different { f: &groups[self.groups[0]], g: &groups[self.groups[1]] })
    }
}

impl Different<'_> {
    /// The entrants who are not settled alike, that is fixed in both groups or not possible in both. Nobody past n is possible, so these are of 1 to n.
    pub fn not_alike(&self) -> u64 {
        (self.f.possible | self.g.possible) & !(self.f.fixed & self.g.fixed)
    }

    /// The entrants who differ already: fixed in one group and not possible in the other.
    pub fn differing(&self) -> u64 {
        self.f.fixed & !self.g.possible | self.g.fixed & !self.f.possible
    }

    /// The entrants who have a variable X: open in at least one group, and none where some entrant differs already.
    pub fn undecided(&self) -> u64 {
        match self.differing() {
            0 => self.f.open() | self.g.open(),
            _ => 0,
        }
    }
}

#[cfg(test)]
mod tests {
    use super::*;

    const N: u32 = 3;

    /// A group with these marks, spelled as a number to base 3.
    fn group(mut marks: u32) -> Group {
        let mut group = Group { fixed: 0, possible: 0, low: 0, high: N };
        for e in 0..N {
            group.fixed |= u64::from(marks % 3 == 2) << e;
            group.possible |= u64::from(marks % 3 >= 1) << e;
            marks /= 3;
        }
        group
    }

    fn mark(group: &Group, e: u32) -> u32 {
        (group.fixed >> e & 1) as u32 + (group.possible >> e & 1) as u32
    }

    /// Entrant by entrant, by the words of the request, for all marks of two groups.
    #[test]
    fn each_entrant_by_its_two_marks() {
        for (f, g) in (0..27).flat_map(|f| (0..27).map(move |g| (group(f), group(g)))) {
            let pair = Different { f: &f, g: &g };
            let marks = |e: u32| (mark(&f, e), mark(&g, e));
            let set = |really: &dyn Fn(u32) -> bool| (0..N).filter(|&e| really(e)).fold(0, |set, e| set | 1 << e);
            assert_eq!(pair.not_alike(), set(&|e| ![(0, 0), (2, 2)].contains(&marks(e))));
            assert_eq!(pair.differing(), set(&|e| [(0, 2), (2, 0)].contains(&marks(e))));
            let open = set(&|e| marks(e).0 == 1 || marks(e).1 == 1);
            assert_eq!(pair.undecided(), if pair.differing() == 0 { open } else { 0 });
        }
    }
}

//! Which rules are due: one that changed nothing is not due again before a group of its changes.
use crate::model::{Constraint, Group, GROUPS, LINES, UNION_MAX};
use crate::settle::{group_rule, limit_rules, mark_rules};

const WORDS: usize = 4;
const _: () = assert!(GROUPS as usize == 64 * WORDS && LINES as usize == 64 * WORDS);

/// A bit for each group or each line.
type Bits = [u64; WORDS];

pub struct Agenda {
    groups: Bits,
    lines: Bits,
    /// The lines that have a group, group by group.
    lines_of: Vec<Bits>,
}

impl Agenda {
    /// Every rule is due.
    pub fn full(groups: usize, constraints: &[Constraint]) -> Agenda {
        let mut lines_of = vec![[0; WORDS]; groups];
        for (number, line) in constraints.iter().enumerate() {
            line.groups.iter().for_each(|&group| set(&mut lines_of[group], number));
        }
        Agenda { groups: [u64::MAX; WORDS], lines: [u64::MAX; WORDS], lines_of }
    }

    /// A pass over the rules that are due when their turn comes. Whether it changed anything.
    pub fn pass(&mut self, everyone: u64, groups: &mut [Group], constraints: &[Constraint]) -> bool {
        let mut changed = false;
        let mut at = next(&self.groups, 0);
        while at < groups.len() {
            let before = groups[at];
            clear(&mut self.groups, at);
            group_rule(&mut groups[at]);
            changed |= self.note(at, &before, &groups[at]);
            at = next(&self.groups, at + 1);
        }
        let mut at = next(&self.lines, 0);
        while at < constraints.len() {
            changed |= self.line(at, everyone, groups, &constraints[at]);
            at = next(&self.lines, at + 1);
        }
        changed
    }

    fn line(&mut self, at: usize, everyone: u64, groups: &mut [Group], line: &Constraint) -> bool {
        let mut before = [Group { fixed: 0, possible: 0, low: 0, high: 0 }; UNION_MAX as usize + 1];
        line.groups.iter().zip(&mut before).for_each(|(&group, seen)| *seen = groups[group]);
        clear(&mut self.lines, at);
        if !(mark_rules(everyone, groups, line) | limit_rules(groups, line)) {
            return false;
        }
        line.groups.iter().zip(&before).for_each(|(&group, seen)| {
            self.note(group, seen, &groups[group]);
        });
        true
    }

    /// Where a group changed, its own rule and its lines are due, the one that changed it included.
    fn note(&mut self, group: usize, before: &Group, now: &Group) -> bool {
        if before == now {
            return false;
        }
        set(&mut self.groups, group);
        self.lines.iter_mut().zip(&self.lines_of[group]).for_each(|(due, more)| *due |= more);
        true
    }
}

fn set(bits: &mut Bits, at: usize) {
    bits[at / 64] |= 1 << (at % 64);
}

fn clear(bits: &mut Bits, at: usize) {
    bits[at / 64] &= !(1 << (at % 64));
}

/// The first bit from a place on; past the last where there is none.
fn next(bits: &Bits, from: usize) -> usize {
    let mut word = from / 64;
    let mut left = bits.get(word).map_or(0, |bits| bits & (u64::MAX << (from % 64)));
    while left == 0 {
        word += 1;
        match bits.get(word) {
            Some(&bits) => left = bits,
            None => return 64 * WORDS,
        }
    }
    64 * word + left.trailing_zeros() as usize
}

#[cfg(test)]
mod tests {
    use super::*;

    #[test]
    fn the_next_bit_in_a_later_word_and_none() {
        let mut bits = [0; WORDS];
        [3, 64, 255].into_iter().for_each(|at| set(&mut bits, at));
        assert_eq!([0, 3, 4, 64, 65, 255, 256].map(|from| next(&bits, from)), [3, 3, 64, 64, 255, 255, 256]);
        clear(&mut bits, 255);
        assert_eq!(next(&bits, 65), 256);
    }
}

//! The paper's table of clauses by code, for one entrant.
use crate::model::{Constraint, Group, UNION_MAX};

/// "In the group" or "not in the group"; the group counted from 0.
#[derive(Clone, Copy, Debug, PartialEq, Eq)]
pub struct Literal {
    pub group: usize,
    pub positive: bool,
}

fn is(group: usize) -> Literal {
    Literal { group, positive: true }
}

fn not(group: usize) -> Literal {
    Literal { group, positive: false }
}

impl Literal {
    /// The entrants for whom this literal is settled true.
    pub fn holds(self, groups: &[Group]) -> u64 {
        let group = &groups[self.group];
        if self.positive {
            group.fixed
        } else {
            !group.possible
        }
    }

    /// The entrants for whom this literal is settled false.
    pub fn fails(self, groups: &[Group]) -> u64 {
        let group = &groups[self.group];
        if self.positive {
            !group.possible
        } else {
            group.fixed
        }
    }
}

impl Constraint {
    /// Calls `visit` with each clause of the line, in order; a line of code 7 has none without an X.
    pub fn each_clause(&self, mut visit: impl FnMut(&[Literal])) {
        let g = &self.groups;
        match self.code {
            1 => {
                visit(&[not(g[0]), is(g[1])]);
                visit(&[is(g[0]), not(g[1])]);
            }
            2 => visit(&[not(g[0]), is(g[1])]),
            3 => {
                visit(&[not(g[1]), not(g[2]), is(g[0])]);
                visit(&[is(g[1]), not(g[0])]);
                visit(&[is(g[2]), not(g[0])]);
            }
            4 => {
                visit(&[is(g[1]), is(g[2]), not(g[0])]);
                visit(&[not(g[1]), is(g[0])]);
                visit(&[not(g[2]), is(g[0])]);
            }
            5 => {
                visit(&[not(g[1]), is(g[2]), is(g[0])]);
                visit(&[is(g[1]), not(g[0])]);
                visit(&[not(g[2]), not(g[0])]);
            }
            6 => union_clauses(g[0], &g[1..], visit),
            _ => {}
        }
    }

    /// The clauses that tie an entrant's X in a line of code 7, in order: two literals, then X where it is true here, else -X.
    pub fn ties(&self) -> [([Literal; 2], bool); 4] {
        let (f, g) = (self.groups[0], self.groups[1]);
        [([not(f), not(g)], false), ([is(f), is(g)], false), ([not(f), is(g)], true), ([is(f), not(g)], true)]
    }
}

fn union_clauses(whole: usize, members: &[usize], mut visit: impl FnMut(&[Literal])) {
    let mut long = [not(whole); UNION_MAX as usize + 1];
    for (literal, &member) in long.iter_mut().zip(members) {
        *literal = is(member);
    }
    visit(&long[..=members.len()]);
    for &member in members {
        visit(&[not(member), is(whole)]);
    }
}

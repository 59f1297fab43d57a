//! Propagation with two watched literals. Clauses that are needed go first, so that few others come to be.
use super::clauses::{Clause, Clauses, Literal, NONE};

const OPEN: u8 = 0;
const TRUE: u8 = 1;
const FALSE: u8 = 2;

/// Tags of a clause.
pub const NEEDED: u32 = 1;
pub const WATCHED: u32 = 2;

/// The two orders of visits: clauses that are needed, and all others.
const FIRST: usize = 0;
const LATER: usize = 1;

#[derive(Clone, Copy)]
struct Watch {
    clause: Clause,
    /// Another literal of the clause: where it is true, the clause need not be looked at.
    blocker: Literal,
}

#[derive(Default)]
pub struct Propagation {
    pub clauses: Clauses,
    /// What is true, in the order in which it came to be.
    pub trail: Vec<Literal>,
    /// By literal, the clauses to look at when it becomes false: the first two literals of each are watched.
    watches: [Vec<Vec<Watch>>; 2],
    values: Vec<u8>,
    reasons: Vec<Clause>,
    /// How far the trail is visited.
    heads: [usize; 2],
}

impl Propagation {
    pub fn new(variables: u32) -> Propagation {
        let literals = 2 * variables as usize + 2;
        Propagation {
            watches: [vec![Vec::new(); literals], vec![Vec::new(); literals]],
            values: vec![OPEN; literals],
            reasons: vec![NONE; variables as usize + 1],
            ..Propagation::default()
        }
    }

    pub fn is_true(&self, literal: Literal) -> bool {
        self.values[literal as usize] == TRUE
    }

    pub fn is_false(&self, literal: Literal) -> bool {
        self.values[literal as usize] == FALSE
    }

    /// The clause by which a variable has its value, `NONE` where it was assumed.
    pub fn reason(&self, literal: Literal) -> Clause {
        self.reasons[literal as usize / 2]
    }

    pub fn has(&self, clause: Clause, tag: u32) -> bool {
        self.clauses.tag(clause) & tag != 0
    }

    pub fn add_tag(&mut self, clause: Clause, tag: u32) {
        self.clauses.set_tag(clause, self.clauses.tag(clause) | tag);
    }

    fn order(&self, clause: Clause) -> usize {
        if self.has(clause, NEEDED) {
            FIRST
        } else {
            LATER
        }
    }

    /// Makes an open literal true.
    pub fn assign(&mut self, literal: Literal, reason: Clause) {
        self.values[literal as usize] = TRUE;
        self.values[literal as usize ^ 1] = FALSE;
        self.reasons[literal as usize / 2] = reason;
        self.trail.push(literal);
    }

    pub fn undo(&mut self, length: usize) {
        for literal in self.trail.drain(length..) {
            self.values[literal as usize] = OPEN;
            self.values[literal as usize ^ 1] = OPEN;
        }
        self.heads = [length; 2];
    }

    /// Watches the first two literals.
    pub fn watch(&mut self, clause: Clause) {
        let &[one, other, ..] = self.clauses.literals(clause) else { return };
        let order = self.order(clause);
        self.watches[order][one as usize].push(Watch { clause, blocker: other });
        self.watches[order][other as usize].push(Watch { clause, blocker: one });
        self.add_tag(clause, WATCHED);
    }

    pub fn unwatch(&mut self, clause: Clause) {
        let &[one, other, ..] = self.clauses.literals(clause) else { return };
        for literal in [one, other] {
            for order in [FIRST, LATER] {
                let list = &mut self.watches[order][literal as usize];
                if let Some(at) = list.iter().position(|watch| watch.clause == clause) {
                    list.swap_remove(at);
                    break;
                }
            }
        }
        self.clauses.set_tag(clause, self.clauses.tag(clause) & !WATCHED);
    }

    /// Makes true what clauses with one open literal ask for, until nothing is left to do or a clause is false.
    pub fn propagate(&mut self) -> Option<Clause> {
        loop {
            let order = if self.heads[FIRST] < self.trail.len() { FIRST } else { LATER };
            let &literal = self.trail.get(self.heads[order])?;
            self.heads[order] += 1;
            let conflict = self.visit(order, literal ^ 1);
            if conflict.is_some() {
                return conflict;
            }
        }
    }

    /// Looks at the clauses that watch a literal which is false now.
    fn visit(&mut self, order: usize, gone: Literal) -> Option<Clause> {
        let mut list = std::mem::take(&mut self.watches[order][gone as usize]);
        let (mut at, mut kept) = (0, 0);
        let mut conflict = None;
        while at < list.len() && conflict.is_none() {
            let mut watch = list[at];
            at += 1;
            if !self.is_true(watch.blocker) {
                let Some(other) = self.stays(watch.clause, gone) else { continue };
                watch.blocker = other;
                match self.values[other as usize] {
                    OPEN => self.assign(other, watch.clause),
                    FALSE => conflict = Some(watch.clause),
                    _ => {}
                }
                if self.order(watch.clause) != order {
                    self.watches[FIRST][gone as usize].push(watch);
                    continue;
                }
            }
            list[kept] = watch;
            kept += 1;
        }
        list.drain(kept..at);
        self.watches[order][gone as usize] = list;
        conflict
    }

    /// The other watched literal, where the clause must go on watching the false one: the other is true, or all the rest is false.
    /// Else a literal that is not false is watched in its place.
    fn stays(&mut self, clause: Clause, gone: Literal) -> Option<Literal> {
        let literals = self.clauses.literals_mut(clause);
        if literals[0] == gone {
            literals.swap(0, 1);
        }
        let other = literals[0];
        if self.values[other as usize] == TRUE {
            return Some(other);
        }
        let values = &self.values;
        let Some(at) = (2..literals.len()).find(|&at| values[literals[at] as usize] != FALSE) else { return Some(other) };
        literals.swap(1, at);
        let new = literals[1];
        self.watches[self.order(clause)][new as usize].push(Watch { clause, blocker: other });
        None
    }
}

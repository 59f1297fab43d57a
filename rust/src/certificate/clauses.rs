//! Clauses one after the other in one vector of words.

/// 2v for variable v, 2v + 1 for its negation.
pub type Literal = u32;

/// A clause by the place where it starts; below 2^31.
pub type Clause = u32;

/// No clause: the reason of what is assumed.
pub const NONE: Clause = u32::MAX;

/// Each clause is its length, a word of its user's, and its literals.
const HEAD: usize = 2;

#[derive(Default)]
pub struct Clauses {
    words: Vec<u32>,
}

impl Clauses {
    pub fn push(&mut self, literals: &[Literal]) -> Clause {
        let clause = self.words.len() as Clause;
        self.words.extend_from_slice(&[literals.len() as u32, 0]);
        self.words.extend_from_slice(literals);
        clause
    }

    fn range(&self, clause: Clause) -> std::ops::Range<usize> {
        let start = clause as usize + HEAD;
        start..start + self.words[clause as usize] as usize
    }

    pub fn literals(&self, clause: Clause) -> &[Literal] {
        &self.words[self.range(clause)]
    }

    pub fn literals_mut(&mut self, clause: Clause) -> &mut [Literal] {
        let range = self.range(clause);
        &mut self.words[range]
    }

    /// Keeps the first `length` literals.
    pub fn shorten(&mut self, clause: Clause, length: usize) {
        self.words[clause as usize] = length as u32;
    }

    pub fn tag(&self, clause: Clause) -> u32 {
        self.words[clause as usize + 1]
    }

    pub fn set_tag(&mut self, clause: Clause, tag: u32) {
        self.words[clause as usize + 1] = tag;
    }

    /// The first `many` clauses, as long as none of them was shortened.
    pub fn first(&self, many: usize) -> Vec<Clause> {
        let next = |&clause: &Clause| Some(self.range(clause).end as Clause);
        std::iter::successors(Some(0), next).take(many).collect()
    }
}

/// A literal by its number, negative for a negation.
pub fn literal(number: i32) -> Literal {
    2 * number.unsigned_abs() + u32::from(number < 0)
}

/// Sorted, none twice.
pub fn normalize(literals: &mut Vec<Literal>) {
    literals.sort_unstable();
    literals.dedup();
}

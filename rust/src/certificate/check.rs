//! A plain check of a certificate, written from its format alone: the counterpart of the proved checker.
use super::lrat::{read_line, Line};
use std::collections::{HashMap, HashSet};

/// What a caller's memory allows.
#[derive(Clone, Copy)]
pub struct Limits {
    /// Numbers of clauses are below this.
    pub numbers: usize,
    /// So are literals as words, 2v for variable v and 2v + 1 for its negation.
    pub literals: usize,
}

pub struct Check {
    pub certified: bool,
    /// The most words that the clauses took at one time: of each its length and two.
    pub live: usize,
    /// The words of all clauses that ever were.
    pub all: usize,
}

/// Whether a certificate derives the empty clause from a formula.
pub fn check(formula: &[Vec<i32>], certificate: &[u8], limits: Limits) -> Check {
    let mut checker = Checker { clauses: HashMap::new(), limits, now: 0, check: Check { certified: false, live: 0, all: 0 } };
    (1..).zip(formula).for_each(|(number, clause)| checker.store(number, clause.clone()));
    if (1..).zip(formula).all(|(number, clause)| checker.in_limits(number, clause)) {
        checker.check.certified = checker.run(certificate).is_some();
    }
    checker.check
}

struct Checker {
    clauses: HashMap<u32, Vec<i32>>,
    limits: Limits,
    now: usize,
    check: Check,
}

impl Checker {
    /// Line by line to the first empty clause; none where a line is refused or there is no such clause.
    fn run(&mut self, certificate: &[u8]) -> Option<()> {
        for line in certificate.split_inclusive(|&byte| byte == b'\n') {
            match read_line(line)? {
                Line::Deletion { numbers } => {
                    if !numbers.iter().all(|&number| self.in_limits(number, &[])) {
                        return None;
                    }
                    numbers.into_iter().for_each(|number| self.delete(number));
                }
                Line::Lemma { number, literals, hints } => {
                    if !self.in_limits(number, &literals) || !self.follows(&literals, &hints)? {
                        return None;
                    }
                    if literals.is_empty() {
                        return Some(());
                    }
                    self.store(number, literals);
                }
            }
        }
        None
    }

    fn in_limits(&self, number: u32, literals: &[i32]) -> bool {
        let word = |literal: &i32| 2 * literal.unsigned_abs() as usize + 1;
        (number as usize) < self.limits.numbers && literals.iter().all(|literal| word(literal) < self.limits.literals)
    }

    /// Whether the hints, one after the other, lead from the negation of a lemma to a false clause; none where one is neither false nor a unit.
    fn follows(&self, lemma: &[i32], hints: &[u32]) -> Option<bool> {
        let mut assumed: HashSet<i32> = lemma.iter().map(|literal| -literal).collect();
        for hint in hints {
            let mut open = self.clauses.get(hint)?.iter().filter(|&literal| !assumed.contains(&-literal));
            let Some(&unit) = open.next() else { return Some(true) };
            if open.next().is_some() {
                return None;
            }
            assumed.insert(unit);
        }
        Some(false)
    }

    fn store(&mut self, number: u32, clause: Vec<i32>) {
        self.delete(number);
        self.now += clause.len() + 2;
        self.check.all += clause.len() + 2;
        self.check.live = self.check.live.max(self.now);
        self.clauses.insert(number, clause);
    }

    fn delete(&mut self, number: u32) {
        self.now -= self.clauses.remove(&number).map_or(0, |clause| clause.len() + 2);
    }
}

#[cfg(test)]
mod tests {
    use super::*;

    const LIMITS: Limits = Limits { numbers: 100, literals: 10 };

    fn certified(certificate: &str) -> bool {
        let formula = [vec![1, 2], vec![1, -2], vec![-1, 2], vec![-1, -2]];
        check(&formula, certificate.as_bytes(), LIMITS).certified
    }

    #[test]
    fn a_certificate() {
        assert!(certified("5 1 0 1 2 0\n5 d 1 2 0\n6 0 5 3 4 0\n"));
        assert!(certified("1 1 0 1 2 0\n9 0 1 3 4 0\nanything"));
        assert!(certified("5 1 -1 2 0 1 0\n5 1 0 1 2 0\n6 0 5 3 4 0\n"));
    }

    #[test]
    fn what_is_none() {
        for certificate in [
            "",
            "5 1 0 1 2 0\n",
            "5 0 1 2 0\n",
            "5 1 0 1 0\n6 0 5 3 4 0\n",
            "5 1 0 1 2 0\n6 0 5 3 4 0",
            "5 1 0 1 2 0\n5 d 3 0\n6 0 5 3 4 0\n",
            "5 1 0 7 1 2 0\n6 0 5 3 4 0\n",
            "100 1 0 1 2 0\n6 0 100 3 4 0\n",
            "5 1 5 0 1 2 0\n6 0 5 3 4 0\n",
            "5 1 1 0 1 2 0\n6 0 5 3 4 0\n",
        ] {
            assert!(!certified(certificate), "{certificate}");
        }
    }
}

//! Hints for a solver's proof. Forward, lemmas and deletions are taken as they come, with the units that follow, until a clause is false.
//! Backward from there, each lemma that is needed is checked by propagation; what the check used are its hints, and is needed in turn.
use super::clauses::{normalize, Clause, Clauses, Literal, NONE};
use super::dimacs::Listing;
use super::drat::{each_step, Step};
use super::propagate::{Propagation, NEEDED, WATCHED};
use super::Fault;
use std::collections::HashMap;

/// The derivations of what the empty clause needs.
pub struct Refutation {
    pub clauses: Clauses,
    /// How many of the clauses are the listing's.
    pub listed: usize,
    /// From the empty clause back. Every implied unit is a clause of its own.
    pub derivations: Vec<Derivation>,
    hints: Vec<u32>,
}

pub struct Derivation {
    pub clause: Clause,
    first: usize,
    last: usize,
}

pub struct Hint {
    pub clause: Clause,
    /// No later derivation uses the clause.
    pub last_use: bool,
}

/// The bit of a hint's word that says so.
const LAST_USE: u32 = 1 << 31;

/// The most bytes of listing and proof together: places of clauses, of which each takes no more words than bytes, stay below 2^31.
const MOST_BYTES: usize = 1 << 30;

impl Refutation {
    pub fn hints(&self, derivation: &Derivation) -> impl Iterator<Item = Hint> + '_ {
        let words = &self.hints[derivation.first..derivation.last];
        words.iter().map(|&word| Hint { clause: word & !LAST_USE, last_use: word & LAST_USE != 0 })
    }

    pub fn is_needed(&self, clause: Clause) -> bool {
        self.clauses.tag(clause) & NEEDED != 0
    }
}

/// Elaborates a proof of a listing. `progress` is told how many steps of how many are done.
pub fn elaborate(listing: &[u8], proof: &[u8], progress: &mut dyn FnMut(usize, usize)) -> Result<Refutation, Fault> {
    if listing.len().saturating_add(proof.len()) > MOST_BYTES {
        return Err(Fault::Form("listing and proof are longer than 1 GiB".to_string()));
    }
    let mut elaborator = Elaborator::new(listing)?;
    let steps = elaborator.read(proof)?;
    let conflict = elaborator.forward(&steps)?;
    elaborator.conclude(conflict);
    elaborator.backward(progress)?;
    let Elaborator { propagation, listed, derivations, hints, .. } = elaborator;
    Ok(Refutation { clauses: propagation.clauses, listed, derivations, hints })
}

/// What was done going forward, to be undone.
enum Done {
    /// The lemma's number in the proof, and the trail's length before it.
    Lemma {
        clause: Clause,
        number: usize,
        trail: usize,
    },
    Deletion {
        clause: Clause,
    },
}

struct Elaborator {
    propagation: Propagation,
    variables: u32,
    listed: usize,
    /// By variable, the unit clause that fixes it.
    units: Vec<Clause>,
    done: Vec<Done>,
    derivations: Vec<Derivation>,
    hints: Vec<u32>,
    /// By variable, the last check that met it.
    seen: Vec<usize>,
}

impl Elaborator {
    fn new(listing: &[u8]) -> Result<Elaborator, Fault> {
        let listing = Listing::new(listing)?;
        let mut propagation = Propagation::new(listing.variables);
        listing.each_clause(|literals| {
            normalize(literals);
            propagation.clauses.push(literals);
        })?;
        let variables = listing.variables as usize + 1;
        Ok(Elaborator {
            propagation,
            variables: listing.variables,
            listed: listing.clauses,
            units: vec![NONE; variables],
            done: Vec::new(),
            derivations: Vec::new(),
            hints: Vec::new(),
            seen: vec![0; variables],
        })
    }

    /// The proof's steps, each deletion with the clause that it means; one that means none is passed over.
    fn read(&mut self, proof: &[u8]) -> Result<Vec<(Step, Clause)>, Fault> {
        let clauses = &mut self.propagation.clauses;
        let mut live: HashMap<Vec<Literal>, Vec<Clause>> = HashMap::new();
        for clause in clauses.first(self.listed) {
            live.entry(clauses.literals(clause).to_vec()).or_default().push(clause);
        }
        let mut steps = Vec::new();
        each_step(proof, self.variables, |step, literals| {
            normalize(literals);
            if step == Step::Lemma {
                let clause = clauses.push(literals);
                live.entry(literals.clone()).or_default().push(clause);
                steps.push((step, clause));
            } else if let Some(same) = live.get_mut(literals) {
                steps.extend(same.pop().map(|clause| (step, clause)));
                if same.is_empty() {
                    live.remove(literals);
                }
            }
        })?;
        Ok(steps)
    }

    /// Takes the listing and then the steps until a clause is false, and gives that clause.
    fn forward(&mut self, steps: &[(Step, Clause)]) -> Result<Clause, Fault> {
        for clause in self.propagation.clauses.first(self.listed) {
            let open = self.arrange(clause);
            if let Some(conflict) = self.add(clause, open) {
                return Ok(conflict);
            }
        }
        let mut number = 0;
        for &(step, clause) in steps {
            if step == Step::Deletion {
                self.delete(clause);
                continue;
            }
            number += 1;
            if let Some(conflict) = self.add_lemma(clause, number)? {
                return Ok(conflict);
            }
        }
        Err(Fault::NoRefutation)
    }

    /// Moves the literals that are not false to the front and gives their number; none where one is true.
    fn arrange(&mut self, clause: Clause) -> Option<usize> {
        let mut open = 0;
        for at in 0..self.propagation.clauses.literals(clause).len() {
            let literal = self.propagation.clauses.literals(clause)[at];
            if self.propagation.is_true(literal) {
                return None;
            }
            if !self.propagation.is_false(literal) {
                self.propagation.clauses.literals_mut(clause).swap(open, at);
                open += 1;
            }
        }
        Some(open)
    }

    /// Takes in a clause, arranged. One that is true, now and until it goes again, is of no use.
    fn add(&mut self, clause: Clause, open: Option<usize>) -> Option<Clause> {
        match open? {
            0 => return Some(clause),
            1 => {
                let literal = self.propagation.clauses.literals(clause)[0];
                self.propagation.assign(literal, clause);
                return self.fix();
            }
            _ => self.propagation.watch(clause),
        }
        None
    }

    /// Takes in a lemma, without the literals that are false already.
    fn add_lemma(&mut self, clause: Clause, number: usize) -> Result<Option<Clause>, Fault> {
        let open = self.arrange(clause);
        match open {
            None => return Ok(None),
            Some(0) => return Err(Fault::NoRup(number)),
            Some(open) => self.propagation.clauses.shorten(clause, open),
        }
        self.done.push(Done::Lemma { clause, number, trail: self.propagation.trail.len() });
        Ok(self.add(clause, open))
    }

    /// Forgets a clause. What it has implied stays, and so do units.
    fn delete(&mut self, clause: Clause) {
        if self.propagation.has(clause, WATCHED) {
            self.propagation.unwatch(clause);
            self.done.push(Done::Deletion { clause });
        }
    }

    /// Propagates for good: each literal that becomes true gets a unit clause.
    fn fix(&mut self) -> Option<Clause> {
        let from = self.propagation.trail.len() - 1;
        let conflict = self.propagation.propagate();
        for at in from..self.propagation.trail.len() {
            let literal = self.propagation.trail[at];
            let reason = self.propagation.reason(literal);
            let is_unit = self.propagation.clauses.literals(reason).len() == 1;
            self.units[literal as usize / 2] = if is_unit { reason } else { self.propagation.clauses.push(&[literal]) };
        }
        conflict
    }

    /// Derives the empty clause from a false one.
    fn conclude(&mut self, conflict: Clause) {
        let empty = self.propagation.clauses.push(&[]);
        self.derive_fixed(empty, conflict);
    }

    /// Derives a clause from one whose other literals are fixed to be false.
    fn derive_fixed(&mut self, clause: Clause, from: Clause) {
        let first = self.hints.len();
        for at in 0..self.propagation.clauses.literals(from).len() {
            let literal = self.propagation.clauses.literals(from)[at];
            if self.propagation.is_false(literal) {
                self.hint(self.units[literal as usize / 2]);
            }
        }
        self.hint(from);
        self.derivations.push(Derivation { clause, first, last: self.hints.len() });
    }

    /// Adds a hint. The first one of a clause, on the way back, is its last use.
    fn hint(&mut self, clause: Clause) {
        let last_use = if self.propagation.has(clause, NEEDED) { 0 } else { LAST_USE };
        self.propagation.add_tag(clause, NEEDED);
        self.hints.push(clause | last_use);
    }

    fn backward(&mut self, progress: &mut dyn FnMut(usize, usize)) -> Result<(), Fault> {
        let all = self.done.len();
        while let Some(done) = self.done.pop() {
            progress(all - self.done.len(), all);
            match done {
                Done::Deletion { clause } => self.propagation.watch(clause),
                Done::Lemma { clause, number, trail } => {
                    self.unfix(trail);
                    if self.propagation.has(clause, WATCHED) {
                        self.propagation.unwatch(clause);
                    }
                    if self.propagation.has(clause, NEEDED) && !self.check(clause) {
                        return Err(Fault::NoRup(number));
                    }
                }
            }
        }
        self.unfix(0);
        Ok(())
    }

    /// Undoes the trail down to a length, and derives the units on the way that are needed.
    fn unfix(&mut self, length: usize) {
        for at in (length..self.propagation.trail.len()).rev() {
            let literal = self.propagation.trail[at];
            let unit = std::mem::replace(&mut self.units[literal as usize / 2], NONE);
            let reason = self.propagation.reason(literal);
            if unit != reason && self.propagation.has(unit, NEEDED) {
                self.derive_fixed(unit, reason);
            }
        }
        self.propagation.undo(length);
    }

    /// Derives a lemma by propagation from its negation; whether that ends in a false clause.
    fn check(&mut self, clause: Clause) -> bool {
        let fixed = self.propagation.trail.len();
        for at in 0..self.propagation.clauses.literals(clause).len() {
            let literal = self.propagation.clauses.literals(clause)[at];
            if !self.propagation.is_false(literal) {
                self.propagation.assign(literal ^ 1, NONE);
            }
        }
        let conflict = self.propagation.propagate();
        if let Some(conflict) = conflict {
            let first = self.hints.len();
            self.explain(conflict, fixed);
            self.derivations.push(Derivation { clause, first, last: self.hints.len() });
        }
        self.propagation.undo(fixed);
        conflict.is_some()
    }

    /// Hints for a conflict: the units that it rests on, then the reasons in the order of the trail, then the false clause.
    fn explain(&mut self, conflict: Clause, fixed: usize) {
        let check = self.derivations.len() + 1;
        let mut chain = vec![conflict];
        self.see(conflict, check);
        for at in (fixed..self.propagation.trail.len()).rev() {
            let literal = self.propagation.trail[at];
            let reason = self.propagation.reason(literal);
            if reason != NONE && self.seen[literal as usize / 2] == check {
                chain.push(reason);
                self.see(reason, check);
            }
        }
        chain.into_iter().rev().for_each(|clause| self.hint(clause));
    }

    /// Notes the variables of a clause; those that are fixed give their units as hints at once.
    fn see(&mut self, clause: Clause, check: usize) {
        for at in 0..self.propagation.clauses.literals(clause).len() {
            let variable = self.propagation.clauses.literals(clause)[at] as usize / 2;
            if std::mem::replace(&mut self.seen[variable], check) != check && self.units[variable] != NONE {
                self.hint(self.units[variable]);
            }
        }
    }
}

#[cfg(test)]
mod tests {
    use super::super::check::{check, Limits};
    use super::super::lrat::write;
    use super::*;
    use crate::compare::random::Random;

    const LISTING: &[u8] = b"p cnf 3 8\n1 2 3 0\n1 2 -3 0\n1 -2 3 0\n1 -2 -3 0\n-1 2 3 0\n-1 2 -3 0\n-1 -2 3 0\n-1 -2 -3 0\n";
    const PROOF: &str = "1 2 0\nd 1 2 3 0\nd 1 2 -3 0\n1 -2 0\n1 0\nd 2 1 0\nd 1 0\nd 1 -2 0\n2 0\n0\n";

    fn certificate(listing: &[u8], proof: &[u8]) -> Result<String, Fault> {
        let mut text = Vec::new();
        write(elaborate(listing, proof, &mut |_, _| {})?, &mut text).unwrap();
        Ok(String::from_utf8(text).unwrap())
    }

    fn is_certified(certificate: &str) -> bool {
        let clauses: Vec<Vec<i32>> = (0..8).map(|signs| (1..4).map(|v| if signs << v & 8 == 0 { v } else { -v }).collect()).collect();
        check(&clauses, certificate.as_bytes(), Limits { numbers: 10, literals: 8 }).certified
    }

    #[test]
    fn hints_deletions_and_numbers_used_again() {
        let text = certificate(LISTING, PROOF.as_bytes()).unwrap();
        let wanted = [
            "9 2 1 0 1 2 0\n9 d 1 2 0\n",
            "2 -2 1 0 3 4 0\n2 d 3 4 0\n",
            "4 1 0 2 9 0\n4 d 2 9 0\n",
            "9 2 0 4 5 6 0\n9 d 5 6 0\n",
            "6 3 0 9 4 7 0\n6 d 7 0\n",
            "7 0 6 9 4 8 0\n",
        ];
        assert_eq!(text, wanted.concat());
        assert!(is_certified(&text));
    }

    #[test]
    fn a_listing_that_propagation_refutes_needs_no_proof() {
        let listing = b"p cnf 3 5\n1 0\n2 3 0\n-1 2 0\n-2 -1 3 0\n-3 -2 0\n";
        assert_eq!(certificate(listing, b"").unwrap(), "5 d 2 0\n2 2 0 1 3 0\n2 d 3 0\n3 3 0 2 1 4 0\n3 d 1 4 0\n4 0 2 3 5 0\n");
    }

    #[test]
    fn what_is_no_proof() {
        assert_eq!(certificate(LISTING, b""), Err(Fault::NoRefutation));
        assert_eq!(certificate(LISTING, b"1 2 0\nd 1 2 0\n"), Err(Fault::NoRefutation));
        assert_eq!(certificate(LISTING, b"1 0\n2 0\n"), Err(Fault::NoRup(1)));
        assert_eq!(certificate(LISTING, b"1 2 0\n0\n"), Err(Fault::NoRup(2)));
        assert_eq!(certificate(b"p cnf 2 1\n1 2 0\n", b"1 0\n-1 0\n"), Err(Fault::NoRup(2)));
        for listing in ["", "\n", "p cnf 1\n", "p cnf 1 1\n2 0\n", "p cnf 1 1\n1\n", "p cnf 1 2\n1 0\n", "p cnf 99999999999 0\n", "p cnf 1 1\nx 0\n"] {
            assert!(matches!(certificate(listing.as_bytes(), b""), Err(Fault::Form(_))), "{listing:?}");
        }
    }

    /// A proof with bytes changed, put in or taken out is refused, or still gives a certificate.
    #[test]
    fn damaged_proofs() {
        let mut random = Random(1);
        let mut certified = 0;
        for _ in 0..20_000 {
            let mut proof = PROOF.as_bytes().to_vec();
            for _ in 0..random.from_to(1, 3) {
                let at = random.below(proof.len());
                match random.below(3) {
                    0 => proof[at] = random.pick(b" -0123d\n\0a"),
                    1 => proof.insert(at, random.pick(b" -0123d\n\0a")),
                    _ => drop(proof.remove(at)),
                }
            }
            if let Ok(text) = certificate(LISTING, &proof) {
                assert!(is_certified(&text), "{}\n{text}", proof.escape_ascii());
                certified += 1;
            }
        }
        assert!(certified > 1_000, "{certified}");
    }
}

//! A naive search through all assignments, by decisions and propagation.

pub enum Found {
    Assignment,
    /// None: the lemmas and deletions that say so, as DRAT text.
    Proof(String),
    /// More lemmas than asked for.
    Nothing,
}

/// Searches for an assignment that makes all clauses true, up to so many lemmas.
pub fn search(clauses: &[Vec<i32>], variables: usize, most: usize) -> Found {
    let mut search = Search { clauses, most, lemmas: 0, proof: String::new(), decisions: Vec::new() };
    match search.refute(vec![0; variables + 1]) {
        Ok(()) => Found::Proof(search.proof),
        Err(found) => found,
    }
}

struct Search<'a> {
    clauses: &'a [Vec<i32>],
    most: usize,
    lemmas: usize,
    proof: String,
    decisions: Vec<i32>,
}

impl Search<'_> {
    /// Shows that nothing is true under the decisions: their negation is a lemma, once both values of a variable have ended so.
    fn refute(&mut self, mut values: Vec<i8>) -> Result<(), Found> {
        if propagate(self.clauses, &mut values) {
            let variable = (1..values.len()).find(|&variable| values[variable] == 0).ok_or(Found::Assignment)?;
            for value in [1, -1] {
                let mut next = values.clone();
                next[variable] = value;
                self.decisions.push(i32::from(value) * variable as i32);
                self.refute(next)?;
                self.decisions.pop();
            }
            self.lemma();
            for value in [1, -1] {
                self.decisions.push(value * variable as i32);
                self.proof += &format!("d {}", self.negated());
                self.decisions.pop();
            }
        } else {
            self.lemma();
        }
        self.lemmas += 1;
        if self.lemmas > self.most {
            return Err(Found::Nothing);
        }
        Ok(())
    }

    fn lemma(&mut self) {
        self.proof += &self.negated();
    }

    fn negated(&self) -> String {
        let literals: String = self.decisions.iter().map(|decision| format!("{} ", -decision)).collect();
        literals + "0\n"
    }
}

/// Makes true what clauses with one open literal ask for; false where a clause is false.
fn propagate(clauses: &[Vec<i32>], values: &mut [i8]) -> bool {
    loop {
        let mut changed = false;
        for clause in clauses {
            let value = |literal: i32| values[literal.unsigned_abs() as usize] * literal.signum() as i8;
            if clause.iter().any(|&literal| value(literal) == 1) {
                continue;
            }
            let mut open = clause.iter().filter(|&&literal| value(literal) == 0);
            let Some(&unit) = open.next() else { return false };
            if open.next().is_none() {
                values[unit.unsigned_abs() as usize] = unit.signum() as i8;
                changed = true;
            }
        }
        if !changed {
            return true;
        }
    }
}

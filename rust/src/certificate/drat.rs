//! Reading a solver's proof: DRAT, as text (`1 -2 0`, `d 1 -2 0`) or in binary (`a` or `d`, literals in sevens of bits, 0).
use super::clauses::Literal;
use super::dimacs::{read_literal, words};
use super::Fault;

#[derive(Clone, Copy, Debug, PartialEq, Eq)]
pub enum Step {
    Lemma,
    Deletion,
}

/// Calls `visit` with each step and its literals, in order.
pub fn each_step(proof: &[u8], variables: u32, visit: impl FnMut(Step, &mut Vec<Literal>)) -> Result<(), Fault> {
    let mut reader = Reader { variables, lemmas: 0, literals: Vec::new(), visit };
    if is_binary(proof) {
        reader.read_binary(proof)
    } else {
        reader.read_text(proof)
    }
}

/// Every binary step ends with a byte 0, and no text has one.
fn is_binary(proof: &[u8]) -> bool {
    proof.contains(&0)
}

struct Reader<F> {
    variables: u32,
    /// The whole lemmas so far.
    lemmas: usize,
    /// Those of the step that is read.
    literals: Vec<Literal>,
    visit: F,
}

impl<F: FnMut(Step, &mut Vec<Literal>)> Reader<F> {
    fn read_text(&mut self, proof: &[u8]) -> Result<(), Fault> {
        let mut begun = None;
        for word in words(proof) {
            if word == b"d" && begun.is_none() {
                begun = Some(Step::Deletion);
                continue;
            }
            let step = begun.unwrap_or(Step::Lemma);
            let literal = read_literal(word, self.variables).ok_or_else(|| self.fault("a word that is no literal of the listing"))?;
            begun = self.take(step, literal);
        }
        self.end(begun)
    }

    fn read_binary(&mut self, proof: &[u8]) -> Result<(), Fault> {
        let mut bytes = proof.iter();
        let mut begun = None;
        loop {
            let Some(step) = begun else {
                begun = match bytes.next() {
                    Some(b'a') => Some(Step::Lemma),
                    Some(b'd') => Some(Step::Deletion),
                    Some(_) => return Err(self.fault("a byte that begins no step")),
                    None => return self.end(begun),
                };
                continue;
            };
            let literal = match binary_number(&mut bytes) {
                Some(number) if number != 1 && number <= 2 * u64::from(self.variables) + 1 => number as Literal,
                Some(_) => return Err(self.fault("a number that is no literal of the listing")),
                None => return self.end(begun),
            };
            begun = self.take(step, literal);
        }
    }

    /// A literal or the closing 0 of a step; gives the step while it goes on.
    fn take(&mut self, step: Step, literal: Literal) -> Option<Step> {
        if literal != 0 {
            self.literals.push(literal);
            return Some(step);
        }
        self.lemmas += usize::from(step == Step::Lemma);
        (self.visit)(step, &mut self.literals);
        self.literals.clear();
        None
    }

    fn end(&self, begun: Option<Step>) -> Result<(), Fault> {
        match begun {
            Some(_) => Err(self.fault("a step that is cut off")),
            None => Ok(()),
        }
    }

    fn fault(&self, words: &str) -> Fault {
        Fault::Form(format!("the proof is no DRAT: after lemma {} it has {words}", self.lemmas))
    }
}

/// A number in sevens of bits, the lowest first, all bytes but the last with the bit above; none where the bytes end first.
fn binary_number<'a>(bytes: &mut impl Iterator<Item = &'a u8>) -> Option<u64> {
    let mut number = 0;
    for shift in (0..).step_by(7) {
        let byte = u64::from(*bytes.next()?);
        if shift < 56 {
            number |= (byte & 127) << shift;
        } else {
            number |= u64::from(byte & 127 != 0) << 56;
        }
        if byte < 128 {
            break;
        }
    }
    Some(number)
}

#[cfg(test)]
mod tests {
    use super::*;

    fn steps(proof: &[u8]) -> Result<Vec<(Step, Vec<Literal>)>, Fault> {
        let mut steps = Vec::new();
        each_step(proof, 70, |step, literals| steps.push((step, literals.clone())))?;
        Ok(steps)
    }

    #[test]
    fn text_and_binary_say_the_same() {
        let wanted = vec![(Step::Lemma, vec![2, 141]), (Step::Deletion, vec![5]), (Step::Lemma, vec![])];
        assert_eq!(steps(b"1 -70 0\nd -2 0\n0\n"), Ok(wanted.clone()));
        assert_eq!(steps(b"a\x02\x8d\x01\x00d\x05\x00a\x00"), Ok(wanted));
        assert_eq!(steps(b""), Ok(vec![]));
    }

    #[test]
    fn bytes_that_are_no_drat() {
        for proof in ["1 2", "1 x 0\n", "1 71 0\n", "d d 0\n", "1 0\nd 2\n", "a\u{1}\0", "b\0", "a\u{7f}\u{7f}\u{2}", "a\0d", "a\0a\u{2}", "9999999999999 0\n"]
        {
            assert!(steps(proof.as_bytes()).is_err(), "{proof:?}");
        }
        assert!(steps(&[b'a', 255, 255, 255, 255, 255, 255, 255, 255, 255, 255, 1, 0]).is_err());
        let Err(Fault::Form(words)) = steps(b"1 0\nd 2 0\n-3 x") else { panic!() };
        assert!(words.contains("after lemma 1 "), "{words}");
    }
}

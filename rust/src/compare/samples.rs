//! The published DIMACS samples, and what solvers answered to them.
use super::case::Case;

/// A formula, and a solver's whole output for it.
struct Sample {
    formula: &'static str,
    answer: &'static str,
}

macro_rules! sample {
    ($name:literal, $solver:literal) => {
        Sample { formula: include_str!(concat!("../../samples/", $name, ".cnf")), answer: include_str!(concat!("../../samples/", $name, ".", $solver)) }
    };
}

const SAMPLES: [Sample; 11] = [
    sample!("dimacs-1993", "cadical"),
    sample!("dimacs-1993", "picosat"),
    sample!("dimacs-1993", "clasp"),
    sample!("simple_v3_c2", "cadical"),
    sample!("simple_v3_c2", "picosat"),
    sample!("simple_v3_c2", "clasp"),
    sample!("simple_v3_c2", "cryptominisat"),
    sample!("sat-competition", "cadical"),
    sample!("sat-competition", "picosat"),
    sample!("sat-competition", "clasp"),
    sample!("sat-competition", "cryptominisat"),
];

impl Sample {
    /// The number of variables, and the clauses.
    fn clauses(&self) -> (usize, Vec<Vec<i32>>) {
        let lines = self.formula.lines().filter(|line| !line.starts_with('c'));
        let words: Vec<&str> = lines.flat_map(str::split_whitespace).collect();
        let numbers: Vec<i32> = words[4..].iter().map(|word| word.parse().expect("a literal")).collect();
        let clauses = numbers.split(|&literal| literal == 0).filter(|clause| !clause.is_empty());
        (words[2].parse().expect("the number of variables"), clauses.map(<[i32]>::to_vec).collect())
    }
}

/// Each answer as lines on fresh marks.
pub fn cases() -> impl Iterator<Item = Case> {
    SAMPLES.iter().map(|sample| Case::Lines { marks: vec![0; sample.clauses().0], lines: sample.answer.lines().map(|line| line.as_bytes().to_vec()).collect() })
}

#[cfg(test)]
mod tests {
    use super::*;
    use crate::answer::read_lines;

    #[test]
    fn every_answer_is_read_whole_and_satisfies_its_formula() {
        for sample in &SAMPLES {
            let (variables, clauses) = sample.clauses();
            let (closed, marks) = read_lines(sample.answer.as_bytes(), variables, &mut |line, number| panic!("line {line}: refused {number}"));
            assert!(closed);
            let holds = |literal: &i32| marks[literal.unsigned_abs() as usize - 1] == if *literal > 0 { 1 } else { 2 };
            assert!(clauses.iter().all(|clause| clause.iter().any(holds)), "{}", sample.answer);
        }
    }
}

//! Certificates of a "no": a solver's proof (DRAT) made into one with hints (LRAT), and a plain check of such a one.
//! Nothing here is trusted for a "no": the proved checker judges what comes out.
pub mod check;
pub mod clauses;
pub mod dimacs;
pub mod drat;
pub mod elaborate;
pub mod lrat;
mod propagate;

use std::fmt;

/// Why there is no certificate.
#[derive(Debug, PartialEq, Eq)]
pub enum Fault {
    /// Bytes that are no listing or no proof.
    Form(String),
    /// A lemma of the proof, counted from 1, that propagation does not show.
    NoRup(usize),
    NoRefutation,
}

impl fmt::Display for Fault {
    fn fmt(&self, out: &mut fmt::Formatter) -> fmt::Result {
        match self {
            Fault::Form(words) => out.write_str(words),
            Fault::NoRup(lemma) => write!(out, "lemma {lemma} of the proof does not follow by propagation (it is no RUP)"),
            Fault::NoRefutation => out.write_str("the proof does not refute the listing"),
        }
    }
}

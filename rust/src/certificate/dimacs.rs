//! Reading a listing: `p cnf V C`, then C clauses, each ended by 0.
use super::clauses::{literal, Literal};
use super::Fault;

/// More variables than any listing has; memory grows with their number.
const MOST_VARIABLES: usize = 1 << 24;

pub struct Listing<'a> {
    pub variables: u32,
    pub clauses: usize,
    text: &'a [u8],
}

impl<'a> Listing<'a> {
    pub fn new(bytes: &'a [u8]) -> Result<Listing<'a>, Fault> {
        let end = bytes.iter().position(|&byte| byte == b'\n').ok_or_else(|| no_listing("it has no header"))?;
        let (header, text) = bytes.split_at(end);
        let header: Vec<&[u8]> = words(header).collect();
        let [b"p", b"cnf", variables, clauses] = header[..] else { return Err(no_listing("its first line is no header")) };
        let (Some(variables), Some(clauses)) = (number(variables), number(clauses)) else { return Err(no_listing("its header has no numbers")) };
        if variables > MOST_VARIABLES {
            return Err(no_listing("it has too many variables"));
        }
        Ok(Listing { variables: variables as u32, clauses, text })
    }

    /// Calls `visit` with each clause, in order.
    pub fn each_clause(&self, mut visit: impl FnMut(&mut Vec<Literal>)) -> Result<(), Fault> {
        let (mut clause, mut many) = (Vec::new(), 0);
        for word in words(self.text) {
            match read_literal(word, self.variables) {
                None => return Err(no_listing(&format!("clause {} has a word that is no literal of it", many + 1))),
                Some(0) => {
                    visit(&mut clause);
                    clause.clear();
                    many += 1;
                }
                Some(literal) => clause.push(literal),
            }
        }
        if many != self.clauses || !clause.is_empty() {
            return Err(no_listing(&format!("it has {many} whole clauses, and its header says {}", self.clauses)));
        }
        Ok(())
    }
}

fn no_listing(words: &str) -> Fault {
    Fault::Form(format!("this is no listing: {words}"))
}

/// The words of a text, blanks and newlines between them.
pub fn words(text: &[u8]) -> impl Iterator<Item = &[u8]> {
    text.split(u8::is_ascii_whitespace).filter(|word| !word.is_empty())
}

fn number(word: &[u8]) -> Option<usize> {
    std::str::from_utf8(word).ok()?.parse().ok()
}

/// A literal of so many variables, or the closing 0.
pub fn read_literal(word: &[u8], variables: u32) -> Option<Literal> {
    let number: i32 = std::str::from_utf8(word).ok()?.parse().ok()?;
    (number.unsigned_abs() <= variables).then(|| literal(number))
}

//! Words that no model has: numbers that 32 bits do not hold, in every field, and slices that are cut short at every edge.
use super::case::{Case, Kind};
use super::models::{self, ModelCase};
use super::random::Random;
use super::{filling, sheets};
use crate::model::Model;
use crate::settle::settle;
use crate::sheet;
use crate::words::{field_at, from_words, to_words, Field, FIRST_GROUP, FIRST_LINE, GROUP_WORDS, LINE_WORDS, WORDS};
use std::collections::BTreeSet;

macro_rules! fields {
    ($($field:ident $name:literal,)*) => {
        /// The kinds of a word that is too large, by its field, then those of words that are missing.
        pub const KINDS: &[Kind] = &[
            $(concat!("words: 2^32 more, ", $name), concat!("words: 2^63 more, ", $name),)*
            "words: none",
            "words: n alone",
            "words: n, s and c alone",
            "words: cut before the last group in use",
            "words: cut behind the groups in use",
            "words: cut before the last line in use",
            "words: cut behind the lines in use",
            "words: one short",
            "words: one more",
        ];

        fn enlarged(field: Field) -> [Kind; 2] {
            match field {
                $(Field::$field => [concat!("words: 2^32 more, ", $name), concat!("words: 2^63 more, ", $name)],)*
            }
        }
    };
}

fields! {
    Entrants "n",
    Groups "s",
    Lines "c",
    Fixed "fixed",
    Possible "possible",
    Low "low",
    High "high",
    Code "code",
    Count "k",
    Member "a group number",
}

const MORE: [u64; 2] = [1 << 32, 1 << 63];

/// Of which kind words are that are refused for one word alone, or for those that are missing.
pub fn kinds(words: &[u64], damaged: Option<usize>) -> Option<Kind> {
    if words.len() != WORDS {
        return cut(words);
    }
    let place = damaged?;
    let which = MORE.iter().position(|&more| words[place] >= more && from_words(&with(words, place, words[place] - more)).is_ok())?;
    from_words(words).is_err().then(|| enlarged(field_at(place).0)[which])
}

fn cut(words: &[u64]) -> Option<Kind> {
    let used = |at: usize| words.get(at).copied().unwrap_or(0) as usize;
    let (groups, lines) = (FIRST_GROUP + GROUP_WORDS * used(1), FIRST_LINE + LINE_WORDS * used(2));
    Some(match words.len() {
        0 => "words: none",
        1 => "words: n alone",
        FIRST_GROUP => "words: n, s and c alone",
        many if many + 1 == WORDS => "words: one short",
        many if many == WORDS + 1 => "words: one more",
        many if many + GROUP_WORDS == groups => "words: cut before the last group in use",
        many if many == groups => "words: cut behind the groups in use",
        many if many + LINE_WORDS == lines => "words: cut before the last line in use",
        many if many == lines => "words: cut behind the lines in use",
        _ => return None,
    })
}

fn with(words: &[u64], place: usize, value: u64) -> Vec<u64> {
    let mut words = words.to_vec();
    words[place] = value;
    words
}

/// Each call on a model's words with each field in turn enlarged, and cut at each edge, one word before it and one behind.
pub fn cases(random: &mut Random) -> Vec<Case> {
    let sample = sheets::valid(random);
    let Ok(read) = sheet::read(&sample.sheet) else { return Vec::new() };
    let model = settle(read.clone()).map_or(read, |settled| settled.model().clone());
    let (words, draw) = (to_words(&model, 0), sample.draw.as_deref());
    let mut cases: Vec<ModelCase> = Vec::new();
    for place in places(random, &model) {
        for more in MORE {
            cases.extend(models::of_every_call(random, &model, &with(&words, place, words[place].wrapping_add(more)), Some(place), draw));
        }
    }
    for many in lengths(&model) {
        let cut: Vec<u64> = words.iter().copied().chain([7]).take(many).collect();
        cases.extend(models::of_every_call(random, &model, &cut, None, draw));
    }
    let fillings = draw.into_iter().flat_map(|draw| around([0, 1, draw.len(), 256]).into_iter().map(|many| filling::of_words(&sample.sheet, draw, many)));
    let fillings: Vec<Case> = fillings.map(Case::Fill).collect();
    cases.into_iter().map(Case::Model).chain(fillings).collect()
}

/// A place of each field, in a group and in a line that the model has: one of code 6, whose k counts, where there is one.
fn places(random: &mut Random, model: &Model) -> Vec<usize> {
    let group = FIRST_GROUP + GROUP_WORDS * random.below(model.groups.len());
    let mut places: Vec<usize> = (0..FIRST_GROUP).chain(group..group + GROUP_WORDS).collect();
    if !model.constraints.is_empty() {
        let index = model.constraints.iter().position(|line| line.code == 6).unwrap_or_else(|| random.below(model.constraints.len()));
        let line = FIRST_LINE + LINE_WORDS * index;
        places.extend([line, line + 1, line + 2 + random.below(model.constraints[index].groups.len())]);
    }
    places
}

/// Around each edge of a model's words.
fn lengths(model: &Model) -> Vec<usize> {
    let groups = FIRST_GROUP + GROUP_WORDS * model.groups.len();
    let lines = FIRST_LINE + LINE_WORDS * model.constraints.len();
    around([0, 1, FIRST_GROUP, FIRST_GROUP + GROUP_WORDS, groups - GROUP_WORDS, groups, FIRST_LINE, lines - LINE_WORDS, lines, WORDS])
}

/// Each edge, one before it and one behind.
fn around<const N: usize>(edges: [usize; N]) -> Vec<usize> {
    let lengths: BTreeSet<usize> = edges.into_iter().flat_map(|edge| edge.saturating_sub(1)..=edge + 1).collect();
    lengths.into_iter().collect()
}

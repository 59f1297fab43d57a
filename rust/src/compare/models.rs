//! Models as words, whole, damaged in one word or cut short, for settling, a block, closing, filling and the model's sheet.
use super::calls::{given, Calls, Counterpart};
use super::case::{junk, junk_words, Kind, Outcome};
use super::code_7;
use super::filling::{self, marks_length, Origin};
use super::limits::{unsettled_alone, widened};
use super::random::Random;
use super::{edges, wide, words};
use crate::encode::{blocks_of, Encoding};
use crate::fill::{assignment, is_draw};
use crate::model::{Model, BLOCK_BYTES};
use crate::refusal::*;
use crate::settle::settle;
use crate::sheet;
use crate::words::{field_at, from_words, to_words, Field, FIRST_GROUP, FIRST_LINE, WORDS};

#[derive(Clone, Debug)]
pub struct ModelCase {
    pub words: Vec<u64>,
    /// The place of the word that was changed.
    damaged: Option<usize>,
    call: Call,
}

#[derive(Clone, Debug)]
enum Call {
    /// Words of the table.
    Settle {
        room: usize,
    },
    /// Bytes of the buffer beyond the block's length, or missing.
    Block {
        block: u32,
        spare: isize,
    },
    Close {
        closed: bool,
        marks: Vec<u8>,
    },
    /// Marks beyond the number of variables, or missing.
    Fill {
        groups: Vec<u64>,
        origin: Origin,
        spare: isize,
    },
    /// Bytes of the buffer beyond the sheet's length, or missing.
    Write {
        spare: isize,
    },
    Count,
}

/// The kinds of the cases made here, in the order of the report.
pub const KINDS: &[Kind] = &[
    "model: word past s, c and members changed",
    "model: 20 by n",
    "model: 20 by s",
    "model: 20 by c",
    "model: 20 by fixed",
    "model: 20 by possible",
    "model: 20 by low",
    "model: 20 by high",
    "model: 20 by code",
    "model: 20 by k",
    "model: 20 by a group number",
    "model: settled",
    "model: settled already",
    "model: settled by limits alone",
    "model: 20 of settling",
    "model: 21 of settling",
    "model: 21 of settling by limits alone",
    "model: 24 of settling",
    "model: block",
    "model: 20 of a block",
    "model: 22 of a block",
    "model: 22 of a block by limits alone",
    "model: 23 of a block",
    "model: 24 of a block",
    "model: closed",
    "model: 20 of closing",
    "model: 22 of closing",
    "model: 22 of closing by limits alone",
    "model: 26, 27 or 28 of closing",
    "model: filled",
    "model: 20 of filling from a draw",
    "model: 20 of filling from other groups",
    "model: 22 of filling from a draw",
    "model: 22 of filling from other groups",
    "model: 22 of filling by limits alone",
    "model: 30 of filling",
    "model: 30 of filling by missing words alone",
    "model: 26 of filling",
    "model: sheet",
    "model: sheet in a buffer exactly long enough",
    "model: 20 of a sheet",
    "model: 24 of a sheet",
];

/// The kind of a damage, where the model is refused or stays the same.
fn damage_kind(words: &[u64], place: usize) -> Option<Kind> {
    if words.len() < WORDS {
        return None;
    }
    if from_words(words).is_ok() {
        let unused = from_words(&with(words, place, words[place] ^ 1 << 40 ^ 1)) == from_words(words);
        return unused.then_some(KINDS[0]);
    }
    Some(match field_at(place).0 {
        Field::Entrants => "model: 20 by n",
        Field::Groups => "model: 20 by s",
        Field::Lines => "model: 20 by c",
        Field::Fixed => "model: 20 by fixed",
        Field::Possible => "model: 20 by possible",
        Field::Low => "model: 20 by low",
        Field::High => "model: 20 by high",
        Field::Code => "model: 20 by code",
        Field::Count => "model: 20 by k",
        Field::Member => "model: 20 by a group number",
    })
}

fn with(words: &[u64], place: usize, value: u64) -> Vec<u64> {
    let mut words = words.to_vec();
    words[place] = value;
    words
}

impl ModelCase {
    pub fn check(&self, other: &dyn Calls, outcome: &mut Outcome) {
        if let Some(kind) = self.damaged.and_then(|place| damage_kind(&self.words, place)) {
            outcome.note(kind);
        }
        let kinds = code_7::words(&self.words, self.damaged).into_iter().chain(wide::words(&self.words)).chain(words::kinds(&self.words, self.damaged));
        kinds.for_each(|kind| outcome.note(kind));
        match &self.call {
            Call::Settle { room } => self.check_settle(*room, other, outcome),
            Call::Block { block, spare } => self.check_block(*block, *spare, other, outcome),
            Call::Close { closed, marks } => self.check_close(*closed, marks, other, outcome),
            Call::Fill { groups, origin, spare } => self.check_fill(groups, *origin, *spare, other, outcome),
            Call::Write { spare } => self.check_write(*spare, other, outcome),
            Call::Count => self.check_count(other, outcome),
        }
    }

    fn check_settle(&self, room: usize, other: &dyn Calls, outcome: &mut Outcome) {
        let mut ours = junk_words(room);
        let mut theirs = ours.clone();
        let answer = Counterpart.settle_model(&self.words, &mut ours);
        outcome.note(match (answer >> 16) as u32 {
            0 if answer == 1 => "model: settled already",
            0 if unsettled_alone(&self.words) => "model: settled by limits alone",
            0 => "model: settled",
            OUT_OF_RANGE => "model: 20 of settling",
            CONTRADICTION if unsettled_alone(&self.words) => "model: 21 of settling by limits alone",
            CONTRADICTION => "model: 21 of settling",
            _ => "model: 24 of settling",
        });
        outcome.kinds.extend(code_7::settled_words(&self.words, (answer >> 16) as u32));
        outcome.compare("refusal * 65536 + passes", answer, other.settle_model(&self.words, &mut theirs));
        outcome.compare_bytes("table", &ours, &theirs);
    }

    fn check_block(&self, block: u32, spare: isize, other: &dyn Calls, outcome: &mut Outcome) {
        let length = Counterpart.block_model(&self.words, block, &mut vec![0; BLOCK_BYTES]) as u32 as usize;
        let mut ours = junk(length.saturating_add_signed(spare));
        let mut theirs = ours.clone();
        let answer = Counterpart.block_model(&self.words, block, &mut ours);
        outcome.note(match (answer >> 32) as u32 {
            0 => "model: block",
            OUT_OF_RANGE => "model: 20 of a block",
            UNSETTLED if unsettled_alone(&self.words) => "model: 22 of a block by limits alone",
            UNSETTLED => "model: 22 of a block",
            NO_BLOCK => "model: 23 of a block",
            _ => "model: 24 of a block",
        });
        outcome.kinds.extend(code_7::taken_words(&self.words, code_7::Call::Block(block as usize), (answer >> 32) as u32));
        outcome.compare("refusal * 2^32 + length", answer, other.block_model(&self.words, block, &mut theirs));
        outcome.compare_bytes("buffer", &ours, &theirs);
    }

    fn check_close(&self, closed: bool, marks: &[u8], other: &dyn Calls, outcome: &mut Outcome) {
        let mut ours = junk_words(256);
        let mut theirs = ours.clone();
        let answer = Counterpart.close_model(&self.words, closed.into(), marks, &mut ours);
        outcome.note(match answer {
            0 => "model: closed",
            OUT_OF_RANGE => "model: 20 of closing",
            UNSETTLED if unsettled_alone(&self.words) => "model: 22 of closing by limits alone",
            UNSETTLED => "model: 22 of closing",
            _ => "model: 26, 27 or 28 of closing",
        });
        outcome.kinds.extend(code_7::taken_words(&self.words, code_7::Call::Close, answer));
        outcome.compare("refusal", answer, other.close_model(&self.words, closed.into(), marks, &mut theirs));
        outcome.compare_bytes("groups", &ours, &theirs);
    }

    fn check_fill(&self, groups: &[u64], origin: Origin, spare: isize, other: &dyn Calls, outcome: &mut Outcome) {
        let mut ours = junk(marks_length(given(&self.words).as_ref().ok(), spare));
        let mut theirs = ours.clone();
        let answer = Counterpart.fill_model(&self.words, groups, &mut ours);
        let draw = origin == Origin::Draw;
        outcome.note(match answer {
            0 => "model: filled",
            OUT_OF_RANGE if draw => "model: 20 of filling from a draw",
            OUT_OF_RANGE => "model: 20 of filling from other groups",
            UNSETTLED if unsettled_alone(&self.words) => "model: 22 of filling by limits alone",
            UNSETTLED if draw => "model: 22 of filling from a draw",
            UNSETTLED => "model: 22 of filling from other groups",
            NO_DRAW if missing_alone(&self.words, groups) => "model: 30 of filling by missing words alone",
            NO_DRAW => "model: 30 of filling",
            _ => "model: 26 of filling",
        });
        outcome.kinds.extend(code_7::taken_words(&self.words, code_7::Call::Fill, answer));
        outcome.compare("refusal", answer, other.fill_model(&self.words, groups, &mut theirs));
        outcome.compare_bytes("marks", &ours, &theirs);
    }

    fn check_write(&self, spare: isize, other: &dyn Calls, outcome: &mut Outcome) {
        let length = from_words(&self.words).map_or(0, |model| sheet::write(&model).len());
        let mut ours = junk(length.saturating_add_signed(spare));
        let mut theirs = ours.clone();
        let answer = Counterpart.write_model(&self.words, &mut ours);
        outcome.note(match (answer >> 32) as u32 {
            0 if spare == 0 => "model: sheet in a buffer exactly long enough",
            0 => "model: sheet",
            OUT_OF_RANGE => "model: 20 of a sheet",
            _ => "model: 24 of a sheet",
        });
        outcome.kinds.extend(code_7::written_words(&self.words, (answer >> 32) as u32));
        outcome.compare("refusal * 2^32 + length", answer, other.write_model(&self.words, &mut theirs));
        outcome.compare_bytes("buffer", &ours, &theirs);
    }

    fn check_count(&self, other: &dyn Calls, outcome: &mut Outcome) {
        edges::count_words(&self.words).into_iter().for_each(|kind| outcome.note(kind));
        outcome.compare("number of blocks", Counterpart.block_count_model(&self.words), other.block_count_model(&self.words));
    }

    /// The call, the head and the words that are not 0.
    pub fn show(&self) -> String {
        let words = self.words.iter().enumerate().filter(|(_, &word)| word != 0).map(|(place, word)| format!(" {place}:{word}"));
        format!("{:?} of a model, word {:?} changed, words{}\n", self.call, self.damaged, words.collect::<String>())
    }
}

/// Whether the words of groups that are missing, all of them empty, would make a draw.
fn missing_alone(words: &[u64], groups: &[u64]) -> bool {
    from_words(words).is_ok_and(|model| groups.len() < model.groups.len() && is_draw(&model, &filling::padded(groups, model.groups.len())))
}

/// A case on the model of a sheet, as it is or settled, or with one limit wider again, often with one word changed.
pub fn case(random: &mut Random, sheet: &[u8], draw: Option<&[u64]>) -> Option<ModelCase> {
    let read = sheet::read(sheet).ok()?;
    let model = match settle(read.clone()) {
        Some(settled) if random.chance(20) => widened(random, settled.model()),
        Some(settled) if random.chance(75) => settled.model().clone(),
        _ => read,
    };
    Some(of_model(random, &model, draw))
}

/// A case on a model, often with one word changed.
pub fn of_model(random: &mut Random, model: &Model, draw: Option<&[u64]>) -> ModelCase {
    let mut words = to_words(model, random.pick(&[0, 0, 1, u64::MAX]));
    let damaged = random.chance(50).then(|| place(random, model));
    if let Some(place) = damaged {
        words[place] = damage(random, words[place]);
    }
    of_words(random, model, words, damaged, draw)
}

/// A case on the words of a model, of which one may be changed.
pub fn of_words(random: &mut Random, model: &Model, words: Vec<u64>, damaged: Option<usize>, draw: Option<&[u64]>) -> ModelCase {
    let call = match random.below(5) {
        0 => Call::Settle { room: (4 * model.groups.len()).saturating_add_signed(random.pick(&[0, 0, -1, 5])) },
        1 => Call::Block { block: random.below(blocks_of(model) + 2) as u32, spare: random.pick(&[0, 0, -1, 9]) },
        2 => Call::Write { spare: random.pick(&[0, 0, -1, 9]) },
        3 => filling(random, model, draw),
        _ => closing(random, &words, draw),
    };
    ModelCase { words, damaged, call }
}

/// A case of each call on the words of a model.
pub fn of_every_call(random: &mut Random, model: &Model, words: &[u64], damaged: Option<usize>, draw: Option<&[u64]>) -> Vec<ModelCase> {
    let groups = draw.map_or_else(|| vec![0; model.groups.len()], <[u64]>::to_vec);
    let calls = [
        Call::Settle { room: 4 * model.groups.len() },
        Call::Block { block: 0, spare: 0 },
        Call::Write { spare: 0 },
        Call::Fill { groups, origin: if draw.is_some() { Origin::Draw } else { Origin::AnySets }, spare: 0 },
        closing(random, words, draw),
        Call::Count,
    ];
    calls.into_iter().map(|call| ModelCase { words: words.to_vec(), damaged, call }).collect()
}

/// A case on words, in range or not, of a model of so many groups: settling or the number of its blocks.
pub fn of_any_words(random: &mut Random, words: Vec<u64>, groups: usize) -> ModelCase {
    let call = if random.chance(50) { Call::Settle { room: 4 * groups } } else { Call::Count };
    ModelCase { words, damaged: None, call }
}

/// The number of a model's blocks, what belongs to no group, line or member being `rest`.
pub fn count(model: &Model, rest: u64) -> ModelCase {
    ModelCase { words: to_words(model, rest), damaged: None, call: Call::Count }
}

/// A block of a model as words.
pub fn block(model: &Model, block: u32) -> ModelCase {
    ModelCase { words: to_words(model, 0), damaged: None, call: Call::Block { block, spare: 0 } }
}

fn closing(random: &mut Random, words: &[u64], draw: Option<&[u64]>) -> Call {
    let marks = match (given(words), draw) {
        (Ok(settled), Some(draw)) if draw.len() == settled.model().groups.len() => assignment(&Encoding::of(&settled), draw),
        (Ok(settled), _) => vec![2; Encoding::of(&settled).variables],
        _ => vec![1; random.below(4)],
    };
    Call::Close { closed: random.chance(80), marks }
}

fn filling(random: &mut Random, model: &Model, draw: Option<&[u64]>) -> Call {
    let (groups, origin) = filling::groups(random, model.entrants, model.groups.len(), draw);
    Call::Fill { groups, origin, spare: filling::spare(random) }
}

/// A word of the model, each field as likely as another; now and then one that is ignored.
pub fn place(random: &mut Random, model: &Model) -> usize {
    let group = FIRST_GROUP + 4 * random.below(model.groups.len());
    let line = FIRST_LINE + 19 * random.below(model.constraints.len().max(1));
    match random.below(11) {
        place @ 0..=2 => place,
        place @ 3..=6 => group + place - 3,
        place @ 7..=8 => line + place - 7,
        9 => line + 2 + random.below(17),
        _ => random.below(WORDS),
    }
}

/// Another word in its place; by luck it may be as good.
pub fn damage(random: &mut Random, word: u64) -> u64 {
    match random.below(4) {
        0 => word.wrapping_add(1),
        1 => word.wrapping_sub(1),
        2 => word ^ 1 << random.below(34),
        _ => random.pick(&[0, 1, 2, 3, 5, 6, 7, 16, 17, 32, 33, 256, 257, u64::from(u32::MAX), 1 << 32 | 1, u64::MAX]),
    }
}

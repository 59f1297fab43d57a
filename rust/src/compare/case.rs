//! One case of the comparison: a call's input, the kind of case it is, and whether both sides answer alike.
use super::answering::{self, AnswerCase};
use super::blanks;
use super::calls::{settled, Calls, Counterpart};
use super::certificates::{self, CertificateCase};
use super::code_7;
use super::combining::{self, CombineCase, CombineWordsCase};
use super::edges;
use super::filling::{self, FillCase};
use super::limits;
use super::models::{self, ModelCase};
use super::steps;
use super::twins::{self, TwinCase};
use super::wide;
use super::words;
use crate::encode::{Encoding, Part};
use crate::listing::listing;
use crate::model::{BLOCK_BYTES, GROUPS, MOST_VARIABLES};
use crate::refusal::*;
use crate::settle::Settled;
use crate::sheet::read;

#[derive(Clone, Debug)]
pub enum Case {
    Read {
        sheet: Vec<u8>,
    },
    /// `spare`: words of the table beyond those of the groups, or missing.
    Settle {
        sheet: Vec<u8>,
        spare: isize,
    },
    /// `spare`: bytes of the buffer beyond the block's length, or missing.
    Block {
        sheet: Vec<u8>,
        block: u32,
        spare: isize,
    },
    /// Run after run, from a block on, each of so many bytes.
    Blocks {
        sheet: Vec<u8>,
        from: u32,
        rooms: Vec<usize>,
    },
    /// The number of the last block, and that there is this one and no more.
    Count {
        sheet: Vec<u8>,
    },
    Lines {
        marks: Vec<u8>,
        lines: Vec<Vec<u8>>,
    },
    Close {
        sheet: Vec<u8>,
        closed: bool,
        marks: Vec<u8>,
        room: usize,
    },
    Answer(AnswerCase),
    Fill(FillCase),
    Model(ModelCase),
    Certificate(CertificateCase),
    Twins(TwinCase),
    Combine(CombineCase),
    CombineWords(CombineWordsCase),
    /// The block of each node, cut piece by piece.
    Steps {
        sheet: Vec<u8>,
    },
}

pub type Kind = &'static str;

pub const SAMPLE: Kind = "line: answers to the published samples";

/// Every kind of case, in the order of the report. A run that misses one has failed.
pub fn kinds() -> impl Iterator<Item = Kind> {
    let parts = filling::kinds().chain(limits::kinds()).chain([models::KINDS, certificates::KINDS, blanks::KINDS].into_iter().flatten().copied());
    KINDS
        .iter()
        .copied()
        .chain(parts)
        .chain(twins::kinds())
        .chain(steps::kinds())
        .chain(combining::kinds())
        .chain([code_7::KINDS, wide::KINDS].into_iter().flatten().copied())
        .chain(edges::kinds())
        .chain(answering::KINDS.iter().copied())
        .chain(words::KINDS.iter().copied())
}

const KINDS: &[Kind] = &[
    "read: accepted",
    "read: 1 too long",
    "read: 2 no end",
    "read: 3 line length",
    "read: 4 field",
    "read: 5 kind of line",
    "read: 5 line missing",
    "read: 6 field count",
    "read: 7 range",
    "read: 8 group not the next",
    "read: 9 group twice",
    "settle: with counters",
    "settle: open marks and no counter",
    "settle: nothing open",
    "settle: three passes or more",
    "settle: 21",
    "settle: sheet refused",
    "settle: 24 table a word short",
    "settle: table longer",
    "block: header",
    "block: node below the root",
    "block: root and its units",
    "block: line",
    "block: line without clauses",
    "block: buffer exactly long enough",
    "block: buffer longer",
    "block: 23 no such block",
    "block: 24 buffer a byte short",
    "block: 21",
    "block: sheet refused",
    "blocks: one block",
    "blocks: several blocks",
    "blocks: to the end of the listing",
    "blocks: 23 no such block",
    "blocks: 24 next block does not fit",
    "blocks: 21 or sheet refused",
    "blocks: together the listing",
    SAMPLE,
    "line: c or s",
    "line: c or s after the closing 0",
    "line: v",
    "line: v with closing 0",
    "line: v with a thousand literals",
    "line: v on as many marks as there can be",
    "line: v on marks longer than any listing's",
    "line: 10 empty or first byte",
    "line: 10 form",
    "line: 11 above the marks",
    "line: 12 said in an earlier line",
    "line: 12 said in this line",
    "line: 25 after the closing 0",
    "close: groups",
    "close: groups, no variables",
    "close: 26 marks too few",
    "close: 26 marks too many",
    "close: 27 no closing 0",
    "close: 27 unsaid",
    "close: 28 clause false",
    "close: 21",
    "close: sheet refused",
    "close: 24 table too short",
    "close: refused, table too short",
    "close: filling gives the marks again",
];

/// What came of a case. Several calls, each of one kind or more, may be in it.
#[derive(Default)]
pub struct Outcome {
    pub kinds: Vec<Kind>,
    pub calls: u64,
    pub difference: Option<Difference>,
    /// Where the kinds of the current call begin, or of the current part of its answer.
    current: usize,
}

pub struct Difference {
    pub kinds: Vec<Kind>,
    pub words: String,
}

impl Outcome {
    pub fn note(&mut self, kind: Kind) {
        self.kinds.push(kind);
    }

    /// The kinds noted from here on are those of the next call, or of the next part of an answer.
    pub fn go_on(&mut self) {
        self.current = self.kinds.len();
    }

    /// Keeps the first difference.
    pub fn differ(&mut self, words: String) {
        if self.difference.is_none() {
            self.difference = Some(Difference { kinds: self.kinds[self.current..].to_vec(), words });
        }
    }

    /// The counterpart's answer stands first.
    pub fn compare<T: PartialEq + std::fmt::Debug>(&mut self, what: &str, ours: T, theirs: T) {
        if ours != theirs {
            self.differ(format!("{what}: counterpart {ours:?}, other side {theirs:?}"));
        }
    }

    pub fn compare_bytes<T: PartialEq + std::fmt::Debug>(&mut self, what: &str, ours: &[T], theirs: &[T]) {
        if let Some(at) = (0..ours.len()).find(|&at| ours[at] != theirs[at]) {
            self.compare(&format!("{what} at {at}"), &ours[at], &theirs[at]);
        }
    }
}

/// Bytes that nobody would write by chance.
pub fn junk(length: usize) -> Vec<u8> {
    (0..length).map(|at| (at * 37 + 165) as u8).collect()
}

pub fn junk_words(length: usize) -> Vec<u64> {
    (0..length as u64).map(|at| at.wrapping_mul(0x9E37_79B9_7F4A_7C15) | 1 << 63).collect()
}

pub fn check(case: &Case, other: &dyn Calls) -> Outcome {
    let mut outcome = Outcome { calls: 1, ..Outcome::default() };
    match case {
        Case::Read { sheet } => check_read(sheet, other, &mut outcome),
        Case::Settle { sheet, spare } => check_settle(sheet, *spare, other, &mut outcome),
        Case::Block { sheet, block, spare } => check_block(sheet, *block, *spare, other, &mut outcome),
        Case::Blocks { sheet, from, rooms } => check_blocks(sheet, *from, rooms, other, &mut outcome),
        Case::Count { sheet } => edges::check_count(sheet, other, &mut outcome),
        Case::Lines { marks, lines } => check_lines(marks, lines, other, &mut outcome),
        Case::Close { sheet, closed, marks, room } => check_close(sheet, *closed, marks, *room, other, &mut outcome),
        Case::Answer(answer) => answer.check(other, &mut outcome),
        Case::Fill(fill) => fill.check(other, &mut outcome),
        Case::Model(model) => model.check(other, &mut outcome),
        Case::Certificate(certificate) => certificate.check(other, &mut outcome),
        Case::Twins(twins) => twins.check(other, &mut outcome),
        Case::Combine(pair) => pair.check(other, &mut outcome),
        Case::CombineWords(pair) => pair.check(other, &mut outcome),
        Case::Steps { sheet } => steps::check(sheet, other, &mut outcome),
    }
    outcome
}

fn check_read(sheet: &[u8], other: &dyn Calls, outcome: &mut Outcome) {
    let answer = Counterpart.read(sheet);
    outcome.note(read_kind(sheet, answer));
    blanks::met(sheet, answer).into_iter().chain(code_7::read(sheet, answer)).chain(wide::read(sheet, answer)).for_each(|kind| outcome.note(kind));
    outcome.compare("refusal * 65536 + line", answer, other.read(sheet));
}

fn read_kind(sheet: &[u8], answer: u64) -> Kind {
    let (number, line) = ((answer >> 16) as u32, (answer & 0xFFFF) as usize);
    match number {
        0 => "read: accepted",
        TOO_LONG => "read: 1 too long",
        NO_END => "read: 2 no end",
        LENGTH => "read: 3 line length",
        FIELD => "read: 4 field",
        KIND if line > sheet.iter().filter(|&&byte| byte == b'\n').count() => "read: 5 line missing",
        KIND => "read: 5 kind of line",
        COUNT => "read: 6 field count",
        RANGE => "read: 7 range",
        NOT_NEXT => "read: 8 group not the next",
        _ => "read: 9 group twice",
    }
}

pub fn check_settle(sheet: &[u8], spare: isize, other: &dyn Calls, outcome: &mut Outcome) {
    let words = match settled(sheet) {
        Ok(settled) => {
            note_settled(&settled, spare, outcome);
            4 * settled.model().groups.len()
        }
        Err(CONTRADICTION) => {
            outcome.note("settle: 21");
            1024
        }
        Err(_) => {
            outcome.note("settle: sheet refused");
            1024
        }
    };
    if let (Ok(model), 0..) = (read(sheet), spare) {
        limits::met(&model).into_iter().chain(code_7::settling(&model)).chain(wide::settling(&model)).for_each(|kind| outcome.note(kind));
    }
    let mut ours = junk_words(words.saturating_add_signed(spare));
    let mut theirs = ours.clone();
    outcome.compare("refusal * 65536 + passes", Counterpart.settle(sheet, &mut ours), other.settle(sheet, &mut theirs));
    outcome.compare_bytes("table", &ours, &theirs);
}

fn note_settled(settled: &Settled, spare: isize, outcome: &mut Outcome) {
    if spare < 0 {
        outcome.note("settle: 24 table a word short");
        return;
    }
    outcome.note(settled_kind(settled));
    if settled.passes() > 2 {
        outcome.note("settle: three passes or more");
    }
    if spare > 0 {
        outcome.note("settle: table longer");
    }
}

fn settled_kind(settled: &Settled) -> Kind {
    let groups = &settled.model().groups;
    let encoding = Encoding::of(settled);
    if (0..groups.len()).any(|index| encoding.counter_start(index).is_some()) {
        "settle: with counters"
    } else if groups.iter().any(|group| group.open() != 0) {
        "settle: open marks and no counter"
    } else {
        "settle: nothing open"
    }
}

fn check_block(sheet: &[u8], block: u32, spare: isize, other: &dyn Calls, outcome: &mut Outcome) {
    let whole = Counterpart.block(sheet, block, &mut vec![0; BLOCK_BYTES]);
    let length = match (whole >> 32) as u32 {
        0 => {
            note_block(sheet, block, whole as usize, spare, outcome);
            whole as usize
        }
        number => {
            outcome.note(match number {
                NO_BLOCK => "block: 23 no such block",
                CONTRADICTION => "block: 21",
                _ => "block: sheet refused",
            });
            outcome.kinds.extend(edges::above(sheet, block));
            64
        }
    };
    let mut ours = junk(length.saturating_add_signed(spare));
    let mut theirs = ours.clone();
    outcome.compare("refusal * 2^32 + length", Counterpart.block(sheet, block, &mut ours), other.block(sheet, block, &mut theirs));
    outcome.compare_bytes("buffer", &ours, &theirs);
}

fn note_block(sheet: &[u8], block: u32, length: usize, spare: isize, outcome: &mut Outcome) {
    if spare < 0 && length > 0 {
        outcome.note("block: 24 buffer a byte short");
        return;
    }
    let Ok(settled) = settled(sheet) else { return };
    let (encoding, block) = (Encoding::of(&settled), block as usize);
    outcome.note(match encoding.part(block) {
        Part::Header => "block: header",
        Part::Node { group, .. } if block == *encoding.group_blocks(group).end() => "block: root and its units",
        Part::Node { .. } => "block: node below the root",
        Part::Line(_) if length == 0 => "block: line without clauses",
        Part::Line(_) => "block: line",
    });
    outcome.note(if spare > 0 { "block: buffer longer" } else { "block: buffer exactly long enough" });
    let kinds = code_7::block(&encoding, block).into_iter().chain(wide::block(&encoding, block, length)).chain(edges::block(&encoding, block));
    kinds.for_each(|kind| outcome.note(kind));
}

/// Run after run, each side from where its own last run stopped.
fn check_blocks(sheet: &[u8], from: u32, rooms: &[usize], other: &dyn Calls, outcome: &mut Outcome) {
    let settled = settled(sheet).ok();
    let encoding = settled.as_ref().map(Encoding::of);
    let last = encoding.as_ref().map_or(0, |encoding| encoding.blocks() as u32);
    let (mut block, mut text) = (from, Vec::new());
    outcome.calls = rooms.len() as u64;
    for &room in rooms {
        let (mut ours, mut theirs) = (junk(room), junk(room));
        let answer = Counterpart.blocks(sheet, block, &mut ours);
        let next = (answer >> 32) as u32;
        outcome.go_on();
        outcome.note(match answer as u32 {
            _ if next > last => "blocks: to the end of the listing",
            _ if next > block && next - block == 1 => "blocks: one block",
            _ if next > 0 => "blocks: several blocks",
            NO_BLOCK => "blocks: 23 no such block",
            SHORT_BUFFER => "blocks: 24 next block does not fit",
            _ => "blocks: 21 or sheet refused",
        });
        outcome.kinds.extend(encoding.iter().flat_map(|encoding| edges::run(encoding, block, room, answer)));
        outcome.compare("next * 2^32 + length, or the refusal", answer, other.blocks(sheet, block, &mut theirs));
        outcome.compare_bytes("buffer", &ours, &theirs);
        if next > 0 {
            text.extend_from_slice(&theirs[..answer as u32 as usize]);
            block = next;
        }
    }
    if let (Some(encoding), 0, true) = (encoding, from, block > last) {
        outcome.note("blocks: together the listing");
        outcome.kinds.extend(code_7::has_x(&encoding).then_some("different: blocks, together the listing"));
        outcome.kinds.extend(wide::is_wide(encoding.settled.model()).then_some("wide: blocks, together the listing"));
        outcome.compare("the runs together", &listing(&encoding), &text);
    }
}

/// Line after line, each side's state and marks carried on.
fn check_lines(marks: &[u8], lines: &[Vec<u8>], other: &dyn Calls, outcome: &mut Outcome) {
    let (mut ours, mut theirs) = (marks.to_vec(), marks.to_vec());
    let (mut closed, mut their_closed) = (0, 0);
    outcome.calls = lines.len() as u64;
    for (index, line) in lines.iter().enumerate() {
        let answer = Counterpart.line(closed, line, &mut ours);
        outcome.go_on();
        outcome.note(line_kind(line, answer, closed, ours.len()));
        outcome.kinds.extend(wide::line(line, answer, ours.len()));
        let their_answer = other.line(their_closed, line, &mut theirs);
        outcome.compare(&format!("line {}: refusal * 2 + closed", index + 1), answer, their_answer);
        outcome.compare_bytes(&format!("marks after line {}", index + 1), &ours, &theirs);
        (closed, their_closed) = (answer & 1, their_answer & 1);
    }
}

fn line_kind(line: &[u8], answer: u32, closed: u32, length: usize) -> Kind {
    let first = line.first();
    match answer / 2 {
        FORM if first == Some(&b'v') => "line: 10 form",
        FORM => "line: 10 empty or first byte",
        ABOVE => "line: 11 above the marks",
        SAID if Counterpart.line(0, line, &mut vec![0; length]) / 2 == SAID => "line: 12 said in this line",
        SAID => "line: 12 said in an earlier line",
        CLOSED => "line: 25 after the closing 0",
        _ if first != Some(&b'v') && closed == 1 => "line: c or s after the closing 0",
        _ if first != Some(&b'v') => "line: c or s",
        _ if length == MOST_VARIABLES => "line: v on as many marks as there can be",
        _ if length > MOST_VARIABLES => "line: v on marks longer than any listing's",
        _ if line.iter().filter(|&&byte| byte == b' ').count() >= 1_000 => "line: v with a thousand literals",
        _ if answer & 1 == 1 => "line: v with closing 0",
        _ => "line: v",
    }
}

fn check_close(sheet: &[u8], closed: bool, marks: &[u8], room: usize, other: &dyn Calls, outcome: &mut Outcome) {
    let mut ours = junk_words(room);
    let mut theirs = ours.clone();
    let answer = Counterpart.close(sheet, closed.into(), marks, &mut ours);
    outcome.note(close_kind(sheet, closed, marks, answer));
    if let Ok(settled) = settled(sheet) {
        let encoding = Encoding::of(&settled);
        let kinds = code_7::closing(&encoding, closed, marks, answer).into_iter().chain(wide::closing(&encoding, &ours, answer));
        kinds.for_each(|kind| outcome.note(kind));
    }
    if room < GROUPS as usize && answer != SHORT_BUFFER {
        outcome.note("close: refused, table too short");
    }
    outcome.compare("refusal", answer, other.close(sheet, closed.into(), marks, &mut theirs));
    outcome.compare_bytes("groups", &ours, &theirs);
    if answer == 0 {
        filling::check_again(sheet, marks, &theirs, other, outcome);
    }
}

fn close_kind(sheet: &[u8], closed: bool, marks: &[u8], answer: u32) -> Kind {
    match answer {
        0 if marks.is_empty() => "close: groups, no variables",
        0 => "close: groups",
        MARKS => {
            let variables = settled(sheet).map_or(0, |settled| Encoding::of(&settled).variables);
            if marks.len() < variables {
                "close: 26 marks too few"
            } else {
                "close: 26 marks too many"
            }
        }
        UNSAID if !closed => "close: 27 no closing 0",
        UNSAID => "close: 27 unsaid",
        FALSE_CLAUSE => "close: 28 clause false",
        SHORT_BUFFER => "close: 24 table too short",
        CONTRADICTION => "close: 21",
        _ => "close: sheet refused",
    }
}

/// A sheet as it stands, or its lines quoted where some byte would not be seen.
pub fn show_sheet(sheet: &[u8]) -> String {
    let seen =
        |line: &[u8]| line.ends_with(b"\n") && !line.ends_with(b" \n") && line[..line.len() - 1].iter().all(|&byte| byte == b' ' || byte.is_ascii_graphic());
    let lines: Vec<&[u8]> = sheet.split_inclusive(|&byte| byte == b'\n').collect();
    if lines.iter().all(|line| seen(line)) {
        return String::from_utf8_lossy(sheet).into_owned();
    }
    lines.iter().map(|line| format!("\"{}\"\n", line.escape_ascii())).collect()
}

impl Case {
    pub fn sheet(&self) -> Option<&[u8]> {
        match self {
            Case::Read { sheet } | Case::Settle { sheet, .. } | Case::Block { sheet, .. } | Case::Blocks { sheet, .. } => Some(sheet),
            Case::Close { sheet, .. } | Case::Steps { sheet } | Case::Count { sheet } => Some(sheet),
            Case::Answer(answer) => Some(&answer.sheet),
            Case::Fill(fill) => Some(&fill.sheet),
            Case::Certificate(certificate) => Some(&certificate.sheet),
            Case::Twins(twins) => twins.case.sheet(),
            Case::Combine(pair) => Some(pair.sheet()),
            Case::Lines { .. } | Case::Model(_) | Case::CombineWords(_) => None,
        }
    }

    /// The two sheets of the case, where it has two.
    pub fn pair(&mut self) -> Option<&mut CombineCase> {
        match self {
            Case::Combine(pair) => Some(pair),
            Case::Twins(twins) => twins.case.pair(),
            _ => None,
        }
    }

    /// The words of groups that the case has.
    pub fn groups(&mut self) -> Option<&mut Vec<u64>> {
        match self {
            Case::Fill(fill) => Some(&mut fill.groups),
            Case::Twins(twins) => twins.case.groups(),
            Case::Combine(pair) => Some(&mut pair.groups),
            _ => None,
        }
    }

    /// The same case on another sheet; marks are cut or lengthened to its variables, and a block's number moves with its part.
    pub fn with_sheet(&self, new: Vec<u8>) -> Case {
        let mut case = self.clone();
        match &mut case {
            Case::Read { sheet } | Case::Settle { sheet, .. } | Case::Steps { sheet } | Case::Count { sheet } => *sheet = new,
            Case::Block { sheet, block, .. } | Case::Blocks { sheet, from: block, .. } => {
                *block = edges::moved(*block, sheet, &new);
                *sheet = new;
            }
            Case::Close { sheet, marks, .. } => {
                let variables = |sheet: &[u8]| settled(sheet).ok().map(|settled| Encoding::of(&settled).variables as isize);
                if let (Some(before), Some(now)) = (variables(sheet), variables(&new)) {
                    marks.resize((marks.len() as isize + now - before).max(0) as usize, 1);
                }
                *sheet = new;
            }
            Case::Answer(answer) => answer.sheet = new,
            Case::Fill(fill) => *fill = fill.with_sheet(new),
            Case::Certificate(certificate) => *certificate = certificate.with_sheet(new),
            Case::Twins(twins) => *twins = twins.with_sheet(new),
            Case::Combine(pair) => *pair = pair.with_sheet(new),
            Case::Lines { .. } | Case::Model(_) | Case::CombineWords(_) => {}
        }
        case
    }

    /// The case in words, its sheet or lines below.
    pub fn show(&self) -> String {
        match self {
            Case::Read { sheet } => format!("read\n{}", show_sheet(sheet)),
            Case::Settle { sheet, spare } => format!("settle, table of 4*s{spare:+} words\n{}", show_sheet(sheet)),
            Case::Block { sheet, block, spare } => format!("block {block}, buffer of the block's length{spare:+}\n{}", show_sheet(sheet)),
            Case::Blocks { sheet, from, rooms } => format!("runs of blocks from {from}, buffers of {rooms:?} bytes\n{}", show_sheet(sheet)),
            Case::Count { sheet } => format!("number of blocks\n{}", show_sheet(sheet)),
            Case::Answer(answer) => answer.show(),
            Case::Fill(fill) => fill.show(),
            Case::Model(model) => model.show(),
            Case::Certificate(certificate) => certificate.show(),
            Case::Twins(twins) => twins.show(),
            Case::Combine(pair) => pair.show(),
            Case::CombineWords(pair) => pair.show(),
            Case::Steps { sheet } => format!("each node by its steps\n{}", show_sheet(sheet)),
            Case::Close { sheet, closed, marks, room } => format!("close, closed {closed}, marks {marks:?}, table of {room} words\n{}", show_sheet(sheet)),
            Case::Lines { marks, lines } => {
                let lines: String = lines.iter().map(|line| format!("  \"{}\"\n", line.escape_ascii())).collect();
                format!("lines on marks {marks:?}\n{lines}")
            }
        }
    }
}

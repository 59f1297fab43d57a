//! Twins: sheets that differ only in mark columns, blank in one and a written 1 in the other. Each call does the same with both.
use super::blanks::rewritten;
use super::calls::Calls;
use super::case::{junk, junk_words, show_sheet, Case, Kind, Outcome};
use super::random::Random;
use crate::model::{BLOCK_BYTES, GROUPS};
use crate::sheet::read;

/// Sheets that are read, by their refusal.
const READ: [Kind; 10] = [
    "twins: read",
    "twins: read, 1",
    "twins: read, 2",
    "twins: read, 3",
    "twins: read, 4",
    "twins: read, 5",
    "twins: read, 6",
    "twins: read, 7",
    "twins: read, 8",
    "twins: read, 9",
];

/// Sheets in the other calls that take one, accepted and refused.
const OTHERS: [[Kind; 2]; 9] = [
    ["twins: settle", "twins: settle, sheet refused"],
    ["twins: block", "twins: block, sheet refused"],
    ["twins: blocks", "twins: blocks, sheet refused"],
    ["twins: close", "twins: close, sheet refused"],
    ["twins: fill", "twins: fill, sheet refused"],
    ["twins: certify", "twins: certify, sheet refused"],
    ["twins: combine", "twins: combine, first sheet refused"],
    ["twins: count", "twins: count, sheet refused"],
    ["twins: answer", "twins: answer, sheet refused"],
];

pub fn kinds() -> impl Iterator<Item = Kind> {
    READ.into_iter().chain(OTHERS.into_iter().flatten())
}

/// A case and the same call on a twin of its sheet: what they answer and leave in lent memory is the same.
#[derive(Clone, Debug)]
pub struct TwinCase {
    pub case: Box<Case>,
    seed: u64,
}

impl TwinCase {
    pub fn new(random: &mut Random, case: Case) -> TwinCase {
        TwinCase { case: Box::new(case), seed: random.word() }
    }

    fn sheet(&self) -> &[u8] {
        self.case.sheet().unwrap_or_default()
    }

    /// All written, all blank, each the other way round, or as it comes.
    fn twin(&self) -> Vec<u8> {
        let mut random = Random(self.seed);
        let how = random.below(4);
        rewritten(self.sheet(), |blank| match how {
            0 => false,
            1 => true,
            2 => !blank,
            _ => random.chance(50),
        })
    }

    pub fn check(&self, other: &dyn Calls, outcome: &mut Outcome) {
        let twin = self.twin();
        if twin == self.sheet() {
            return;
        }
        outcome.calls = 2;
        outcome.note(self.kind());
        let (ours, theirs) = (answer(&self.case, other), answer(&self.case.with_sheet(twin), other));
        if let Some(at) = (0..ours.len()).find(|&at| ours.get(at) != theirs.get(at)) {
            let what = if at == 0 { "answer".to_string() } else { format!("lent memory at {}", at - 1) };
            outcome.differ(format!("{what}: {} with the sheet, {:?} with its twin", ours[at], theirs.get(at)));
        }
    }

    fn kind(&self) -> Kind {
        let refusal = read(self.sheet()).err().map_or(0, |refused| refused.number as usize);
        let call = match &*self.case {
            Case::Settle { .. } => 0,
            Case::Block { .. } => 1,
            Case::Blocks { .. } => 2,
            Case::Close { .. } => 3,
            Case::Fill(_) => 4,
            Case::Certificate(_) => 5,
            Case::Combine(_) => 6,
            Case::Count { .. } => 7,
            Case::Answer(_) => 8,
            _ => return READ[refusal],
        };
        OTHERS[call][usize::from(refusal > 0)]
    }

    /// The same case on another sheet.
    pub fn with_sheet(&self, sheet: Vec<u8>) -> TwinCase {
        TwinCase { case: Box::new(self.case.with_sheet(sheet)), ..self.clone() }
    }

    pub fn show(&self) -> String {
        format!("{}and with its twin\n{}", self.case.show(), show_sheet(&self.twin()))
    }
}

/// What a call answers, then what it leaves in lent memory.
fn answer(case: &Case, other: &dyn Calls) -> Vec<u64> {
    let bytes = |number: u64, bytes: Vec<u8>| [number].into_iter().chain(bytes.into_iter().map(u64::from)).collect();
    let words = |number: u64, words: Vec<u64>| [vec![number], words].concat();
    match case {
        Case::Settle { sheet, .. } => {
            let mut table = junk_words(4 * GROUPS as usize);
            words(other.settle(sheet, &mut table), table)
        }
        Case::Block { sheet, block, .. } => {
            let mut buffer = junk(BLOCK_BYTES);
            bytes(other.block(sheet, *block, &mut buffer), buffer)
        }
        Case::Blocks { sheet, from, rooms } => {
            let mut buffer = junk(rooms.iter().copied().max().unwrap_or(0));
            bytes(other.blocks(sheet, *from, &mut buffer), buffer)
        }
        Case::Count { sheet } => vec![other.block_count(sheet)],
        Case::Close { sheet, closed, marks, room } => {
            let mut groups = junk_words(*room);
            words(other.close(sheet, (*closed).into(), marks, &mut groups).into(), groups)
        }
        Case::Answer(case) => {
            let mut groups = junk_words(case.room);
            words(other.answer(&case.sheet, &case.output, &mut groups), groups)
        }
        Case::Fill(fill) => fill.answer(other),
        Case::Certificate(certificate) => certificate.answer(other),
        Case::Combine(pair) => pair.answer(other),
        _ => vec![other.read(case.sheet().unwrap_or_default())],
    }
}

#[cfg(test)]
mod tests {
    use super::super::blanks::{sample, BLANK, ONE};
    use super::*;

    /// By the reading's own words: as many lines, and line by line the same bytes, or first field 2 in both and field by field the same bytes or,
    /// from the fifth on, four spaces in one and a written 1 in the other.
    fn are_twins(one: &[u8], other: &[u8]) -> bool {
        let lines = |sheet: &[u8]| sheet.split(|&byte| byte == b'\n').map(<[u8]>::to_vec).collect::<Vec<_>>();
        let (one, other) = (lines(one), lines(other));
        one.len() == other.len() && one.iter().zip(&other).all(|(one, other)| one == other || are_twin_lines(one, other))
    }

    fn are_twin_lines(one: &[u8], other: &[u8]) -> bool {
        let pairs = || one.chunks(4).zip(other.chunks(4)).enumerate();
        let alike = |(at, (one, other)): (usize, (&[u8], &[u8]))| one == other || at >= 4 && ([one, other] == [BLANK, ONE] || [one, other] == [ONE, BLANK]);
        one.len() == other.len() && one.starts_with(b"   2") && other.starts_with(b"   2") && pairs().all(alike)
    }

    #[test]
    fn twins_are_read_alike() {
        let mut random = Random(31);
        for _ in 0..2_000 {
            let sheet = sample(&mut random).sheet;
            let case = TwinCase::new(&mut random, Case::Read { sheet: sheet.clone() });
            let twin = case.twin();
            assert!(are_twins(&sheet, &twin));
            assert_eq!(read(&sheet), read(&twin));
        }
    }
}

//! A run of the comparison: cases from a seed, counted by kind, with the smallest case of each difference.
use super::calls::{settled, Calls};
use super::case::{check, kinds, Case, Kind, SAMPLE};
use super::random::Random;
use super::sheets::Sample;
use super::shrink::shrink;
use super::twins::TwinCase;
use super::{answering, answers, blanks, certificates, combining, differences, filling, limits, models, samples, sheets, steps, wide, words};
use crate::encode::Encoding;
use crate::fill::assignment;
use crate::listing::listing;
use crate::model::BLOCK_BYTES;
use std::collections::BTreeMap;
use std::time::{Duration, Instant};

/// How many cases of each kind there were, and how many calls they made; which kinds failed.
#[derive(Default)]
pub struct Tally {
    pub calls: u64,
    pub met: BTreeMap<Kind, u64>,
    pub failed: Vec<Kind>,
}

/// Compares until so many calls are made. `say` gets what there is to print.
pub fn run(other: &dyn Calls, seed: u64, calls: u64, say: &mut dyn FnMut(&str)) -> Tally {
    let mut random = Random(seed);
    // pairs of sheets, sheets with lines of code 7, sheets of more entrants with the edges of blocks, whole outputs, and words that no model has get numbers
    // of their own, so that the other cases stay what they were
    let mut of_pairs = Random(!seed);
    let mut of_differences = Random(seed.rotate_left(32));
    let mut of_wide = Random(seed.rotate_left(16));
    let mut of_outputs = Random(!seed.rotate_left(16));
    let mut of_words = Random(seed.rotate_left(48));
    let mut tally = Tally::default();
    for case in samples::cases() {
        take(&case, other, &mut tally, say);
        *tally.met.entry(SAMPLE).or_default() += 1;
        if !tally.failed.is_empty() {
            tally.failed.push(SAMPLE);
        }
    }
    let mut next_word = Instant::now() + Duration::from_secs(3);
    while tally.calls < calls {
        let pairs = if of_pairs.chance(30) { combining::cases(&mut of_pairs, 0) } else { Vec::new() };
        let differences = if of_differences.chance(30) { differences::cases(&mut of_differences) } else { Vec::new() };
        let wide = if of_wide.chance(30) { wide::cases(&mut of_wide) } else { Vec::new() };
        let outputs = if of_outputs.chance(10) { answering::cases(&mut of_outputs) } else { Vec::new() };
        let words = if of_words.below(300) == 0 { words::cases(&mut of_words) } else { Vec::new() };
        for case in batch(&mut random).into_iter().chain(pairs).chain(differences).chain(wide).chain(outputs).chain(words) {
            take(&case, other, &mut tally, say);
        }
        if Instant::now() >= next_word {
            say(&format!("{} of {calls} cases, {} kinds with a difference", tally.calls, tally.failed.len()));
            next_word = Instant::now() + Duration::from_secs(3);
        }
    }
    tally
}

fn take(case: &Case, other: &dyn Calls, tally: &mut Tally, say: &mut dyn FnMut(&str)) {
    let outcome = check(case, other);
    tally.calls += outcome.calls;
    outcome.kinds.iter().for_each(|kind| *tally.met.entry(kind).or_default() += 1);
    let Some(difference) = outcome.difference else { return };
    if let Some(kind) = difference.kinds.iter().find(|kind| !tally.failed.contains(kind)) {
        say(&smallest(case, kind, other));
    }
    tally.failed.extend(difference.kinds);
}

/// The smallest case found that differs in the same kind, in words.
fn smallest(case: &Case, kind: Kind, other: &dyn Calls) -> String {
    let difference = |case: &Case| check(case, other).difference.filter(|difference| difference.kinds.contains(&kind));
    let smallest = shrink(case.clone(), &|case| difference(case).is_some());
    let words = difference(&smallest).map(|difference| difference.words).unwrap_or_default();
    format!("difference in {kind}: {words}\n{}", smallest.show())
}

impl Tally {
    /// One line a kind, then 'N passed, M failed'; a kind that was never met has failed.
    pub fn report(&self, say: &mut dyn FnMut(&str)) -> bool {
        let mut failures = 0;
        for kind in kinds() {
            let met = self.met.get(kind).copied().unwrap_or(0);
            let verdict = match met {
                0 => "FAILED: never met",
                _ if self.failed.contains(&kind) => "FAILED",
                _ => "same",
            };
            failures += usize::from(verdict != "same");
            say(&format!("{met:>9}  {kind:<45} {verdict}"));
        }
        say(&format!("{} cases", self.calls));
        say(&format!("{} passed, {failures} failed", kinds().count() - failures));
        failures == 0
    }
}

/// The cases made from one sheet.
pub fn batch(random: &mut Random) -> Vec<Case> {
    if random.chance(4) {
        let cases = certificates::cases(random).into_iter().map(Case::Certificate).collect();
        return with_twins(random, cases);
    }
    if random.chance(15) {
        return blanks_batch(random);
    }
    if random.chance(10) {
        return limits_batch(random);
    }
    if random.chance(4) {
        return vec![Case::Steps { sheet: steps::sheet(random) }];
    }
    if random.below(150) == 0 {
        return vec![Case::Fill(filling::largest(random))];
    }
    let mut sample = sheets::valid(random);
    if random.chance(20) {
        sample.sheet = blanks::some(random, &sample.sheet);
    }
    if random.chance(45) {
        return damaged_batch(random, &sample.sheet);
    }
    let sheet = sample.sheet;
    let mut cases = vec![Case::Read { sheet: sheet.clone() }];
    cases.push(Case::Settle { sheet: sheet.clone(), spare: random.pick(&[0, 0, -1, 1, 7]) });
    for _ in 0..3 {
        cases.push(block_case(random, &sheet));
    }
    cases.push(blocks_case(random, &sheet));
    if sheet.len() < 2_000 && random.chance(20) {
        cases.push(Case::Steps { sheet: sheet.clone() });
    }
    cases.push(lines_case(random));
    for _ in 0..3 {
        cases.extend(models::case(random, &sheet, sample.draw.as_deref()).map(Case::Model));
    }
    for _ in 0..if sample.draw.is_some() { 3 } else { 1 } {
        cases.push(Case::Fill(filling::case(random, sheet.clone(), sample.draw.as_deref())));
    }
    cases.push(close_case(random, sheet, sample.draw.as_deref()));
    cases
}

/// The cases made from one sheet in which limits travel.
fn limits_batch(random: &mut Random) -> Vec<Case> {
    let sample = limits::sample(random);
    let mut cases = vec![Case::Settle { sheet: sample.sheet.clone(), spare: random.pick(&[0, 1]) }, block_case(random, &sample.sheet)];
    for _ in 0..3 {
        cases.extend(models::case(random, &sample.sheet, sample.draw.as_deref()).map(Case::Model));
    }
    cases.push(Case::Fill(filling::case(random, sample.sheet.clone(), sample.draw.as_deref())));
    cases.push(close_case(random, sample.sheet, sample.draw.as_deref()));
    cases
}

/// The cases made from one sheet with blank marks.
fn blanks_batch(random: &mut Random) -> Vec<Case> {
    let Sample { sheet, draw } = blanks::sample(random);
    let call = match random.below(5) {
        0 => Case::Settle { sheet: sheet.clone(), spare: 0 },
        1 => block_case(random, &sheet),
        2 => blocks_case(random, &sheet),
        3 => close_case(random, sheet.clone(), draw.as_deref()),
        _ => Case::Fill(filling::case(random, sheet.clone(), draw.as_deref())),
    };
    with_twins(random, vec![Case::Read { sheet }, call])
}

/// The cases, and each beside a twin of its sheet.
pub fn with_twins(random: &mut Random, mut cases: Vec<Case>) -> Vec<Case> {
    let twins: Vec<Case> = cases.iter().map(|case| Case::Twins(TwinCase::new(random, case.clone()))).collect();
    cases.extend(twins);
    cases
}

fn damaged_batch(random: &mut Random, sheet: &[u8]) -> Vec<Case> {
    let sheet = sheets::damaged(random, sheet);
    let mut cases = vec![Case::Read { sheet: sheet.clone() }];
    match random.below(8) {
        7 => cases.push(Case::Fill(filling::case(random, sheet, None))),
        6 => cases.push(blocks_case(random, &sheet)),
        0 => cases.push(Case::Settle { sheet, spare: 0 }),
        1 => cases.push(block_case(random, &sheet)),
        2 => cases.push(close_case(random, sheet, None)),
        _ => {}
    }
    cases
}

pub fn block_case(random: &mut Random, sheet: &[u8]) -> Case {
    let blocks = settled(sheet).map_or(3, |settled| Encoding::of(&settled).blocks()) as u32;
    let block = match random.below(10) {
        0 => 0,
        1 => blocks,
        2 => blocks.saturating_add(random.pick(&[1, 2, 1000, u32::MAX])),
        _ => random.below(blocks as usize + 1) as u32,
    };
    Case::Block { sheet: sheet.to_vec(), block, spare: random.pick(&[0, 0, -1, 1, 50]) }
}

/// Runs with buffers about as long as a few blocks, and one that takes the rest.
pub fn blocks_case(random: &mut Random, sheet: &[u8]) -> Case {
    let length = settled(sheet).map_or(100, |settled| listing(&Encoding::of(&settled)).len());
    let few = (length / random.from_to(1, 6)).max(1);
    let mut rooms: Vec<usize> = (0..random.from_to(1, 4)).map(|_| random.below(few + 1)).collect();
    rooms.push(random.pick(&[length, length, BLOCK_BYTES, BLOCK_BYTES - 1, length.saturating_sub(1)]));
    rooms.push(random.pick(&[0, 10, length]));
    Case::Blocks { sheet: sheet.to_vec(), from: 0, rooms }
}

fn lines_case(random: &mut Random) -> Case {
    let length = match random.below(500) {
        0 | 1 => random.pick(&[49_152, 49_153, 60_000, 65_537, 100_000]),
        2..=11 => random.from_to(1_000, 3_000),
        _ => random.below(30),
    };
    let lines = answers::lines(random, length);
    Case::Lines { marks: answers::fresh(random, length), lines }
}

pub fn close_case(random: &mut Random, sheet: Vec<u8>, draw: Option<&[u64]>) -> Case {
    let mut marks = match settled(&sheet) {
        Ok(settled) => match (Encoding::of(&settled), draw) {
            (encoding, Some(draw)) => assignment(&encoding, draw),
            (encoding, None) => (0..encoding.variables).map(|_| random.pick(&[1, 2])).collect(),
        },
        Err(_) => vec![1; random.below(5)],
    };
    let mut closed = true;
    if !marks.is_empty() {
        let at = random.below(marks.len());
        match random.below(10) {
            0..=2 => marks[at] = 3 - marks[at],
            3 => marks[at] = random.pick(&[0, 3, 255]),
            4 => drop(marks.pop()),
            _ => {}
        }
    }
    match random.below(10) {
        0 => closed = false,
        1 => marks.push(1),
        _ => {}
    }
    Case::Close { sheet, closed, marks, room: random.pick(&[256, 256, 256, 255, 300]) }
}

#[cfg(test)]
mod tests {
    use super::super::calls::{combined, Counterpart, Lent};
    use super::super::code_7;
    use super::*;
    use crate::encode::Part;
    use crate::model::Model;
    use crate::sheet::{read, write};
    use crate::steps::{counters, dropped, form, put_in, Counter, Node, Outputs, Printed, Value};
    use crate::words::{field_at, from_words, group_at, Field, FIRST_GROUP, FIRST_LINE, WORDS};

    const CALLS: u64 = 22_000;

    fn outcome(other: &dyn Calls, calls: u64) -> (Tally, String) {
        let mut text = String::new();
        let tally = run(other, 1, calls, &mut |line| text = format!("{text}{line}\n"));
        (tally, text)
    }

    #[test]
    fn no_difference_from_itself_and_every_kind_is_met() {
        let (tally, text) = outcome(&Counterpart, 4 * CALLS);
        assert!(tally.failed.is_empty(), "{text}");
        let never: Vec<Kind> = kinds().filter(|kind| !tally.met.contains_key(kind)).collect();
        assert!(never.is_empty(), "never met: {never:?}");
        assert_eq!(tally.met.len(), kinds().count(), "a kind that is not in the list");
    }

    /// This crate with one call exchanged.
    struct Broken {
        read: fn(&[u8]) -> u64,
        settle: fn(&[u8], &mut [u64]) -> u64,
        block: fn(&[u8], u32, &mut [u8]) -> u64,
        line: fn(u32, &[u8], &mut [u8]) -> u32,
        close: fn(&[u8], u32, &[u8], &mut [u64]) -> u32,
        answer: fn(&[u8], &[u8], &mut [u64]) -> u64,
        fill: fn(&[u8], &[u64], &mut [u8]) -> u32,
        blocks: fn(&[u8], u32, &mut [u8]) -> u64,
        block_count: fn(&[u8]) -> u64,
        block_count_model: fn(&[u64]) -> u32,
        settle_model: fn(&[u64], &mut [u64]) -> u64,
        block_model: fn(&[u64], u32, &mut [u8]) -> u64,
        close_model: fn(&[u64], u32, &[u8], &mut [u64]) -> u32,
        fill_model: fn(&[u64], &[u64], &mut [u8]) -> u32,
        write_model: fn(&[u64], &mut [u8]) -> u64,
        combine: fn(&[u8], &[u8], &mut [u8]) -> u64,
        combine_model: fn(&[u64], &[u64], &mut [u64]) -> u32,
        certify: fn(&[u8], &[u8], &mut Lent) -> u64,
    }

    const SOUND: Broken = Broken {
        read: |sheet| Counterpart.read(sheet),
        settle: |sheet, table| Counterpart.settle(sheet, table),
        block: |sheet, block, buffer| Counterpart.block(sheet, block, buffer),
        line: |closed, line, marks| Counterpart.line(closed, line, marks),
        close: |sheet, closed, marks, groups| Counterpart.close(sheet, closed, marks, groups),
        answer: |sheet, output, groups| Counterpart.answer(sheet, output, groups),
        fill: |sheet, groups, marks| Counterpart.fill(sheet, groups, marks),
        blocks: |sheet, block, buffer| Counterpart.blocks(sheet, block, buffer),
        block_count: |sheet| Counterpart.block_count(sheet),
        block_count_model: |words| Counterpart.block_count_model(words),
        settle_model: |words, table| Counterpart.settle_model(words, table),
        block_model: |words, block, buffer| Counterpart.block_model(words, block, buffer),
        close_model: |words, closed, marks, groups| Counterpart.close_model(words, closed, marks, groups),
        fill_model: |words, groups, marks| Counterpart.fill_model(words, groups, marks),
        write_model: |words, buffer| Counterpart.write_model(words, buffer),
        combine: |first, second, buffer| Counterpart.combine(first, second, buffer),
        combine_model: |first, second, words| Counterpart.combine_model(first, second, words),
        certify: |sheet, certificate, lent| Counterpart.certify(sheet, certificate, lent),
    };

    impl Calls for Broken {
        fn read(&self, sheet: &[u8]) -> u64 {
            (self.read)(sheet)
        }
        fn settle(&self, sheet: &[u8], table: &mut [u64]) -> u64 {
            (self.settle)(sheet, table)
        }
        fn block(&self, sheet: &[u8], block: u32, buffer: &mut [u8]) -> u64 {
            (self.block)(sheet, block, buffer)
        }
        fn line(&self, closed: u32, line: &[u8], marks: &mut [u8]) -> u32 {
            (self.line)(closed, line, marks)
        }
        fn close(&self, sheet: &[u8], closed: u32, marks: &[u8], groups: &mut [u64]) -> u32 {
            (self.close)(sheet, closed, marks, groups)
        }
        fn answer(&self, sheet: &[u8], output: &[u8], groups: &mut [u64]) -> u64 {
            (self.answer)(sheet, output, groups)
        }
        fn fill(&self, sheet: &[u8], groups: &[u64], marks: &mut [u8]) -> u32 {
            (self.fill)(sheet, groups, marks)
        }
        fn blocks(&self, sheet: &[u8], block: u32, buffer: &mut [u8]) -> u64 {
            (self.blocks)(sheet, block, buffer)
        }
        fn block_count(&self, sheet: &[u8]) -> u64 {
            (self.block_count)(sheet)
        }
        fn block_count_model(&self, words: &[u64]) -> u32 {
            (self.block_count_model)(words)
        }
        fn settle_model(&self, words: &[u64], table: &mut [u64]) -> u64 {
            (self.settle_model)(words, table)
        }
        fn block_model(&self, words: &[u64], block: u32, buffer: &mut [u8]) -> u64 {
            (self.block_model)(words, block, buffer)
        }
        fn close_model(&self, words: &[u64], closed: u32, marks: &[u8], groups: &mut [u64]) -> u32 {
            (self.close_model)(words, closed, marks, groups)
        }
        fn fill_model(&self, words: &[u64], groups: &[u64], marks: &mut [u8]) -> u32 {
            (self.fill_model)(words, groups, marks)
        }
        fn write_model(&self, words: &[u64], buffer: &mut [u8]) -> u64 {
            (self.write_model)(words, buffer)
        }
        fn combine(&self, first: &[u8], second: &[u8], buffer: &mut [u8]) -> u64 {
            (self.combine)(first, second, buffer)
        }
        fn combine_model(&self, first: &[u64], second: &[u64], words: &mut [u64]) -> u32 {
            (self.combine_model)(first, second, words)
        }
        fn certify(&self, sheet: &[u8], certificate: &[u8], lent: &mut Lent) -> u64 {
            (self.certify)(sheet, certificate, lent)
        }
    }

    #[track_caller]
    fn is_caught(broken: Broken, kind: Kind, shown: &str) {
        let (tally, text) = outcome(&broken, CALLS);
        assert!(tally.failed.contains(&kind), "{kind} not caught\n{text}");
        assert!(text.contains(shown), "{text}");
    }

    #[test]
    fn a_reader_that_takes_8_for_9_is_caught() {
        let read = |sheet: &[u8]| match Counterpart.read(sheet) {
            answer if answer >> 16 == 9 => answer - 65_536,
            answer => answer,
        };
        is_caught(Broken { read, ..SOUND }, "read: 9 group twice", "difference in read: 9");
    }

    /// What the reader did before: a blank mark was 4.
    #[test]
    fn a_reader_that_refuses_a_blank_mark_is_caught_with_the_smallest_sheet() {
        let read = |sheet: &[u8]| {
            let mut lines = sheet.split(|&byte| byte == b'\n');
            match (Counterpart.read(sheet), lines.position(|line| line.chunks(4).any(|field| field == b"    "))) {
                (0, Some(before)) => 4 << 16 | (before as u64 + 1),
                (answer, _) => answer,
            }
        };
        is_caught(Broken { read, ..SOUND }, "blank: some open marks", "\n\"   1   1   1   0\\n\"\n\"   2   1   0   1    \\n\"\n");
    }

    #[test]
    fn a_reader_that_takes_a_blank_low_for_1_is_caught() {
        let read = |sheet: &[u8]| match Counterpart.read(sheet) {
            answer if answer >> 16 == 4 => Counterpart.read(&with_low(sheet)),
            answer => answer,
        };
        is_caught(Broken { read, ..SOUND }, "blank: 4 low", "difference in read: 4 field");
    }

    /// The sheet with 1 for every low that is blank.
    fn with_low(sheet: &[u8]) -> Vec<u8> {
        let mut sheet = sheet.to_vec();
        for line in sheet.split_mut(|&byte| byte == b'\n').filter(|line| line.len() > 16 && line.starts_with(b"   2") && line[8..12] == *b"    ") {
            line[11] = b'1';
        }
        sheet
    }

    /// A reader that looks for blank marks only where a group line is due.
    #[test]
    fn a_reader_that_goes_by_the_place_is_caught() {
        let read = |sheet: &[u8]| match Counterpart.read(sheet) {
            answer if blanks::met(sheet, answer).contains(&"blank: 5 where a constraint line is due") => answer - (1 << 16),
            answer => answer,
        };
        is_caught(Broken { read, ..SOUND }, "blank: 5 where a constraint line is due", "difference in read: 5 kind of line");
    }

    #[test]
    fn settling_that_takes_a_blank_for_barred_is_caught_by_twins() {
        let settle = |sheet: &[u8], table: &mut [u64]| {
            let mut sheet = sheet.to_vec();
            for line in sheet.split_mut(|&byte| byte == b'\n').filter(|line| line.starts_with(b"   2")) {
                line.chunks_exact_mut(4).skip(4).filter(|field| **field == *b"    ").for_each(|field| field[3] = b'0');
            }
            Counterpart.settle(&sheet, table)
        };
        is_caught(Broken { settle, ..SOUND }, "twins: settle", "difference in twins: settle");
    }

    #[test]
    fn settling_that_counts_a_pass_too_few_is_caught_with_the_smallest_sheet() {
        let settle = |sheet: &[u8], table: &mut [u64]| match Counterpart.settle(sheet, table) {
            answer if answer > 0 && answer < 65_536 => answer - 1,
            answer => answer,
        };
        is_caught(Broken { settle, ..SOUND }, "settle: open marks and no counter", "\n   1   1   1   0\n   2   1   0   1   1\n");
    }

    #[test]
    fn settling_in_which_no_limit_passes_is_caught() {
        let settle = |sheet: &[u8], table: &mut [u64]| match (crate::sheet::read(sheet), Counterpart.settle(sheet, table)) {
            (Ok(model), answer) if answer >> 16 == 21 && limits::by_marks(&model).is_some() => 2,
            (_, answer) => answer,
        };
        is_caught(Broken { settle, ..SOUND }, "limits: 21 by code 2 alone", "difference in settle: 21");
    }

    #[test]
    fn a_byte_written_past_the_block_is_caught() {
        let block = |sheet: &[u8], block, buffer: &mut [u8]| {
            let answer = Counterpart.block(sheet, block, buffer);
            if let Some(byte) = buffer.get_mut(answer as usize) {
                *byte = 0;
            }
            answer
        };
        is_caught(Broken { block, ..SOUND }, "block: buffer longer", "block 0");
    }

    /// The counter that a block belongs to, where it is a node's, and the node's place in the tree.
    fn counter_of(sheet: &[u8], block: u32) -> Option<(Counter, usize)> {
        let mut counters = settled(sheet).map_or(Vec::new(), |settled| counters(&settled.model().groups));
        let mut at = (block as usize).checked_sub(1)?;
        let index = counters.iter().position(|counter| {
            let nodes = counter.as_ref().map_or(0, |counter| counter.nodes.len());
            let here = at < nodes;
            at -= if here { 0 } else { nodes };
            here
        })?;
        Some((counters.swap_remove(index)?, at))
    }

    /// Clauses as a block's answer.
    fn answered(clauses: &[Vec<i32>], buffer: &mut [u8]) -> u64 {
        let text = steps::text(clauses);
        match buffer.get_mut(..text.len()) {
            Some(start) => start.copy_from_slice(text.as_bytes()),
            None => return 24 << 32,
        }
        text.len() as u64
    }

    /// A block, its node made by steps of which the first two are `put`.
    fn by_steps(sheet: &[u8], block: u32, buffer: &mut [u8], put: fn(&Node, u32, u32) -> [[Value; 3]; 2]) -> u64 {
        let Some((counter, at)) = counter_of(sheet, block) else { return Counterpart.block(sheet, block, buffer) };
        let node = counter.nodes[at];
        let mut clauses: Vec<Vec<i32>> = node.places().flat_map(|(p, q)| put(&node, p, q).into_iter().filter_map(dropped)).collect();
        if at + 1 == counter.nodes.len() {
            clauses.extend(counter.units());
        }
        answered(&clauses, buffer)
    }

    const PAIR: &str = "each node by its steps\n   1   2   1   0\n   2   1   1   2   1   1\n";

    #[test]
    fn a_down_clause_with_p_for_p_plus_1_is_caught() {
        let block = |sheet: &[u8], block, buffer: &mut [u8]| {
            by_steps(sheet, block, buffer, |node, p, q| {
                let [up, mut down] = form(p, q);
                down[0].index = p;
                [put_in(node, up), put_in(node, down)]
            })
        };
        is_caught(Broken { block, ..SOUND }, "steps: down of three literals", PAIR);
    }

    #[test]
    fn an_index_past_the_size_put_in_as_true_is_caught() {
        let block = |sheet: &[u8], block, buffer: &mut [u8]| {
            by_steps(sheet, block, buffer, |node, p, q| {
                let true_past = |literal: Printed| match literal.index > node.outputs(literal.set).size {
                    true => Printed { index: 0, ..literal },
                    false => literal,
                };
                form(p, q).map(|clause| put_in(node, clause.map(true_past)))
            })
        };
        is_caught(Broken { block, ..SOUND }, "steps: down without D, q = b and p < a", PAIR);
    }

    /// It has no variable, so it is written as 0.
    #[test]
    fn a_false_literal_that_is_kept_is_caught() {
        let block = |sheet: &[u8], block, buffer: &mut [u8]| {
            by_steps(sheet, block, buffer, |node, p, q| {
                let kept = |value| if value == Value::False { Value::Literal(0) } else { value };
                form(p, q).map(|clause| put_in(node, clause).map(kept))
            })
        };
        is_caught(Broken { block, ..SOUND }, "steps: up without C, p = 0 < q", PAIR);
    }

    #[test]
    fn a_refused_line_that_leaves_a_mark_is_caught() {
        let line = |closed, line: &[u8], marks: &mut [u8]| {
            let answer = Counterpart.line(closed, line, marks);
            if answer / 2 == 12 && !marks.is_empty() {
                marks[0] = 1;
            }
            answer
        };
        is_caught(Broken { line, ..SOUND }, "line: 12 said in this line", "difference in line: 12 said in this line");
    }

    #[test]
    fn closing_that_forgets_the_clauses_is_caught() {
        let close = |sheet: &[u8], closed, marks: &[u8], groups: &mut [u64]| match Counterpart.close(sheet, closed, marks, groups) {
            28 => 0,
            answer => answer,
        };
        is_caught(Broken { close, ..SOUND }, "close: 28 clause false", "close, closed true");
    }

    #[test]
    fn an_answer_that_needs_no_closing_0_is_caught() {
        let answer = |sheet: &[u8], output: &[u8], groups: &mut [u64]| match Counterpart.answer(sheet, output, groups) {
            answer if answer >> 16 == 27 => Counterpart.answer(sheet, &[output, b"\nv 0\n"].concat(), groups),
            answer => answer,
        };
        is_caught(Broken { answer, ..SOUND }, "answer: 27 no closing 0", "answer, table of");
    }

    #[test]
    fn an_answer_that_ends_at_a_refused_line_is_caught() {
        let answer = |sheet: &[u8], output: &[u8], groups: &mut [u64]| {
            let variables = settled(sheet).map_or(0, |settled| Encoding::of(&settled).variables);
            let mut first = None;
            crate::answer::read_lines(output, variables, &mut |line, _| first = first.or(Some(line)));
            let lines: Vec<&[u8]> = output.split_inclusive(|&byte| byte == b'\n').collect();
            Counterpart.answer(sheet, &lines[..first.unwrap_or(lines.len())].concat(), groups)
        };
        is_caught(Broken { answer, ..SOUND }, "answer: groups, refused lines between", "answer, table of");
    }

    #[test]
    fn an_answer_without_the_line_of_the_sheet_is_caught() {
        let answer = |sheet: &[u8], output: &[u8], groups: &mut [u64]| Counterpart.answer(sheet, output, groups) >> 16 << 16;
        is_caught(Broken { answer, ..SOUND }, "answer: sheet refused", "refusal * 65536 + line");
    }

    /// A refusal leaves the groups.
    #[test]
    fn an_answer_that_clears_the_groups_is_caught() {
        let answer = |sheet: &[u8], output: &[u8], groups: &mut [u64]| {
            let answer = Counterpart.answer(sheet, output, groups);
            if answer != 0 {
                groups.fill(0);
            }
            answer
        };
        is_caught(Broken { answer, ..SOUND }, "answer: 28 clause false", "groups at 0");
    }

    /// What `draw_close` did before it left the words of a refused call.
    #[test]
    fn closing_that_clears_the_table_on_a_refusal_is_caught() {
        let close = |sheet: &[u8], closed, marks: &[u8], groups: &mut [u64]| {
            let answer = Counterpart.close(sheet, closed, marks, groups);
            if answer != 0 {
                groups.fill(0);
            }
            answer
        };
        is_caught(Broken { close, ..SOUND }, "close: 28 clause false", "groups at 0");
    }

    #[test]
    fn filling_that_judges_26_before_30_is_caught() {
        let fill = |sheet: &[u8], groups: &[u64], marks: &mut [u8]| match Counterpart.fill(sheet, groups, marks) {
            30 if settled(sheet).is_ok_and(|settled| Encoding::of(&settled).variables != marks.len()) => 26,
            answer => answer,
        };
        is_caught(Broken { fill, ..SOUND }, "fill: 30 before 26", "\n   1   1   1   0\n   2   1   0   1   1\n");
    }

    #[test]
    fn filling_that_leaves_a_mark_on_a_refusal_is_caught() {
        let fill = |sheet: &[u8], groups: &[u64], marks: &mut [u8]| {
            let answer = Counterpart.fill(sheet, groups, marks);
            if answer == 26 && !marks.is_empty() {
                marks[0] = 1;
            }
            answer
        };
        is_caught(Broken { fill, ..SOUND }, "fill: 26 a mark too many", "marks at 0");
    }

    #[test]
    fn filling_that_looks_past_s_is_caught() {
        let fill = |sheet: &[u8], groups: &[u64], marks: &mut [u8]| match Counterpart.fill(sheet, groups, marks) {
            0 if settled(sheet).is_ok_and(|settled| groups.iter().skip(settled.model().groups.len()).any(|&word| word != 0)) => 30,
            answer => answer,
        };
        is_caught(Broken { fill, ..SOUND }, "fill: words past s ignored", "difference in fill");
    }

    #[test]
    fn filling_without_counters_is_caught_after_a_closing() {
        let fill = |sheet: &[u8], groups: &[u64], marks: &mut [u8]| {
            let answer = Counterpart.fill(sheet, groups, marks);
            let open = settled(sheet).map_or(0, |settled| settled.model().groups.iter().map(|group| group.open().count_ones() as usize).sum());
            if answer == 0 {
                marks[open..].fill(2);
            }
            answer
        };
        is_caught(Broken { fill, ..SOUND }, "close: filling gives the marks again", "marks filled again at");
    }

    #[test]
    fn filling_of_an_unsettled_model_is_caught() {
        let fill_model = |words: &[u64], groups: &[u64], marks: &mut [u8]| match Counterpart.fill_model(words, groups, marks) {
            22 => 30,
            answer => answer,
        };
        is_caught(Broken { fill_model, ..SOUND }, "model: 22 of filling by limits alone", "of a model");
    }

    /// What `draw_settle` answered before: 0 where nothing was written.
    #[test]
    fn settling_that_does_not_say_24_is_caught() {
        let settle = |sheet: &[u8], table: &mut [u64]| match Counterpart.settle(sheet, table) {
            answer if answer >> 16 == 24 => 1,
            answer => answer,
        };
        is_caught(Broken { settle, ..SOUND }, "settle: 24 table a word short", "difference in settle: 24");
    }

    /// What a run of blocks did before: it stopped where fewer bytes were left than hold each block, and answered 0.
    #[test]
    fn a_run_that_stops_though_the_block_fits_is_caught() {
        let blocks = |sheet: &[u8], block, buffer: &mut [u8]| match buffer.len() {
            0..BLOCK_BYTES => u64::from(block) << 32,
            _ => Counterpart.blocks(sheet, block, buffer),
        };
        is_caught(Broken { blocks, ..SOUND }, "blocks: several blocks", "runs of blocks");
    }

    #[test]
    fn a_block_of_an_unsettled_model_is_caught() {
        let block_model = |words: &[u64], block, buffer: &mut [u8]| match Counterpart.block_model(words, block, buffer) {
            answer if answer >> 32 == 22 => 20 << 32,
            answer => answer,
        };
        is_caught(Broken { block_model, ..SOUND }, "model: 22 of a block", "of a model");
    }

    #[test]
    fn a_sheet_with_another_last_digit_is_caught() {
        let write_model = |words: &[u64], buffer: &mut [u8]| {
            let answer = Counterpart.write_model(words, buffer);
            if let Some(byte) = (answer as usize).checked_sub(2).and_then(|last| buffer.get_mut(last)) {
                *byte ^= 1;
            }
            answer
        };
        is_caught(Broken { write_model, ..SOUND }, "model: sheet", "buffer at");
    }

    #[test]
    fn a_checker_that_believes_every_certificate_is_caught() {
        let certify = |sheet: &[u8], certificate: &[u8], lent: &mut Lent| match Counterpart.certify(sheet, certificate, lent) {
            4 => 3,
            answer => answer,
        };
        is_caught(Broken { certify, ..SOUND }, "certify: a sheet that has a draw", "certificate\n\n");
    }

    #[test]
    fn a_checker_that_writes_on_a_refused_sheet_is_caught() {
        let certify = |sheet: &[u8], certificate: &[u8], lent: &mut Lent| {
            lent.index.iter_mut().take(1).for_each(|word| *word = 0);
            Counterpart.certify(sheet, certificate, lent)
        };
        is_caught(Broken { certify, ..SOUND }, "certify: sheet refused", "index at 0");
    }
    /// Two sheets combined, where that is not refused, with a change of the combined model.
    fn combined_with(first: &[u8], second: &[u8], buffer: &mut [u8], change: impl Fn(&Model, &Model, &mut Model)) -> u64 {
        let answer = Counterpart.combine(first, second, buffer);
        if let (0, Ok(first), Ok(second), Ok(mut model)) = (answer >> 32, read(first), read(second), combined(first, second)) {
            change(&first, &second, &mut model);
            buffer[..answer as usize].copy_from_slice(&write(&model));
        }
        answer
    }

    #[test]
    fn fixed_by_both_in_place_of_either_is_caught_with_the_smallest_sheets() {
        let combine = |first: &[u8], second: &[u8], buffer: &mut [u8]| {
            combined_with(first, second, buffer, |first, second, model| {
                model.groups.iter_mut().enumerate().for_each(|(at, group)| group.fixed = first.groups[at].fixed & second.groups[at].fixed)
            })
        };
        is_caught(
            Broken { combine, ..SOUND },
            "combine: fixed by one alone",
            "\n   1   1   1   0\n   2   1   0   1   2\nwith\n   1   1   1   0\n   2   1   0   1   1\n",
        );
    }

    #[test]
    fn the_smaller_low_is_caught() {
        let combine = |first: &[u8], second: &[u8], buffer: &mut [u8]| {
            combined_with(first, second, buffer, |first, second, model| {
                model.groups.iter_mut().enumerate().for_each(|(at, group)| group.low = first.groups[at].low.min(second.groups[at].low))
            })
        };
        is_caught(Broken { combine, ..SOUND }, "combine: first's low as second's high", "\n   1   1   1   0\n   2   1   0   1   1\n");
    }

    #[test]
    fn the_lines_of_the_second_first_are_caught() {
        let combine = |first: &[u8], second: &[u8], buffer: &mut [u8]| {
            combined_with(first, second, buffer, |first, second, model| {
                model.constraints = [&second.constraints[..], &first.constraints[..]].concat();
            })
        };
        is_caught(Broken { combine, ..SOUND }, "combine: lines of both", "difference in combine: ");
    }

    #[test]
    fn too_many_lines_judged_before_a_clash_are_caught() {
        let combine = |first: &[u8], second: &[u8], buffer: &mut [u8]| match Counterpart.combine(first, second, buffer) {
            answer if answer >> 32 == 32 && lines_of(read(first)) + lines_of(read(second)) > 256 => 33 << 32,
            answer => answer,
        };
        is_caught(Broken { combine, ..SOUND }, "combine: 32 before 33", "difference in combine: 32 before 33");
        let combine_model = |first: &[u64], second: &[u64], words: &mut [u64]| match Counterpart.combine_model(first, second, words) {
            32 if lines_of(from_words(first)) + lines_of(from_words(second)) > 256 => 33,
            answer => answer,
        };
        is_caught(Broken { combine_model, ..SOUND }, "combine words: 32 before 33", "difference in combine words: 32 before 33");
    }

    fn lines_of<E>(model: Result<Model, E>) -> usize {
        model.map_or(0, |model| model.constraints.len())
    }

    /// Two models' words combined, where that is not refused, with a change of the combined words.
    fn combined_words_with(first: &[u64], second: &[u64], words: &mut [u64], change: impl Fn(&mut [u64])) -> u32 {
        let answer = Counterpart.combine_model(first, second, words);
        if answer == 0 {
            change(words);
        }
        answer
    }

    #[test]
    fn words_past_s_that_are_combined_too_are_caught() {
        let combine_model = |first: &[u64], second: &[u64], words: &mut [u64]| {
            let past = |at: usize| first.get(at).copied().unwrap_or(0) | second.get(at).copied().unwrap_or(0);
            combined_words_with(first, second, words, |words| {
                let s = words[1] as usize;
                (s..256).map(|group| FIRST_GROUP + 4 * group).for_each(|at| words[at] = past(at));
            })
        };
        is_caught(Broken { combine_model, ..SOUND }, "combine words: past s not zero", "words at");
    }

    #[test]
    fn a_clash_past_s_that_is_judged_is_caught() {
        let combine_model = |first: &[u64], second: &[u64], words: &mut [u64]| match Counterpart.combine_model(first, second, words) {
            0 if (words[1] as usize..256).any(|group| group_at(first, group).low > group_at(second, group).high) => 32,
            answer => answer,
        };
        is_caught(Broken { combine_model, ..SOUND }, "combine words: a clash past s alone", "combine, room for");
    }

    #[test]
    fn a_second_model_whose_20_is_judged_after_31_is_caught() {
        let combine_model = |first: &[u64], second: &[u64], words: &mut [u64]| match Counterpart.combine_model(first, second, words) {
            20 if from_words(first).is_ok() && first[..2] != second[..2] => 31,
            answer => answer,
        };
        is_caught(Broken { combine_model, ..SOUND }, "combine words: 20 before 31", "combine, room for");
    }

    #[test]
    fn combining_that_writes_on_a_refusal_is_caught() {
        let combine = |first: &[u8], second: &[u8], buffer: &mut [u8]| {
            let answer = Counterpart.combine(first, second, buffer);
            if answer >> 32 != 0 {
                buffer.iter_mut().take(1).for_each(|byte| *byte = b' ');
            }
            answer
        };
        is_caught(Broken { combine, ..SOUND }, "combine: 24 buffer a byte short", "buffer at 0");
    }

    /// What the reader did before: code 7 was 6.
    #[test]
    fn a_reader_that_refuses_code_7_is_caught_with_the_smallest_sheet() {
        let read = |sheet: &[u8]| {
            let mut lines = sheet.split(|&byte| byte == b'\n');
            match (Counterpart.read(sheet), lines.position(|line| line.starts_with(b"   3   7"))) {
                (0, Some(before)) => 6 << 16 | (before as u64 + 1),
                (answer, _) => answer,
            }
        };
        is_caught(Broken { read, ..SOUND }, "different: read", DIFFERENT);
    }

    /// The smallest sheet with an X, up to its groups.
    const DIFFERENT: &str = "\n   1   1   2   1\n   2   1   0   1   1\n   2   2   0   1   1\n   3   7   ";

    /// A block after a change of its clauses, told whether it is that of a line of code 7.
    fn with_clauses(sheet: &[u8], block: u32, buffer: &mut [u8], change: fn(&Encoding, bool, &mut Vec<Vec<i32>>)) -> u64 {
        let Ok(settled) = settled(sheet) else { return Counterpart.block(sheet, block, buffer) };
        let (model, encoding) = (settled.model(), Encoding::of(&settled));
        if !(1..=encoding.blocks()).contains(&(block as usize)) {
            return Counterpart.block(sheet, block, buffer);
        }
        let seven = matches!(encoding.part(block as usize), Part::Line(index) if model.constraints[index].code == 7);
        let mut clauses = Vec::new();
        encoding.each_clause(block as usize, &mut |clause| clauses.push(clause.to_vec()));
        change(&encoding, seven, &mut clauses);
        answered(&clauses, buffer)
    }

    /// The last variable that is no X.
    fn before_x(encoding: &Encoding) -> i32 {
        let lines = 0..encoding.settled.model().constraints.len();
        encoding.variables as i32 - lines.map(|index| encoding.each_x(index).count() as i32).sum::<i32>()
    }

    #[test]
    fn an_x_that_says_equal_is_caught() {
        let block = |sheet: &[u8], block, buffer: &mut [u8]| {
            with_clauses(sheet, block, buffer, |encoding, seven, clauses| {
                let ties = if seven { clauses.len().saturating_sub(1) } else { 0 };
                let literals = clauses[..ties].iter_mut().flatten();
                literals.filter(|literal| literal.abs() > before_x(encoding)).for_each(|literal| *literal = -*literal);
            })
        };
        is_caught(Broken { block, ..SOUND }, "different: block, open in both", DIFFERENT);
    }

    #[test]
    fn a_last_clause_that_is_missing_is_caught() {
        let block = |sheet: &[u8], block, buffer: &mut [u8]| {
            with_clauses(sheet, block, buffer, |_, seven, clauses| clauses.truncate(clauses.len().saturating_sub(seven.into())))
        };
        is_caught(Broken { block, ..SOUND }, "different: block, last clause of one X", DIFFERENT);
    }

    #[test]
    fn a_last_clause_in_falling_order_is_caught() {
        let block = |sheet: &[u8], block, buffer: &mut [u8]| {
            with_clauses(sheet, block, buffer, |_, seven, clauses| clauses.iter_mut().rev().take(seven.into()).for_each(|clause| clause.reverse()))
        };
        let smallest = "\n   1   2   2   1\n   2   1   0   2   1   1\n   2   2   0   2   1   1\n   3   7   ";
        is_caught(Broken { block, ..SOUND }, "different: block, last clause of 32 X", smallest);
    }

    #[test]
    fn x_numbered_before_the_counters_are_caught() {
        let block = |sheet: &[u8], block, buffer: &mut [u8]| {
            with_clauses(sheet, block, buffer, |encoding, _, clauses| {
                let groups = &encoding.settled.model().groups;
                let (all, before) = (encoding.variables as i32, before_x(encoding));
                let open = groups.iter().map(|group| group.open().count_ones() as i32).sum::<i32>();
                let moved = |variable: i32| match variable {
                    _ if variable > before => variable - (before - open),
                    _ if variable > open => variable + (all - before),
                    _ => variable,
                };
                clauses.iter_mut().flatten().for_each(|literal| *literal = literal.signum() * moved(literal.abs()));
            })
        };
        is_caught(Broken { block, ..SOUND }, "different: block, X after counters", "difference in block: ");
    }

    #[test]
    fn a_rule_that_acts_with_two_entrants_left_is_caught() {
        let settle = |sheet: &[u8], table: &mut [u64]| {
            let answer = Counterpart.settle(sheet, table);
            let (0, Ok(settled)) = (answer >> 16, settled(sheet)) else { return answer };
            let model = settled.model();
            for (line, pair) in model.constraints.iter().filter_map(|line| Some((line, line.different(&model.groups)?))) {
                let left = pair.not_alike();
                let first = left & left.wrapping_neg();
                if left.count_ones() == 2 && pair.differing() == 0 && pair.g.open() & !pair.f.open() & first != 0 {
                    table[4 * line.groups[1]] |= first & !pair.f.possible;
                    table[4 * line.groups[1] + 1] &= !(first & pair.f.fixed);
                }
            }
            answer
        };
        is_caught(Broken { settle, ..SOUND }, "different: settle, all alike but two", "difference in settle: ");
    }

    #[test]
    fn settling_that_does_not_say_21_where_all_are_alike_is_caught() {
        let settle = |sheet: &[u8], table: &mut [u64]| match (Counterpart.settle(sheet, table), read(sheet)) {
            (answer, Ok(mut model)) if answer >> 16 == 21 => {
                model.constraints.retain(|line| line.code != 7);
                crate::settle::settle(model).map_or(answer, |settled| settled.passes().into())
            }
            (answer, _) => answer,
        };
        is_caught(Broken { settle, ..SOUND }, "different: settle, 21 alike on the sheet", "difference in settle: 21");
    }

    #[test]
    fn a_table_that_stands_alike_and_is_listed_is_caught() {
        let block_model = |words: &[u64], block, buffer: &mut [u8]| match Counterpart.block_model(words, block, buffer) {
            answer if code_7::taken_words(words, code_7::Call::Block(0), (answer >> 32) as u32) == Some("different: model, 22 of a block, alike") => 0,
            answer => answer,
        };
        is_caught(Broken { block_model, ..SOUND }, "different: model, 22 of a block, alike", "of a model");
    }

    #[test]
    fn a_count_of_code_7_that_is_judged_is_caught() {
        let settle_model = |words: &[u64], table: &mut [u64]| match code_7::words(words, None).contains(&"different: model, a count of code 7") {
            true => 20 << 16,
            false => Counterpart.settle_model(words, table),
        };
        is_caught(Broken { settle_model, ..SOUND }, "different: model, a count of code 7", "of a model");
    }

    #[test]
    fn filling_that_leaves_every_x_false_is_caught() {
        let fill = |sheet: &[u8], groups: &[u64], marks: &mut [u8]| {
            let answer = Counterpart.fill(sheet, groups, marks);
            if let (0, Ok(settled)) = (answer, settled(sheet)) {
                let encoding = Encoding::of(&settled);
                (0..settled.model().constraints.len()).flat_map(|index| encoding.each_x(index)).for_each(|(_, x)| marks[x as usize - 1] = 2);
            }
            answer
        };
        is_caught(Broken { fill, ..SOUND }, "different: fill, one line with X", "marks at");
    }

    #[test]
    fn filling_from_groups_that_are_the_same_is_caught() {
        fn same(model: &Model, groups: &[u64]) -> bool {
            groups.len() >= model.groups.len() && model.constraints.iter().all(|line| line.code != 7 || !line.is_true(groups))
        }
        let fill = |sheet: &[u8], groups: &[u64], marks: &mut [u8]| match Counterpart.fill(sheet, groups, marks) {
            30 if settled(sheet).is_ok_and(|settled| same(settled.model(), groups)) => 0,
            answer => answer,
        };
        is_caught(Broken { fill, ..SOUND }, "fill: 30 by code 7 alone", "difference in fill: 30");
    }

    #[test]
    fn closing_that_forgets_the_last_clause_is_caught() {
        let close = |sheet: &[u8], closed, marks: &[u8], groups: &mut [u64]| match (Counterpart.close(sheet, closed, marks, groups), settled(sheet)) {
            (28, Ok(settled)) if code_7::closing(&Encoding::of(&settled), true, marks, 28) == Some("different: close, 28 last clause alone") => 0,
            (answer, _) => answer,
        };
        is_caught(Broken { close, ..SOUND }, "different: close, 28 last clause alone", "difference in close: 28");
    }

    #[test]
    fn combining_that_makes_equal_of_different_is_caught() {
        let combine = |first: &[u8], second: &[u8], buffer: &mut [u8]| {
            combined_with(first, second, buffer, |_, _, model| {
                model.constraints.iter_mut().filter(|line| line.code == 7).for_each(|line| line.code = 1);
            })
        };
        is_caught(Broken { combine, ..SOUND }, "different: combine, lines in the first alone", "   3   7   ");
    }

    #[test]
    fn a_count_of_code_7_that_is_combined_too_is_caught() {
        let combine_model = |first: &[u64], second: &[u64], words: &mut [u64]| {
            combined_words_with(first, second, words, |words| {
                if words[FIRST_LINE] == 7 {
                    words[FIRST_LINE + 1] = first.get(FIRST_LINE + 1).copied().unwrap_or(0);
                }
            })
        };
        is_caught(Broken { combine_model, ..SOUND }, "different: combine words, a count of code 7", "words at 1028");
    }

    #[test]
    fn units_in_every_nodes_block_are_caught() {
        let block = |sheet: &[u8], block, buffer: &mut [u8]| {
            let Some((counter, at)) = counter_of(sheet, block) else { return Counterpart.block(sheet, block, buffer) };
            let node = counter.nodes[at];
            let mut clauses: Vec<Vec<i32>> = node.places().flat_map(|(p, q)| node.clauses(p, q)).collect();
            clauses.extend(counter.units());
            answered(&clauses, buffer)
        };
        let smallest = "each node by its steps\n   1   3   1   0\n   2   1";
        is_caught(Broken { block, ..SOUND }, "block: node below the root", "difference in block: node below the root");
        is_caught(Broken { block, ..SOUND }, "steps: node below the root", smallest);
    }

    #[test]
    fn a_right_half_numbered_from_the_left_ones_outputs_is_caught() {
        let block = |sheet: &[u8], block, buffer: &mut [u8]| {
            let Some((counter, at)) = counter_of(sheet, block) else { return Counterpart.block(sheet, block, buffer) };
            let mut node = counter.nodes[at];
            if node.c.size > 1 && node.d.size > 1 {
                node.d = Outputs { first: node.c.first, ..node.d };
            }
            let mut clauses: Vec<Vec<i32>> = node.places().flat_map(|(p, q)| node.clauses(p, q)).collect();
            clauses.extend(if at + 1 == counter.nodes.len() { counter.units() } else { Vec::new() });
            answered(&clauses, buffer)
        };
        let smallest = "each node by its steps\n   1   4   1   0\n   2   1";
        is_caught(Broken { block, ..SOUND }, "steps: node over two nodes", smallest);
    }

    /// What the calls on models did before.
    #[test]
    fn numbers_taken_modulo_2_32_and_missing_words_as_zeros_are_caught() {
        fn modulo(words: &[u64]) -> Vec<u64> {
            let is_set = |at: usize| matches!(field_at(at).0, Field::Fixed | Field::Possible);
            words.iter().enumerate().map(|(at, &word)| if is_set(at) { word } else { word % (1 << 32) }).collect()
        }
        let settle_model = |words: &[u64], table: &mut [u64]| Counterpart.settle_model(&modulo(words), table);
        for kind in ["words: 2^32 more, n", "words: 2^63 more, high"] {
            is_caught(Broken { settle_model, ..SOUND }, kind, "of a model");
        }
        let settle_model = |words: &[u64], table: &mut [u64]| Counterpart.settle_model(&filling::padded(words, WORDS), table);
        for kind in ["words: one short"] {
            is_caught(Broken { settle_model, ..SOUND }, kind, "of a model");
        }
        let fill = |sheet: &[u8], groups: &[u64], marks: &mut [u8]| Counterpart.fill(sheet, &filling::padded(groups, 256), marks);
        is_caught(Broken { fill, ..SOUND }, "fill: 30 by missing words of empty groups alone", "difference in fill: 30");
    }

    #[test]
    fn a_reader_that_takes_97_groups_of_33_entrants_is_caught() {
        let read = |sheet: &[u8]| match Counterpart.read(sheet) {
            answer if answer == 7 << 16 | 1 && sheet.starts_with(b"   1  33  97") => 0,
            answer => answer,
        };
        is_caught(Broken { read, ..SOUND }, "wide: 7 33 entrants and 97 groups", "difference in read: 7 range");
        let settle_model = |words: &[u64], table: &mut [u64]| match Counterpart.settle_model(words, table) {
            answer if answer >> 16 == 20 && words.starts_with(&[33, 97]) => 1,
            answer => answer,
        };
        is_caught(Broken { settle_model, ..SOUND }, "wide: model, 20 33 entrants and 97 groups", "of a model");
    }

    /// Lines leave entrant 64 as the sheet has it.
    #[test]
    fn a_mask_short_of_entrant_64_is_caught() {
        let settle = |sheet: &[u8], table: &mut [u64]| {
            let answer = Counterpart.settle(sheet, table);
            if let (true, Ok(model)) = (answer >> 16 == 0, read(sheet)) {
                for (row, group) in table.chunks_exact_mut(4).zip(&model.groups) {
                    row[0] = row[0] & !LAST | group.fixed & LAST;
                    row[1] = row[1] & !LAST | group.possible & LAST;
                }
            }
            answer
        };
        is_caught(Broken { settle, ..SOUND }, "wide: settle, entrant 64 becomes fixed", "table at");
        is_caught(Broken { settle, ..SOUND }, "different: settle, rule on entrant 64", "table at");
    }

    const LAST: u64 = 1 << 63;

    #[test]
    fn closing_that_forgets_entrant_64_is_caught() {
        let close = |sheet: &[u8], closed, marks: &[u8], groups: &mut [u64]| {
            let answer = Counterpart.close(sheet, closed, marks, groups);
            if answer == 0 {
                groups.iter_mut().take(256).for_each(|set| *set &= !LAST);
            }
            answer
        };
        is_caught(Broken { close, ..SOUND }, "wide: close, entrant 64 in a group", "groups at");
    }

    /// What the numbers were before: a block a group, with or without a counter.
    #[test]
    fn blocks_counted_by_groups_are_caught() {
        let block_count = |sheet: &[u8]| match (Counterpart.block_count(sheet), settled(sheet)) {
            (_, Ok(settled)) => (settled.model().groups.len() + settled.model().constraints.len()) as u64,
            (answer, _) => answer,
        };
        is_caught(Broken { block_count, ..SOUND }, "count: nodes and lines", "number of blocks\n");
    }

    #[test]
    fn a_model_that_is_settled_before_its_blocks_are_counted_is_caught() {
        let block_count_model = |words: &[u64]| match from_words(words).ok().and_then(crate::settle::settle) {
            Some(settled) => Encoding::of(&settled).blocks() as u32,
            None => Counterpart.block_count_model(words),
        };
        is_caught(Broken { block_count_model, ..SOUND }, "count words: not settled", "Count of a model");
    }

    #[test]
    fn a_run_that_starts_a_block_too_late_is_caught() {
        let blocks = |sheet: &[u8], block: u32, buffer: &mut [u8]| match block {
            0 => Counterpart.blocks(sheet, 0, buffer),
            _ => Counterpart.blocks(sheet, block.saturating_add(1), buffer),
        };
        is_caught(Broken { blocks, ..SOUND }, "edge: run from the next tree's first node", "runs of blocks from");
    }
}

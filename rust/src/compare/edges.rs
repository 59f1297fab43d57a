//! Block numbers where one part of a listing ends and the next begins, runs of blocks from there and up to there, and the number of blocks.
use super::calls::{settled, Calls, Counterpart};
use super::case::{Case, Kind, Outcome};
use super::models;
use super::random::Random;
use super::run::with_twins;
use super::{sheets, wide};
use crate::encode::{blocks_of, Encoding, Part};
use crate::listing::write_block;
use crate::model::*;
use crate::refusal::*;
use crate::settle::Settled;
use crate::sheet;
use crate::words::from_words;
use std::ops::RangeInclusive;

macro_rules! places {
    ($($name:literal,)*) => { &[$(($name, [concat!("edge: block, ", $name), concat!("edge: run from ", $name)])),*] };
}

/// Places in a listing, as kinds of a block that is asked for and of a run that starts there.
const PLACES: &[(&str, [Kind; 2])] = places![
    "the header",
    "a tree's first node",
    "a tree's root",
    "the next tree's first node",
    "a tree behind a group without",
    "the last node",
    "the first line",
    "the first line, no node before",
    "the last block, a line",
    "the last block, a node",
    "the last block, the header",
    "one above",
    "the highest number",
];

/// How a run stops, and the numbers of blocks, in the order of the report.
const KINDS: &[Kind] = &[
    "edge: run filled by the header",
    "edge: run filled by a node below the root",
    "edge: run filled by a root",
    "edge: run filled by the last node",
    "edge: run filled by the first line",
    "edge: run filled by the last block",
    "edge: run a byte short of the header",
    "edge: run a byte short of a node",
    "edge: run a byte short of a root",
    "edge: run a byte short of the last node",
    "edge: run a byte short of the first line",
    "edge: run a byte short of the last block",
    "count: nodes and lines",
    "count: nodes and no line",
    "count: lines and no node",
    "count: neither",
    "count: a group without counter among others",
    "count: a tree of 64",
    "count: as many as 32 entrants can have",
    "count: as many as 64 entrants can have",
    "count: other than before settling",
    "count: 21",
    "count: sheet refused",
    "count words: settled",
    "count words: not settled",
    "count words: settles out",
    "count words: 20",
    "count words: over 32 entrants",
    "count words: a tree of one",
    "count words: a counter with nobody open",
    "count words: a limit below the fixed",
];

pub fn kinds() -> impl Iterator<Item = Kind> {
    let of = |at: usize| PLACES.iter().map(move |(_, kinds)| kinds[at]);
    of(0).chain(of(1)).chain(KINDS.iter().copied())
}

/// The places that a block number has in a listing, by name.
fn places(encoding: &Encoding, block: usize) -> Vec<&'static str> {
    let (nodes, last) = (encoding.node_blocks(), encoding.blocks());
    let mut names = Vec::new();
    let mut note = |really: bool, name: &'static str| names.extend(really.then_some(name));
    note(block == last + 1, "one above");
    note(block == u32::MAX as usize, "the highest number");
    if block > last {
        return names;
    }
    note(block == last && block > nodes, "the last block, a line");
    note(block == last && block == nodes && nodes > 0, "the last block, a node");
    note(block == last && block == 0, "the last block, the header");
    note(block == nodes && nodes > 0, "the last node");
    note(block == nodes + 1 && nodes > 0, "the first line");
    note(block == nodes + 1 && nodes == 0, "the first line, no node before");
    note(block == 0, "the header");
    if let Part::Node { group, .. } = encoding.part(block) {
        let blocks = encoding.group_blocks(group);
        let first = block == *blocks.start();
        note(first, "a tree's first node");
        note(block == *blocks.end(), "a tree's root");
        note(first && block > 1 && !encoding.group_blocks(group - 1).is_empty(), "the next tree's first node");
        note(first && block > 1 && encoding.group_blocks(group - 1).is_empty(), "a tree behind a group without");
    }
    names
}

/// The kinds of a block, or of the start of a run.
fn place_kinds(encoding: &Encoding, block: usize, of: usize) -> Vec<Kind> {
    let names = places(encoding, block);
    PLACES.iter().filter(|(name, _)| names.contains(name)).map(|(_, kinds)| kinds[of]).collect()
}

/// The place of a block that is written.
pub fn block(encoding: &Encoding, block: usize) -> Vec<Kind> {
    place_kinds(encoding, block, 0)
}

/// The place of a block that there is not.
pub fn above(sheet: &[u8], block: u32) -> Vec<Kind> {
    settled(sheet).map_or(Vec::new(), |settled| place_kinds(&Encoding::of(&settled), block as usize, 0))
}

/// The number that a block of a sheet has in another: the same line, or as far as can be the same node, or as far above the last.
pub fn moved(block: u32, from: &[u8], to: &[u8]) -> u32 {
    let (Ok(from), Ok(to)) = (settled(from), settled(to)) else { return block };
    let (from, to) = (Encoding::of(&from), Encoding::of(&to));
    let (number, lines) = (block as usize, to.settled.model().constraints.len());
    let moved = match number.checked_sub(from.blocks() + 1) {
        Some(above) => return if block == u32::MAX { block } else { (to.blocks() + 1 + above) as u32 },
        None => match from.part(number) {
            Part::Line(index) if lines > 0 => to.node_blocks() + 1 + index.min(lines - 1),
            Part::Node { group, .. } => node_moved(number, from.group_blocks(group), to.group_blocks(group.min(to.settled.model().groups.len() - 1))),
            _ => number,
        },
    };
    moved as u32
}

/// A tree's root as another's root, its other nodes by their place; where there is no such tree the number stays.
fn node_moved(block: usize, from: RangeInclusive<usize>, to: RangeInclusive<usize>) -> usize {
    match to.is_empty() {
        true => block,
        false if block == *from.end() => *to.end(),
        false => (to.start() + block - from.start()).min(*to.end()),
    }
}

/// Where a run that is answered so starts, and where it stops.
pub fn run(encoding: &Encoding, from: u32, room: usize, answer: u64) -> Vec<Kind> {
    let mut kinds = place_kinds(encoding, from as usize, 1);
    let (next, length) = match (answer >> 32) as usize {
        0 => (from as usize, 0),
        next => (next, answer as u32 as usize),
    };
    let stops = length > 0 && length == room;
    kinds.extend(stops.then(|| stop_kind(encoding, next - 1, true)).flatten());
    if next <= encoding.blocks() && room < BLOCK_BYTES {
        let mut buffer = vec![0; BLOCK_BYTES];
        let more = write_block(encoding, next, &mut buffer).unwrap_or(0);
        kinds.extend((more > 0 && length + more == room + 1).then(|| stop_kind(encoding, next, false)).flatten());
    }
    kinds
}

/// The block with which a run fills its buffer, or for which a byte is missing.
fn stop_kind(encoding: &Encoding, block: usize, filled: bool) -> Option<Kind> {
    let names = places(encoding, block);
    let is = |name: &str| names.iter().any(|known| known.starts_with(name));
    let at = match encoding.part(block) {
        _ if is("the last block") => 5,
        Part::Header => 0,
        _ if is("the last node") => 3,
        _ if is("the first line") => 4,
        Part::Node { .. } if is("a tree's root") => 2,
        Part::Node { .. } => 1,
        Part::Line(_) => return None,
    };
    Some(KINDS[if filled { at } else { 6 + at }])
}

/// The number of a sheet's last block; there is this one, and none above.
pub fn check_count(sheet: &[u8], other: &dyn Calls, outcome: &mut Outcome) {
    let settled = settled(sheet);
    count_kinds(sheet, &settled).into_iter().for_each(|kind| outcome.note(kind));
    let answer = Counterpart.block_count(sheet);
    outcome.compare("refusal * 65536 + number of blocks", answer, other.block_count(sheet));
    if settled.is_ok() {
        outcome.calls = 3;
        let mut buffer = vec![0; BLOCK_BYTES];
        let refusals = [answer, answer + 1].map(|block| other.block(sheet, block as u32, &mut buffer) >> 32);
        outcome.compare("refusals of the last block and of the one above", [0, NO_BLOCK.into()], refusals);
    }
}

fn count_kinds(sheet: &[u8], settled: &Result<Settled, u32>) -> Vec<Kind> {
    let settled = match settled {
        Ok(settled) => settled,
        Err(CONTRADICTION) => return vec!["count: 21"],
        Err(_) => return vec!["count: sheet refused"],
    };
    let (model, encoding) = (settled.model(), Encoding::of(settled));
    let trees: Vec<usize> = (0..model.groups.len()).map(|group| encoding.group_blocks(group).count()).collect();
    let (nodes, lines) = (encoding.node_blocks(), model.constraints.len());
    let mut kinds = vec![match (nodes > 0, lines > 0) {
        (true, true) => "count: nodes and lines",
        (true, false) => "count: nodes and no line",
        (false, true) => "count: lines and no node",
        (false, false) => "count: neither",
    }];
    let mut note = |really: bool, kind: Kind| kinds.extend(really.then_some(kind));
    let with = |tree: &usize| *tree > 0;
    let between = trees.iter().position(with).zip(trees.iter().rposition(with)).is_some_and(|(first, last)| trees[first..last].contains(&0));
    note(between, "count: a group without counter among others");
    note(trees.contains(&63), "count: a tree of 64");
    note(encoding.blocks() == 8_192, "count: as many as 32 entrants can have");
    note(encoding.blocks() == 6_304 && model.entrants == ENTRANTS, "count: as many as 64 entrants can have");
    note(sheet::read(sheet).is_ok_and(|model| blocks_of(&model) != encoding.blocks()), "count: other than before settling");
    kinds
}

/// The number of blocks of a model as words.
pub fn count_words(words: &[u64]) -> Vec<Kind> {
    let Ok(model) = from_words(words) else { return vec!["count words: 20"] };
    let mut kinds = Vec::new();
    let mut note = |really: bool, kind: Kind| kinds.extend(really.then_some(kind));
    let settled = Settled::given(model.clone()).is_ok();
    note(settled, "count words: settled");
    note(!settled, "count words: not settled");
    note(!settled && crate::settle::settle(model.clone()).is_none(), "count words: settles out");
    note(wide::is_wide(&model), "count words: over 32 entrants");
    for group in &model.groups {
        let (fixed, open) = (group.fixed.count_ones(), group.open().count_ones());
        note(open == 1 && (group.low > fixed || group.high <= fixed), "count words: a tree of one");
        note(open == 0 && group.low > fixed, "count words: a counter with nobody open");
        note(group.high < fixed, "count words: a limit below the fixed");
    }
    kinds
}

/// The cases made from one sheet: a block, and a run, at each place; runs that end there; the number of blocks.
pub fn cases(random: &mut Random) -> Vec<Case> {
    let sheet = match random.below(20) {
        0..=12 => sheet::write(&mixed(random)),
        13..=15 => sheets::valid(random).sheet,
        16 | 17 => wide::sample(random).sheet,
        _ => {
            let sheet = sheets::valid(random).sheet;
            sheets::damaged(random, &sheet)
        }
    };
    let mut cases = vec![Case::Count { sheet: sheet.clone() }];
    if random.chance(20) {
        cases = with_twins(random, cases);
    }
    cases.push(Case::Model(words_case(random)));
    let Ok(settled) = settled(&sheet) else { return cases };
    let encoding = Encoding::of(&settled);
    let numbers = numbers(random, &encoding);
    for &block in &numbers {
        cases.push(Case::Block { sheet: sheet.clone(), block, spare: random.pick(&[0, 0, 1, -1]) });
    }
    cases.push(Case::Model(models::block(settled.model(), random.pick(&numbers))));
    for _ in 0..3 {
        let [from, to] = [0, 1].map(|_| random.pick(&numbers));
        cases.push(run_case(random, &sheet, &encoding, from.min(to), from.max(to)));
    }
    cases.push(Case::Blocks { sheet, from: random.pick(&[encoding.blocks() as u32 + 1, u32::MAX]), rooms: vec![random.pick(&[0, 100])] });
    cases
}

/// The numbers of blocks at the places of a listing, at most some of each; those above the last are there, too.
fn numbers(random: &mut Random, encoding: &Encoding) -> Vec<u32> {
    let (nodes, last) = (encoding.node_blocks(), encoding.blocks());
    let mut numbers = vec![0, nodes, nodes + 1, last, last + 1, u32::MAX as usize];
    let mut groups: Vec<usize> = (0..encoding.settled.model().groups.len()).filter(|&group| !encoding.group_blocks(group).is_empty()).collect();
    random.shuffle(&mut groups);
    for group in groups.into_iter().take(3) {
        let blocks = encoding.group_blocks(group);
        numbers.extend([*blocks.start(), *blocks.end(), *blocks.end() + 1]);
    }
    numbers.sort_unstable();
    numbers.dedup();
    numbers.into_iter().map(|block| block as u32).collect()
}

/// A run whose buffer ends with a block, a byte before that or a byte behind, and one that takes some of the rest.
fn run_case(random: &mut Random, sheet: &[u8], encoding: &Encoding, from: u32, to: u32) -> Case {
    let mut buffer = vec![0; BLOCK_BYTES];
    let end = (to as usize).min(encoding.blocks());
    let length: usize = (from as usize..=end).map(|block| write_block(encoding, block, &mut buffer).unwrap_or(0)).sum();
    let room = length.saturating_add_signed(random.pick(&[0, 0, -1, -1, 1]));
    Case::Blocks { sheet: sheet.to_vec(), from, rooms: vec![room, random.pick(&[0, 20, BLOCK_BYTES])] }
}

/// A few groups, some with a counter and some without, and a few lines or none.
fn mixed(random: &mut Random) -> Model {
    let entrants = random.pick(&[1, 2, 3, 3, 4, 5, 9, 33, 64]);
    let without = random.pick(&[0, 30, 60, 100]);
    let group = |random: &mut Random| {
        let possible = first_entrants(entrants) & if random.chance(70) { u64::MAX } else { random.word() };
        let many = possible.count_ones();
        let counted = many >= 2 && !random.chance(without);
        let (low, high) = if counted { random.pick(&[(1, many), (0, many - 1), (1, many - 1)]) } else { (0, entrants) };
        Group { fixed: 0, possible, low, high }
    };
    let groups: Vec<Group> = (0..random.from_to(1, 6)).map(|_| group(random)).collect();
    let lines = random.pick(&[0, 1, 1, 3]);
    let sevens = random.pick(&[10, 100]);
    let constraints = (0..lines).filter_map(|_| sheets::line(random, groups.len(), sevens)).collect();
    Model { entrants, groups, constraints }
}

/// The number of blocks of a model as words: as the sheet has it, settled, or with any limits and marks.
fn words_case(random: &mut Random) -> models::ModelCase {
    let mut model = mixed(random);
    match random.below(4) {
        0 => {}
        1 => model = crate::settle::settle(model.clone()).map_or(model, |settled| settled.model().clone()),
        _ => model.groups.iter_mut().for_each(|group| *group = any_group(random, model.entrants)),
    }
    let mut case = models::count(&model, random.pick(&[0, 1, u64::MAX]));
    if random.chance(15) {
        let place = models::place(random, &model);
        case.words[place] = models::damage(random, case.words[place]);
    }
    case
}

/// A group in range, whatever its limits are to its marks.
fn any_group(random: &mut Random, entrants: u32) -> Group {
    let percent = random.pick(&[0, 20, 50, 100]);
    let possible = random.set(entrants, percent);
    let high = random.from_to(0, entrants as usize) as u32;
    Group { fixed: possible & random.set(entrants, 50), possible, low: random.from_to(0, high as usize) as u32, high }
}

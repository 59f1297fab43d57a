//! Sheets of more than 32 entrants, the cases made from them, and what such sheets, and entrant 64, come to in any case, as kinds.
use super::calls::settled;
use super::case::{Case, Kind};
use super::random::Random;
use super::run::{block_case, blocks_case, close_case, with_twins};
use super::sheets::{self, Pair, Sample, Size};
use super::{answers, combining, differences, edges, filling, models, steps};
use crate::combine::barred_and_fixed;
use crate::encode::{Encoding, Part};
use crate::fill::assignment;
use crate::listing::listing;
use crate::model::*;
use crate::refusal::*;
use crate::settle::settle;
use crate::sheet;
use crate::words::{from_words, to_words, FIRST_GROUP};

/// In the order of the report.
pub const KINDS: &[Kind] = &[
    "wide: read, 33 entrants",
    "wide: read, 34 to 62 entrants",
    "wide: read, 63 entrants",
    "wide: read, 64 entrants",
    "wide: read, 33 entrants and 96 groups",
    "wide: read, 64 entrants and 96 groups",
    "wide: read, 32 entrants and 256 groups",
    "wide: read, entrant 64 blank",
    "wide: 7 33 entrants and 97 groups",
    "wide: 7 64 entrants and 97 groups",
    "wide: 7 64 entrants and 256 groups",
    "wide: 7 32 entrants and 257 groups",
    "wide: 7 65 entrants",
    "wide: 6 a mark too few or too many",
    "wide: 7 in a group line",
    "wide: settle, entrant 64 fixed on the sheet",
    "wide: settle, entrant 64 barred on the sheet",
    "wide: settle, entrant 64 stays open",
    "wide: settle, entrant 64 becomes fixed",
    "wide: settle, entrant 64 becomes barred",
    "wide: settle, unions of sixteen",
    "wide: settle, 96 groups of 64 entrants",
    "wide: settle, 21",
    "wide: header",
    "wide: header, 59,392 variables",
    "wide: block, root over 64",
    "wide: block, node over entrant 64",
    "wide: block, over 32,768 bytes",
    "wide: block, entrant 64 in a line of code 6",
    "wide: block, entrant 64 in a line of code 7",
    "wide: block, entrant 64 in another line",
    "wide: blocks, together the listing",
    "wide: line, 59,392 literals and the 0",
    "wide: close, entrant 64 in a group",
    "wide: close, entrant 64 in no group",
    "wide: close, refused",
    "wide: fill, entrant 64 fixed",
    "wide: fill, entrant 64 open and in",
    "wide: fill, entrant 64 open and not in",
    "wide: fill, 33 to 63 entrants",
    "wide: fill, 30 an entrant past n",
    "wide: combine",
    "wide: combine, entrant 64 fixed by one alone",
    "wide: combine, entrant 64 barred by one alone",
    "wide: combine, 31 of 32 and 33 entrants",
    "wide: combine, 32 by entrant 64",
    "wide: combine words",
    "wide: model, 33 entrants and 96 groups",
    "wide: model, 64 entrants and 96 groups",
    "wide: model, 32 entrants and 256 groups",
    "wide: model, entrant 64",
    "wide: model, 20 33 entrants and 97 groups",
    "wide: model, 20 64 entrants and 97 groups",
    "wide: model, 20 32 entrants and 257 groups",
    "wide: model, 20 65 entrants",
    "wide: model, 20 an entrant past n",
];

/// Entrant 64, as a set.
const LAST: u64 = 1 << 63;

/// Whether a model has more entrants than a sheet could have before.
pub fn is_wide(model: &Model) -> bool {
    model.entrants > NARROW_ENTRANTS
}

/// The number in a field of a line, 0 for what is none.
fn number(line: &[u8], field: usize) -> u32 {
    let text = line.get(4 * field..4 * field + 4).map(String::from_utf8_lossy);
    text.and_then(|text| text.trim().parse().ok()).unwrap_or(0)
}

/// What the reading of a sheet that is answered so comes to.
pub fn read(sheet: &[u8], answer: u64) -> Vec<Kind> {
    let (refusal, at) = ((answer >> 16) as u32, (answer & 0xFFFF) as usize);
    let head = sheet.split(|&byte| byte == b'\n').next().unwrap_or_default();
    let (n, s) = (number(head, 1), number(head, 2));
    match (refusal, at) {
        (0, _) => accepted(sheet, n, s),
        (RANGE, 1) => refused_head(n, s).into_iter().collect(),
        (COUNT, 2..) if n > NARROW_ENTRANTS && at <= 1 + s as usize => vec!["wide: 6 a mark too few or too many"],
        (RANGE, 2..) if n > NARROW_ENTRANTS && at <= 1 + s as usize => vec!["wide: 7 in a group line"],
        _ => Vec::new(),
    }
}

fn accepted(sheet: &[u8], n: u32, s: u32) -> Vec<Kind> {
    let mut kinds = Vec::new();
    let mut note = |really: bool, kind: Kind| kinds.extend(really.then_some(kind));
    note(n == 33, "wide: read, 33 entrants");
    note((34..=62).contains(&n), "wide: read, 34 to 62 entrants");
    note(n == 63, "wide: read, 63 entrants");
    note(n == 64, "wide: read, 64 entrants");
    note((n, s) == (33, 96), "wide: read, 33 entrants and 96 groups");
    note((n, s) == (64, 96), "wide: read, 64 entrants and 96 groups");
    note((n, s) == (32, 256), "wide: read, 32 entrants and 256 groups");
    let ends_blank = |line: &[u8]| line.starts_with(b"   2") && line.ends_with(b"    ");
    note(n == 64 && sheet.split(|&byte| byte == b'\n').any(ends_blank), "wide: read, entrant 64 blank");
    kinds
}

fn refused_head(n: u32, s: u32) -> Option<Kind> {
    match (n, s) {
        (33, 97) => Some("wide: 7 33 entrants and 97 groups"),
        (64, 97) => Some("wide: 7 64 entrants and 97 groups"),
        (64, 256) => Some("wide: 7 64 entrants and 256 groups"),
        (32, 257) => Some("wide: 7 32 entrants and 257 groups"),
        (65, 1..=96) => Some("wide: 7 65 entrants"),
        _ => None,
    }
}

/// What the settling of a model comes to.
pub fn settling(model: &Model) -> Vec<Kind> {
    if !is_wide(model) {
        return Vec::new();
    }
    let Some(settled) = settle(model.clone()) else { return vec!["wide: settle, 21"] };
    let mut kinds = Vec::new();
    let mut note = |really: bool, kind: Kind| kinds.extend(really.then_some(kind));
    let (before, after) = (&model.groups, &settled.model().groups);
    let any = |is: fn(&Group, &Group) -> bool| model.entrants == ENTRANTS && before.iter().zip(after).any(|(before, after)| is(before, after));
    note(any(|before, _| before.fixed & LAST != 0), "wide: settle, entrant 64 fixed on the sheet");
    note(any(|before, _| before.possible & LAST == 0), "wide: settle, entrant 64 barred on the sheet");
    note(any(|_, after| after.open() & LAST != 0), "wide: settle, entrant 64 stays open");
    note(any(|before, after| before.open() & after.fixed & LAST != 0), "wide: settle, entrant 64 becomes fixed");
    note(any(|before, after| before.open() & !after.possible & LAST != 0), "wide: settle, entrant 64 becomes barred");
    note(model.constraints.iter().any(|line| line.groups.len() == 17), "wide: settle, unions of sixteen");
    note(model.entrants == ENTRANTS && model.groups.len() == WIDE_GROUPS as usize, "wide: settle, 96 groups of 64 entrants");
    kinds
}

/// What a block that is written comes to.
pub fn block(encoding: &Encoding, block: usize, length: usize) -> Vec<Kind> {
    let model = encoding.settled.model();
    if !is_wide(model) {
        return Vec::new();
    }
    let mut kinds = Vec::new();
    let mut note = |really: bool, kind: Kind| kinds.extend(really.then_some(kind));
    note(length > 32_768, "wide: block, over 32,768 bytes");
    let named = |wanted: i32| {
        let mut named = false;
        encoding.each_clause(block, &mut |clause| named |= clause.iter().any(|literal| literal.abs() == wanted));
        named
    };
    let last_of = |group: usize| (model.groups[group].open() & LAST != 0).then(|| encoding.variable(group, 63));
    match encoding.part(block) {
        Part::Header => {
            note(true, "wide: header");
            note(encoding.variables == MOST_VARIABLES, "wide: header, 59,392 variables");
        }
        Part::Node { group, at } => {
            note(at == 62, "wide: block, root over 64");
            note(last_of(group).is_some_and(named), "wide: block, node over entrant 64");
        }
        Part::Line(index) => {
            let line = &model.constraints[index];
            let names = line.groups.iter().filter_map(|&group| last_of(group)).any(named);
            note(names && line.code == 6, "wide: block, entrant 64 in a line of code 6");
            note(names && line.code == 7, "wide: block, entrant 64 in a line of code 7");
            note(names && line.code < 6, "wide: block, entrant 64 in another line");
        }
    }
    kinds
}

/// A solver's line that says everything there can be.
pub fn line(line: &[u8], answer: u32, length: usize) -> Option<Kind> {
    let words = || line.iter().filter(|&&byte| byte == b' ').count();
    (answer == 1 && length == MOST_VARIABLES && words() == MOST_VARIABLES + 1).then_some("wide: line, 59,392 literals and the 0")
}

/// What a closing that is answered so, with these groups, comes to.
pub fn closing(encoding: &Encoding, groups: &[u64], answer: u32) -> Option<Kind> {
    let model = encoding.settled.model();
    match answer {
        _ if !is_wide(model) => None,
        0 if model.entrants < ENTRANTS => None,
        0 if groups[..model.groups.len()].iter().any(|set| set & LAST != 0) => Some("wide: close, entrant 64 in a group"),
        0 => Some("wide: close, entrant 64 in no group"),
        _ => Some("wide: close, refused"),
    }
}

/// What a filling with these groups that is not refused comes to.
pub fn filled(encoding: &Encoding, groups: &[u64]) -> Vec<Kind> {
    let model = encoding.settled.model();
    let mut kinds = Vec::new();
    let mut note = |really: bool, kind: Kind| kinds.extend(really.then_some(kind));
    note((33..=63).contains(&model.entrants), "wide: fill, 33 to 63 entrants");
    for (group, set) in model.groups.iter().zip(groups) {
        note(group.fixed & LAST != 0, "wide: fill, entrant 64 fixed");
        note(group.open() & set & LAST != 0, "wide: fill, entrant 64 open and in");
        note(group.open() & !set & LAST != 0, "wide: fill, entrant 64 open and not in");
    }
    kinds.sort_unstable();
    kinds.dedup();
    kinds
}

/// Groups that are no draw.
pub fn not_filled(model: &Model, groups: &[u64]) -> Option<Kind> {
    let past = groups.iter().take(model.groups.len()).any(|set| set & !model.everyone() != 0);
    (is_wide(model) && past).then_some("wide: fill, 30 an entrant past n")
}

/// Two models that are combined, or refused so.
pub fn combined(first: &Model, second: &Model, refusal: u32) -> Vec<Kind> {
    let mut kinds = Vec::new();
    let mut note = |really: bool, kind: Kind| kinds.extend(really.then_some(kind));
    let sizes = [first.entrants.min(second.entrants), first.entrants.max(second.entrants)];
    note(refusal == OTHER_SIZE && sizes == [32, 33], "wide: combine, 31 of 32 and 33 entrants");
    if !is_wide(first) || sizes[0] != sizes[1] {
        return kinds;
    }
    let any = |is: &dyn Fn(&Group, &Group) -> bool| first.groups.iter().zip(&second.groups).any(|(one, other)| is(one, other));
    let clash = |one: &Group, other: &Group| (barred_and_fixed(one, other) | barred_and_fixed(other, one)) & LAST != 0;
    note(refusal == 0, "wide: combine");
    note(refusal == 0 && any(&|one, other| (one.fixed ^ other.fixed) & LAST != 0), "wide: combine, entrant 64 fixed by one alone");
    note(refusal == 0 && any(&|one, other| (one.possible ^ other.possible) & LAST != 0), "wide: combine, entrant 64 barred by one alone");
    note(refusal == CLASH && any(&clash), "wide: combine, 32 by entrant 64");
    kinds
}

/// What the words of a model come to.
pub fn words(words: &[u64]) -> Option<Kind> {
    let [n, s] = [0, 1].map(|at| words.get(at).copied().unwrap_or(0) as u32);
    match (from_words(words).is_ok(), n, s) {
        (true, 33, 96) => Some("wide: model, 33 entrants and 96 groups"),
        (true, 64, 96) => Some("wide: model, 64 entrants and 96 groups"),
        (true, 32, 256) => Some("wide: model, 32 entrants and 256 groups"),
        (true, 64, _) => Some("wide: model, entrant 64"),
        (false, 33, 97) => Some("wide: model, 20 33 entrants and 97 groups"),
        (false, 64, 97) => Some("wide: model, 20 64 entrants and 97 groups"),
        (false, 32, 257) => Some("wide: model, 20 32 entrants and 257 groups"),
        (false, 65, 1..=96) => Some("wide: model, 20 65 entrants"),
        (false, 33..=63, 1..=96) => {
            let sets = words.iter().skip(FIRST_GROUP).take(4 * s as usize).step_by(4).chain(words.iter().skip(FIRST_GROUP + 1).take(4 * s as usize).step_by(4));
            sets.into_iter().any(|set| set & !first_entrants(n) != 0).then_some("wide: model, 20 an entrant past n")
        }
        _ => None,
    }
}

/// The cases made from one sheet, or from two.
pub fn cases(random: &mut Random) -> Vec<Case> {
    match random.below(100) {
        0 => largest_cases(random),
        1..=11 => size_cases(random),
        12..=24 => pair_cases(random),
        25..=26 => vec![Case::Steps { sheet: steps::large(random) }],
        27..=30 => vec![Case::Steps { sheet: steps::wide(random) }],
        31..=60 => edges::cases(random),
        61..=65 => (0..3).map(|_| Case::Read { sheet: faulty(random) }).collect(),
        _ => sheet_cases(random),
    }
}

/// Sizes at the edge of their ranges, in range or not: as a sheet of open marks, and as words.
fn size_cases(random: &mut Random) -> Vec<Case> {
    let corners = [(32, 256), (33, 96), (64, 96), (32, 257), (33, 97), (64, 97), (64, 256), (65, 1), (65, 96)];
    let (n, s): (u32, usize) = random.pick(&corners);
    let sheet = open_sheet(n, s);
    let group = Group { fixed: 0, possible: first_entrants(n.min(64)), low: 0, high: n };
    let mut words = to_words(&Model { entrants: n, groups: vec![group; s.min(GROUPS as usize)], constraints: Vec::new() }, 0);
    words[1] = s as u64;
    let cases = vec![Case::Read { sheet: sheet.clone() }, Case::Count { sheet }];
    let mut cases = if random.chance(20) { with_twins(random, cases) } else { cases };
    cases.push(Case::Model(models::of_any_words(random, words, s)));
    cases
}

/// A sheet without lines, all marks open; as many of its groups as a sheet has bytes for.
fn open_sheet(n: u32, s: usize) -> Vec<u8> {
    let group = |number: usize| format!("   2{number:4}   0{n:4}{}\n", "   1".repeat(n as usize));
    let fit = (SHEET_BYTES - 17) / group(1).len();
    let groups: String = (1..=s.min(fit)).map(group).collect();
    format!("   1{n:4}{s:4}   0\n{groups}").into_bytes()
}

/// So many entrants, often the fewest or the most that are wide.
fn entrants(random: &mut Random) -> u32 {
    let any = random.from_to(33, 64) as u32;
    random.pick(&[33, 63, 64, 64, 64, any])
}

/// A sheet of more than 32 entrants.
pub fn sample(random: &mut Random) -> Sample {
    let entrants = entrants(random);
    match random.below(10) {
        0..=2 => differences::sample_of(random, entrants),
        3 => Sample { sheet: sheet::write(&alike_but_last(random, entrants)), draw: None },
        4 => Sample { sheet: sheet::write(&unions(random, entrants)), draw: None },
        _ => {
            let size = size(random, entrants);
            let sevens = random.pick(&[0, 10, 40]);
            sheets::of_size(random, &size, sevens)
        }
    }
}

fn size(random: &mut Random, entrants: u32) -> Size {
    let groups = match random.below(20) {
        0 => WIDE_GROUPS as usize,
        1..=3 => random.from_to(17, 40),
        _ => random.from_to(1, 6),
    };
    let lines = match groups {
        96 => random.pick(&[20, 256]),
        _ => random.from_to(0, 2 * groups),
    };
    Size { entrants, groups, lines }
}

/// Two groups that must not be the same, settled alike but for entrant n.
fn alike_but_last(random: &mut Random, entrants: u32) -> Model {
    let last = 1 << (entrants - 1);
    let others = random.set(entrants - 1, 50);
    let marks = random.pick(&[[1, 1], [0, 1], [1, 0], [2, 1], [1, 2]]);
    let group = |mark: u32| {
        let set = |least: u32| if mark >= least { others | last } else { others };
        Group { fixed: set(2), possible: set(1), low: 0, high: entrants }
    };
    let line = Constraint { code: 7, groups: random.pick(&[vec![0, 1], vec![1, 0]]) };
    Model { entrants, groups: marks.map(group).to_vec(), constraints: vec![line] }
}

/// Two unions of sixteen, marks and limits loose but for entrant 64's, which is settled in some of them.
fn unions(random: &mut Random, entrants: u32) -> Model {
    let everyone = first_entrants(entrants);
    let mut group = |_| {
        let (fixed, barred) = random.pick(&[(0, 0), (0, 0), (LAST, 0), (0, LAST), (1, LAST)]);
        Group { fixed: fixed & everyone, possible: everyone & !barred, low: 0, high: entrants }
    };
    let groups: Vec<Group> = (0..20).map(&mut group).collect();
    let mut order: Vec<usize> = (0..20).collect();
    let mut line = |_| {
        random.shuffle(&mut order);
        Constraint { code: 6, groups: order[..17].to_vec() }
    };
    let constraints = (0..2).map(&mut line).collect();
    Model { entrants, groups, constraints }
}

fn sheet_cases(random: &mut Random) -> Vec<Case> {
    let Sample { mut sheet, draw } = sample(random);
    if random.chance(20) {
        sheet = super::blanks::some(random, &sheet);
    }
    let draw = draw.as_deref();
    let mut cases = vec![Case::Read { sheet: sheet.clone() }, Case::Settle { sheet: sheet.clone(), spare: 0 }, Case::Count { sheet: sheet.clone() }];
    for _ in 0..4 {
        cases.push(block_case(random, &sheet));
    }
    cases.extend(line_block(random, &sheet).into_iter().chain(leaf_block(&sheet)));
    if random.chance(30) {
        cases.push(blocks_case(random, &sheet));
    }
    for _ in 0..2 {
        cases.extend(models::case(random, &sheet, draw).map(Case::Model));
    }
    cases.extend(sheet::read(&sheet).ok().filter(|model| model.entrants < ENTRANTS).map(|model| past_n(random, &model)));
    for _ in 0..2 {
        cases.push(Case::Fill(filling::case(random, sheet.clone(), draw)));
    }
    cases.extend(draw.and_then(|draw| differences::wrong_x(random, &sheet, draw)));
    cases.push(close_case(random, sheet, draw));
    cases
}

/// The block of a line.
fn line_block(random: &mut Random, sheet: &[u8]) -> Option<Case> {
    let settled = settled(sheet).ok()?;
    let (encoding, lines) = (Encoding::of(&settled), settled.model().constraints.len());
    (lines > 0).then(|| Case::Block { sheet: sheet.to_vec(), block: (encoding.node_blocks() + random.from_to(1, lines)) as u32, spare: 0 })
}

/// The block of the node over entrant 64, in the first group where it is open and counted.
fn leaf_block(sheet: &[u8]) -> Option<Case> {
    let settled = settled(sheet).ok()?;
    let (encoding, groups) = (Encoding::of(&settled), &settled.model().groups);
    let group = (0..groups.len()).find(|&group| groups[group].open() & LAST != 0 && encoding.counter_start(group).is_some())?;
    // the last leaf is under the last node of the right half, and so on down
    let (mut block, mut size) = (*encoding.group_blocks(group).end(), groups[group].open().count_ones());
    while size - size / 2 > 1 {
        size -= size / 2;
        block -= 1;
    }
    Some(Case::Block { sheet: sheet.to_vec(), block: block as u32, spare: 0 })
}

/// A model's words with an entrant past n.
fn past_n(random: &mut Random, model: &Model) -> Case {
    let mut words = to_words(model, 0);
    let entrant = 1 << random.pick(&[model.entrants, 63]);
    words[FIRST_GROUP + 4 * random.below(model.groups.len()) + 1] |= entrant;
    Case::Model(models::of_any_words(random, words, model.groups.len()))
}

/// A wide sheet with a mark or a limit wrong, or a field too many or too few in a group line.
fn faulty(random: &mut Random) -> Vec<u8> {
    let sheet = sample(random).sheet;
    let mut lines: Vec<Vec<u8>> = sheet.split(|&byte| byte == b'\n').map(<[u8]>::to_vec).collect();
    let groups: Vec<usize> = (0..lines.len()).filter(|&at| lines[at].starts_with(b"   2")).collect();
    let line = &mut lines[random.pick(&groups)];
    let n = line.len() / 4 - 4;
    match random.below(5) {
        0 => line.truncate(line.len() - 4),
        1 => line.extend_from_slice(b"   1"),
        2 => drop(line.splice(4 * n + 12.., *b"   3")),
        3 => drop(line.splice(12..16, format!("{:4}", n + 1).into_bytes())),
        _ => drop(line.splice(8..12, *b"  65")),
    }
    lines.join(&b'\n')
}

fn pair_cases(random: &mut Random) -> Vec<Case> {
    let pair = any_pair(random);
    combining::cases_of(random, &pair)
}

/// Two wide sheets, as their texts.
pub fn pair(random: &mut Random) -> [Vec<u8>; 2] {
    any_pair(random).models.map(|model| sheet::write(&model))
}

/// Two wide sheets, often with a clash, or with another n or s in one.
fn any_pair(random: &mut Random) -> Pair {
    let entrants = random.pick(&[32, 32, 33, 48, 64, 64, 64]);
    let groups = random.pick(&[1, 2, 3, 5, WIDE_GROUPS as usize]);
    let mut pair = sheets::pair_of_size(random, &Size { entrants, groups, lines: groups.min(20) }, 20);
    match random.below(3) {
        0 => combining::change(random, &mut pair, 20),
        1 if entrants == 32 => grown(&mut pair),
        1 => last_fixed(random, &mut pair),
        _ => {}
    }
    pair
}

/// The second sheet with entrant 33.
fn grown(pair: &mut Pair) {
    let model = &mut pair.models[1];
    model.groups.truncate(WIDE_GROUPS as usize);
    model.groups.iter_mut().for_each(|group| group.possible |= 1 << 32);
    model.entrants = 33;
}

/// A group in which one sheet fixes entrant n, whom the other bars or leaves open.
fn last_fixed(random: &mut Random, pair: &mut Pair) {
    let last = 1 << (pair.models[0].entrants - 1);
    let (at, index) = (random.below(2), random.below(pair.models[0].groups.len()));
    let group = &mut pair.models[at].groups[index];
    (group.fixed, group.possible) = (group.fixed | last, group.possible | last);
    let group = &mut pair.models[1 - at].groups[index];
    (group.fixed, group.possible) = (group.fixed & !last, if random.chance(50) { group.possible & !last } else { group.possible | last });
}

/// The cases with as many variables as there can be: a ring of groups of 64 entrants, each unlike the next; listed, said in one line and closed on.
fn largest_cases(random: &mut Random) -> Vec<Case> {
    let Sample { sheet, draw } = largest(random);
    let settled = settled(&sheet).expect("a sheet that settles");
    let encoding = Encoding::of(&settled);
    let marks = assignment(&encoding, draw.as_deref().unwrap_or_default());
    let said: String = marks.iter().enumerate().map(|(at, &mark)| format!(" {}{}", if mark == 1 { "" } else { "-" }, at + 1)).collect();
    let block = |block: usize| Case::Block { sheet: sheet.clone(), block: block as u32, spare: 0 };
    let root = *encoding.group_blocks(random.below(WIDE_GROUPS as usize)).end();
    let past = MOST_VARIABLES + 1;
    let mut cases = vec![
        Case::Settle { sheet: sheet.clone(), spare: 0 },
        Case::Count { sheet: sheet.clone() },
        block(0),
        block(root),
        block(encoding.blocks()),
        Case::Fill(filling::case(random, sheet.clone(), draw.as_deref())),
        Case::Lines { marks: vec![0; MOST_VARIABLES], lines: vec![format!("v{said} 0").into_bytes()] },
        Case::Close { sheet: sheet.clone(), closed: true, marks, room: 256 },
        Case::Lines { marks: vec![0; past], lines: (0..3).map(|_| answers::line(random, past)).collect() },
    ];
    cases.extend(random.chance(20).then(|| Case::Blocks { sheet, from: 0, rooms: vec![1 << 20, listing(&encoding).len()] }));
    cases
}

/// The largest there is, and a draw of it.
fn largest(random: &mut Random) -> Sample {
    let many = WIDE_GROUPS as usize;
    let group = Group { fixed: 0, possible: first_entrants(ENTRANTS), low: 1, high: ENTRANTS - 1 };
    let ring = |f: usize| Constraint { code: 7, groups: vec![f % many, (f + 1) % many] };
    let model = Model { entrants: ENTRANTS, groups: vec![group; many], constraints: (0..LINES as usize).map(ring).collect() };
    let draw = (0..many).map(|at| random.set(ENTRANTS, 50) & !0b111 | if at % 2 == 0 { 0b001 } else { 0b010 }).collect();
    Sample { sheet: sheet::write(&model), draw: Some(draw) }
}

#[cfg(test)]
mod tests {
    use super::super::answers::tests::header_counts;
    use super::*;
    use crate::fill::is_draw;

    #[test]
    fn the_largest_has_as_many_variables_as_there_can_be() {
        let Sample { sheet, draw } = largest(&mut Random(71));
        let settled = settled(&sheet).unwrap();
        assert_eq!(Encoding::of(&settled).variables, MOST_VARIABLES);
        assert!(is_draw(settled.model(), &draw.unwrap()));
    }

    #[test]
    fn samples_are_read_and_have_more_than_32_entrants() {
        let mut random = Random(72);
        for _ in 0..500 {
            let Sample { sheet, draw } = sample(&mut random);
            let model = sheet::read(&sheet).unwrap();
            assert!(is_wide(&model));
            assert!(draw.is_none_or(|draw| is_draw(&model, &draw)));
        }
    }

    #[test]
    fn the_header_counts_what_the_blocks_hold() {
        let mut random = Random(73);
        for _ in 0..200 {
            let Ok(settled) = settled(&sample(&mut random).sheet) else { continue };
            assert!(header_counts(&Encoding::of(&settled)));
        }
    }
}

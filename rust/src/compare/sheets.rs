//! Sheets for the comparison: valid ones, some around a draw that is known, and damaged ones.
use super::random::Random;
use crate::model::*;
use crate::sheet;

pub struct Sample {
    pub sheet: Vec<u8>,
    /// A draw of the sheet, where it was made around one.
    pub draw: Option<Vec<u64>>,
}

/// How many entrants, groups and lines; of lines it may come to fewer.
pub struct Size {
    pub entrants: u32,
    pub groups: usize,
    pub lines: usize,
}

/// A sheet with lines of codes 1 to 6.
pub fn valid(random: &mut Random) -> Sample {
    sample(random, 0)
}

/// A sheet with lines of code 7 among the others.
pub fn with_code_7(random: &mut Random) -> Sample {
    let sevens = random.pick(&[10, 40, 100]);
    sample(random, sevens)
}

/// `sevens`: of a hundred lines so many have code 7.
fn sample(random: &mut Random, sevens: usize) -> Sample {
    let size = size(random);
    of_size(random, &size, sevens)
}

/// A sheet of this size.
pub fn of_size(random: &mut Random, size: &Size, sevens: usize) -> Sample {
    let planted = random.chance(60);
    let mut sets: Vec<u64> = (0..size.groups).map(|_| random_set(random, size.entrants)).collect();
    let constraints = lines(random, size, &mut sets, planted, sevens);
    let style = Style::any(random);
    let groups = sets.iter().map(|&set| style.group(random, size.entrants, set, planted)).collect();
    let model = Model { entrants: size.entrants, groups, constraints };
    Sample { sheet: sheet::write(&model), draw: planted.then_some(sets) }
}

/// Two models over the same entrants and groups, and a draw of both, where they were made around one.
pub struct Pair {
    pub models: [Model; 2],
    pub draw: Option<Vec<u64>>,
}

/// Constraint lines go to the one or to the other; each has marks and limits of its own.
pub fn pair(random: &mut Random, sevens: usize) -> Pair {
    let mut size = size(random);
    match random.below(50) {
        0 => (size.entrants, size.groups) = (NARROW_ENTRANTS, GROUPS as usize),
        1 | 2 => size.groups = GROUPS as usize,
        3..=5 => size.entrants = NARROW_ENTRANTS,
        _ => {}
    }
    pair_of_size(random, &size, sevens)
}

/// A pair of this size.
pub fn pair_of_size(random: &mut Random, size: &Size, sevens: usize) -> Pair {
    let planted = random.chance(60);
    let mut sets: Vec<u64> = (0..size.groups).map(|_| random_set(random, size.entrants)).collect();
    let (ones, others) = lines(random, size, &mut sets, planted, sevens).into_iter().partition(|_| random.chance(50));
    let models = [ones, others].map(|constraints| {
        let style = Style::any(random);
        let groups = sets.iter().map(|&set| style.group(random, size.entrants, set, planted)).collect();
        Model { entrants: size.entrants, groups, constraints }
    });
    Pair { models, draw: planted.then_some(sets) }
}

fn size(random: &mut Random) -> Size {
    let (entrants, groups, lines) = match random.below(200) {
        0..=99 => (4, 5, 4),
        100..=159 => (8, 20, 10),
        160..=195 => (32, 40, 40),
        196..=198 => (32, 256, 256),
        _ => return Size { entrants: NARROW_ENTRANTS, groups: GROUPS as usize, lines: LINES as usize },
    };
    Size { entrants: random.from_to(1, entrants) as u32, groups: random.from_to(1, groups), lines: random.from_to(0, lines) }
}

fn random_set(random: &mut Random, entrants: u32) -> u64 {
    let percent = random.pick(&[0, 15, 50, 50, 85, 100]);
    random.set(entrants, percent)
}

/// Constraint lines. Around a draw, each line is true of the sets, which are changed to that end while no line has used them.
fn lines(random: &mut Random, size: &Size, sets: &mut [u64], planted: bool, sevens: usize) -> Vec<Constraint> {
    let mut used = vec![false; sets.len()];
    let mut constraints = Vec::new();
    for _ in 0..4 * size.lines {
        if constraints.len() == size.lines {
            break;
        }
        let Some(line) = line(random, sets.len(), sevens) else { break };
        if planted {
            let first = line.groups[0];
            if !used[first] {
                sets[first] = first_set(&line, sets);
            }
            if !line.is_true(sets) {
                continue;
            }
            line.groups.iter().for_each(|&group| used[group] = true);
        }
        constraints.push(line);
    }
    constraints
}

/// A line of any code from 1 to 6 for which there are groups enough, or as often as asked for of code 7.
pub fn line(random: &mut Random, groups: usize, sevens: usize) -> Option<Constraint> {
    let most = match groups {
        0 | 1 => return None,
        2 => 2,
        _ => 6,
    };
    let code = if sevens > 0 && random.chance(sevens) { 7 } else { random.from_to(1, most) };
    let many = match code {
        1 | 2 | 7 => 2,
        6 => random.from_to(3, groups.min(17)),
        _ => 3,
    };
    let mut chosen = Vec::new();
    while chosen.len() < many {
        let group = random.below(groups);
        if !chosen.contains(&group) {
            chosen.push(group);
        }
    }
    Some(Constraint { code: code as u32, groups: chosen })
}

/// The set of the line's first group that makes the line true.
fn first_set(line: &Constraint, sets: &[u64]) -> u64 {
    let set = |at: usize| sets[line.groups[at]];
    match line.code {
        1 => set(1),
        2 => set(0) & set(1),
        3 => set(1) & set(2),
        5 => set(1) & !set(2),
        7 if set(0) == set(1) => set(0) ^ 1,
        7 => set(0),
        _ => line.groups[1..].iter().fold(0, |union, &group| union | sets[group]),
    }
}

/// How marks and limits are chosen throughout a sheet.
struct Style {
    fixed: usize,
    barred: usize,
    limits: Limits,
}

#[derive(Clone, Copy)]
enum Limits {
    Loose,
    Near,
    Exact,
    Mixed,
}

impl Style {
    fn any(random: &mut Random) -> Style {
        let limits = random.pick(&[Limits::Loose, Limits::Near, Limits::Exact, Limits::Mixed, Limits::Mixed]);
        Style { fixed: random.pick(&[0, 0, 5, 30, 80]), barred: random.pick(&[0, 0, 5, 30, 80]), limits }
    }

    /// A group that allows `set`, or without a draw one whose marks may be anything.
    fn group(&self, random: &mut Random, entrants: u32, set: u64, planted: bool) -> Group {
        let everyone = first_entrants(entrants);
        let fixed = set & random.set(entrants, self.fixed);
        let out = random.set(entrants, self.barred) & if planted { !set } else { !fixed };
        let (low, high) = self.limits(random, entrants, set.count_ones());
        Group { fixed, possible: everyone & !out, low, high }
    }

    fn limits(&self, random: &mut Random, entrants: u32, many: u32) -> (u32, u32) {
        let limits = match self.limits {
            Limits::Mixed => random.pick(&[Limits::Loose, Limits::Near, Limits::Exact]),
            limits => limits,
        };
        match limits {
            Limits::Exact => (many, many),
            Limits::Near => {
                let (less, more) = (random.below(3) as u32, random.below(3) as u32);
                (many.saturating_sub(less), (many + more).min(entrants))
            }
            _ => (0, entrants),
        }
    }
}

/// A sheet with one or two damages; by luck it may still be accepted.
pub fn damaged(random: &mut Random, sheet: &[u8]) -> Vec<u8> {
    let mut sheet = sheet.to_vec();
    for _ in 0..random.from_to(1, 2) {
        sheet = match random.below(10) {
            0 => damaged_byte(random, sheet),
            1 | 2 => damaged_order(random, sheet),
            3 => damaged_end(random, sheet),
            _ => damaged_field(random, sheet),
        };
    }
    sheet
}

fn damaged_byte(random: &mut Random, mut sheet: Vec<u8>) -> Vec<u8> {
    if sheet.is_empty() {
        return sheet;
    }
    let at = random.below(sheet.len());
    match random.below(4) {
        0 => sheet[at] ^= 1 << random.below(8),
        1 => sheet[at] = random.pick(b" 0123456789\n\r-+a\0\xff"),
        2 => sheet.insert(at, random.pick(b" 0123456789\n")),
        _ => drop(sheet.remove(at)),
    }
    sheet
}

/// Bytes that other systems and editors leave: a byte order mark in front, a carriage return at the end of a line or of each, a tab.
pub fn strayed(random: &mut Random, sheet: &[u8]) -> Vec<u8> {
    let mut sheet = sheet.to_vec();
    let ends: Vec<usize> = (0..sheet.len()).filter(|&at| sheet[at] == b'\n').collect();
    match random.below(4) {
        0 => drop(sheet.splice(..0, *b"\xef\xbb\xbf")),
        1 => ends.iter().rev().for_each(|&at| sheet.insert(at, b'\r')),
        2 if !ends.is_empty() => sheet.insert(random.pick(&ends), b'\r'),
        _ if !sheet.is_empty() => {
            let at = random.below(sheet.len());
            sheet[at] = b'\t';
        }
        _ => {}
    }
    sheet
}

/// Lines dropped, doubled, exchanged, an empty one put in.
fn damaged_order(random: &mut Random, sheet: Vec<u8>) -> Vec<u8> {
    let mut lines: Vec<&[u8]> = sheet.split_inclusive(|&byte| byte == b'\n').collect();
    if lines.is_empty() {
        return sheet;
    }
    let (at, other) = (random.below(lines.len()), random.below(lines.len()));
    match random.below(4) {
        0 => drop(lines.remove(at)),
        1 => lines.insert(other, lines[at]),
        2 => lines.swap(at, other),
        _ => lines.insert(at, b"\n"),
    }
    lines.concat()
}

fn damaged_end(random: &mut Random, mut sheet: Vec<u8>) -> Vec<u8> {
    match random.below(6) {
        0 => sheet.truncate(random.below(sheet.len() + 1)),
        1 => drop(sheet.pop()),
        2 => sheet.clear(),
        3 => sheet.push(b'\n'),
        4 => {
            let longer = random.pick(&[SHEET_BYTES - 1, SHEET_BYTES, SHEET_BYTES + 1, SHEET_BYTES + 1, SHEET_BYTES + 100]);
            let filler = random.pick(b" \n1");
            sheet.resize(longer, filler);
            *sheet.last_mut().unwrap() = random.pick(b"\n\n ");
        }
        _ => sheet.extend_from_slice(b"   3   2   1   2\n"),
    }
    sheet
}

/// A field of a line replaced, copied, dropped, added, or set wrongly in its columns.
fn damaged_field(random: &mut Random, sheet: Vec<u8>) -> Vec<u8> {
    let mut lines: Vec<Vec<u8>> = sheet.split_inclusive(|&byte| byte == b'\n').map(<[u8]>::to_vec).collect();
    if lines.is_empty() {
        return sheet;
    }
    let at = random.below(lines.len()).max(random.below(lines.len()));
    let line = &mut lines[at];
    let fields = line.len() / 4;
    if fields == 0 {
        return sheet;
    }
    let column = |random: &mut Random| {
        let first = if random.chance(50) { 4.min(fields) } else { fields };
        4 * random.below(first)
    };
    let (start, other) = (column(random), column(random));
    let place = start..start + 4;
    match random.below(8) {
        0..=2 => {
            let number: usize = random.pick(&[0, 1, 2, 3, 4, 5, 6, 7, 15, 16, 17, 31, 32, 33, 255, 256, 257, 999, 1000, 9999]);
            line.splice(place, format!("{number:4}").into_bytes());
        }
        3 => line.copy_within(other..other + 4, start),
        4 => drop(line.drain(place)),
        5 => {
            let copy = line[place].to_vec();
            line.splice(start..start, copy);
        }
        6 => {
            let number = read_number(&line[place.clone()]) + 1;
            line.splice(place, format!("{number:4}").into_bytes());
        }
        _ => {
            let odd = random
                .pick(&[*b"1   ", *b" 1  ", *b"  1 ", *b"  01", *b"0000", *b"    ", *b"  00", *b" -1 ", *b"  +1", *b" 1 1", *b"\t  1", *b"0x01", *b"  1\r"]);
            line.splice(place, odd);
        }
    }
    lines.concat()
}

fn read_number(field: &[u8]) -> usize {
    String::from_utf8_lossy(field).trim().parse().unwrap_or(0)
}

#[cfg(test)]
mod tests {
    use super::*;
    use crate::settle::settle;

    #[test]
    fn every_order_of_the_lines_settles_alike() {
        let mut random = Random(5);
        for make in [valid, with_code_7].repeat(2_000) {
            let model = sheet::read(&make(&mut random).sheet).unwrap();
            let mut other = model.clone();
            random.shuffle(&mut other.constraints);
            let most = 2 * model.groups.len() as u32 * model.entrants + 1;
            match (settle(model), settle(other)) {
                (Some(one), Some(other)) => {
                    assert_eq!(one.model().groups, other.model().groups);
                    assert!(one.passes() <= most && other.passes() <= most);
                }
                (one, other) => assert!(one.is_none() && other.is_none()),
            }
        }
    }

    #[test]
    fn a_known_draw_is_never_settled_out() {
        let mut random = Random(6);
        for make in [valid, with_code_7].repeat(2_000) {
            let sample = make(&mut random);
            let Some(draw) = sample.draw else { continue };
            let settled = settle(sheet::read(&sample.sheet).unwrap()).expect("a sheet with a draw settles");
            for (group, &set) in settled.model().groups.iter().zip(&draw) {
                assert!(group.fixed & !set == 0 && set & !group.possible == 0);
            }
        }
    }
}

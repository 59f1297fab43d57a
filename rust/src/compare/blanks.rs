//! Sheets with blank marks, accepted and with one fault, and what blanks came to in the reading of any sheet, as kinds of cases.
use super::case::Kind;
use super::filling;
use super::random::Random;
use super::sheets::{self, Sample};
use crate::model::*;
use crate::refusal::*;
use crate::sheet::{read_field, write, Field};

pub const BLANK: &[u8] = b"    ";
pub const ONE: &[u8] = b"   1";

/// What blanks come to where a sheet is read, in the order of the report.
pub const KINDS: &[Kind] = &[
    "blank: some open marks",
    "blank: every open mark",
    "blank: every mark",
    "blank: every mark of the largest sheet",
    "blank: 1 too long",
    "blank: 2 no end",
    "blank: 3 a space too few",
    "blank: 3 a space too many",
    "blank: 4 first field",
    "blank: 4 in a head",
    "blank: 4 in a head, fifth field or later",
    "blank: 4 own number",
    "blank: 4 low",
    "blank: 4 high",
    "blank: 4 code",
    "blank: 4 in a constraint line",
    "blank: 4 in a constraint line, fifth or later",
    "blank: 4 in a line of no kind",
    "blank: 4 after a bad first field",
    "blank: 4 another byte among the spaces",
    "blank: 4 a mark out of its columns",
    "blank: 4 a bad field before blank marks",
    "blank: 4 before 5",
    "blank: 5 where the head is due",
    "blank: 5 where a constraint line is due",
    "blank: 5 after the last line",
    "blank: 5 line missing",
    "blank: 6 marks too few",
    "blank: 6 marks too many",
    "blank: 7 another mark",
    "blank: 7 low above high",
    "blank: 7 high above n",
    "blank: 8 group not the next",
    "blank: 9 group twice",
    "blank: marks above a line that is refused",
];

/// The sheet with each blank mark and each written 1 made what `blank` says of it.
pub fn rewritten(sheet: &[u8], mut blank: impl FnMut(bool) -> bool) -> Vec<u8> {
    let mut sheet = sheet.to_vec();
    for line in sheet.split_mut(|&byte| byte == b'\n').filter(|line| line.starts_with(b"   2")) {
        for field in line.chunks_mut(4).skip(4).filter(|field| **field == *BLANK || **field == *ONE) {
            field.copy_from_slice(if blank(*field == *BLANK) { BLANK } else { ONE });
        }
    }
    sheet
}

fn has_blank_mark(line: &[u8]) -> bool {
    line.starts_with(b"   2") && line.chunks(4).skip(4).any(|field| field == BLANK)
}

/// The sheet with some or all of its open marks blank.
pub fn some(random: &mut Random, sheet: &[u8]) -> Vec<u8> {
    let percent = random.pick(&[10, 50, 90, 100]);
    rewritten(sheet, |_| random.chance(percent))
}

/// The blank marks of an accepted sheet, as a set a group.
pub fn of(sheet: &[u8]) -> Vec<u64> {
    let set = |line: &[u8]| line.chunks(4).skip(4).enumerate().fold(0, |set, (e, field)| set | u64::from(field == BLANK) << e);
    sheet.split(|&byte| byte == b'\n').filter(|line| line.starts_with(b"   2")).map(set).collect()
}

/// The sheet of a model, in which the open marks of these sets are blank.
pub fn written(model: &Model, blanks: &[u64]) -> Vec<u8> {
    let open = |(group, blanks): (&Group, &u64)| (0..model.entrants).filter(|e| group.open() >> e & 1 == 1).map(|e| blanks >> e & 1 == 1).collect::<Vec<_>>();
    let mut marks = model.groups.iter().zip(blanks).flat_map(open);
    rewritten(&write(model), |_| marks.next().unwrap_or(false))
}

/// What blanks come to in the reading of a sheet that is answered so.
pub fn met(sheet: &[u8], answer: u64) -> Vec<Kind> {
    let (number, at) = ((answer >> 16) as u32, (answer & 0xFFFF) as usize);
    let lines: Vec<&[u8]> = sheet.split(|&byte| byte == b'\n').collect();
    let line = at.checked_sub(1).map_or(&[][..], |at| lines[at]);
    let (here, anywhere) = (has_blank_mark(line), lines.iter().any(|line| has_blank_mark(line)));
    match number {
        FIELD => field_kinds(&lines, at),
        _ if !anywhere => Vec::new(),
        0 => accepted_kinds(sheet),
        TOO_LONG => vec!["blank: 1 too long"],
        NO_END => vec!["blank: 2 no end"],
        KIND if at == lines.len() => vec!["blank: 5 line missing"],
        TWICE => vec!["blank: 9 group twice"],
        _ if !here => vec!["blank: marks above a line that is refused"],
        LENGTH if line.len() % 4 == 3 => vec!["blank: 3 a space too few"],
        LENGTH if line.len() % 4 == 1 => vec!["blank: 3 a space too many"],
        KIND => vec![match due(&lines, at) {
            Some(1) => "blank: 5 where the head is due",
            Some(_) => "blank: 5 where a constraint line is due",
            None => "blank: 5 after the last line",
        }],
        COUNT if line.len() / 4 < 4 + numbers(lines[0])[1] as usize => vec!["blank: 6 marks too few"],
        COUNT => vec!["blank: 6 marks too many"],
        RANGE => range_kinds(&numbers(line), numbers(lines[0])[1]),
        NOT_NEXT => vec!["blank: 8 group not the next"],
        _ => Vec::new(),
    }
}

/// The numbers of a line's fields, 1 for what is none.
fn numbers(line: &[u8]) -> Vec<u32> {
    let number = |field| match read_field(field) {
        Field::Number(number) => number,
        Field::Blank | Field::Bad => 1,
    };
    line.chunks(4).map(number).collect()
}

/// The kind of line that belongs at a place, where those before it are as they should be.
fn due(lines: &[&[u8]], at: usize) -> Option<u32> {
    if at == 1 {
        return Some(1);
    }
    let head = numbers(lines[0]);
    let (groups, constraints) = (head[2] as usize, head[3] as usize);
    match at - 1 {
        before if before <= groups => Some(2),
        before if before <= groups + constraints => Some(3),
        _ => None,
    }
}

fn accepted_kinds(sheet: &[u8]) -> Vec<Kind> {
    let marks = |line: &[u8], wanted: &[u8]| line.chunks(4).skip(4).filter(|field| *field == wanted).count();
    let groups = || sheet.split(|&byte| byte == b'\n').filter(|line| line.starts_with(b"   2"));
    if groups().any(|line| marks(line, ONE) > 0) {
        return vec!["blank: some open marks"];
    }
    let mut kinds = vec!["blank: every open mark"];
    if groups().all(|line| marks(line, BLANK) == line.len() / 4 - 4) {
        kinds.push("blank: every mark");
        kinds.extend((sheet.len() == SHEET_BYTES).then_some("blank: every mark of the largest sheet"));
    }
    kinds
}

/// By the line's first field that is neither a number nor a blank mark.
fn field_kinds(lines: &[&[u8]], at: usize) -> Vec<Kind> {
    let fields: Vec<&[u8]> = lines[at - 1].chunks(4).collect();
    let is_fault = |place: usize| match read_field(fields[place]) {
        Field::Number(_) => false,
        Field::Blank => place < 4 || fields[0] != b"   2",
        Field::Bad => true,
    };
    let Some(place) = (0..fields.len()).find(|&place| is_fault(place)) else { return Vec::new() };
    let (field, blank_marks) = (fields[place], fields.iter().skip(4).any(|field| *field == BLANK));
    let mut kinds: Vec<Kind> =
        if field == BLANK { vec![blank_kind(fields[0], place)] } else { bad_kind(fields[0], place, field, blank_marks).into_iter().collect() };
    if fields[0] == b"   2" && blank_marks && due(lines, at) != Some(2) {
        kinds.push("blank: 4 before 5");
    }
    kinds
}

fn blank_kind(first: &[u8], place: usize) -> Kind {
    match (first, place) {
        (_, 0) => "blank: 4 first field",
        (b"   1", 1..=3) => "blank: 4 in a head",
        (b"   1", _) => "blank: 4 in a head, fifth field or later",
        (b"   2", 1) => "blank: 4 own number",
        (b"   2", 2) => "blank: 4 low",
        (b"   2", _) => "blank: 4 high",
        (b"   3", 1) => "blank: 4 code",
        (b"   3", 4..) => "blank: 4 in a constraint line, fifth or later",
        (b"   3", _) => "blank: 4 in a constraint line",
        _ => "blank: 4 in a line of no kind",
    }
}

fn bad_kind(first: &[u8], place: usize, field: &[u8], blank_marks: bool) -> Option<Kind> {
    let spaces = field.iter().filter(|&&byte| byte == b' ').count();
    match (first, place) {
        (_, 0) if blank_marks => Some("blank: 4 after a bad first field"),
        (b"   2", 4..) if spaces == 3 && !field.iter().any(u8::is_ascii_digit) => Some("blank: 4 another byte among the spaces"),
        (b"   2", 4..) if spaces > 0 && field.iter().all(|byte| *byte == b' ' || byte.is_ascii_digit()) => Some("blank: 4 a mark out of its columns"),
        (b"   2", 1..=3) if blank_marks => Some("blank: 4 a bad field before blank marks"),
        _ => None,
    }
}

fn range_kinds(numbers: &[u32], entrants: u32) -> Vec<Kind> {
    let (low, high, marks) = (numbers[2], numbers[3], &numbers[4..]);
    let mut kinds = Vec::new();
    let mut note = |really: bool, kind: Kind| kinds.extend(really.then_some(kind));
    note(marks.iter().any(|&mark| mark > 2), "blank: 7 another mark");
    note(low > high, "blank: 7 low above high");
    note(high > entrants, "blank: 7 high above n");
    kinds
}

/// A sheet with blank marks: accepted, mostly with one fault, now and then the largest there is with no mark written.
pub fn sample(random: &mut Random) -> Sample {
    if random.below(40) == 0 {
        return Sample { sheet: rewritten(&filling::largest(random).sheet, |_| true), draw: None };
    }
    let mut sample = sheets::valid(random);
    sample.sheet = some(random, &sample.sheet);
    if sample.sheet.split(|&byte| byte == b'\n').any(has_blank_mark) && random.chance(75) {
        return Sample { sheet: faulty(random, &sample.sheet), draw: None };
    }
    sample
}

/// An accepted sheet with blank marks, changed to have one fault.
fn faulty(random: &mut Random, sheet: &[u8]) -> Vec<u8> {
    let mut lines: Vec<Vec<u8>> = sheet.split(|&byte| byte == b'\n').map(<[u8]>::to_vec).collect();
    lines.pop();
    let blank: Vec<usize> = (0..lines.len()).filter(|&at| has_blank_mark(&lines[at])).collect();
    let group = random.pick(&blank);
    match random.below(16) {
        0 => set(&mut lines[0], random.below(4), BLANK),
        1 => set(&mut lines[group], random.below(4), BLANK),
        2 | 3 => fault_in_constraint(random, &mut lines),
        4 => set(&mut lines[group], 0, &random.pick(&[*b"  02", *b"   1", *b"   3", *b"   4", *b"  22", *b"  2 ", *b"  +2"])),
        5 | 6 => {
            let mut line = lines[group].clone();
            if random.chance(25) {
                set(&mut line, random.from_to(1, 3), BLANK);
            }
            let (constraints, end) = (lines.iter().filter(|line| line.starts_with(b"   3")).count(), lines.len());
            lines.insert(random.pick(&[0, end - constraints, end]), line);
        }
        7 | 8 => fault_in_count(random, &mut lines[group]),
        9 | 10 => fault_in_columns(random, &mut lines[group]),
        11 => {
            let bad = random.pick(&[*b"  01", *b"   x", *b"1   ", *b"  -1", *b"\t   "]);
            set(&mut lines[group], random.from_to(1, 3), &bad);
        }
        12 | 13 => fault_in_range(random, &mut lines[group]),
        14 => return fault_in_end(random, &lines, group),
        _ => return sheets::damaged(random, sheet),
    }
    lines.iter().flat_map(|line| [line, &b"\n"[..]].concat()).collect()
}

fn set(line: &mut Vec<u8>, place: usize, field: &[u8]) {
    line.splice(4 * place..4 * place + 4, field.iter().copied());
}

/// A blank in a constraint line or after it, or a group twice in it; a blank after the head where there is none.
fn fault_in_constraint(random: &mut Random, lines: &mut [Vec<u8>]) {
    let constraints: Vec<usize> = (0..lines.len()).filter(|&at| lines[at].starts_with(b"   3")).collect();
    if constraints.is_empty() || random.chance(10) {
        return lines[0].extend(BLANK);
    }
    let line = &mut lines[random.pick(&constraints)];
    let fields = line.len() / 4;
    match random.below(4) {
        0 => line.extend(BLANK),
        1 => line.copy_within(4 * fields - 4.., 4 * fields - 8),
        _ => set(line, random.below(fields), BLANK),
    }
}

/// A mark too many or too few, or the spaces at the end of the line lost.
fn fault_in_count(random: &mut Random, line: &mut Vec<u8>) {
    let fields = line.len() / 4;
    let place = 4 * random.from_to(4, fields - 1);
    match random.below(4) {
        0 => line.extend(BLANK),
        1 => drop(line.splice(place..place, random.pick(&[BLANK, ONE]).iter().copied())),
        2 => drop(line.drain(place..place + 4)),
        _ => line.truncate(line.trim_ascii_end().len()),
    }
}

/// A space more or fewer in a mark column, one of each, or another byte in its place.
fn fault_in_columns(random: &mut Random, line: &mut Vec<u8>) {
    let blanks: Vec<usize> = (16..line.len()).step_by(4).filter(|&at| line[at..at + 4] == *BLANK).collect();
    let at = random.pick(&blanks) + random.below(4);
    match random.below(5) {
        0 => drop(line.remove(at)),
        1 => line.insert(at, b' '),
        2 => {
            line.remove(at);
            line.push(b' ');
        }
        _ => line[at] = random.pick(b"\t\0\r\x0b\xa0_.-x"),
    }
}

/// A mark, a limit or the number of a group out of its range.
fn fault_in_range(random: &mut Random, line: &mut Vec<u8>) {
    let fields = line.len() / 4;
    let number = |place: usize| numbers(&line[4 * place..])[0];
    let (place, wrong) = match random.below(4) {
        0 => (random.from_to(4, fields - 1), random.pick(&[3, 4, 10, 9999])),
        1 => (2, number(3) + 1),
        2 => (3, fields as u32 - 3),
        _ => (1, random.pick(&[0, number(1) - 1, number(1) + 1, 257])),
    };
    set(line, place, format!("{wrong:4}").as_bytes());
}

/// No newline at the end, the last line missing, or more lines than a sheet has bytes for.
fn fault_in_end(random: &mut Random, lines: &[Vec<u8>], group: usize) -> Vec<u8> {
    let mut sheet: Vec<u8> = lines.iter().flat_map(|line| [line, &b"\n"[..]].concat()).collect();
    match random.below(3) {
        0 => drop(sheet.pop()),
        1 => sheet.truncate(sheet.len() - lines[lines.len() - 1].len() - 1),
        _ => {
            while sheet.len() <= SHEET_BYTES {
                sheet.extend_from_slice(&lines[group]);
                sheet.push(b'\n');
            }
        }
    }
    sheet
}

#[cfg(test)]
mod tests {
    use super::*;
    use crate::sheet::read;

    #[test]
    fn the_blanks_of_a_sheet_are_written_again() {
        let mut random = Random(32);
        for _ in 0..500 {
            let sheet = sheets::valid(&mut random).sheet;
            let blank = some(&mut random, &sheet);
            let model = read(&blank).unwrap();
            assert_eq!(model, read(&sheet).unwrap());
            assert_eq!(written(&model, &of(&blank)), blank);
            assert_eq!(written(&model, &[]), sheet);
        }
    }
}

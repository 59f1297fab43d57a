//! What lines of code 7 come to in any case, as kinds of cases.
use super::case::Kind;
use crate::close::groups;
use crate::different::Different;
use crate::encode::{Encoding, Part};
use crate::fill::{assignment, is_draw};
use crate::model::*;
use crate::refusal::*;
use crate::settle::{all_alike, contradictory, group_rules, limit_rules, mark_rules, settle, Settled};
use crate::words::{field_at, from_words, number, Field, FIRST_LINE, LINE_WORDS};

/// In the order of the report.
pub const KINDS: &[Kind] = &[
    "different: read",
    "different: 6 code 0",
    "different: 6 code 8",
    "different: 6 code 7 without groups",
    "different: 6 code 7 with one group",
    "different: 6 code 7 with three groups",
    "different: 7 group 0",
    "different: 7 group above s",
    "different: 9 group twice",
    "different: settle, some open in both",
    "different: settle, one group settled",
    "different: settle, rule bars in F",
    "different: settle, rule bars in G",
    "different: settle, rule fixes in F",
    "different: settle, rule fixes in G",
    "different: settle, rule with one entrant",
    "different: settle, rule on entrant 32",
    "different: settle, rule on entrant 64",
    "different: settle, rule on the newest table",
    "different: settle, rule in a later pass",
    "different: settle, all alike but one open",
    "different: settle, all alike but two",
    "different: settle, differs on the sheet",
    "different: settle, differs by other rules",
    "different: settle, 21 alike on the sheet",
    "different: settle, 21 alike after a change",
    "different: settle, 21 alike in a later pass",
    "different: settle, 21 by the rule",
    "different: header",
    "different: header, no X",
    "different: block, open in both",
    "different: block, fixed in F",
    "different: block, fixed in G",
    "different: block, barred in F",
    "different: block, barred in G",
    "different: block, some settled alike",
    "different: block, last clause of one X",
    "different: block, last clause of 32 X",
    "different: block, last clause of 64 X",
    "different: block, already differs",
    "different: block, X after counters",
    "different: block, X without counters",
    "different: block, X after another line's",
    "different: block, X after a line without",
    "different: block, between other codes",
    "different: block, other code before",
    "different: block, other code behind",
    "different: block, counter before X",
    "different: block, X up to 57,344",
    "different: block, X up to 59,392",
    "different: blocks, together the listing",
    "different: counters by their steps",
    "different: close, groups",
    "different: close, 57,344 marks",
    "different: close, 59,392 marks",
    "different: close, 26 without X",
    "different: close, 27 X unsaid",
    "different: close, 28 X true wrongly",
    "different: close, 28 X false wrongly",
    "different: close, 28 last clause alone",
    "different: fill, one line with X",
    "different: fill, several lines with X",
    "different: fill, X and counters",
    "different: fill, X without counters",
    "different: fill, a line without X",
    "different: fill, closing gives groups again",
    "different: model, a count of code 7",
    "different: model, words past its groups",
    "different: model, 20 code 0",
    "different: model, 20 code 8",
    "different: model, 20 group twice",
    "different: model, 20 group out of range",
    "different: model, settled by the rule alone",
    "different: model, 21 alike alone",
    "different: model, block",
    "different: model, closed",
    "different: model, filled",
    "different: model, sheet",
    "different: model, 22 of a block by the rule",
    "different: model, 22 of closing by the rule",
    "different: model, 22 of filling by the rule",
    "different: model, 22 of a block, alike",
    "different: model, 22 of closing, alike",
    "different: model, 22 of filling, alike",
    "different: combine, lines in both",
    "different: combine, lines in the first alone",
    "different: combine, lines in the second alone",
    "different: combine, 21 by code 7",
    "different: combine, no draw by code 7 alone",
    "different: combine words, lines in both",
    "different: combine words, lines in one",
    "different: combine words, a count of code 7",
    "different: combine words, past its groups",
    "different: certified",
];

fn has_line(model: &Model) -> bool {
    model.constraints.iter().any(|line| line.code == 7)
}

fn without_lines(model: &Model) -> Model {
    let constraints = model.constraints.iter().filter(|line| line.code != 7).cloned().collect();
    Model { constraints, ..model.clone() }
}

/// How many X each line has.
fn x_of_lines(encoding: &Encoding) -> Vec<usize> {
    (0..encoding.settled.model().constraints.len()).map(|index| encoding.each_x(index).count()).collect()
}

/// Whether a listing has an X.
pub fn has_x(encoding: &Encoding) -> bool {
    x_of_lines(encoding).iter().any(|&many| many > 0)
}

fn has_counter(encoding: &Encoding) -> bool {
    (0..encoding.settled.model().groups.len()).any(|group| encoding.counter_start(group).is_some())
}

/// What such lines come to in the reading of a sheet that is answered so.
pub fn read(sheet: &[u8], answer: u64) -> Option<Kind> {
    let (number, at) = ((answer >> 16) as u32, (answer & 0xFFFF) as usize);
    let mut lines = sheet.split(|&byte| byte == b'\n');
    if number == 0 {
        return lines.any(|line| line.starts_with(b"   3   7")).then_some("different: read");
    }
    let line = lines.nth(at.checked_sub(1)?)?;
    let (code, fields) = (line.get(4..8)?, line.chunks(4).skip(2).collect::<Vec<_>>());
    if !line.starts_with(b"   3") {
        return None;
    }
    match (number, code, fields.len()) {
        (COUNT, b"   0", 2) => Some("different: 6 code 0"),
        (COUNT, b"   8", 2) => Some("different: 6 code 8"),
        (COUNT, b"   7", 0) => Some("different: 6 code 7 without groups"),
        (COUNT, b"   7", 1) => Some("different: 6 code 7 with one group"),
        (COUNT, b"   7", 3) => Some("different: 6 code 7 with three groups"),
        (RANGE, b"   7", _) if fields.contains(&&b"   0"[..]) => Some("different: 7 group 0"),
        (RANGE, b"   7", _) => Some("different: 7 group above s"),
        (TWICE, b"   7", _) => Some("different: 9 group twice"),
        _ => None,
    }
}

/// What such lines do in the settling of a model.
pub fn settling(model: &Model) -> Vec<Kind> {
    if !has_line(model) {
        return Vec::new();
    }
    let mut settling = Settling { model, groups: model.groups.clone(), acted: vec![false; model.constraints.len()], kinds: Vec::new() };
    settling.run();
    settling.kinds.sort_unstable();
    settling.kinds.dedup();
    settling.kinds
}

/// Settling once more, with an eye on the lines of code 7.
struct Settling<'a> {
    model: &'a Model,
    groups: Vec<Group>,
    /// The lines whose rule has acted.
    acted: Vec<bool>,
    kinds: Vec<Kind>,
}

impl Settling<'_> {
    fn run(&mut self) {
        for pass in 1.. {
            let changed = self.pass(pass);
            if contradictory(&self.groups, &self.model.constraints) {
                return self.note_out(pass, changed);
            }
            if !changed {
                return self.note_settled();
            }
        }
    }

    fn pass(&mut self, pass: u32) -> bool {
        let mut changed = group_rules(&mut self.groups);
        let start = self.groups.clone();
        for (index, line) in self.model.constraints.iter().enumerate() {
            let before = line.different(&self.groups).map(|pair| [*pair.f, *pair.g]);
            let marked = mark_rules(self.model.everyone(), &mut self.groups, line);
            if let (true, Some(before)) = (marked, before) {
                self.acted[index] = true;
                self.note_rule(line, before, pass, &start);
            }
            changed |= marked | limit_rules(&mut self.groups, line);
        }
        changed
    }

    /// The rule has acted on a line's groups; `start` is the table before the lines of this pass.
    fn note_rule(&mut self, line: &Constraint, [f, g]: [Group; 2], pass: u32, start: &[Group]) {
        let Some(after) = line.different(&self.groups) else { return };
        let sooner = mark_rules(self.model.everyone(), &mut start.to_vec(), line);
        let mut note = |really: bool, kind: Kind| self.kinds.extend(really.then_some(kind));
        note(after.f.possible != f.possible, "different: settle, rule bars in F");
        note(after.g.possible != g.possible, "different: settle, rule bars in G");
        note(after.f.fixed != f.fixed, "different: settle, rule fixes in F");
        note(after.g.fixed != g.fixed, "different: settle, rule fixes in G");
        note(self.model.entrants == 1, "different: settle, rule with one entrant");
        note(after.differing() == 1 << 31, "different: settle, rule on entrant 32");
        note(after.differing() == 1 << 63, "different: settle, rule on entrant 64");
        note(!sooner, "different: settle, rule on the newest table");
        note(pass > 1, "different: settle, rule in a later pass");
    }

    fn note_out(&mut self, pass: u32, changed: bool) {
        if !contradictory(&self.groups, &[]) {
            self.kinds.push(match pass {
                1 if !changed => "different: settle, 21 alike on the sheet",
                1 => "different: settle, 21 alike after a change",
                _ => "different: settle, 21 alike in a later pass",
            });
        } else if settle(without_lines(self.model)).is_some() {
            self.kinds.push("different: settle, 21 by the rule");
        }
    }

    fn note_settled(&mut self) {
        let mut note = |really: bool, kind: Kind| self.kinds.extend(really.then_some(kind));
        for (line, acted) in self.model.constraints.iter().zip(&self.acted) {
            let (Some(sheet), Some(pair)) = (line.different(&self.model.groups), line.different(&self.groups)) else { continue };
            let (both, left) = (pair.f.open() & pair.g.open(), pair.not_alike().count_ones());
            if pair.differing() != 0 {
                note(sheet.differing() != 0, "different: settle, differs on the sheet");
                note(sheet.differing() == 0 && !acted, "different: settle, differs by other rules");
                continue;
            }
            note(both != 0, "different: settle, some open in both");
            note((pair.f.open() == 0) != (pair.g.open() == 0), "different: settle, one group settled");
            note(left == 1, "different: settle, all alike but one open");
            note(left == 2 && both == 0, "different: settle, all alike but two");
        }
    }
}

/// What such lines come to in a block that is written.
pub fn block(encoding: &Encoding, block: usize) -> Vec<Kind> {
    let model = encoding.settled.model();
    if !has_line(model) {
        return Vec::new();
    }
    let x = x_of_lines(encoding);
    let any = x.iter().any(|&many| many > 0);
    match encoding.part(block) {
        Part::Header => vec![if any { "different: header" } else { "different: header, no X" }],
        Part::Node { .. } => any.then_some("different: block, counter before X").into_iter().collect(),
        Part::Line(index) => line_kinds(encoding, index, &x),
    }
}

/// A line's block; `x` is how many X each line has.
fn line_kinds(encoding: &Encoding, index: usize, x: &[usize]) -> Vec<Kind> {
    let model = encoding.settled.model();
    let (before, after) = (&model.constraints[..index], &model.constraints[index + 1..]);
    let mut kinds = Vec::new();
    let mut note = |really: bool, kind: Kind| kinds.extend(really.then_some(kind));
    let Some(pair) = model.constraints[index].different(&model.groups) else {
        note(x[index + 1..].iter().any(|&many| many > 0), "different: block, other code before");
        note(x[..index].iter().any(|&many| many > 0), "different: block, other code behind");
        return kinds;
    };
    let other = |lines: &[Constraint]| lines.iter().any(|line| line.code != 7);
    note(other(before) && other(after), "different: block, between other codes");
    note(x[index] == 0, "different: block, already differs");
    if x[index] > 0 {
        let Different { f, g } = pair;
        note(f.open() & g.open() != 0, "different: block, open in both");
        note(f.fixed & g.open() != 0, "different: block, fixed in F");
        note(g.fixed & f.open() != 0, "different: block, fixed in G");
        note(!f.possible & g.open() != 0, "different: block, barred in F");
        note(!g.possible & f.open() != 0, "different: block, barred in G");
        note(x[index] < model.entrants as usize, "different: block, some settled alike");
        note(x[index] == 1, "different: block, last clause of one X");
        note(x[index] == 32, "different: block, last clause of 32 X");
        note(x[index] == 64, "different: block, last clause of 64 X");
        note(has_counter(encoding), "different: block, X after counters");
        note(!has_counter(encoding), "different: block, X without counters");
        note(x[..index].iter().any(|&many| many > 0), "different: block, X after another line's");
        note(before.iter().zip(x).any(|(line, &many)| line.code == 7 && many == 0), "different: block, X after a line without");
        let last = encoding.each_x(index).last().map_or(0, |(_, x)| x as usize);
        note(last == NARROW_VARIABLES && model.entrants == NARROW_ENTRANTS, "different: block, X up to 57,344");
        note(last == MOST_VARIABLES, "different: block, X up to 59,392");
    }
    kinds
}

/// What X come to in a closing that is answered so.
pub fn closing(encoding: &Encoding, closed: bool, marks: &[u8], answer: u32) -> Option<Kind> {
    let without = encoding.variables - x_of_lines(encoding).iter().sum::<usize>();
    if without == encoding.variables {
        return None;
    }
    let unsaid = |marks: &[u8]| marks.iter().any(|mark| ![1, 2].contains(mark));
    match answer {
        0 if encoding.variables == NARROW_VARIABLES => Some("different: close, 57,344 marks"),
        0 if encoding.variables == MOST_VARIABLES => Some("different: close, 59,392 marks"),
        0 => Some("different: close, groups"),
        MARKS => (marks.len() == without).then_some("different: close, 26 without X"),
        UNSAID => (closed && !unsaid(&marks[..without])).then_some("different: close, 27 X unsaid"),
        FALSE_CLAUSE => false_clause(encoding, marks, without),
        _ => None,
    }
}

/// One X alone is wrong, or every mark is as the groups want it and they are a draw but for lines of code 7.
fn false_clause(encoding: &Encoding, marks: &[u8], without: usize) -> Option<Kind> {
    let groups = groups(encoding, marks);
    let wanted = assignment(encoding, &groups);
    let wrong: Vec<usize> = (0..marks.len()).filter(|&at| marks[at] != wanted[at]).collect();
    match wrong[..] {
        [at] if at >= without && marks[at] == 1 => Some("different: close, 28 X true wrongly"),
        [at] if at >= without => Some("different: close, 28 X false wrongly"),
        [] if but_for_lines(encoding.settled.model(), &groups) => Some("different: close, 28 last clause alone"),
        _ => None,
    }
}

/// Whether groups are no draw, and would be one without the lines of code 7.
fn but_for_lines(model: &Model, groups: &[u64]) -> bool {
    !is_draw(model, groups) && is_draw(&without_lines(model), groups)
}

/// What X come to in a filling that is not refused.
pub fn filled(encoding: &Encoding) -> Vec<Kind> {
    let model = encoding.settled.model();
    let x = x_of_lines(encoding);
    let lines = x.iter().filter(|&&many| many > 0).count();
    let mut kinds = Vec::new();
    let mut note = |really: bool, kind: Kind| kinds.extend(really.then_some(kind));
    note(lines == 1, "different: fill, one line with X");
    note(lines > 1, "different: fill, several lines with X");
    note(lines > 0 && has_counter(encoding), "different: fill, X and counters");
    note(lines > 0 && !has_counter(encoding), "different: fill, X without counters");
    note(model.constraints.iter().zip(&x).any(|(line, &many)| line.code == 7 && many == 0), "different: fill, a line without X");
    note(lines > 0, "different: fill, closing gives groups again");
    kinds
}

/// The words of a line.
fn row(words: &[u64], index: usize) -> &[u64] {
    words.get(FIRST_LINE + LINE_WORDS * index..).map_or(&[], |rest| &rest[..LINE_WORDS.min(rest.len())])
}

/// Whether some line of code 7 has a count, and whether one has words past its groups.
fn ignored(words: &[u64], model: &Model) -> [bool; 2] {
    let any = |places: std::ops::Range<usize>| {
        let not_zero = |index: usize| row(words, index).iter().skip(places.start).take(places.len()).any(|&word| word != 0);
        model.constraints.iter().enumerate().any(|(index, line)| line.code == 7 && not_zero(index))
    };
    [any(1..2), any(4..LINE_WORDS)]
}

/// What such lines come to in a model's words, of which one may have been changed.
pub fn words(words: &[u64], damaged: Option<usize>) -> Vec<Kind> {
    let mut kinds = Vec::new();
    match from_words(words) {
        Ok(model) => {
            let [count, past] = ignored(words, &model);
            kinds.extend(count.then_some("different: model, a count of code 7"));
            kinds.extend(past.then_some("different: model, words past its groups"));
        }
        Err(_) => kinds.extend(damaged.and_then(|place| damage(words, place))),
    }
    kinds
}

fn damage(words: &[u64], place: usize) -> Option<Kind> {
    let (field, index) = field_at(place);
    match (field, number(*words.get(place)?)) {
        (Field::Code, 0) => Some("different: model, 20 code 0"),
        (Field::Code, 8) => Some("different: model, 20 code 8"),
        (Field::Member, group) if row(words, index)[0] == 7 => {
            let in_range = (1..=number(words[1])).contains(&group);
            Some(if in_range { "different: model, 20 group twice" } else { "different: model, 20 group out of range" })
        }
        _ => None,
    }
}

/// What lines of code 7 alone make of a model's words that would else be settled.
enum Alone {
    Alike,
    Rule,
}

fn alone(words: &[u64]) -> Option<Alone> {
    let model = from_words(words).ok().filter(has_line)?;
    Settled::given(without_lines(&model)).ok()?;
    if model.constraints.iter().any(|line| all_alike(&model.groups, line)) {
        return Some(Alone::Alike);
    }
    Settled::given(model).is_err().then_some(Alone::Rule)
}

/// The settling of words that is answered so.
pub fn settled_words(words: &[u64], refusal: u32) -> Option<Kind> {
    match (alone(words)?, refusal) {
        (Alone::Rule, 0) => Some("different: model, settled by the rule alone"),
        (Alone::Alike, CONTRADICTION) => Some("different: model, 21 alike alone"),
        _ => None,
    }
}

/// A call that takes a model's words as settled.
#[derive(Clone, Copy)]
pub enum Call {
    Block(usize),
    Close,
    Fill,
}

/// Such a call on words that is answered so.
pub fn taken_words(words: &[u64], call: Call, refusal: u32) -> Option<Kind> {
    match refusal {
        0 => answered_words(words, call),
        UNSETTLED => Some(match (alone(words)?, call) {
            (Alone::Rule, Call::Block(_)) => "different: model, 22 of a block by the rule",
            (Alone::Rule, Call::Close) => "different: model, 22 of closing by the rule",
            (Alone::Rule, Call::Fill) => "different: model, 22 of filling by the rule",
            (Alone::Alike, Call::Block(_)) => "different: model, 22 of a block, alike",
            (Alone::Alike, Call::Close) => "different: model, 22 of closing, alike",
            (Alone::Alike, Call::Fill) => "different: model, 22 of filling, alike",
        }),
        _ => None,
    }
}

fn answered_words(words: &[u64], call: Call) -> Option<Kind> {
    let settled = Settled::given(from_words(words).ok()?).ok()?;
    let encoding = Encoding::of(&settled);
    match call {
        Call::Block(block) => match encoding.part(block) {
            Part::Line(index) => (encoding.each_x(index).count() > 0).then_some("different: model, block"),
            _ => None,
        },
        Call::Close => has_x(&encoding).then_some("different: model, closed"),
        Call::Fill => has_x(&encoding).then_some("different: model, filled"),
    }
}

/// The sheet of words that is answered so.
pub fn written_words(words: &[u64], refusal: u32) -> Option<Kind> {
    (refusal == 0 && from_words(words).is_ok_and(|model| has_line(&model))).then_some("different: model, sheet")
}

/// What such lines come to where two models are combined, and groups are tried as a draw.
pub fn combined(first: &Model, second: &Model, groups: &[u64]) -> Vec<Kind> {
    let mut kinds = Vec::new();
    let mut note = |really: bool, kind: Kind| kinds.extend(really.then_some(kind));
    let lines = [first, second].map(has_line);
    if lines == [false, false] {
        return kinds;
    }
    note(lines == [true, true], "different: combine, lines in both");
    note(lines == [true, false], "different: combine, lines in the first alone");
    note(lines == [false, true], "different: combine, lines in the second alone");
    let settles = |first: &Model, second: &Model| crate::combine::combine(first, second).is_ok_and(|model| settle(model).is_some());
    note(!settles(first, second) && settles(&without_lines(first), &without_lines(second)), "different: combine, 21 by code 7");
    let alone = |one: &Model, other: &Model| is_draw(one, groups) && but_for_lines(other, groups);
    note(alone(first, second) || alone(second, first), "different: combine, no draw by code 7 alone");
    kinds
}

/// The same of two models as words.
pub fn combined_words(words: &[Vec<u64>; 2], models: [&Model; 2]) -> Vec<Kind> {
    let mut kinds = Vec::new();
    let mut note = |really: bool, kind: Kind| kinds.extend(really.then_some(kind));
    let lines = models.map(has_line);
    note(lines == [true, true], "different: combine words, lines in both");
    note(lines[0] != lines[1], "different: combine words, lines in one");
    let ignored = [0, 1].map(|at| ignored(&words[at], models[at]));
    note(ignored.iter().any(|of| of[0]), "different: combine words, a count of code 7");
    note(ignored.iter().any(|of| of[1]), "different: combine words, past its groups");
    kinds
}

//! Pairs of sheets, and of models as words, to combine: made to fit, and changed so that they are refused or come near it.
use super::blanks;
use super::calls::{combined, combined_words, Calls, Counterpart};
use super::case::{check_settle, junk, junk_words, show_sheet, Case, Kind, Outcome};
use super::code_7;
use super::filling::{self, marks_length};
use super::models::{damage, place};
use super::random::Random;
use super::sheets::{self, Pair};
use super::shrink::without_entrant;
use super::twins::TwinCase;
use super::wide;
use crate::combine::{barred_and_fixed, clash};
use crate::encode::{blocks_of, Encoding};
use crate::fill::is_draw;
use crate::listing::listing;
use crate::model::*;
use crate::refusal::*;
use crate::settle::settle;
use crate::sheet;
use crate::words::{from_words, group_at, number, to_words, FIRST_LINE, LINE_WORDS, WORDS};

/// Two sheets.
#[derive(Clone, Debug)]
pub struct CombineCase {
    pub sheets: [Vec<u8>; 2],
    /// The one of them that the shrinker is at.
    pub turn: usize,
    /// Groups to try as a draw.
    pub groups: Vec<u64>,
    /// Bytes of the buffer beyond the combined sheet's length, or missing.
    spare: isize,
}

/// Two models as words.
#[derive(Clone, Debug)]
pub struct CombineWordsCase {
    words: [Vec<u64>; 2],
    /// Words that are lent.
    room: usize,
}

macro_rules! of_sheets_and_of_words {
    ($($name:literal,)*) => { &[$([concat!("combine: ", $name), concat!("combine words: ", $name)]),*] };
}

/// Kinds of two sheets, and of two models as words, that are accepted each by itself.
const BOTH: &[[Kind; 2]] = of_sheets_and_of_words![
    "fits",
    "one with itself",
    "lines of both",
    "lines of neither",
    "code 6 with k = 2",
    "code 6 with k = 16",
    "256 groups",
    "32 entrants",
    "256 groups of 32 entrants",
    "fixed by one alone",
    "barred by one alone",
    "first's low as second's high",
    "second's low as first's high",
    "128 and 128 lines",
    "256 and 0 lines",
    "0 and 256 lines",
    "31 n differs",
    "31 s differs",
    "31 n and s differ",
    "31 before 32",
    "31 before 33",
    "32 first bars, second fixes, alone",
    "32 second bars, first fixes, alone",
    "32 first's low too high, alone",
    "32 second's low too high, alone",
    "32 in several ways",
    "32 in group 1 of several alone",
    "32 in group s of several alone",
    "32 by entrant 1 of several alone",
    "32 by entrant n of several alone",
    "32 before 33",
    "33 by 129 and 128 lines",
    "33 by 256 and 1 lines",
    "33 by 1 and 256 lines",
    "33 by more lines",
];

/// Further kinds of two sheets, in the order of the report.
const SHEETS: &[Kind] = &[
    "combine: blank marks",
    "combine: first sheet refused",
    "combine: second sheet refused",
    "combine: both sheets refused",
    "combine: both sheets refused, not alike",
    "combine: buffer exactly long enough",
    "combine: buffer longer",
    "combine: 24 buffer a byte short",
    "combine: 24 no buffer",
    "combine: refused, no buffer",
    "combine: read again",
    "combine: settles",
    "combine: settles out",
    "combine: listed",
    "combine: draw of both",
    "combine: draw of the first alone",
    "combine: draw of the second alone",
    "combine: draw of neither",
];

/// Further kinds of two models as words.
const WORDS_KINDS: &[Kind] = &[
    "combine words: past s not zero",
    "combine words: past c not zero",
    "combine words: past a line's groups not zero",
    "combine words: a count of codes 1 to 5",
    "combine words: a clash past s alone",
    "combine words: 20 by words missing in the first",
    "combine words: 20 by words missing in the second",
    "combine words: words past the model",
    "combine words: 20 in the first",
    "combine words: 20 in the second",
    "combine words: 20 in both",
    "combine words: 20 before 31",
    "combine words: 20 before 32",
    "combine words: 20 before 33",
    "combine words: room exactly long enough",
    "combine words: room longer",
    "combine words: 24 a word short",
    "combine words: 24 no room",
    "combine words: refused, room too short",
    "combine words: settles",
    "combine words: settles out",
    "combine words: as a sheet",
];

pub fn kinds() -> impl Iterator<Item = Kind> {
    BOTH.iter().map(|pair| pair[0]).chain(SHEETS.iter().copied()).chain(BOTH.iter().map(|pair| pair[1])).chain(WORDS_KINDS.iter().copied())
}

/// Notes a kind of `BOTH`, by its name there; `of` is 0 for sheets and 1 for words.
fn note_both(name: &str, of: usize, outcome: &mut Outcome) {
    let kind = BOTH.iter().find(|kinds| kinds[0].strip_prefix("combine: ") == Some(name)).map(|kinds| kinds[of]);
    outcome.note(kind.expect("a kind of the list"));
}

/// What two models in range come to, as names of `BOTH`.
fn met(first: &Model, second: &Model) -> Vec<&'static str> {
    let lines = (first.constraints.len(), second.constraints.len());
    let many = lines.0 + lines.1 > LINES as usize;
    let mut names = Vec::new();
    let mut note = |really: bool, name: &'static str| names.extend(really.then_some(name));
    match (first.entrants != second.entrants, first.groups.len() != second.groups.len()) {
        (false, false) if clash(first, second).is_some() => {
            note(many, "32 before 33");
            names.extend(clash_names(first, second));
        }
        (false, false) if many => names.push(match lines {
            (129, 128) => "33 by 129 and 128 lines",
            (256, 1) => "33 by 256 and 1 lines",
            (1, 256) => "33 by 1 and 256 lines",
            _ => "33 by more lines",
        }),
        (false, false) => names.extend(fit_names(first, second)),
        (n, s) => {
            note(n && !s, "31 n differs");
            note(s && !n, "31 s differs");
            note(n && s, "31 n and s differ");
            note(clash(first, second).is_some(), "31 before 32");
            note(many, "31 before 33");
        }
    }
    names
}

fn fit_names(first: &Model, second: &Model) -> Vec<&'static str> {
    let lines = (first.constraints.len(), second.constraints.len());
    let groups = || first.groups.iter().zip(&second.groups);
    let union_of = |k: usize| first.constraints.iter().chain(&second.constraints).any(|line| line.code == 6 && line.groups.len() == k + 1);
    let (wide, long) = (first.entrants == NARROW_ENTRANTS, first.groups.len() == GROUPS as usize);
    let mut names = vec!["fits"];
    let mut note = |really: bool, name: &'static str| names.extend(really.then_some(name));
    note(first == second, "one with itself");
    note(lines.0 > 0 && lines.1 > 0 && first.constraints != second.constraints, "lines of both");
    note(lines == (0, 0), "lines of neither");
    note(union_of(2), "code 6 with k = 2");
    note(union_of(16), "code 6 with k = 16");
    note(long, "256 groups");
    note(wide, "32 entrants");
    note(wide && long, "256 groups of 32 entrants");
    note(groups().any(|(one, other)| one.fixed != other.fixed), "fixed by one alone");
    note(groups().any(|(one, other)| one.possible != other.possible), "barred by one alone");
    note(groups().any(|(one, other)| one.low == other.high && one.high > other.high), "first's low as second's high");
    note(groups().any(|(one, other)| other.low == one.high && other.high > one.high), "second's low as first's high");
    note(lines == (128, 128), "128 and 128 lines");
    note(lines == (256, 0), "256 and 0 lines");
    note(lines == (0, 256), "0 and 256 lines");
    names
}

fn clash_names(first: &Model, second: &Model) -> Vec<&'static str> {
    let groups = || first.groups.iter().zip(&second.groups);
    let mut ways = Vec::new();
    let mut note = |really: bool, name: &'static str| ways.extend(really.then_some(name));
    note(groups().any(|(one, other)| barred_and_fixed(one, other) != 0), "32 first bars, second fixes, alone");
    note(groups().any(|(one, other)| barred_and_fixed(other, one) != 0), "32 second bars, first fixes, alone");
    note(groups().any(|(one, other)| one.low > other.high), "32 first's low too high, alone");
    note(groups().any(|(one, other)| other.low > one.high), "32 second's low too high, alone");
    let mut names = if ways.len() > 1 { vec!["32 in several ways"] } else { ways };
    let mut note = |really: bool, name: &'static str| names.extend(really.then_some(name));
    let last = first.groups.len() - 1;
    let clashing: Vec<usize> = groups().enumerate().filter(|(_, (one, other))| clashes(one, other)).map(|(index, _)| index).collect();
    note(last > 0 && clashing == [0], "32 in group 1 of several alone");
    note(last > 0 && clashing == [last], "32 in group s of several alone");
    let limits = groups().any(|(one, other)| one.low > other.high || other.low > one.high);
    let entrants = groups().fold(0, |set, (one, other)| set | barred_and_fixed(one, other) | barred_and_fixed(other, one));
    note(!limits && first.entrants > 1 && entrants == 1, "32 by entrant 1 of several alone");
    note(!limits && first.entrants > 1 && entrants == 1 << (first.entrants - 1), "32 by entrant n of several alone");
    names
}

fn clashes(one: &Group, other: &Group) -> bool {
    barred_and_fixed(one, other) | barred_and_fixed(other, one) != 0 || one.low > other.high || other.low > one.high
}

impl CombineCase {
    pub fn check(&self, other: &dyn Calls, outcome: &mut Outcome) {
        let [first, second] = &self.sheets;
        let model = combined(first, second);
        let length = model.as_ref().map_or(64, |model| sheet::write(model).len());
        let mut ours = junk(length.saturating_add_signed(self.spare));
        let mut theirs = ours.clone();
        let answer = Counterpart.combine(first, second, &mut ours);
        self.note(answer, ours.len(), outcome);
        outcome.compare("refusal * 2^32 + length", answer, other.combine(first, second, &mut theirs));
        outcome.compare_bytes("buffer", &ours, &theirs);
        if let (Ok(model), true, None) = (model, answer >> 32 == 0, &outcome.difference) {
            self.check_text(&model, &theirs[..answer as usize], other, outcome);
        }
    }

    fn note(&self, answer: u64, room: usize, outcome: &mut Outcome) {
        let [first, second] = [0, 1].map(|at| sheet::read(&self.sheets[at]));
        let number = (answer >> 32) as u32;
        let mut note = |really: bool, kind: Kind| outcome.kinds.extend(really.then_some(kind));
        note(number == 0 && self.sheets.iter().any(|sheet| blanks::of(sheet).iter().any(|&set| set != 0)), "combine: blank marks");
        note(number == 0 && self.spare == 0, "combine: buffer exactly long enough");
        note(number == 0 && self.spare > 0, "combine: buffer longer");
        note(number == SHORT_BUFFER && room > 0, "combine: 24 buffer a byte short");
        note(number == SHORT_BUFFER && room == 0, "combine: 24 no buffer");
        note(![0, SHORT_BUFFER].contains(&number) && room == 0, "combine: refused, no buffer");
        match (first, second) {
            (Ok(first), Ok(second)) => {
                met(&first, &second).into_iter().for_each(|name| note_both(name, 0, outcome));
                wide::combined(&first, &second, number).into_iter().for_each(|kind| outcome.note(kind));
                if number == 0 {
                    code_7::combined(&first, &second, &self.groups).into_iter().for_each(|kind| outcome.note(kind));
                }
            }
            (Err(_), Ok(_)) => outcome.note("combine: first sheet refused"),
            (Ok(_), Err(_)) => outcome.note("combine: second sheet refused"),
            (Err(one), Err(other)) => {
                outcome.note("combine: both sheets refused");
                outcome.kinds.extend((one.number != other.number).then_some("combine: both sheets refused, not alike"));
            }
        }
    }

    /// The combined sheet that the other side wrote, from end to end: it has the model that it should have, settles and is listed as that does.
    fn check_text(&self, model: &Model, text: &[u8], other: &dyn Calls, outcome: &mut Outcome) {
        outcome.go_on();
        outcome.note("combine: read again");
        outcome.compare("refusal of the combined sheet", 0, other.read(text));
        outcome.compare("whether the combined sheet has its model", true, sheet::read(text).as_ref() == Ok(model));
        outcome.go_on();
        let settled = settle(model.clone());
        outcome.note(if settled.is_some() { "combine: settles" } else { "combine: settles out" });
        check_settle(text, 0, other, outcome);
        outcome.go_on();
        if let Some(settled) = &settled {
            outcome.note("combine: listed");
            let listing = listing(&Encoding::of(settled));
            let mut theirs = junk(listing.len());
            let next = 1 + blocks_of(settled.model()) as u64;
            outcome.compare("next * 2^32 + length of the combined sheet's listing", next << 32 | listing.len() as u64, other.blocks(text, 0, &mut theirs));
            outcome.compare_bytes("listing of the combined sheet", &listing, &theirs);
        }
        outcome.go_on();
        let draws = [0, 1].map(|at| sheet::read(&self.sheets[at]).is_ok_and(|model| is_draw(&model, &self.groups)));
        outcome.note(match draws {
            [true, true] => "combine: draw of both",
            [true, false] => "combine: draw of the first alone",
            [false, true] => "combine: draw of the second alone",
            [false, false] => "combine: draw of neither",
        });
        let wanted = match draws {
            [true, true] => 0,
            _ if settled.is_none() => CONTRADICTION,
            _ => NO_DRAW,
        };
        let mut marks = junk(marks_length(settled.as_ref(), 0));
        outcome.compare("refusal of filling the combined sheet", wanted, other.fill(text, &self.groups, &mut marks));
        outcome.calls = 4 + u64::from(settled.is_some());
    }

    pub fn sheet(&self) -> &[u8] {
        &self.sheets[self.turn]
    }

    /// The same case with another sheet in the place of the one that the shrinker is at.
    pub fn with_sheet(&self, sheet: Vec<u8>) -> CombineCase {
        let mut case = self.clone();
        case.sheets[self.turn] = sheet;
        case
    }

    /// What the call answers, then the buffer it leaves.
    pub fn answer(&self, other: &dyn Calls) -> Vec<u64> {
        let mut buffer = junk(SHEET_BYTES);
        let answer = other.combine(&self.sheets[0], &self.sheets[1], &mut buffer);
        [answer].into_iter().chain(buffer.into_iter().map(u64::from)).collect()
    }

    pub fn show(&self) -> String {
        let [first, second] = [0, 1].map(|at| show_sheet(&self.sheets[at]));
        format!("combine, buffer of the combined sheet's length{:+}, groups {:x?}\n{first}with\n{second}", self.spare, self.groups)
    }

    pub fn new(sheets: [Vec<u8>; 2]) -> CombineCase {
        CombineCase { sheets, turn: 0, groups: Vec::new(), spare: 0 }
    }
}

impl CombineWordsCase {
    pub fn check(&self, other: &dyn Calls, outcome: &mut Outcome) {
        let [first, second] = &self.words;
        let mut ours = junk_words(self.room);
        let mut theirs = ours.clone();
        let answer = Counterpart.combine_model(first, second, &mut ours);
        self.note(answer, outcome);
        outcome.compare("refusal", answer, other.combine_model(first, second, &mut theirs));
        outcome.compare_bytes("words", &ours, &theirs);
        if let (Ok(model), 0, None) = (combined_words(first, second), answer, &outcome.difference) {
            check_words(&model, &theirs[..WORDS], other, outcome);
        }
    }

    fn note(&self, answer: u32, outcome: &mut Outcome) {
        let [first, second] = [0, 1].map(|at| from_words(&self.words[at]).ok());
        let mut note = |really: bool, kind: Kind| outcome.kinds.extend(really.then_some(kind));
        note(answer == 0 && self.room == WORDS, "combine words: room exactly long enough");
        note(answer == 0 && self.room > WORDS, "combine words: room longer");
        note(answer == SHORT_BUFFER && self.room > 0, "combine words: 24 a word short");
        note(answer == SHORT_BUFFER && self.room == 0, "combine words: 24 no room");
        note(![0, SHORT_BUFFER].contains(&answer) && self.room < WORDS, "combine words: refused, room too short");
        if answer == OUT_OF_RANGE {
            note(first.is_none() && second.is_some(), "combine words: 20 in the first");
            note(first.is_some() && second.is_none(), "combine words: 20 in the second");
            note(first.is_none() && second.is_none(), "combine words: 20 in both");
            note(second.is_some() && self.words[0].len() < WORDS, "combine words: 20 by words missing in the first");
            note(first.is_some() && self.words[1].len() < WORDS, "combine words: 20 by words missing in the second");
            let behind = behind_20(&self.words[0], &self.words[1]);
            note(behind == Some(OTHER_SIZE), "combine words: 20 before 31");
            note(behind == Some(CLASH), "combine words: 20 before 32");
            note(behind == Some(TOO_MANY_LINES), "combine words: 20 before 33");
        }
        let (Some(first), Some(second)) = (first, second) else { return };
        if answer == 0 {
            self.note_ignored(&[&first, &second], outcome);
        }
        met(&first, &second).into_iter().for_each(|name| note_both(name, 1, outcome));
        outcome.kinds.extend((answer == 0 && wide::is_wide(&first)).then_some("wide: combine words"));
        if answer == 0 {
            code_7::combined_words(&self.words, [&first, &second]).into_iter().for_each(|kind| outcome.note(kind));
        }
    }

    /// What stands in words that are ignored.
    fn note_ignored(&self, models: &[&Model; 2], outcome: &mut Outcome) {
        let mut note = |really: bool, kind: Kind| outcome.kinds.extend(really.then_some(kind));
        for (model, words) in models.iter().zip(&self.words) {
            let (s, c) = (model.groups.len(), model.constraints.len());
            let word = |at: usize| words[at];
            let start = |line: usize| FIRST_LINE + LINE_WORDS * line;
            let lines = || model.constraints.iter().enumerate();
            note((s..GROUPS as usize).any(|index| group_at(words, index) != EMPTY), "combine words: past s not zero");
            note((start(c)..WORDS).any(|at| word(at) != 0), "combine words: past c not zero");
            let past = |(at, line): (usize, &Constraint)| (start(at) + 2 + line.groups.len()..start(at + 1)).any(|at| word(at) != 0);
            note(lines().any(past), "combine words: past a line's groups not zero");
            note(lines().any(|(at, line)| line.code < 6 && word(start(at) + 1) != 0), "combine words: a count of codes 1 to 5");
            note(words.len() > WORDS, "combine words: words past the model");
        }
        let [first, second] = &self.words;
        let past_s = models[0].groups.len()..GROUPS as usize;
        note(past_s.into_iter().any(|index| clashes(&group_at(first, index), &group_at(second, index))), "combine words: a clash past s alone");
    }

    /// The room, and of each model the words that are not 0.
    pub fn show(&self) -> String {
        let words =
            |words: &[u64]| -> String { words.iter().enumerate().filter(|(_, &word)| word != 0).map(|(place, word)| format!(" {place}:{word}")).collect() };
        let [first, second] = [0, 1].map(|at| format!("{} words{}", self.words[at].len(), words(&self.words[at])));
        format!("combine, room for {} words\n{first}\nwith\n{second}\n", self.room)
    }
}

const EMPTY: Group = Group { fixed: 0, possible: 0, low: 0, high: 0 };

/// The combined model's words that the other side left: they settle as the model does, and their sheet is its sheet.
fn check_words(model: &Model, words: &[u64], other: &dyn Calls, outcome: &mut Outcome) {
    let settled = settle(model.clone());
    outcome.go_on();
    outcome.note(if settled.is_some() { "combine words: settles" } else { "combine words: settles out" });
    let mut ours = junk_words(4 * model.groups.len());
    let mut theirs = ours.clone();
    let answer = Counterpart.settle_model(&to_words(model, 0), &mut ours);
    outcome.compare("refusal * 65536 + passes of the combined words", answer, other.settle_model(words, &mut theirs));
    outcome.compare_bytes("table of the combined words", &ours, &theirs);
    outcome.go_on();
    outcome.note("combine words: as a sheet");
    let text = sheet::write(model);
    let mut buffer = junk(text.len());
    outcome.compare("length of the combined words' sheet", text.len() as u64, other.write_model(words, &mut buffer));
    outcome.compare_bytes("sheet of the combined words", &text, &buffer);
    outcome.calls += 2;
}

/// The refusal that two models' words would have if 20 were not judged, where both heads are in range.
fn behind_20(first: &[u64], second: &[u64]) -> Option<u32> {
    let head = |words: &[u64]| [0, 1, 2].map(|at| number(words.get(at).copied().unwrap_or(0)));
    let (one, other) = (head(first), head(second));
    if [one, other].iter().any(|&[n, s, c]| !sizes_in_range(n, s, c)) {
        return None;
    }
    if one[..2] != other[..2] {
        return Some(OTHER_SIZE);
    }
    if (0..one[1] as usize).any(|index| clashes(&group_at(first, index), &group_at(second, index))) {
        return Some(CLASH);
    }
    (one[2] + other[2] > LINES).then_some(TOO_MANY_LINES)
}

/// The cases made from one pair; `sevens`: of a hundred lines so many have code 7.
pub fn cases(random: &mut Random, sevens: usize) -> Vec<Case> {
    let pair = pair(random, sevens);
    cases_of(random, &pair)
}

/// The cases made from a pair as it is.
pub fn cases_of(random: &mut Random, pair: &Pair) -> Vec<Case> {
    let sheets = Case::Combine(sheets_case(random, pair));
    let mut cases = vec![sheets.clone()];
    if random.chance(20) {
        cases.push(Case::Twins(TwinCase::new(random, sheets)));
    }
    for _ in 0..2 {
        cases.push(Case::CombineWords(words_case(random, pair)));
    }
    cases
}

/// Two sheets, for the most part accepted.
pub fn sheets(random: &mut Random, sevens: usize) -> [Vec<u8>; 2] {
    let pair = pair(random, sevens);
    sheets_case(random, &pair).sheets
}

fn sheets_case(random: &mut Random, pair: &Pair) -> CombineCase {
    let sheets = [0, 1].map(|at| {
        let sheet = sheet::write(&pair.models[at]);
        match random.below(20) {
            0 => sheets::damaged(random, &sheet),
            1..=4 => blanks::some(random, &sheet),
            _ => sheet,
        }
    });
    let both = if random.chance(3) { sheets.map(|sheet| sheets::damaged(random, &sheet)) } else { sheets };
    let model = &pair.models[0];
    let (groups, _) = filling::groups(random, model.entrants, model.groups.len(), pair.draw.as_deref());
    CombineCase { sheets: both, turn: 0, groups, spare: random.pick(&[0, 0, 0, -1, 1, 50, isize::MIN]) }
}

fn words_case(random: &mut Random, pair: &Pair) -> CombineWordsCase {
    let words = [0, 1].map(|at| {
        let model = &pair.models[at];
        let mut words = to_words(model, random.pick(&[0, 0, 1, u64::MAX]));
        if random.chance(20) {
            let place = place(random, model);
            words[place] = damage(random, words[place]);
        }
        match random.below(20) {
            0 => words.truncate((FIRST_LINE + LINE_WORDS * model.constraints.len()).min(WORDS - 1)),
            1 => words.extend(junk_words(3)),
            _ => {}
        }
        words
    });
    CombineWordsCase { words, room: random.pick(&[WORDS, WORDS, WORDS, WORDS - 1, WORDS + 7, 0]) }
}

/// A pair that fits, or two that know nothing of each other, changed in up to three ways.
fn pair(random: &mut Random, sevens: usize) -> Pair {
    let mut pair = sheets::pair(random, sevens);
    for _ in 0..random.pick(&[0, 1, 1, 1, 2, 2, 3]) {
        change(random, &mut pair, sevens);
    }
    pair
}

pub fn change(random: &mut Random, pair: &mut Pair, sevens: usize) {
    let at = random.below(2);
    let (n, s) = (pair.models[0].entrants.min(pair.models[1].entrants), pair.models[0].groups.len().min(pair.models[1].groups.len()));
    let index = end_or_any(random, s);
    match random.below(10) {
        0 | 1 => {
            let entrant = 1 << end_or_any(random, n as usize);
            let [bars, fixes] = [at, 1 - at].map(|at| pair.models[at].groups[index]);
            pair.models[at].groups[index] = Group { fixed: bars.fixed & !entrant, possible: bars.possible & !entrant, ..bars };
            pair.models[1 - at].groups[index] = Group { fixed: fixes.fixed | entrant, possible: fixes.possible | entrant, ..fixes };
        }
        2 | 3 => {
            // the high of one, and the low of the other: one more, or as much
            let high = random.below(n as usize) as u32;
            let low = high + random.pick(&[0, 1, 1]);
            let [below, above] = [at, 1 - at].map(|at| pair.models[at].groups[index]);
            pair.models[at].groups[index] = Group { low: below.low.min(high), high, ..below };
            pair.models[1 - at].groups[index] = Group { low, high: above.high.max(low).max(high + 1), ..above };
        }
        4 | 5 => many_lines(random, pair, sevens),
        6 => another_n(random, &mut pair.models[at]),
        7 => another_s(&mut pair.models[at]),
        8 => a_union(random, &mut pair.models[at]),
        _ => pair.models[1] = pair.models[0].clone(),
    }
}

/// The first of so many, the last, or any.
fn end_or_any(random: &mut Random, many: usize) -> usize {
    let any = random.below(many);
    random.pick(&[0, many - 1, any])
}

/// A loose group.
fn open_group(entrants: u32) -> Group {
    Group { fixed: 0, possible: first_entrants(entrants), low: 0, high: entrants }
}

/// About 256 lines in all.
fn many_lines(random: &mut Random, pair: &mut Pair, sevens: usize) {
    let many = random.pick(&[(128, 128), (256, 0), (0, 256), (129, 128), (256, 1), (1, 256), (255, 2), (256, 256)]);
    for (model, many) in pair.models.iter_mut().zip([many.0, many.1]) {
        if model.groups.len() < 2 {
            model.groups.push(open_group(model.entrants));
        }
        let new: Vec<Constraint> = (0..3).filter_map(|_| sheets::line(random, model.groups.len(), sevens)).collect();
        let old = if model.constraints.is_empty() { new } else { model.constraints.clone() };
        model.constraints = (0..many).map(|_| random.pick(&old)).collect();
    }
}

fn another_n(random: &mut Random, model: &mut Model) {
    if [NARROW_ENTRANTS, ENTRANTS].contains(&model.entrants) {
        *model = without_entrant(model, model.entrants - 1, 0);
        return;
    }
    for group in &mut model.groups {
        group.possible |= u64::from(random.chance(50)) << model.entrants;
    }
    model.entrants += 1;
}

fn another_s(model: &mut Model) {
    if model.groups.len() < most_groups(model.entrants) as usize {
        return model.groups.push(open_group(model.entrants));
    }
    model.groups.pop();
    model.constraints.retain(|line| !line.groups.contains(&model.groups.len()));
}

/// A union of two or of sixteen, where there are groups enough, in the place of the last line where there is no room for another.
fn a_union(random: &mut Random, model: &mut Model) {
    let mut groups: Vec<usize> = (0..model.groups.len()).collect();
    random.shuffle(&mut groups);
    groups.truncate(random.pick(&[3, 17, 17]));
    if groups.len() < 3 || groups.len() > 3 && groups.len() < 17 {
        return;
    }
    model.constraints.truncate(LINES as usize - 1);
    model.constraints.push(Constraint { code: 6, groups });
}

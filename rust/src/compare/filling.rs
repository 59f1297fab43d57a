//! Groups to fill from: draws, and draws with one thing changed, on as many marks as there are variables or not.
use super::calls::{settled, Calls, Counterpart};
use super::case::{junk, junk_words, show_sheet, Kind, Outcome};
use super::code_7;
use super::random::Random;
use super::wide;
use crate::encode::Encoding;
use crate::fill::is_draw;
use crate::model::*;
use crate::refusal::*;
use crate::settle::Settled;
use crate::sheet;
use std::collections::BTreeSet;

#[derive(Clone, Debug)]
pub struct FillCase {
    pub sheet: Vec<u8>,
    pub groups: Vec<u64>,
    origin: Origin,
    /// Marks beyond the number of variables, or missing.
    spare: isize,
}

/// Where groups come from: a draw, as it is or with one change, or any sets.
#[derive(Clone, Copy, Debug, PartialEq)]
pub enum Origin {
    Draw,
    TakenOut,
    PutIn,
    Moved,
    PastEntrants,
    WordsMissing,
    AnySets,
}

/// The largest V without lines of code 7: that of 32 entrants.
const MOST_WITHOUT_CODE_7: usize = 49_152;

const BY_CODE: [Kind; 7] = [
    "fill: 30 by code 1 alone",
    "fill: 30 by code 2 alone",
    "fill: 30 by code 3 alone",
    "fill: 30 by code 4 alone",
    "fill: 30 by code 5 alone",
    "fill: 30 by code 6 alone",
    "fill: 30 by code 7 alone",
];

/// The other kinds of the cases made here, before those by code, in the order of the report.
const KINDS: &[Kind] = &[
    "fill: counters",
    "fill: open marks and no counter",
    "fill: no variables",
    "fill: as many variables as there can be",
    "fill: as many variables as with 32 entrants",
    "fill: as many variables as without code 7",
    "fill: a change that leaves a draw",
    "fill: words past s ignored",
    "fill: words past 256 ignored",
    "fill: closing gives the groups again",
    "fill: 26 a mark too few",
    "fill: 26 a mark too many",
    "fill: 26 no marks",
    "fill: 21",
    "fill: sheet refused",
    "fill: 30 any sets",
    "fill: 30 an entrant taken out",
    "fill: 30 an entrant put in",
    "fill: 30 an entrant moved",
    "fill: 30 an entrant past n",
    "fill: 30 words missing",
    "fill: 30 no words",
    "fill: 30 one word short",
    "fill: 30 by missing words of empty groups alone",
    "fill: 30 before 26",
    "fill: 30 by an entrant past n alone",
    "fill: 30 by a fixed entrant alone",
    "fill: 30 by a barred entrant alone",
    "fill: 30 by one below low alone",
    "fill: 30 by one above high alone",
    "fill: 30 by more than one past a limit alone",
];

pub fn kinds() -> impl Iterator<Item = Kind> {
    KINDS.iter().copied().chain(BY_CODE)
}

impl FillCase {
    pub fn check(&self, other: &dyn Calls, outcome: &mut Outcome) {
        let settled = settled(&self.sheet);
        let mut ours = junk(marks_length(settled.as_ref().ok(), self.spare));
        let mut theirs = ours.clone();
        let answer = Counterpart.fill(&self.sheet, &self.groups, &mut ours);
        match &settled {
            Ok(settled) => self.note(settled, answer, ours.len(), outcome),
            Err(CONTRADICTION) => outcome.note("fill: 21"),
            Err(_) => outcome.note("fill: sheet refused"),
        }
        outcome.compare("refusal", answer, other.fill(&self.sheet, &self.groups, &mut theirs));
        outcome.compare_bytes("marks", &ours, &theirs);
        if let (Ok(settled), 0) = (settled, answer) {
            self.check_closing(settled.model().groups.len(), &theirs, other, outcome);
        }
    }

    fn note(&self, settled: &Settled, answer: u32, length: usize, outcome: &mut Outcome) {
        match answer {
            0 => self.note_filled(settled, outcome),
            NO_DRAW => self.note_no_draw(settled, length, outcome),
            _ if length == 0 => outcome.note("fill: 26 no marks"),
            _ if self.spare < 0 => outcome.note("fill: 26 a mark too few"),
            _ => outcome.note("fill: 26 a mark too many"),
        }
    }

    fn note_filled(&self, settled: &Settled, outcome: &mut Outcome) {
        let s = settled.model().groups.len();
        let encoding = Encoding::of(settled);
        let mut note = |really: bool, kind: Kind| outcome.kinds.extend(really.then_some(kind));
        let counted = (0..s).any(|index| encoding.counter_start(index).is_some());
        note(counted, "fill: counters");
        note(!counted && encoding.variables > 0, "fill: open marks and no counter");
        note(encoding.variables == 0, "fill: no variables");
        note(encoding.variables == MOST_VARIABLES, "fill: as many variables as there can be");
        note(encoding.variables == NARROW_VARIABLES, "fill: as many variables as with 32 entrants");
        note(encoding.variables == MOST_WITHOUT_CODE_7, "fill: as many variables as without code 7");
        note(!matches!(self.origin, Origin::Draw | Origin::AnySets), "fill: a change that leaves a draw");
        note(self.groups.len() > s, "fill: words past s ignored");
        note(self.groups.len() > GROUPS as usize, "fill: words past 256 ignored");
        code_7::filled(&encoding).into_iter().chain(wide::filled(&encoding, &self.groups)).for_each(|kind| outcome.note(kind));
    }

    fn note_no_draw(&self, settled: &Settled, length: usize, outcome: &mut Outcome) {
        outcome.note(match self.origin {
            Origin::TakenOut => "fill: 30 an entrant taken out",
            Origin::PutIn => "fill: 30 an entrant put in",
            Origin::Moved => "fill: 30 an entrant moved",
            Origin::PastEntrants => "fill: 30 an entrant past n",
            Origin::WordsMissing => "fill: 30 words missing",
            Origin::Draw | Origin::AnySets => "fill: 30 any sets",
        });
        let s = settled.model().groups.len();
        outcome.kinds.extend(self.groups.is_empty().then_some("fill: 30 no words"));
        outcome.kinds.extend((self.groups.len() + 1 == s).then_some("fill: 30 one word short"));
        let padded = padded(&self.groups, s);
        outcome.kinds.extend(is_draw(settled.model(), &padded).then_some("fill: 30 by missing words of empty groups alone"));
        outcome.kinds.extend(wide::not_filled(settled.model(), &padded));
        let faults: Vec<Kind> = faults(settled.model(), &padded).into_iter().collect();
        if let [alone] = faults[..] {
            outcome.note(alone);
        }
        if length != Encoding::of(settled).variables {
            outcome.note("fill: 30 before 26");
        }
    }

    /// Closing on the filled marks gives the groups again, zero past s.
    fn check_closing(&self, s: usize, marks: &[u8], other: &dyn Calls, outcome: &mut Outcome) {
        let mut drawn = self.groups.clone();
        drawn.truncate(s);
        drawn.resize(GROUPS as usize, 0);
        let mut closed = junk_words(GROUPS as usize);
        outcome.calls += 1;
        outcome.note("fill: closing gives the groups again");
        outcome.compare("refusal of closing on the filled marks", 0, other.close(&self.sheet, 1, marks, &mut closed));
        outcome.compare_bytes("groups closed from the filled marks", &drawn, &closed);
    }

    /// What the call answers, then the marks it leaves.
    pub fn answer(&self, other: &dyn Calls) -> Vec<u64> {
        let mut marks = junk(marks_length(settled(&self.sheet).as_ref().ok(), self.spare));
        let answer = other.fill(&self.sheet, &self.groups, &mut marks);
        [answer.into()].into_iter().chain(marks.into_iter().map(u64::from)).collect()
    }

    /// The same case on another sheet.
    pub fn with_sheet(&self, sheet: Vec<u8>) -> FillCase {
        FillCase { sheet, ..self.clone() }
    }

    pub fn show(&self) -> String {
        let marks = marks_length(settled(&self.sheet).as_ref().ok(), self.spare);
        format!("fill {marks} marks, groups {:x?} ({:?})\n{}", self.groups, self.origin, show_sheet(&self.sheet))
    }
}

/// After a closing that was not refused: filling with its groups gives the same marks.
pub fn check_again(sheet: &[u8], marks: &[u8], groups: &[u64], other: &dyn Calls, outcome: &mut Outcome) {
    let mut again = junk(marks.len());
    outcome.calls += 1;
    outcome.note("close: filling gives the marks again");
    outcome.compare("refusal of filling with the groups", 0, other.fill(sheet, groups, &mut again));
    outcome.compare_bytes("marks filled again", marks, &again);
}

/// How many marks there are; a few where no variables are known.
pub fn marks_length(settled: Option<&Settled>, spare: isize) -> usize {
    settled.map_or(4, |settled| Encoding::of(settled).variables).saturating_add_signed(spare)
}

/// Words with zeros for those that are missing.
pub fn padded(groups: &[u64], many: usize) -> Vec<u64> {
    let mut padded = groups.to_vec();
    padded.resize(groups.len().max(many), 0);
    padded
}

/// In which ways groups are no draw of a model.
fn faults(model: &Model, groups: &[u64]) -> BTreeSet<Kind> {
    let mut faults: BTreeSet<Kind> = model.constraints.iter().filter(|line| !line.is_true(groups)).map(|line| BY_CODE[line.code as usize - 1]).collect();
    for (index, group) in model.groups.iter().enumerate() {
        let set = groups[index];
        let many = set.count_ones();
        let mut note = |really: bool, kind: Kind| faults.extend(really.then_some(kind));
        note(set & !model.everyone() != 0, "fill: 30 by an entrant past n alone");
        note(group.fixed & !set != 0, "fill: 30 by a fixed entrant alone");
        note(set & model.everyone() & !group.possible != 0, "fill: 30 by a barred entrant alone");
        note(many + 1 == group.low, "fill: 30 by one below low alone");
        note(many == group.high + 1, "fill: 30 by one above high alone");
        note(many + 1 < group.low || many > group.high + 1, "fill: 30 by more than one past a limit alone");
    }
    faults
}

/// A case on a sheet, with groups from its draw where it has a known one.
pub fn case(random: &mut Random, sheet: Vec<u8>, draw: Option<&[u64]>) -> FillCase {
    let (entrants, many) = sheet::read(&sheet).map_or((NARROW_ENTRANTS, 3), |model| (model.entrants, model.groups.len()));
    let (groups, origin) = groups(random, entrants, many, draw);
    FillCase { sheet, groups, origin, spare: spare(random) }
}

/// The largest sheet, with as many variables as there can be without lines of code 7: a ring of unions of sixteen, whose groups are all the same.
pub fn largest(random: &mut Random) -> FillCase {
    let n = NARROW_ENTRANTS;
    let group = Group { fixed: 0, possible: first_entrants(n), low: 1, high: n - 1 };
    let ring = |first: usize| Constraint { code: 6, groups: (first..=first + UNION_MAX as usize).map(|at| at % GROUPS as usize).collect() };
    let groups = GROUPS as usize;
    let model = Model { entrants: n, groups: vec![group; groups], constraints: (0..groups).map(ring).collect() };
    let set = random.set(n, 50) & !1 | 2;
    case(random, sheet::write(&model), Some(&vec![set; groups]))
}

/// A case on the words of a draw, cut or with more behind them, so that there are so many.
pub fn of_words(sheet: &[u8], draw: &[u64], many: usize) -> FillCase {
    let groups = draw.iter().copied().chain(junk_words(many)).take(many).collect();
    FillCase { sheet: sheet.to_vec(), groups, origin: if many < draw.len() { Origin::WordsMissing } else { Origin::Draw }, spare: 0 }
}

/// Mostly as many marks as there are variables; one more, one fewer, none.
pub fn spare(random: &mut Random) -> isize {
    random.pick(&[0, 0, 0, 0, 0, 0, -1, 1, isize::MIN])
}

/// The groups of a draw, often with one change, or any sets; now and then with words past those of the groups.
pub fn groups(random: &mut Random, entrants: u32, many: usize, draw: Option<&[u64]>) -> (Vec<u64>, Origin) {
    let Some(draw) = draw else { return ((0..many).map(|_| random.set(entrants, 50)).collect(), Origin::AnySets) };
    let mut groups = draw.to_vec();
    let origin = change(random, entrants, &mut groups);
    if origin != Origin::WordsMissing && random.chance(30) {
        let longer = random.pick(&[groups.len() + 1, GROUPS as usize, GROUPS as usize + 5]);
        groups.extend(&junk_words(longer)[groups.len().min(longer)..]);
    }
    (groups, origin)
}

fn change(random: &mut Random, entrants: u32, groups: &mut Vec<u64>) -> Origin {
    let (one, other) = (random.below(groups.len()), random.below(groups.len()));
    let entrant = 1 << random.below(entrants as usize);
    match random.below(12) {
        0 | 1 if groups[one] != 0 => {
            groups[one] &= !member(random, groups[one]);
            Origin::TakenOut
        }
        2 | 3 if groups[one] & entrant == 0 => {
            groups[one] |= entrant;
            Origin::PutIn
        }
        4 if groups[one] & !groups[other] != 0 => {
            let entrant = member(random, groups[one] & !groups[other]);
            groups[one] &= !entrant;
            groups[other] |= entrant;
            Origin::Moved
        }
        5 if entrants < ENTRANTS => {
            past_entrants(random, entrants, one, groups);
            Origin::PastEntrants
        }
        6 => {
            let empty = groups.iter().rev().take_while(|&&set| set == 0).count();
            let least = if empty > 0 { groups.len() - empty } else { 0 };
            groups.truncate(random.from_to(least, groups.len() - 1));
            Origin::WordsMissing
        }
        _ => Origin::Draw,
    }
}

/// One of the entrants of a set that is not empty.
fn member(random: &mut Random, set: u64) -> u64 {
    let members: Vec<u64> = (0..64).map(|e| set & 1 << e).filter(|&bit| bit != 0).collect();
    random.pick(&members)
}

/// An entrant past n, in one group, or in all so that most lines stay true.
fn past_entrants(random: &mut Random, entrants: u32, one: usize, groups: &mut [u64]) {
    let entrant = 1 << random.pick(&[entrants, entrants, entrants.max(32), 63]);
    if random.chance(50) {
        groups[one] |= entrant;
    } else {
        groups.iter_mut().for_each(|set| *set |= entrant);
    }
}

#[cfg(test)]
mod tests {
    use super::super::{limits, sheets};
    use super::*;

    /// The refusal of a case on as many marks as there are variables.
    fn answer(case: &FillCase) -> u32 {
        let mut marks = vec![0; marks_length(settled(&case.sheet).as_ref().ok(), 0)];
        Counterpart.fill(&case.sheet, &case.groups, &mut marks)
    }

    #[test]
    fn a_known_draw_is_filled_and_an_entrant_past_n_never() {
        let mut random = Random(21);
        let mut met = BTreeSet::new();
        for make in [sheets::valid, limits::sample] {
            for sample in (0..1_000).map(|_| make(&mut random)).collect::<Vec<_>>() {
                let Some(draw) = sample.draw else { continue };
                let case = case(&mut random, sample.sheet, Some(&draw));
                let answer = answer(&case);
                match case.origin {
                    Origin::Draw => assert_eq!(answer, 0),
                    Origin::PastEntrants => assert_eq!(answer, 30),
                    _ => met.extend([answer]),
                }
            }
        }
        assert_eq!(met, BTreeSet::from([0, 30]));
    }

    #[test]
    fn the_largest_has_as_many_variables_as_there_can_be_without_code_7() {
        let case = largest(&mut Random(22));
        assert_eq!(marks_length(settled(&case.sheet).as_ref().ok(), 0), MOST_WITHOUT_CODE_7);
        assert_eq!(case.sheet.len(), SHEET_BYTES);
    }
}

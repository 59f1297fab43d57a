//! A sheet and a solver's whole output, from bytes to groups: outputs that say a draw, whole or with one thing changed, and any others.
use super::calls::{settled, Calls, Counterpart};
use super::case::{junk_words, show_sheet, Case, Kind, Outcome};
use super::random::Random;
use super::run::with_twins;
use super::sheets::Sample;
use super::{answers, blanks, differences, limits, sheets, wide};
use crate::answer::read_lines;
use crate::encode::Encoding;
use crate::fill;
use crate::model::GROUPS;
use crate::refusal::*;

#[derive(Clone, Debug)]
pub struct AnswerCase {
    pub sheet: Vec<u8>,
    pub output: Vec<u8>,
    pub room: usize,
}

pub const KINDS: &[Kind] = &[
    "answer: groups",
    "answer: groups, no variables",
    "answer: groups, refused lines between",
    "answer: groups, no newline at the end",
    "answer: 27 no closing 0",
    "answer: 27 unsaid",
    "answer: 27 a line refused",
    "answer: 27 cut short",
    "answer: 27 empty output",
    "answer: 28 clause false",
    "answer: 21",
    "answer: sheet refused",
    "answer: 24 groups too short",
    "answer: refused, groups too short",
];

impl AnswerCase {
    pub fn check(&self, other: &dyn Calls, outcome: &mut Outcome) {
        let mut ours = junk_words(self.room);
        let mut theirs = ours.clone();
        let answer = Counterpart.answer(&self.sheet, &self.output, &mut ours);
        self.kinds((answer >> 16) as u32).into_iter().for_each(|kind| outcome.note(kind));
        outcome.compare("refusal * 65536 + line", answer, other.answer(&self.sheet, &self.output, &mut theirs));
        outcome.compare_bytes("groups", &ours, &theirs);
    }

    fn kinds(&self, refusal: u32) -> Vec<Kind> {
        let variables = settled(&self.sheet).map_or(0, |settled| Encoding::of(&settled).variables);
        let mut refused = 0;
        let (closed, _) = read_lines(&self.output, variables, &mut |_, _| refused += 1);
        let whole = self.output.ends_with(b"\n");
        let mut kinds = match refusal {
            0 if variables == 0 => vec!["answer: groups, no variables"],
            0 => vec!["answer: groups"],
            UNSAID if self.output.is_empty() => vec!["answer: 27 empty output"],
            UNSAID if closed => vec!["answer: 27 unsaid"],
            UNSAID => vec!["answer: 27 no closing 0"],
            FALSE_CLAUSE => vec!["answer: 28 clause false"],
            CONTRADICTION => vec!["answer: 21"],
            SHORT_BUFFER => vec!["answer: 24 groups too short"],
            _ => vec!["answer: sheet refused"],
        };
        kinds.extend((refusal == 0 && refused > 0).then_some("answer: groups, refused lines between"));
        kinds.extend((refusal == 0 && !whole).then_some("answer: groups, no newline at the end"));
        kinds.extend((refusal == UNSAID && refused > 0).then_some("answer: 27 a line refused"));
        kinds.extend((refusal == UNSAID && !self.output.is_empty() && !whole).then_some("answer: 27 cut short"));
        kinds.extend((![0, SHORT_BUFFER].contains(&refusal) && self.room < GROUPS as usize).then_some("answer: refused, groups too short"));
        kinds
    }

    pub fn lines(&self) -> Vec<Vec<u8>> {
        self.output.split_inclusive(|&byte| byte == b'\n').map(|line| line.strip_suffix(b"\n").unwrap_or(line).to_vec()).collect()
    }

    pub fn show(&self) -> String {
        let output: String = self.output.split_inclusive(|&byte| byte == b'\n').map(|line| format!("  \"{}\"\n", line.escape_ascii())).collect();
        format!("answer, table of {} words, the solver's output\n{output}and the sheet\n{}", self.room, show_sheet(&self.sheet))
    }
}

/// The cases made from one sheet of any kind, each beside a twin of its sheet.
pub fn cases(random: &mut Random) -> Vec<Case> {
    let sample = match random.below(6) {
        0 => limits::sample(random),
        1 => blanks::sample(random),
        2 => differences::sample(random),
        3 => wide::sample(random),
        _ => sheets::valid(random),
    };
    let cases = (0..3).map(|_| Case::Answer(case(random, &sample))).collect();
    with_twins(random, cases)
}

fn case(random: &mut Random, sample: &Sample) -> AnswerCase {
    let sheet = if random.chance(10) { sheets::damaged(random, &sample.sheet) } else { sample.sheet.clone() };
    let output = output(random, &sheet, sample.draw.as_deref());
    AnswerCase { sheet, output, room: random.pick(&[256, 256, 256, 255, 300]) }
}

/// What a solver may say of a sheet: the assignment of a draw, as the program writes it or in any other lines, whole or not.
fn output(random: &mut Random, sheet: &[u8], draw: Option<&[u64]>) -> Vec<u8> {
    let marks = match (settled(sheet), draw) {
        (Ok(settled), Some(draw)) if fill::is_draw(settled.model(), draw) => fill::assignment(&Encoding::of(&settled), draw),
        (Ok(settled), _) => (0..Encoding::of(&settled).variables).map(|_| random.pick(&[1, 2])).collect(),
        (Err(_), _) => vec![1; random.below(5)],
    };
    let mut output = if random.chance(30) { fill::lines(&marks).into_bytes() } else { joined(changed(random, marks)) };
    match random.below(12) {
        0 => drop(output.pop()),
        1 => output.truncate(random.below(output.len() + 1)),
        2 => output.clear(),
        _ => {}
    }
    output
}

fn changed(random: &mut Random, mut marks: Vec<u8>) -> Vec<Vec<u8>> {
    if !marks.is_empty() && random.chance(20) {
        let at = random.below(marks.len());
        marks[at] = 3 - marks[at];
    }
    let mut lines = answers::saying(random, &marks);
    let at = random.below(lines.len());
    match random.below(10) {
        0 => drop(lines.remove(at)),
        1 => lines.insert(at, answers::line(random, marks.len())),
        2 => lines.insert(at, lines[at].clone()),
        3 => lines[at].push(b'\r'),
        _ => {}
    }
    lines
}

pub fn joined(lines: Vec<Vec<u8>>) -> Vec<u8> {
    lines.into_iter().flat_map(|line| [line, b"\n".to_vec()].concat()).collect()
}

//! A greedy shrinker: makes a failing case smaller as long as it fails.
use super::answering::joined;
use super::blanks;
use super::case::Case;
use crate::model::{Group, Model};
use crate::sheet;

pub fn shrink(case: Case, fails: &dyn Fn(&Case) -> bool) -> Case {
    let mut shrinker = Shrinker { best: case, fails };
    while shrinker.sweep() {}
    shrinker.best
}

struct Shrinker<'a> {
    best: Case,
    fails: &'a dyn Fn(&Case) -> bool,
}

impl Shrinker<'_> {
    /// Keeps a candidate that still fails.
    fn attempt(&mut self, candidate: Case) -> bool {
        let fails = (self.fails)(&candidate);
        if fails {
            self.best = candidate;
        }
        fails
    }

    fn attempt_model(&mut self, model: &Model) -> bool {
        self.attempt_both(model, |_| {})
    }

    /// A smaller model, with the case's groups and the sheet's blank marks changed alike.
    fn attempt_both(&mut self, model: &Model, change: impl Fn(&mut Vec<u64>)) -> bool {
        let mut blanks = self.blanks();
        change(&mut blanks);
        let mut candidate = self.best.with_sheet(blanks::written(model, &blanks));
        candidate.groups().into_iter().for_each(change);
        self.attempt(candidate)
    }

    /// The blank marks of the best case's sheet, as a set a group.
    fn blanks(&self) -> Vec<u64> {
        self.best.sheet().map_or(Vec::new(), blanks::of)
    }

    /// The best case's model, where its sheet has one.
    fn model(&self) -> Option<Model> {
        sheet::read(self.best.sheet()?).ok()
    }

    /// Tries every way once; whether one of them worked. Where there are two sheets, both together, then each.
    fn sweep(&mut self) -> bool {
        let mut smaller = self.sweep_parts() | self.sweep_pair();
        for turn in 0..if self.best.pair().is_some() { 2 } else { 1 } {
            self.best.pair().into_iter().for_each(|pair| pair.turn = turn);
            smaller |= self.sweep_sheet();
        }
        smaller | self.sweep_groups()
    }

    fn sweep_sheet(&mut self) -> bool {
        let mut smaller = false;
        while self.model().is_some() && self.sweep_model() {
            smaller = true;
        }
        if self.model().is_none() && self.best.sheet().is_some() {
            smaller |= self.sweep_text();
        }
        smaller
    }

    /// A group, or an entrant, fewer in both sheets.
    fn sweep_pair(&mut self) -> bool {
        let Some([first, second]) = self.models() else { return false };
        let (entrants, groups) = (first.entrants.min(second.entrants), first.groups.len().min(second.groups.len()));
        let mut smaller = false;
        for index in (0..groups).rev() {
            smaller |= self.attempt_pair(|model| without_group(model, index), |groups| drop_group(groups, index));
        }
        for entrant in (0..entrants).rev() {
            for less in [0, 1] {
                let fewer = |model: &Model| (model.entrants > 1 && model.entrants > entrant).then(|| without_entrant(model, entrant, less));
                smaller |= self.attempt_pair(fewer, |groups| groups.iter_mut().for_each(|set| *set = squeezed(*set, entrant)));
            }
        }
        smaller
    }

    /// The models of both sheets, where the case has two and both are sheets.
    fn models(&mut self) -> Option<[Model; 2]> {
        let [first, second] = &self.best.pair()?.sheets;
        Some([sheet::read(first).ok()?, sheet::read(second).ok()?])
    }

    /// The same change of both sheets, of their blank marks and of the case's groups.
    fn attempt_pair(&mut self, smaller: impl Fn(&Model) -> Option<Model>, change: impl Fn(&mut Vec<u64>)) -> bool {
        let Some(models) = self.models() else { return false };
        let mut candidate = self.best.clone();
        let Some(pair) = candidate.pair() else { return false };
        for (model, sheet) in models.iter().zip(&mut pair.sheets) {
            let Some(model) = smaller(model) else { return false };
            let mut blanks = blanks::of(sheet);
            change(&mut blanks);
            *sheet = blanks::written(&model, &blanks);
        }
        candidate.groups().into_iter().for_each(change);
        self.attempt(candidate)
    }

    fn sweep_model(&mut self) -> bool {
        let many = |shrinker: &Self, count: fn(&Model) -> usize| shrinker.model().map_or(0, |model| count(&model));
        let mut smaller = false;
        while self.half_the_lines() {
            smaller = true;
        }
        for index in (0..many(self, |model| model.constraints.len())).rev() {
            smaller |= self.without_line(index);
        }
        for index in (0..many(self, |model| model.groups.len())).rev() {
            smaller |= self.without_group(index);
        }
        for entrant in (0..many(self, |model| model.entrants as usize)).rev() {
            smaller |= self.without_entrant(entrant as u32);
        }
        for index in 0..many(self, |model| model.groups.len()) {
            smaller |= self.looser_group(index);
        }
        for index in 0..many(self, |model| model.groups.len()) {
            smaller |= self.fewer_blanks(index);
        }
        smaller
    }

    fn half_the_lines(&mut self) -> bool {
        let mut model = self.model().unwrap();
        let many = model.constraints.len();
        model.constraints.truncate(many / 2);
        many > 0 && self.attempt_model(&model)
    }

    fn without_line(&mut self, index: usize) -> bool {
        let mut model = self.model().unwrap();
        let line = model.constraints.remove(index);
        if self.attempt_model(&model) {
            return true;
        }
        if line.code == 6 && line.groups.len() > 3 {
            let mut shorter = line.clone();
            shorter.groups.pop();
            model.constraints.insert(index, shorter);
            return self.attempt_model(&model);
        }
        false
    }

    fn without_group(&mut self, index: usize) -> bool {
        let Some(model) = without_group(&self.model().unwrap(), index) else { return false };
        self.attempt_both(&model, |groups| drop_group(groups, index))
    }

    /// Limits stay as they are, as far as they can, or all of them are one less.
    fn without_entrant(&mut self, entrant: u32) -> bool {
        let model = self.model().unwrap();
        if model.entrants == 1 {
            return false;
        }
        [0, 1].into_iter().any(|less| {
            let model = without_entrant(&model, entrant, less);
            self.attempt_both(&model, |groups| groups.iter_mut().for_each(|set| *set = squeezed(*set, entrant)))
        })
    }

    /// The group without limits and marks, or with one of them fewer.
    fn looser_group(&mut self, index: usize) -> bool {
        let model = self.model().unwrap();
        let (group, everyone) = (model.groups[index], model.everyone());
        let mut ways =
            vec![Group { fixed: 0, possible: everyone, low: 0, high: model.entrants }, Group { low: 0, ..group }, Group { high: model.entrants, ..group }];
        for bit in (0..model.entrants).map(|e| 1 << e) {
            ways.push(Group { fixed: group.fixed & !bit, possible: group.possible | bit, ..group });
        }
        ways.into_iter().any(|way| {
            let mut looser = model.clone();
            looser.groups[index] = way;
            way != group && self.attempt_model(&looser)
        })
    }

    /// The group with its blank marks written, all of them, or one by one.
    fn fewer_blanks(&mut self, index: usize) -> bool {
        let model = self.model().unwrap();
        let mut smaller = false;
        for written in [u64::MAX].into_iter().chain((0..model.entrants).map(|e| 1 << e)) {
            let mut blanks = self.blanks();
            if blanks[index] & written != 0 {
                blanks[index] &= !written;
                smaller |= self.attempt(self.best.with_sheet(blanks::written(&model, &blanks)));
            }
        }
        smaller
    }

    /// Lines, then fields, then bytes of a sheet that is no sheet.
    fn sweep_text(&mut self) -> bool {
        let mut smaller = false;
        for width in [usize::MAX, 4, 1] {
            let mut end = self.best.sheet().unwrap().len();
            while end > 0 {
                let sheet = self.best.sheet().unwrap();
                let line_start = sheet[..end - 1].iter().rposition(|&byte| byte == b'\n').map_or(0, |at| at + 1);
                let start = if width == usize::MAX { line_start } else { end.saturating_sub(width) };
                let shorter = [&sheet[..start], &sheet[end..]].concat();
                smaller |= self.attempt(self.best.with_sheet(shorter));
                end = start;
            }
        }
        smaller
    }

    /// What is not the sheet: lines, their bytes, the marks.
    fn sweep_parts(&mut self) -> bool {
        let mut smaller = false;
        for index in (0..self.lines().len()).rev() {
            let mut lines = self.lines();
            lines.remove(index);
            smaller |= self.attempt_lines(lines);
        }
        for index in 0..self.lines().len() {
            smaller |= self.shorter_line(index);
        }
        while self.fewer_marks() {
            smaller = true;
        }
        smaller | self.sweep_certificate()
    }

    /// Words of the groups dropped from the end, half of them or the last, or else emptied.
    fn sweep_groups(&mut self) -> bool {
        let mut smaller = false;
        while self.attempt_groups(|groups| groups.truncate(groups.len() / 2)) || self.attempt_groups(|groups| groups.truncate(groups.len().saturating_sub(1))) {
            smaller = true;
        }
        for index in 0..self.best.groups().map_or(0, |groups| groups.len()) {
            smaller |= self.attempt_groups(|groups| groups[index] = 0);
        }
        smaller
    }

    fn attempt_groups(&mut self, change: impl Fn(&mut Vec<u64>)) -> bool {
        let mut candidate = self.best.clone();
        candidate.groups().into_iter().for_each(change);
        candidate.groups() != self.best.groups() && self.attempt(candidate)
    }

    fn sweep_certificate(&mut self) -> bool {
        let Case::Certificate(case) = self.best.clone() else { return false };
        let mut lines: Vec<&[u8]> = case.certificate.split_inclusive(|&byte| byte == b'\n').collect();
        let mut smaller = false;
        for index in (0..lines.len()).rev() {
            let line = lines.remove(index);
            if self.attempt(Case::Certificate(case.with_certificate(lines.concat()))) {
                smaller = true;
            } else {
                lines.insert(index, line);
            }
        }
        smaller
    }

    /// The line without one of its words, or else without one of its bytes.
    fn shorter_line(&mut self, index: usize) -> bool {
        let mut smaller = false;
        for whole_words in [true, false] {
            let mut end = self.lines()[index].len();
            while end > 0 {
                let mut lines = self.lines();
                let line = &mut lines[index];
                let start = if whole_words { line[..end].iter().rposition(|&byte| byte == b' ').unwrap_or(0) } else { end - 1 };
                line.drain(start..end);
                smaller |= self.attempt_lines(lines);
                end = start;
            }
        }
        smaller
    }

    fn lines(&self) -> Vec<Vec<u8>> {
        match &self.best {
            Case::Lines { lines, .. } => lines.clone(),
            Case::Answer(answer) => answer.lines(),
            _ => Vec::new(),
        }
    }

    fn attempt_lines(&mut self, new: Vec<Vec<u8>>) -> bool {
        let mut candidate = self.best.clone();
        match &mut candidate {
            Case::Lines { lines, .. } => *lines = new,
            Case::Answer(answer) => answer.output = joined(new),
            _ => {}
        }
        self.attempt(candidate)
    }

    fn fewer_marks(&mut self) -> bool {
        let Case::Lines { marks, lines } = &self.best else { return false };
        let shorter = |length: usize| Case::Lines { marks: marks[..length].to_vec(), lines: lines.clone() };
        let candidates = match marks.len() {
            0 => return false,
            length => [shorter(length / 2), shorter(length - 1)],
        };
        candidates.into_iter().any(|candidate| self.attempt(candidate))
    }
}

/// The model without a group that no line names, unless it is the only one.
fn without_group(model: &Model, index: usize) -> Option<Model> {
    if model.groups.len() == 1 || model.constraints.iter().any(|line| line.groups.contains(&index)) {
        return None;
    }
    let mut model = model.clone();
    model.groups.remove(index);
    let numbers = model.constraints.iter_mut().flat_map(|line| line.groups.iter_mut());
    numbers.filter(|number| **number > index).for_each(|number| *number -= 1);
    Some(model)
}

fn drop_group(groups: &mut Vec<u64>, index: usize) {
    if index < groups.len() {
        groups.remove(index);
    }
}

/// The model without an entrant, and with limits less by so many, as far as they can be.
pub fn without_entrant(model: &Model, entrant: u32, less: u32) -> Model {
    let mut model = model.clone();
    model.entrants -= 1;
    for group in &mut model.groups {
        group.fixed = squeezed(group.fixed, entrant);
        group.possible = squeezed(group.possible, entrant);
        group.high = group.high.saturating_sub(less).min(model.entrants);
        group.low = group.low.saturating_sub(less).min(group.high);
    }
    model
}

/// The set without an entrant, those after it one lower.
fn squeezed(set: u64, entrant: u32) -> u64 {
    let below = (1 << entrant) - 1;
    set & below | set >> 1 & !below
}

#[cfg(test)]
mod tests {
    use super::super::calls::{settled, Calls, Counterpart};
    use super::*;

    /// Whether some line is refused with 12.
    fn says_twice(case: &Case) -> bool {
        let Case::Lines { marks, lines } = case else { return false };
        let mut marks = marks.clone();
        lines.iter().any(|line| Counterpart.line(0, line, &mut marks) / 2 == 12)
    }

    #[test]
    fn lines_shrink_to_the_words_that_matter() {
        let lines = ["c solver", "v 1 2 3", "v 4", "v -5 -2 6 0"].map(|line| line.as_bytes().to_vec()).to_vec();
        let Case::Lines { marks, lines } = shrink(Case::Lines { marks: vec![0; 9], lines }, &says_twice) else { panic!() };
        assert_eq!((marks.len(), lines), (2, vec![b"v 2".to_vec(), b"v 2".to_vec()]));
    }

    fn contradicts(case: &Case) -> bool {
        case.sheet().is_some_and(|sheet| settled(sheet) == Err(21))
    }

    #[test]
    fn a_sheet_shrinks_to_what_contradicts() {
        let sheet = "   1   3   4   2\n   2   1   0   3   1   2   0\n   2   2   1   2   1   0   1\n   2   3   0   1   1   1   1\n   2   4   2   2   1   1   1\n   3   2   1   2\n   3   4   3   1   4\n";
        let smallest = shrink(Case::Read { sheet: sheet.as_bytes().to_vec() }, &contradicts);
        let wanted = "   1   1   1   0\n   2   1   1   1   0\n";
        assert_eq!(String::from_utf8_lossy(smallest.sheet().unwrap()), wanted);
    }

    #[test]
    fn blanks_that_matter_are_kept() {
        let fails = |case: &Case| {
            let blanks = case.sheet().map_or(Vec::new(), blanks::of);
            blanks.len() > 1 && blanks[1] & 2 != 0
        };
        let sheet = "   1   3   3   1\n   2   1   0   3           0\n   2   2   1   2   2        \n   2   3   0   1   1       1\n   3   2   1   2\n";
        let smallest = shrink(Case::Read { sheet: sheet.as_bytes().to_vec() }, &fails);
        let wanted = "   1   2   2   0\n   2   1   0   2   1   1\n   2   2   0   2   1    \n";
        assert_eq!(String::from_utf8_lossy(smallest.sheet().unwrap()), wanted);
    }

    #[test]
    fn text_that_is_no_sheet_shrinks_by_lines_fields_and_bytes() {
        let bad_length = |case: &Case| case.sheet().is_some_and(|sheet| Counterpart.read(sheet) >> 16 == 3);
        let sheet = b"   1   3   2   1\n   2   1   1   1   1   1  1\n".to_vec();
        assert_eq!(shrink(Case::Read { sheet }, &bad_length).sheet().unwrap(), b"\n");
    }
}

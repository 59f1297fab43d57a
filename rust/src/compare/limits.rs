//! Sheets in which limits travel from group to group, and what the limits did in any sheet, as kinds of cases.
use super::case::Kind;
use super::random::Random;
use super::sheets::Sample;
use crate::model::*;
use crate::settle::{contradictory, group_rules, mark_rules, settle, Settled};
use crate::sheet;
use crate::words::from_words;

const LOW_BY_CODE: [Kind; 6] = [
    "limits: low passed by code 1",
    "limits: low passed by code 2",
    "limits: low passed by code 3",
    "limits: low passed by code 4",
    "limits: low passed by code 5",
    "limits: low passed by code 6",
];
const HIGH_BY_CODE: [Kind; 6] = [
    "limits: high passed by code 1",
    "limits: high passed by code 2",
    "limits: high passed by code 3",
    "limits: high passed by code 4",
    "limits: high passed by code 5",
    "limits: high passed by code 6",
];

/// The other kinds that are met here, after those by code, in the order of the report.
const KINDS: &[Kind] = &[
    "limits: low passed by several codes",
    "limits: high passed by several codes",
    "limits: passed to a hundred groups or more",
    "limits: passed to ten groups in two passes",
    "limits: passed in twenty passes or more",
    "limits: low to a union of sixteen",
    "limits: high of a union to sixteen members",
    "limits: sum of sixteen highs to their union",
    "limits: sum of highs through unions of unions",
    "limits: low meets high",
    "limits: 21 by code 2 alone",
    "limits: 21 by unions alone",
    "limits: 21 by other codes",
];

pub fn kinds() -> impl Iterator<Item = Kind> {
    LOW_BY_CODE.into_iter().chain(HIGH_BY_CODE).chain(KINDS.iter().copied())
}

/// One pass without the limits that pass along lines.
fn marks_pass(model: &mut Model) -> bool {
    let everyone = model.everyone();
    let mut changed = group_rules(&mut model.groups);
    for line in &model.constraints {
        changed |= mark_rules(everyone, &mut model.groups, line);
    }
    changed
}

/// The groups as they would settle if no limit passed from group to group; none where that is 21 too.
pub fn by_marks(model: &Model) -> Option<Vec<Group>> {
    let mut model = model.clone();
    let out = |model: &Model| contradictory(&model.groups, &model.constraints);
    while marks_pass(&mut model) && !out(&model) {}
    (!out(&model)).then_some(model.groups)
}

/// Whether a limit that passes along a line is all that a pass would change in a model's words.
pub fn unsettled_alone(words: &[u64]) -> bool {
    from_words(words).is_ok_and(|mut model| !marks_pass(&mut model) && !contradictory(&model.groups, &model.constraints) && Settled::given(model).is_err())
}

/// What limits did in the settling of a model, beyond what marks did.
pub fn met(model: &Model) -> Vec<Kind> {
    let Some(before) = by_marks(model) else { return Vec::new() };
    match settle(model.clone()) {
        Some(settled) => Travel { lines: &model.constraints, before, after: &settled.model().groups }.kinds(settled.passes()),
        None => vec![contradiction(&model.constraints)],
    }
}

fn contradiction(lines: &[Constraint]) -> Kind {
    let all = |codes: &[u32]| lines.iter().all(|line| codes.contains(&line.code));
    if all(&[2]) {
        "limits: 21 by code 2 alone"
    } else if all(&[4, 6]) {
        "limits: 21 by unions alone"
    } else {
        "limits: 21 by other codes"
    }
}

/// A table settled by marks alone, and the settled one.
struct Travel<'a> {
    lines: &'a [Constraint],
    before: Vec<Group>,
    after: &'a [Group],
}

impl Travel<'_> {
    fn kinds(&self, passes: u32) -> Vec<Kind> {
        let groups = || 0..self.after.len();
        let passed = groups().filter(|&group| self.raised(group) || self.lowered(group)).count();
        let mut kinds = Vec::new();
        let mut note = |really: bool, kind: Kind| kinds.extend(really.then_some(kind));
        note(groups().any(|group| self.raised(group)), self.by_code(&LOW_BY_CODE, "limits: low passed by several codes"));
        note(groups().any(|group| self.lowered(group)), self.by_code(&HIGH_BY_CODE, "limits: high passed by several codes"));
        note(passed >= 100, "limits: passed to a hundred groups or more");
        note(passed >= 10 && passes == 2, "limits: passed to ten groups in two passes");
        note(passed >= 1 && passes >= 20, "limits: passed in twenty passes or more");
        note(self.of_sixteen(|line| self.raised(line.groups[0])), "limits: low to a union of sixteen");
        note(self.of_sixteen(|line| line.groups[1..].iter().any(|&member| self.lowered(member))), "limits: high of a union to sixteen members");
        note(self.of_sixteen(|line| self.summed(line)), "limits: sum of sixteen highs to their union");
        note(self.lines.iter().any(|line| self.summed_twice(line)), "limits: sum of highs through unions of unions");
        note(groups().any(|group| self.met_high(group)), "limits: low meets high");
        kinds
    }

    fn raised(&self, group: usize) -> bool {
        self.after[group].low > self.before[group].low
    }

    fn lowered(&self, group: usize) -> bool {
        self.after[group].high < self.before[group].high
    }

    /// A place fewer, and it would be 21.
    fn met_high(&self, group: usize) -> bool {
        self.after[group].low == self.after[group].high && self.before[group].low < self.before[group].high
    }

    /// The kind of the lines' one code.
    fn by_code(&self, kinds: &[Kind; 6], several: Kind) -> Kind {
        match self.lines {
            [first, rest @ ..] if rest.iter().all(|line| line.code == first.code) => kinds.get(first.code as usize - 1).copied().unwrap_or(several),
            _ => several,
        }
    }

    fn of_sixteen(&self, really: impl Fn(&Constraint) -> bool) -> bool {
        self.lines.iter().any(|line| line.groups.len() == 17 && really(line))
    }

    /// A union whose high has come down to the sum of its members'.
    fn summed(&self, line: &Constraint) -> bool {
        let (whole, members) = (line.groups[0], &line.groups[1..]);
        let sum: u32 = members.iter().map(|&member| self.after[member].high).sum();
        matches!(line.code, 4 | 6) && self.lowered(whole) && self.after[whole].high == sum
    }

    /// The same, of a member that is such a union too.
    fn summed_twice(&self, line: &Constraint) -> bool {
        self.summed(line) && self.lines.iter().any(|other| line.groups[1..].contains(&other.groups[0]) && self.summed(other))
    }
}

/// The sheet in the making: groups with the sets that they have in a draw.
struct Plan {
    entrants: u32,
    groups: Vec<Group>,
    sets: Vec<u64>,
    lines: Vec<Constraint>,
}

impl Plan {
    fn new(entrants: usize) -> Plan {
        Plan { entrants: entrants as u32, groups: Vec::new(), sets: Vec::new(), lines: Vec::new() }
    }

    /// A group without limits, all marks open.
    fn group(&mut self, set: u64) -> usize {
        self.groups.push(Group { fixed: 0, possible: first_entrants(self.entrants), low: 0, high: self.entrants });
        self.sets.push(set);
        self.groups.len() - 1
    }

    fn line(&mut self, code: usize, groups: Vec<usize>) {
        self.lines.push(Constraint { code: code as u32, groups });
    }

    fn sample(mut self, random: &mut Random, drawn: bool) -> Sample {
        match random.below(5) {
            0 => random.shuffle(&mut self.lines),
            1 | 2 => self.lines.reverse(),
            _ => {}
        }
        if drawn && random.chance(30) {
            self.mark(random);
        }
        let model = Model { entrants: self.entrants, groups: self.groups, constraints: self.lines };
        Sample { sheet: sheet::write(&model), draw: drawn.then_some(self.sets) }
    }

    /// A few marks that the draw allows.
    fn mark(&mut self, random: &mut Random) {
        for (group, &set) in self.groups.iter_mut().zip(&self.sets) {
            group.fixed = set & random.set(self.entrants, 3);
            group.possible &= set | !random.set(self.entrants, 3);
        }
    }
}

/// A sheet in which limits travel; where they meet, now and then one too far.
pub fn sample(random: &mut Random) -> Sample {
    match random.below(10) {
        0..=6 => chain(random),
        _ => union(random),
    }
}

/// Which limits stand at the ends of a chain: low at its first group, high at its last.
#[derive(Clone, Copy, PartialEq)]
enum Ends {
    Low,
    High,
    /// Both, and the draw's sizes are the only ones between them.
    Meeting,
    /// Both, low one above high.
    Crossing,
}

/// Groups in a row, each within the next by a line of one code, or of any.
fn chain(random: &mut Random) -> Sample {
    let mut plan = Plan::new(random.from_to(4, 32));
    let ends = random.pick(&[Ends::Low, Ends::High, Ends::Meeting, Ends::Crossing]);
    let growing = matches!(ends, Ends::Low | Ends::High);
    let code = random.pick(&[Some(1), Some(2), Some(2), Some(3), Some(4), Some(5), Some(6), None]);
    let longest = random.pick(&[4, 4, 12, 12, 12, 40, 40, 40, 40, GROUPS as usize]);
    let first = plan.group(some(random, plan.entrants));
    let mut last = first;
    loop {
        let code = code.unwrap_or_else(|| random.from_to(1, 6));
        let more = match code {
            1 | 2 => 1,
            6 => random.pick(&[2, 5, 16]),
            _ => 2,
        };
        if plan.groups.len() + more > longest.max(1 + more) {
            break;
        }
        last = link(random, &mut plan, code, more, last, growing);
    }
    let (least, most) = (plan.sets[first].count_ones(), plan.sets[last].count_ones());
    match ends {
        Ends::Low => plan.groups[first].low = least,
        Ends::High => plan.groups[last].high = most,
        Ends::Meeting => (plan.groups[first].low, plan.groups[last].high) = (least, most),
        Ends::Crossing => (plan.groups[first].low, plan.groups[last].high) = (most + 1, most),
    }
    plan.sample(random, ends != Ends::Crossing)
}

/// A set that is not empty and leaves two entrants out.
fn some(random: &mut Random, entrants: u32) -> u64 {
    let mut order: Vec<u32> = (0..entrants).collect();
    random.shuffle(&mut order);
    order[..random.from_to(1, entrants as usize - 2)].iter().fold(0, |set, e| set | 1 << e)
}

/// A new group around `part`, tied to it by one line; gives its number. With the other groups that the line wants, `more` groups are new.
fn link(random: &mut Random, plan: &mut Plan, code: usize, more: usize, part: usize, growing: bool) -> usize {
    let inner = plan.sets[part];
    let outer = if growing && code != 1 { grown(random, plan.entrants, inner) } else { inner };
    let whole = plan.group(outer);
    let any = random.set(plan.entrants, 50);
    match code {
        1 if random.chance(50) => plan.line(1, vec![whole, part]),
        1 | 2 => plan.line(code, vec![part, whole]),
        3 => {
            let other = plan.group(inner | any & !outer);
            plan.line(3, if random.chance(50) { vec![part, whole, other] } else { vec![part, other, whole] });
        }
        5 => {
            let other = plan.group(outer & !inner | any & !outer);
            plan.line(5, vec![part, whole, other]);
        }
        _ => {
            let mut members: Vec<usize> = (1..more).map(|_| plan.group(outer & !inner | any & outer)).collect();
            members.insert(random.below(more), part);
            plan.line(code, [vec![whole], members].concat());
        }
    }
    whole
}

/// The set, often with an entrant more; never all of them.
fn grown(random: &mut Random, entrants: u32, set: u64) -> u64 {
    let more = set | 1 << random.below(entrants as usize);
    if more.count_ones() < entrants && random.chance(50) {
        more
    } else {
        set
    }
}

/// A union of up to sixteen groups of few places, now and then over unions of others; the whole must have none, as many as there are places, or one more.
fn union(random: &mut Random) -> Sample {
    let leaves = random.pick(&[2, 3, 7, 16, 16, 16]);
    let mut plan = Plan::new(random.from_to(2 * leaves, 32));
    let mut entrants: Vec<u32> = (0..plan.entrants).collect();
    random.shuffle(&mut entrants);
    let mut parts: Vec<usize> = (0..leaves).map(|_| places(random, &mut plan, &mut entrants)).collect();
    let all: u32 = parts.iter().map(|&part| plan.groups[part].high).sum();
    if leaves > 3 && random.chance(40) {
        parts = parts.chunks(random.from_to(2, leaves - 2)).map(|parts| joined(&mut plan, parts)).collect();
    }
    let whole = joined(&mut plan, &parts);
    let wanted = random.pick(&[0, all, all + 1]).min(plan.entrants);
    plan.groups[whole].low = wanted;
    plan.sample(random, wanted <= all)
}

/// A group of one place or two, filled in the draw by entrants who are in no other.
fn places(random: &mut Random, plan: &mut Plan, entrants: &mut Vec<u32>) -> usize {
    let many = random.from_to(1, 2);
    let set = entrants.split_off(entrants.len() - many).iter().fold(0, |set, e| set | 1 << e);
    let group = plan.group(set);
    plan.groups[group].high = many as u32;
    group
}

/// The union of the parts; a single part is its own.
fn joined(plan: &mut Plan, parts: &[usize]) -> usize {
    if let [part] = parts {
        return *part;
    }
    let whole = plan.group(parts.iter().fold(0, |set, &part| set | plan.sets[part]));
    let code = if parts.len() == 2 { 4 } else { 6 };
    plan.line(code, [&[whole], parts].concat());
    whole
}

/// A settled model with one limit a step wider again.
pub fn widened(random: &mut Random, model: &Model) -> Model {
    let mut wider = model.clone();
    let group = &mut wider.groups[random.below(model.groups.len())];
    if random.chance(50) {
        group.low = group.low.saturating_sub(1);
    } else {
        group.high = (group.high + 1).min(model.entrants);
    }
    wider
}

#[cfg(test)]
mod tests {
    use super::*;
    use crate::sheet::read;
    use std::collections::BTreeSet;

    const SHEETS: usize = 200;

    fn models(make: fn(&mut Random) -> Sample) -> impl Iterator<Item = Model> {
        let mut random = Random(11);
        std::iter::repeat_with(move || read(&make(&mut random).sheet).unwrap()).take(SHEETS)
    }

    /// Lines on the way from a group to the nearest one that its limit can have come from; 0 where there is none.
    fn distance(model: &Model, group: usize, source: impl Fn(&Group) -> bool) -> usize {
        let mut reached = BTreeSet::from([group]);
        for lines in 0..=model.constraints.len() {
            if reached.iter().any(|&group| source(&model.groups[group])) {
                return lines;
            }
            let near = model.constraints.iter().filter(|line| line.groups.iter().any(|group| reached.contains(group)));
            reached = near.flat_map(|line| line.groups.clone()).collect();
        }
        0
    }

    /// How far a low came to the last group that it reached, and a high to the first.
    fn ways(model: &Model) -> (usize, usize) {
        let (Some(before), Some(settled)) = (by_marks(model), settle(model.clone())) else { return (0, 0) };
        let after = &settled.model().groups;
        let travel = Travel { lines: &model.constraints, before, after };
        let low = (0..after.len()).rfind(|&at| travel.raised(at)).map(|at| distance(model, at, |group| group.low >= after[at].low));
        let high = (0..after.len()).find(|&at| travel.lowered(at)).map(|at| distance(model, at, |group| group.high <= after[at].high));
        (low.unwrap_or(0), high.unwrap_or(0))
    }

    #[test]
    fn limits_travel_far_along_chains_both_ways() {
        let ways: Vec<(usize, usize)> = models(chain).map(|model| ways(&model)).collect();
        let far = |least: usize, way: fn(&(usize, usize)) -> usize| ways.iter().filter(|both| way(both) >= least).count();
        assert!(far(10, |both| both.0) >= 20 && far(10, |both| both.1) >= 20, "{ways:?}");
        assert!(far(100, |both| both.0.max(both.1)) > 0, "{ways:?}");
    }

    #[test]
    fn chains_have_as_many_groups_as_a_sheet_may() {
        assert!(models(chain).any(|model| model.groups.len() == 256));
    }

    /// How many of the sheets are 21, and that marks alone would settle each.
    fn contradictions(make: fn(&mut Random) -> Sample) -> usize {
        let out: Vec<Model> = models(make).filter(|model| settle(model.clone()).is_none()).collect();
        assert!(out.iter().all(|model| by_marks(model).is_some()));
        out.len()
    }

    #[test]
    fn some_sheets_are_21_by_limits_alone_and_others_just_settle() {
        for make in [chain, union] {
            let many = contradictions(make);
            assert!((20..SHEETS / 2).contains(&many), "{many}");
            assert!(models(make).filter(|model| met(model).contains(&"limits: low meets high")).count() >= 20);
        }
    }

    #[test]
    fn unions_pass_limits_both_ways_and_through_each_other() {
        let count = |make: fn(&mut Random) -> Sample, kind: Kind| models(make).filter(|model| met(model).contains(&kind)).count();
        assert!(count(union, "limits: sum of sixteen highs to their union") >= 20);
        assert!(count(union, "limits: sum of highs through unions of unions") >= 5);
        assert!(count(chain, "limits: low to a union of sixteen") > 0);
        assert!(count(chain, "limits: high of a union to sixteen members") > 0);
    }

    #[test]
    fn every_code_passes_both_limits() {
        let met: BTreeSet<Kind> = models(chain).flat_map(|model| met(&model)).collect();
        for kind in LOW_BY_CODE.iter().chain(&HIGH_BY_CODE) {
            assert!(met.contains(kind), "never met: {kind}");
        }
    }

    #[test]
    fn the_draw_of_a_sheet_is_never_settled_out() {
        let mut random = Random(12);
        for _ in 0..SHEETS {
            let sample = sample(&mut random);
            let settled = settle(read(&sample.sheet).unwrap());
            let Some(draw) = sample.draw else { continue };
            for (group, &set) in settled.expect("a sheet with a draw settles").model().groups.iter().zip(&draw) {
                assert!(group.fixed & !set == 0 && set & !group.possible == 0);
                assert!((group.low..=group.high).contains(&set.count_ones()));
            }
        }
    }

    #[test]
    fn a_limit_made_wider_is_often_all_that_changes() {
        let mut random = Random(13);
        let mut alone = 0;
        for model in models(sample) {
            let Some(settled) = settle(model) else { continue };
            let words = |model: &Model| crate::words::to_words(model, 0);
            assert!(!unsettled_alone(&words(settled.model())));
            let wider = widened(&mut random, settled.model());
            if unsettled_alone(&words(&wider)) {
                assert_eq!(settle(wider).unwrap().model(), settled.model());
                alone += 1;
            }
        }
        assert!(alone >= 20, "{alone}");
    }
}

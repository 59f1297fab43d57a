//! Settling: group rule and line rule, pass after pass, until nothing changes.
use crate::agenda::Agenda;
use crate::clauses::Literal;
use crate::different::Different;
use crate::model::{Constraint, Group, Model};
use crate::refusal::UNSETTLED;

/// A model in range that no pass changes. Only this file makes one, so that listing and closing need not judge 20 and 22 again.
#[derive(Debug, PartialEq, Eq)]
pub struct Settled {
    model: Model,
    passes: u32,
}

impl Settled {
    /// A model in range taken as settled, or refusal 22: a pass would change it or end in 21.
    pub fn given(model: Model) -> Result<Settled, u32> {
        let mut groups = model.groups.clone();
        let changed = pass(model.everyone(), &mut groups, &model.constraints);
        if changed || contradictory(&groups, &model.constraints) {
            return Err(UNSETTLED);
        }
        Ok(Settled { model, passes: 1 })
    }

    pub fn model(&self) -> &Model {
        &self.model
    }

    /// The passes made, the last included.
    pub fn passes(&self) -> u32 {
        self.passes
    }
}

/// The settled model; none stands for refusal 21. The first pass applies every rule, later ones those that are due: the others would change nothing.
/// A contradiction stays one, so it is looked for at the end, and after 2, 4, 8, .. passes, for a sheet that has one need not settle first.
pub fn settle(mut model: Model) -> Option<Settled> {
    let everyone = model.everyone();
    let mut passes = 1;
    if pass(everyone, &mut model.groups, &model.constraints) {
        let mut agenda = Agenda::full(model.groups.len(), &model.constraints);
        while {
            passes += 1;
            agenda.pass(everyone, &mut model.groups, &model.constraints)
        } {
            if passes & (passes - 1) == 0 && contradictory(&model.groups, &model.constraints) {
                return None;
            }
        }
    }
    (!contradictory(&model.groups, &model.constraints)).then_some(Settled { model, passes })
}

/// Whether a table is 21 after a pass: an entrant fixed but not possible, low above high, or all settled alike in groups that must not be the same.
pub(crate) fn contradictory(groups: &[Group], constraints: &[Constraint]) -> bool {
    let in_group = |group: &Group| group.fixed & !group.possible != 0 || group.low > group.high;
    groups.iter().any(in_group) || constraints.iter().any(|line| all_alike(groups, line))
}

/// Whether a line of code 7 has all entrants settled alike.
pub(crate) fn all_alike(groups: &[Group], line: &Constraint) -> bool {
    line.different(groups).is_some_and(|pair| pair.not_alike() == 0)
}

/// One pass. Whether it changed anything: sets and limits only ever move one way, so no change is undone.
fn pass(everyone: u64, groups: &mut [Group], constraints: &[Constraint]) -> bool {
    let mut changed = group_rules(groups);
    for line in constraints {
        changed |= mark_rules(everyone, groups, line);
        changed |= limit_rules(groups, line);
    }
    changed
}

/// The group rule on every group.
pub(crate) fn group_rules(groups: &mut [Group]) -> bool {
    let mut changed = false;
    for group in groups {
        let before = *group;
        group_rule(group);
        changed |= *group != before;
    }
    changed
}

pub(crate) fn group_rule(group: &mut Group) {
    group.low = group.low.max(group.fixed.count_ones());
    group.high = group.high.min(group.possible.count_ones());
    if group.fixed.count_ones() == group.high {
        group.possible &= group.fixed;
    }
    if group.possible.count_ones() == group.low {
        group.fixed |= group.possible;
    }
}

/// The first half of the line rule: what the line's clauses make true, or of code 7 its own rule.
pub(crate) fn mark_rules(everyone: u64, groups: &mut [Group], line: &Constraint) -> bool {
    if line.code == 7 {
        return difference_rule(groups, line);
    }
    let mut changed = false;
    line.each_clause(|clause| changed |= clause_rule(everyone, groups, clause));
    changed
}

/// Makes each literal true for the entrants for whom all others are settled false.
/// The groups of a line are different, so making one literal true settles no literal of the clause false: the two sets below stay right throughout.
fn clause_rule(everyone: u64, groups: &mut [Group], clause: &[Literal]) -> bool {
    let mut all_false = everyone;
    let mut all_but_one = 0;
    for literal in clause {
        let fails = literal.fails(groups);
        all_but_one = all_but_one & fails | all_false & !fails;
        all_false &= fails;
    }
    if all_false | all_but_one == 0 {
        return false;
    }
    let mut changed = false;
    for &literal in clause {
        let forced = all_false | all_but_one & !literal.fails(groups);
        changed |= make_true(literal, forced, groups);
    }
    changed
}

fn make_true(literal: Literal, entrants: u64, groups: &mut [Group]) -> bool {
    let group = &mut groups[literal.group];
    let before = *group;
    if literal.positive {
        group.fixed |= entrants;
    } else {
        group.possible &= !entrants;
    }
    *group != before
}

/// Where all entrants but one are settled alike, and that one is settled in one of the groups: it is settled the opposite way in the other.
fn difference_rule(groups: &mut [Group], line: &Constraint) -> bool {
    let (f, g) = (groups[line.groups[0]], groups[line.groups[1]]);
    let left = Different { f: &f, g: &g }.not_alike();
    left.is_power_of_two() && settle_opposite(&f, &mut groups[line.groups[1]], left) | settle_opposite(&g, &mut groups[line.groups[0]], left)
}

/// Settles the entrant in a group where it is open, the opposite way to another group where it is settled.
fn settle_opposite(from: &Group, to: &mut Group, entrant: u64) -> bool {
    let open = entrant & to.open();
    let (bars, fixes) = (open & from.fixed, open & !from.possible);
    to.possible &= !bars;
    to.fixed |= fixes;
    bars | fixes != 0
}

/// The second half of the line rule: the limits that pass along the line.
pub(crate) fn limit_rules(groups: &mut [Group], line: &Constraint) -> bool {
    let g = &line.groups;
    match line.code {
        1 => within(groups, g[0], g[1]) | within(groups, g[1], g[0]),
        2 => within(groups, g[0], g[1]),
        3 => within(groups, g[0], g[1]) | within(groups, g[0], g[2]),
        5 => within(groups, g[0], g[1]),
        4 | 6 => union(groups, g[0], &g[1..]),
        _ => false,
    }
}

/// Limits of a group within another. Which step is first makes no difference: one is about low, the other about high.
fn within(groups: &mut [Group], part: usize, whole: usize) -> bool {
    let (low, high) = (groups[part].low, groups[whole].high);
    low_at_least(&mut groups[whole], low) | high_at_most(&mut groups[part], high)
}

/// Limits of a union: the members' lows to the whole, its high to the members, then the sum of their highs to the whole.
fn union(groups: &mut [Group], whole: usize, members: &[usize]) -> bool {
    let mut changed = false;
    for &member in members {
        let low = groups[member].low;
        changed |= low_at_least(&mut groups[whole], low);
    }
    let high = groups[whole].high;
    for &member in members {
        changed |= high_at_most(&mut groups[member], high);
    }
    let places = members.iter().map(|&member| groups[member].high).sum();
    changed | high_at_most(&mut groups[whole], places)
}

fn low_at_least(group: &mut Group, low: u32) -> bool {
    let raised = group.low < low;
    group.low = group.low.max(low);
    raised
}

fn high_at_most(group: &mut Group, high: u32) -> bool {
    let lowered = group.high > high;
    group.high = group.high.min(high);
    lowered
}

#[cfg(test)]
mod tests {
    use super::*;
    use crate::model::{first_entrants, ENTRANTS};
    use crate::sheet::read;

    fn settled(sheet: &str) -> Option<Settled> {
        settle(read(sheet.as_bytes()).unwrap())
    }

    /// A sheet of n entrants, all marks open, with these limits and lines.
    fn sheet(n: u32, limits: &[(u32, u32)], lines: &[(u32, &[usize])]) -> Model {
        let group = |&(low, high): &(u32, u32)| Group { fixed: 0, possible: first_entrants(n), low, high };
        let line = |&(code, groups): &(u32, &[usize])| Constraint { code, groups: groups.iter().map(|number| number - 1).collect() };
        Model { entrants: n, groups: limits.iter().map(group).collect(), constraints: lines.iter().map(line).collect() }
    }

    /// The limits that a sheet settles with, and its passes.
    fn limits(n: u32, limits: &[(u32, u32)], lines: &[(u32, &[usize])]) -> Option<(Vec<(u32, u32)>, u32)> {
        let settled = settle(sheet(n, limits, lines))?;
        let groups = &settled.model().groups;
        assert!(groups.iter().all(|group| group.open() == settled.model().everyone()), "a mark was settled");
        Some((groups.iter().map(|group| (group.low, group.high)).collect(), settled.passes()))
    }

    /// The paper's passes, each with every rule and the test of 21 after it.
    fn plainly(mut model: Model) -> Option<Settled> {
        for passes in 1.. {
            let changed = pass(model.everyone(), &mut model.groups, &model.constraints);
            if contradictory(&model.groups, &model.constraints) {
                return None;
            }
            if !changed {
                return Some(Settled { model, passes });
            }
        }
        unreachable!("some pass changes nothing")
    }

    #[test]
    fn rules_that_are_not_due_would_change_nothing() {
        let mut state = 1u64;
        let mut below = |most: u64| {
            state = state * 48_271 % 2_147_483_647;
            state % most
        };
        let (mut refused, mut longest) = (0, 0);
        for _ in 0..2_000 {
            let (n, s) = (1 + below(6) as u32, 3 + below(12) as usize);
            let groups = (0..s).map(|_| {
                let possible = (below(64) | below(64)) & first_entrants(n);
                let low = below(2) as u32;
                Group { fixed: possible & below(64) & below(64) & below(64), possible, low, high: low + below(n as u64 - low as u64 + 1) as u32 }
            });
            let groups: Vec<_> = groups.collect();
            let lines = (0..below(20)).map(|_| {
                let code = 1 + below(7) as u32;
                let first = below(s as u64) as usize;
                let count = [0, 2, 2, 3, 3, 3, 3, 2][code as usize];
                Constraint { code, groups: (0..count).map(|i| (first + i * (1 + first % (s / 3))) % s).collect() }
            });
            let model = Model { entrants: n, constraints: lines.collect(), groups };
            let wanted = plainly(model.clone());
            refused += u32::from(wanted.is_none());
            longest = longest.max(wanted.as_ref().map_or(0, Settled::passes));
            assert_eq!(settle(model), wanted);
        }
        assert!((1..2_000).contains(&refused) && longest > 4, "{refused} refused, {longest} passes");
    }

    #[test]
    fn example_a_takes_two_passes() {
        let sheet = "   1   3   2   1\n   2   1   1   1   1   1   1\n   2   2   0   3   1   1   0\n   3   2   1   2\n";
        let settled = settled(sheet).unwrap();
        assert_eq!(settled.passes(), 2);
        assert_eq!(settled.model().groups, [Group { fixed: 0, possible: 3, low: 1, high: 1 }, Group { fixed: 0, possible: 3, low: 1, high: 2 }]);
    }

    #[test]
    fn example_d_is_21() {
        assert_eq!(settled("   1   2   1   0\n   2   1   2   2   1   0\n"), None);
    }

    #[test]
    fn example_e_fixes_one_and_bars_the_other() {
        let settled = settled("   1   2   1   0\n   2   1   0   1   2   1\n").unwrap();
        assert_eq!(settled.passes(), 2);
        assert_eq!(settled.model().groups, [Group { fixed: 1, possible: 1, low: 1, high: 1 }]);
    }

    #[test]
    fn example_i_passes_differ_by_order_and_the_table_does_not() {
        let groups = "   1   1   3   2\n   2   1   0   1   1\n   2   2   0   1   1\n   2   3   0   1   0\n";
        let (first, second) = ("   3   2   1   2\n", "   3   2   2   3\n");
        let one = settled(&format!("{groups}{first}{second}")).unwrap();
        let other = settled(&format!("{groups}{second}{first}")).unwrap();
        assert_eq!((one.passes(), other.passes()), (3, 2));
        assert_eq!(one.model().groups, other.model().groups);
    }

    #[test]
    fn equal_groups_take_each_others_limits() {
        assert_eq!(limits(9, &[(2, 9), (0, 6)], &[(1, &[1, 2])]), Some((vec![(2, 6), (2, 6)], 2)));
        assert_eq!(limits(9, &[(0, 6), (2, 9)], &[(1, &[1, 2])]), Some((vec![(2, 6), (2, 6)], 2)));
    }

    #[test]
    fn within_a_group_the_low_goes_up_and_the_high_down() {
        assert_eq!(limits(9, &[(5, 9), (4, 7)], &[(2, &[1, 2])]), Some((vec![(5, 7), (5, 7)], 2)));
        assert_eq!(limits(9, &[(4, 7), (5, 9)], &[(2, &[1, 2])]), Some((vec![(4, 7), (5, 9)], 1)));
    }

    #[test]
    fn an_intersection_passes_limits_with_both_groups() {
        assert_eq!(limits(9, &[(3, 9), (0, 8), (1, 7)], &[(3, &[1, 2, 3])]), Some((vec![(3, 7), (3, 8), (3, 7)], 2)));
    }

    #[test]
    fn a_difference_passes_limits_with_its_first_group_only() {
        assert_eq!(limits(9, &[(3, 9), (0, 8), (1, 7)], &[(5, &[1, 2, 3])]), Some((vec![(3, 8), (3, 8), (1, 7)], 2)));
    }

    #[test]
    fn a_union_of_two_passes_lows_highs_and_the_sum_of_highs() {
        for code in [4, 6] {
            assert_eq!(limits(9, &[(0, 9), (2, 3), (1, 4)], &[(code, &[1, 2, 3])]), Some((vec![(2, 7), (2, 3), (1, 4)], 2)));
            assert_eq!(limits(9, &[(0, 5), (2, 9), (3, 4)], &[(code, &[1, 2, 3])]), Some((vec![(3, 5), (2, 5), (3, 4)], 2)));
        }
    }

    /// Group 1 is the union of groups 2 to 17.
    const SIXTEEN: (u32, &[usize]) = (6, &[1, 2, 3, 4, 5, 6, 7, 8, 9, 10, 11, 12, 13, 14, 15, 16, 17]);

    #[test]
    fn a_union_of_sixteen_to_the_whole() {
        let mut given = [(0, 1); 17];
        given[0] = (0, 32);
        given[16] = (2, 3);
        let mut wanted = given;
        wanted[0] = (2, 18);
        assert_eq!(limits(32, &given, &[SIXTEEN]), Some((wanted.to_vec(), 2)));
    }

    #[test]
    fn a_union_of_sixteen_to_its_members() {
        let mut given = [(1, 32); 17];
        given[0] = (0, 5);
        assert_eq!(limits(32, &given, &[SIXTEEN]), Some((vec![(1, 5); 17], 2)));
    }

    #[test]
    fn a_sum_of_highs_goes_on_along_the_next_line() {
        let lines: [(u32, &[usize]); 2] = [(4, &[1, 2, 3]), (2, &[4, 1])];
        assert_eq!(limits(9, &[(0, 9), (0, 2), (0, 3), (0, 8)], &lines), Some((vec![(0, 5), (0, 2), (0, 3), (0, 5)], 2)));
    }

    #[test]
    fn limits_alone_give_21() {
        assert_eq!(limits(9, &[(5, 9), (0, 4)], &[(2, &[1, 2])]), None);
        assert_eq!(limits(9, &[(5, 9), (0, 9), (0, 4)], &[(2, &[1, 2]), (2, &[2, 3])]), None);
        assert_eq!(limits(9, &[(6, 9), (0, 2), (0, 3)], &[(4, &[1, 2, 3])]), None);
        assert_eq!(limits(9, &[(5, 9), (0, 2), (0, 3)], &[(4, &[1, 2, 3])]), Some((vec![(5, 5), (0, 2), (0, 3)], 2)));
    }

    #[test]
    fn a_table_that_one_limit_changes_is_22() {
        let lines: [(u32, &[usize]); 1] = [(2, &[1, 2])];
        assert_eq!(Settled::given(sheet(9, &[(5, 7), (4, 7)], &lines)), Err(22));
        assert_eq!(Settled::given(sheet(9, &[(5, 8), (5, 7)], &lines)), Err(22));
        assert!(Settled::given(sheet(9, &[(5, 7), (5, 7)], &lines)).is_ok());
    }

    /// Low from the first of ten groups to the last, high from the last to the first: one line a pass against its order, all lines in one along it.
    #[test]
    fn limits_go_the_length_of_a_chain() {
        let mut given = [(0, 9); 10];
        (given[0].0, given[9].1) = (2, 6);
        let pairs: Vec<[usize; 2]> = (1..10).map(|group| [group, group + 1]).collect();
        let lines: Vec<(u32, &[usize])> = pairs.iter().map(|pair| (2, &pair[..])).collect();
        let backwards: Vec<_> = lines.iter().rev().copied().collect();
        assert_eq!(limits(9, &given, &lines), Some((vec![(2, 6); 10], 10)));
        assert_eq!(limits(9, &given, &backwards), Some((vec![(2, 6); 10], 10)));
    }

    /// Two groups without limits that must not be the same, by the marks of each and the groups in the line's order.
    fn different(f: &str, g: &str, line: &str) -> Model {
        let n = f.len() / 4;
        read(format!("   1{n:4}   2   1\n   2   1   0{n:4}{f}\n   2   2   0{n:4}{g}\n   3   7{line}\n").as_bytes()).unwrap()
    }

    /// The marks that the groups settle with, and the passes.
    fn marks(model: Model) -> Option<([String; 2], u32)> {
        let settled = settle(model)?;
        let mark = |group: &Group, e: u32| format!("{:4}", (group.fixed >> e & 1) + (group.possible >> e & 1));
        let marks = [0, 1].map(|at| (0..settled.model().entrants).map(|e| mark(&settled.model().groups[at], e)).collect());
        Some((marks, settled.passes()))
    }

    #[test]
    fn the_only_one_not_settled_alike_is_settled_the_opposite_way() {
        for line in ["   1   2", "   2   1"] {
            for (f, g, settled_f, settled_g) in [
                ("   2   0   2", "   2   0   1", "   2   0   2", "   2   0   0"),
                ("   2   0   0", "   2   0   1", "   2   0   0", "   2   0   2"),
                ("   1   0   2", "   2   0   2", "   0   0   2", "   2   0   2"),
                ("   2   1   2", "   2   0   2", "   2   2   2", "   2   0   2"),
                ("   2", "   1", "   2", "   0"),
                ("   1", "   0", "   2", "   0"),
            ] {
                assert_eq!(marks(different(f, g, line)), Some(([settled_f.to_string(), settled_g.to_string()], 3)), "{f} {g}");
            }
        }
    }

    #[test]
    fn code_7_does_nothing_else() {
        for (f, g) in [
            // two are not settled alike, each settled in one group; one is open in both; one differs already
            ("   2   0   2", "   2   1   1"),
            ("   2   1   2", "   2   2   1"),
            ("   2   0   1", "   2   0   1"),
            ("   1", "   1"),
            ("   2   0   1", "   0   0   2"),
            ("   2   1   1", "   0   1   1"),
        ] {
            let model = different(f, g, "   1   2");
            assert_eq!(marks(model).unwrap().0, [f, g], "{f} {g}");
        }
    }

    #[test]
    fn all_settled_alike_is_21() {
        for (f, g) in [("   2   0   2", "   2   0   2"), ("   0", "   0"), ("   2", "   2")] {
            assert_eq!(settle(different(f, g, "   1   2")), None, "{f} {g}");
        }
        // alike after the group rule, after a line before it, after a line behind it
        let groups = |marks: &str| format!("   2   1   0   1   2   0\n   2   2   0   1{marks}\n   2   3   0   2   2   1\n");
        assert_eq!(settled(&format!("   1   2   3   1\n{}   3   7   1   2\n", groups("   2   1"))), None);
        assert_eq!(settled(&format!("   1   2   3   2\n{}   3   1   1   3\n   3   7   3   1\n", groups("   1   1"))), None);
        assert_eq!(settled(&format!("   1   2   3   2\n{}   3   7   3   1\n   3   1   1   3\n", groups("   1   1"))), None);
    }

    /// It is no table that a pass would change, and the same with limits that fit would be settled but for the line.
    #[test]
    fn a_table_that_stands_alike_is_22() {
        let mut model = different("   2   0", "   2   0", "   1   2");
        model.groups.iter_mut().for_each(|group| (group.low, group.high) = (1, 1));
        assert_eq!(Settled::given(model.clone()), Err(22));
        model.constraints.clear();
        assert!(Settled::given(model).is_ok());
    }

    #[test]
    fn a_table_that_code_7_changes_is_22() {
        let mut model = different("   2   0", "   2   1", "   2   1");
        (model.groups[0].low, model.groups[0].high, model.groups[1].low) = (1, 1, 1);
        assert_eq!(Settled::given(model.clone()), Err(22));
        let settled = settle(model).unwrap().model().clone();
        assert!(Settled::given(settled).is_ok());
    }

    #[test]
    fn code_7_looks_at_the_newest_table() {
        let groups = "   2   1   0   1   2\n   2   2   0   1   1\n   2   3   0   1   1\n";
        let along = settled(&format!("   1   1   3   2\n{groups}   3   1   1   2\n   3   7   2   3\n")).unwrap();
        let against = settled(&format!("   1   1   3   2\n{groups}   3   7   2   3\n   3   1   1   2\n")).unwrap();
        assert_eq!(along.model().groups, against.model().groups);
        assert_eq!(along.model().groups.iter().map(|group| (group.fixed, group.possible)).collect::<Vec<_>>(), [(1, 1), (1, 1), (0, 0)]);
        assert_eq!((along.passes(), against.passes()), (3, 4));
    }

    /// All marks of two groups of three, without limits: what the words of the request make of them, mark by mark.
    #[test]
    fn code_7_by_the_words_of_the_request() {
        let spelled = |word: u32| vec![word % 3, word / 3 % 3, word / 9];
        let text = |marks: &[u32]| marks.iter().map(|mark| format!("{mark:4}")).collect::<String>();
        for (f, g) in (0..27).flat_map(|f| (0..27).map(move |g| (spelled(f), spelled(g)))) {
            let model = different(&text(&f), &text(&g), "   1   2");
            let left: Vec<usize> = (0..3).filter(|&e| f[e] == 1 || f[e] != g[e]).collect();
            let mut wanted = [f, g];
            if let [alone] = left[..] {
                match [wanted[0][alone], wanted[1][alone]] {
                    [1, 1] => {}
                    [1, settled] => wanted[0][alone] = 2 - settled,
                    [settled, 1] => wanted[1][alone] = 2 - settled,
                    _ => {}
                }
            }
            let settled = marks(model).map(|(marks, _)| marks);
            assert_eq!(settled, (!left.is_empty()).then(|| wanted.map(|marks| text(&marks))));
        }
    }

    const LAST: u64 = 1 << 63;

    /// Entrant 64 is the only one of 64 not settled alike: in one group fixed, barred or open, in the other open.
    #[test]
    fn code_7_with_entrant_64_as_the_only_one_left() {
        for (f, g, settled_f, settled_g) in [(2, 1, 2, 0), (0, 1, 0, 2), (1, 2, 0, 2), (1, 0, 2, 0), (1, 1, 1, 1)] {
            let group =
                |mark: u32| Group { fixed: if mark == 2 { u64::MAX } else { !LAST }, possible: if mark > 0 { u64::MAX } else { !LAST }, low: 0, high: 64 };
            let model = Model { entrants: ENTRANTS, groups: vec![group(f), group(g)], constraints: vec![Constraint { code: 7, groups: vec![0, 1] }] };
            let settled = settle(model).unwrap();
            let marks = [0, 1].map(|at| (settled.model().groups[at].fixed >> 63) + (settled.model().groups[at].possible >> 63));
            assert_eq!(marks, [settled_f, settled_g]);
        }
    }

    #[test]
    fn entrant_64_by_the_group_rule_and_by_lines() {
        let open = Group { fixed: 0, possible: u64::MAX, low: 0, high: 64 };
        let all = Group { fixed: !LAST, low: 64, ..open };
        let none = Group { fixed: !LAST, high: 63, ..open };
        let lines = (6, [2, 0, 1]);
        let model = |groups: [Group; 3]| Model {
            entrants: ENTRANTS,
            groups: groups.to_vec(),
            constraints: vec![Constraint { code: lines.0, groups: lines.1.to_vec() }],
        };
        let settled = settle(model([none, all, open])).unwrap();
        assert_eq!(
            settled.model().groups.iter().map(|group| (group.fixed, group.possible)).collect::<Vec<_>>(),
            [(!LAST, !LAST), (u64::MAX, u64::MAX), (u64::MAX, u64::MAX)]
        );
        let settled = settle(model([none, none, open])).unwrap();
        assert_eq!(settled.model().groups[2], Group { fixed: !LAST, possible: !LAST, low: 63, high: 63 });
        assert!(settle(model([none, all, Group { high: 63, ..open }])).is_none());
    }

    #[test]
    fn fixed_in_f_and_impossible_in_h_is_fixed_in_g() {
        let sheet = "   1   1   3   1\n   2   1   0   1   0\n   2   2   0   1   2\n   2   3   0   1   1\n   3   5   1   2   3\n";
        assert_eq!(settled(sheet).unwrap().model().groups[2].fixed, 1);
    }
}

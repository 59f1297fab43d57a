//! Sheets with lines of code 7, mostly of groups that are settled alike but for a few entrants, and the cases made from them.
use super::calls::settled;
use super::case::Case;
use super::models::{self, ModelCase};
use super::random::Random;
use super::run::{block_case, blocks_case, close_case, with_twins};
use super::sheets::{self, Pair, Sample};
use super::{answers, certificates, combining, filling};
use crate::encode::Encoding;
use crate::fill::{assignment, is_draw};
use crate::model::*;
use crate::settle::settle;
use crate::sheet;
use crate::words::{field_at, to_words, Field, FIRST_LINE, LINE_WORDS};

/// The cases made from one sheet, or from two.
pub fn cases(random: &mut Random) -> Vec<Case> {
    match random.below(100) {
        0 => largest_cases(random),
        1..=7 => (0..3).map(|_| Case::Read { sheet: faulty(random) }).collect(),
        8..=15 => {
            let sevens = random.pick(&[10, 50, 100]);
            combining::cases(random, sevens)
        }
        16..=27 => {
            let pair = pair(random);
            combining::cases_of(random, &pair)
        }
        28..=29 => {
            let model = crowded(random);
            certificates::cases_of(random, &model).into_iter().map(Case::Certificate).collect()
        }
        _ => sheet_cases(random),
    }
}

fn sheet_cases(random: &mut Random) -> Vec<Case> {
    let Sample { sheet, draw } = sample(random);
    let draw = draw.as_deref();
    let mut cases = vec![Case::Read { sheet: sheet.clone() }, Case::Settle { sheet: sheet.clone(), spare: random.pick(&[0, 0, 1]) }];
    for _ in 0..3 {
        cases.push(block_case(random, &sheet));
    }
    if random.chance(20) {
        cases.push(blocks_case(random, &sheet));
        // a call a node: not on the longest sheets
        cases.extend((sheet.len() < 10_000).then(|| Case::Steps { sheet: sheet.clone() }));
    }
    for _ in 0..2 {
        cases.extend(models::case(random, &sheet, draw).map(Case::Model));
        cases.extend(sheet::read(&sheet).map(|model| Case::Model(models::of_model(random, &model, draw))));
    }
    cases.extend(sheet::read(&sheet).ok().and_then(|model| wrong_words(random, &model, draw)).map(Case::Model));
    for _ in 0..2 {
        cases.push(Case::Fill(filling::case(random, sheet.clone(), draw)));
    }
    cases.extend(draw.and_then(|draw| wrong_x(random, &sheet, draw)));
    cases.push(close_case(random, sheet, draw));
    if random.chance(5) {
        return with_twins(random, cases.into_iter().filter(|case| case.sheet().is_some()).take(3).collect());
    }
    cases
}

/// A sheet with lines of code 7.
pub fn sample(random: &mut Random) -> Sample {
    if random.chance(30) {
        return sheets::with_code_7(random);
    }
    let model = near(random);
    let draw = draw(random, &model);
    Sample { sheet: sheet::write(&model), draw }
}

/// A sheet of so many entrants around lines of code 7.
pub fn sample_of(random: &mut Random, entrants: u32) -> Sample {
    let model = near_of(random, entrants);
    let draw = draw(random, &model);
    Sample { sheet: sheet::write(&model), draw }
}

/// Pairs of groups that must not be the same, lines of other codes before, between and after, and now and then more groups.
fn near(random: &mut Random) -> Model {
    let entrants = random.pick(&[1, 1, 2, 3, 3, 4, 6, 32]);
    near_of(random, entrants)
}

/// The same, of so many entrants.
fn near_of(random: &mut Random, entrants: u32) -> Model {
    let mut model = Model { entrants, groups: Vec::new(), constraints: Vec::new() };
    for _ in 0..random.pick(&[1, 1, 1, 2, 3]) {
        let (f, g) = (model.groups.len(), model.groups.len() + 1);
        model.groups.extend(two_groups(random, entrants));
        model.constraints.push(Constraint { code: 7, groups: if random.chance(50) { vec![f, g] } else { vec![g, f] } });
    }
    if random.chance(30) {
        model.groups.extend(two_groups(random, entrants));
    }
    for _ in 0..random.pick(&[0, 0, 0, 1, 2, 4]) {
        let at = random.below(model.constraints.len() + 1);
        model.constraints.extend(sheets::line(random, model.groups.len(), 10));
        model.constraints[at..].rotate_right(1);
    }
    let style = random.pick(&[Limits::Loose, Limits::Tight, Limits::Counted, Limits::Any]);
    model.groups.iter_mut().for_each(|group| style.set(random, entrants, group));
    model
}

/// Two groups with the same marks but for some entrants: none, one or two, or as many as it comes.
fn two_groups(random: &mut Random, entrants: u32) -> [Group; 2] {
    let mut marks: Vec<[u32; 2]> = (0..entrants).map(|_| random.pick(&[[0, 0], [2, 2]])).collect();
    let some = match random.below(10) {
        0 => 0,
        1..=4 => 1,
        5 | 6 => 2,
        _ => 2 * entrants,
    };
    for _ in 0..some {
        let any = random.below(entrants as usize);
        let at = random.pick(&[0, entrants as usize - 1, any, any]);
        marks[at] = random.pick(&[[1, 1], [1, 1], [1, 1], [0, 1], [1, 0], [2, 1], [1, 2]]);
    }
    if random.chance(8) {
        marks[random.below(entrants as usize)] = random.pick(&[[0, 2], [2, 0]]);
    }
    let set = |of: usize, least: u32| marks.iter().rev().fold(0, |set, mark| set << 1 | u64::from(mark[of] >= least));
    [0, 1].map(|of| Group { fixed: set(of, 2), possible: set(of, 1), low: 0, high: entrants })
}

/// Limits of a group by its marks.
#[derive(Clone, Copy)]
enum Limits {
    Loose,
    /// As many as are fixed, up to as many as are possible: the group rule changes nothing.
    Tight,
    /// One more than that, and one fewer: a counter.
    Counted,
    /// The open ones are all fixed, or all barred.
    Closing,
    Any,
}

impl Limits {
    fn set(self, random: &mut Random, entrants: u32, group: &mut Group) {
        let (fixed, possible) = (group.fixed.count_ones(), group.possible.count_ones());
        (group.low, group.high) = match self {
            Limits::Tight => (fixed, possible),
            Limits::Counted if fixed + 2 <= possible => (fixed + 1, possible - 1),
            Limits::Closing => random.pick(&[(0, fixed), (possible, entrants)]),
            Limits::Any => return random.pick(&[Limits::Loose, Limits::Tight, Limits::Counted, Limits::Closing]).set(random, entrants, group),
            _ => (0, entrants),
        };
    }
}

/// A draw of a model, where a few tries find one.
fn draw(random: &mut Random, model: &Model) -> Option<Vec<u64>> {
    let settled = settle(model.clone())?;
    let sets = |random: &mut Random| settled.model().groups.iter().map(|group| group.fixed | group.open() & random.set(model.entrants, 50)).collect();
    (0..30).map(|_| sets(random)).find(|sets: &Vec<u64>| is_draw(model, sets))
}

/// The lines of code 7 mostly in one model, the others in the other, and the marks shared out; groups that are a draw, or one but for those lines.
fn pair(random: &mut Random) -> Pair {
    let model = near(random);
    let sets = if random.chance(50) { draw(random, &model) } else { alike(random, &model) };
    let (sevens, others) = model.constraints.iter().cloned().partition(|line| random.chance(if line.code == 7 { 80 } else { 20 }));
    let shares: Vec<[u64; 2]> = model.groups.iter().map(|_| [0, 1].map(|_| random.set(model.entrants, 70))).collect();
    let mut models = [sevens, others].map(|constraints| Model { constraints, ..model.clone() });
    for (index, share) in shares.iter().enumerate() {
        models[0].groups[index].fixed &= share[0];
        models[1].groups[index].fixed &= share[1] | !share[0];
        models[0].groups[index].possible |= model.everyone() & share[1];
        models[1].groups[index].possible |= model.everyone() & !share[1];
    }
    random.shuffle(&mut models);
    Pair { models, draw: sets }
}

/// A draw of the model without its lines of code 7 in which the groups of one of them are the same, where a few tries find one.
fn alike(random: &mut Random, model: &Model) -> Option<Vec<u64>> {
    let (sevens, others): (Vec<Constraint>, Vec<Constraint>) = model.constraints.iter().cloned().partition(|line| line.code == 7);
    let without = Model { constraints: others, ..model.clone() };
    let line = random.pick(&sevens);
    (0..5).filter_map(|_| Some(with_same(&without, &draw(random, &without)?, &line))).find(|sets| is_draw(&without, sets))
}

/// The sets with those of a line's two groups made the same, as far as their marks allow.
fn with_same(model: &Model, sets: &[u64], line: &Constraint) -> Vec<u64> {
    let (f, g) = (line.groups[0], line.groups[1]);
    let mut same = sets.to_vec();
    same[f] = model.groups[f].fixed | model.groups[g].fixed | sets[g] & model.groups[f].possible;
    same[g] = same[f];
    same
}

/// A closing with one X wrong, unsaid or with no X at all, or with two groups the same that must not be.
pub fn wrong_x(random: &mut Random, sheet: &[u8], draw: &[u64]) -> Option<Case> {
    let settled = settled(sheet).ok()?;
    let (model, encoding) = (settled.model(), Encoding::of(&settled));
    let lines: Vec<usize> = (0..model.constraints.len()).filter(|&index| encoding.each_x(index).next().is_some()).collect();
    if lines.is_empty() {
        return None;
    }
    let line = random.pick(&lines);
    let x: Vec<usize> = encoding.each_x(line).map(|(_, x)| x as usize - 1).collect();
    let mut marks = assignment(&encoding, draw);
    let at = random.pick(&x);
    match random.below(6) {
        0..=2 => marks[at] = 3 - marks[at],
        3 => marks[at] = random.pick(&[0, 3, 255]),
        4 => marks.truncate(encoding.variables - lines.iter().map(|&line| encoding.each_x(line).count()).sum::<usize>()),
        _ => marks = assignment(&encoding, &with_same(model, draw, &model.constraints[line])),
    }
    Some(Case::Close { sheet: sheet.to_vec(), closed: true, marks, room: 256 })
}

/// A case on a model's words with one changed in a line of code 7: its code, its count, a group, or what stands past its groups.
fn wrong_words(random: &mut Random, model: &Model, draw: Option<&[u64]>) -> Option<ModelCase> {
    let sevens: Vec<usize> = (0..model.constraints.len()).filter(|&index| model.constraints[index].code == 7).collect();
    if sevens.is_empty() {
        return None;
    }
    let mut words = to_words(model, random.pick(&[0, 1]));
    let place = FIRST_LINE + LINE_WORDS * random.pick(&sevens) + random.below(5);
    words[place] = match field_at(place).0 {
        Field::Code => random.pick(&[0, 8, 8, 1 << 32 | 7]),
        Field::Count => random.pick(&[2, 16, 17, u64::MAX]),
        _ => random.pick(&[0, 1, 2, model.groups.len() as u64 + 1]),
    };
    Some(models::of_words(random, model, words, Some(place), draw))
}

/// A sheet with one fault in a line of code 7, or with another code in its place.
fn faulty(random: &mut Random) -> Vec<u8> {
    let model = near(random);
    let sheet = sheet::write(&model);
    let mut lines: Vec<Vec<u8>> = sheet.split(|&byte| byte == b'\n').map(<[u8]>::to_vec).collect();
    let sevens: Vec<usize> = (0..lines.len()).filter(|&at| lines[at].starts_with(b"   3   7")).collect();
    let line = &mut lines[random.pick(&sevens)];
    let group = 8 + 4 * random.below(2);
    match random.below(8) {
        0 => drop(line.splice(4..8, *b"   0")),
        1 => drop(line.splice(4..8, *b"   8")),
        2 => line.truncate(random.pick(&[8, 12])),
        3 => line.extend_from_within(group..group + 4),
        4 => drop(line.splice(8..8, *b"   2")),
        5 => drop(line.splice(group..group + 4, *b"   0")),
        6 => drop(line.splice(group..group + 4, format!("{:4}", model.groups.len() + 1).into_bytes())),
        _ => line.copy_within(8..12, 12),
    }
    lines.join(&b'\n')
}

/// Groups of one place, no two the same; mostly more groups than entrants.
fn crowded(random: &mut Random) -> Model {
    let entrants = random.from_to(2, 3) as u32;
    let many = entrants as usize + random.pick(&[0, 1, 1, 1]);
    let group = Group { fixed: 0, possible: first_entrants(entrants), low: 1, high: 1 };
    let mut constraints: Vec<Constraint> = (0..many).flat_map(|f| (f + 1..many).map(move |g| Constraint { code: 7, groups: vec![f, g] })).collect();
    random.shuffle(&mut constraints);
    Model { entrants, groups: vec![group; many], constraints }
}

/// The cases with as many variables as 32 entrants can have: a ring of groups, each unlike the next.
fn largest_cases(random: &mut Random) -> Vec<Case> {
    let Sample { sheet, draw } = largest(random);
    let settled = settled(&sheet).expect("a sheet that settles");
    let encoding = Encoding::of(&settled);
    let marks = assignment(&encoding, draw.as_deref().unwrap_or_default());
    let many = random.pick(&[MOST_VARIABLES, MOST_VARIABLES, MOST_VARIABLES + 1]);
    vec![
        Case::Settle { sheet: sheet.clone(), spare: 0 },
        Case::Count { sheet: sheet.clone() },
        Case::Block { sheet: sheet.clone(), block: 0, spare: 0 },
        Case::Block { sheet: sheet.clone(), block: encoding.blocks() as u32, spare: random.pick(&[0, 0, 1]) },
        Case::Fill(filling::case(random, sheet.clone(), draw.as_deref())),
        Case::Close { sheet, closed: true, marks, room: 256 },
        Case::Lines { marks: vec![0; many], lines: (0..3).map(|_| answers::line(random, many)).collect() },
    ]
}

fn largest(random: &mut Random) -> Sample {
    let n = NARROW_ENTRANTS;
    let group = Group { fixed: 0, possible: first_entrants(n), low: 1, high: n - 1 };
    let many = GROUPS as usize;
    let ring = |f: usize| Constraint { code: 7, groups: vec![f, (f + 1) % many] };
    let model = Model { entrants: n, groups: vec![group; many], constraints: (0..LINES as usize).map(ring).collect() };
    let draw = (0..many).map(|at| random.set(n, 50) & !0b111 | if at % 2 == 0 { 0b001 } else { 0b010 }).collect();
    Sample { sheet: sheet::write(&model), draw: Some(draw) }
}

#[cfg(test)]
mod tests {
    use super::super::answers::tests::{match_one_for_one, sets};
    use super::super::code_7::has_x;
    use super::*;
    use crate::settle::Settled;

    /// Small sheets with lines of code 7, all of whose sets can be gone through.
    fn small(random: &mut Random) -> Model {
        loop {
            let model = if random.chance(50) { near(random) } else { sheet::read(&sheets::with_code_7(random).sheet).unwrap() };
            if model.entrants as usize * model.groups.len() <= 10 && model.constraints.iter().any(|line| line.code == 7) {
                return model;
            }
        }
    }

    #[test]
    fn draws_and_satisfying_assignments_match_one_for_one() {
        let mut random = Random(51);
        let (mut drawn, mut counted, mut with_x, mut out) = (0, 0, 0, 0);
        for _ in 0..2_000 {
            let model = small(&mut random);
            let bits = model.entrants * model.groups.len() as u32;
            let draws: Vec<Vec<u64>> = (0..1 << bits).map(|word| sets(&model, word)).filter(|sets| is_draw(&model, sets)).collect();
            let Some(settled) = settle(model) else {
                assert!(draws.is_empty(), "21 for a sheet with a draw");
                out += 1;
                continue;
            };
            let encoding = Encoding::of(&settled);
            drawn += draws.len();
            if match_one_for_one(&encoding, &draws, 14) {
                counted += 1;
                with_x += usize::from(has_x(&encoding));
            }
        }
        assert!(drawn > 1_000 && counted > 1_000 && with_x > 300 && out > 100, "{drawn} draws, {counted} sheets, {with_x} with X, {out} out");
    }

    #[test]
    fn the_header_counts_what_the_blocks_hold() {
        let mut random = Random(52);
        for _ in 0..2_000 {
            let Ok(settled) = settled(&sample(&mut random).sheet) else { continue };
            let encoding = Encoding::of(&settled);
            let (mut clauses, mut highest) = (0, 0);
            for block in 1..=encoding.blocks() {
                encoding.each_clause(block, &mut |clause| {
                    assert!(!clause.is_empty());
                    clauses += 1;
                    highest = clause.iter().fold(highest, |highest, literal| highest.max(literal.unsigned_abs() as usize));
                });
            }
            assert_eq!(clauses, encoding.clauses());
            assert!(highest <= encoding.variables);
        }
    }

    #[test]
    fn every_order_of_the_lines_settles_alike() {
        let mut random = Random(53);
        for _ in 0..3_000 {
            let model = near(&mut random);
            let mut other = model.clone();
            random.shuffle(&mut other.constraints);
            let groups = |model: Model| settle(model).map(|settled| settled.model().groups.clone());
            assert_eq!(groups(model), groups(other));
        }
    }

    /// All consistent groups within one.
    fn groups_within(entrants: u32, group: &Group) -> Vec<Group> {
        let sets = || 0..1u64 << entrants;
        let marks = sets().flat_map(|fixed| sets().map(move |possible| (fixed, possible)));
        let marks = marks.filter(|(fixed, possible)| group.fixed & !fixed == 0 && fixed & !possible == 0 && possible & !group.possible == 0);
        let limits = |(fixed, possible)| (group.low..=group.high).flat_map(move |low| (low..=group.high).map(move |high| Group { fixed, possible, low, high }));
        marks.flat_map(limits).collect()
    }

    fn is_within(one: &Group, other: &Group) -> bool {
        other.fixed & !one.fixed == 0 && one.possible & !other.possible == 0 && one.low >= other.low && one.high <= other.high
    }

    /// All tables of two groups within a sheet's: those that stand as they are, are within the settled one, which is among them; 21 where there is none.
    #[test]
    fn the_settled_table_is_the_widest_that_stands() {
        let mut random = Random(55);
        let (mut settles, mut out) = (0, 0);
        while settles + out < 600 {
            let model = near(&mut random);
            if model.entrants > 2 || model.groups.len() > 2 {
                continue;
            }
            let [f, g] = [0, 1].map(|at| groups_within(model.entrants, &model.groups[at]));
            let tables = f.iter().flat_map(|&f| g.iter().map(move |&g| vec![f, g]));
            let stands = |groups: &Vec<Group>| Settled::given(Model { groups: groups.clone(), ..model.clone() }).is_ok();
            let standing: Vec<Vec<Group>> = tables.filter(stands).collect();
            match settle(model.clone()) {
                Some(settled) => {
                    let widest = &settled.model().groups;
                    assert!(standing.contains(widest));
                    assert!(standing.iter().all(|groups| groups.iter().zip(widest).all(|(one, other)| is_within(one, other))));
                    settles += 1;
                }
                None => {
                    assert!(standing.is_empty());
                    out += 1;
                }
            }
        }
        assert!(settles > 100 && out > 50, "{settles} settle, {out} do not");
    }

    #[test]
    fn the_largest_has_as_many_variables_as_32_entrants_can_have() {
        let Sample { sheet, draw } = largest(&mut Random(54));
        let settled = settled(&sheet).unwrap();
        assert_eq!(Encoding::of(&settled).variables, NARROW_VARIABLES);
        assert!(is_draw(settled.model(), &draw.unwrap()));
    }
}

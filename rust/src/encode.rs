//! The clauses of a settled table, block by block: numbering, counters node by node, line clauses.
use crate::clauses::Literal;
use crate::model::{Constraint, Group, Model, ENTRANTS, UNION_MAX};
use crate::settle::Settled;

/// Where the variables of a settled table stand, and its blocks.
pub struct Encoding<'a> {
    pub settled: &'a Settled,
    /// The variable of each group's first open entrant.
    first: Vec<i32>,
    /// Each group's first counter output.
    outputs: Vec<i32>,
    /// Each line's first X; only lines of code 7 have any.
    differences: Vec<i32>,
    /// How many blocks of nodes stand before those of each group, and in all.
    nodes: Vec<usize>,
    /// The number of variables, V.
    pub variables: usize,
}

/// What a block holds: the header, a node of a group's tree, counted from 0 in the tree's order, or a line.
#[derive(Clone, Copy, Debug, PartialEq, Eq)]
pub enum Part {
    Header,
    Node { group: usize, at: usize },
    Line(usize),
}

/// What a group's counter says of its open entrants: at least `low`, at most `high` of `size`.
#[derive(Clone, Copy)]
struct Counter {
    size: u32,
    low: u32,
    high: u32,
}

impl Counter {
    /// In a settled group nothing is cut off.
    fn of(group: &Group) -> Option<Counter> {
        let less_fixed = |limit: u32| limit.saturating_sub(group.fixed.count_ones());
        let counter = Counter { size: group.open().count_ones(), low: less_fixed(group.low), high: less_fixed(group.high) };
        (counter.low > 0 || counter.high < counter.size).then_some(counter)
    }

    fn clauses(&self) -> usize {
        tree_clauses(self.size) + (self.low + self.size - self.high) as usize
    }
}

/// The nodes of size 2 or more in the tree of a group, each a block; none without a counter.
fn node_blocks(group: &Group) -> usize {
    Counter::of(group).map_or(0, |counter| counter.size.saturating_sub(1) as usize)
}

/// The blocks of a model after the header, settled or not: a node each, then a line each.
pub fn blocks_of(model: &Model) -> usize {
    model.groups.iter().map(node_blocks).sum::<usize>() + model.constraints.len()
}

/// The sizes of a node's halves.
const fn halves(size: u32) -> (u32, u32) {
    (size / 2, size - size / 2)
}

/// T of the paper.
pub fn tree_clauses(size: u32) -> usize {
    if size < 2 {
        return 0;
    }
    let (a, b) = halves(size);
    tree_clauses(a) + tree_clauses(b) + 2 * (a as usize + 1) * (b as usize + 1) - 2
}

/// A of the paper.
pub const fn tree_outputs(size: u32) -> usize {
    if size < 2 {
        return 0;
    }
    let (a, b) = halves(size);
    size as usize + tree_outputs(a) + tree_outputs(b)
}

/// A of each size that a tree can have.
const OUTPUTS: [i32; ENTRANTS as usize + 1] = {
    let mut outputs = [0; ENTRANTS as usize + 1];
    let mut size = 0;
    while size < outputs.len() {
        outputs[size] = tree_outputs(size as u32) as i32;
        size += 1;
    }
    outputs
};

impl<'a> Encoding<'a> {
    pub fn of(settled: &'a Settled) -> Encoding<'a> {
        let Model { groups, constraints, .. } = settled.model();
        let mut next = 1;
        let mut number_on = |many: usize| {
            let first = next;
            next += many as i32;
            first
        };
        let first = groups.iter().map(|group| number_on(group.open().count_ones() as usize)).collect();
        let outputs = groups.iter().map(|group| number_on(Counter::of(group).map_or(0, |c| OUTPUTS[c.size as usize] as usize))).collect();
        let differences = constraints.iter().map(|line| number_on(undecided(groups, line).count_ones() as usize)).collect();
        let mut nodes = vec![0];
        groups.iter().for_each(|group| nodes.push(nodes[nodes.len() - 1] + node_blocks(group)));
        Encoding { settled, first, outputs, differences, nodes, variables: next as usize - 1 }
    }

    /// How many blocks there are after the header, which is the number of the last.
    pub fn blocks(&self) -> usize {
        self.node_blocks() + self.settled.model().constraints.len()
    }

    /// The blocks of nodes, all groups together; the lines' blocks follow.
    pub fn node_blocks(&self) -> usize {
        self.nodes[self.nodes.len() - 1]
    }

    /// The blocks of a group's nodes, none for a group without counter; the last is the root's.
    pub fn group_blocks(&self, group: usize) -> std::ops::RangeInclusive<usize> {
        self.nodes[group] + 1..=self.nodes[group + 1]
    }

    /// What a block that there is holds.
    pub fn part(&self, block: usize) -> Part {
        match block.checked_sub(1) {
            None => Part::Header,
            Some(index) if index < self.node_blocks() => {
                let group = self.nodes.partition_point(|&before| before <= index) - 1;
                Part::Node { group, at: index - self.nodes[group] }
            }
            Some(index) => Part::Line(index - self.node_blocks()),
        }
    }

    /// The number of clauses, C, by the paper's formulas.
    pub fn clauses(&self) -> usize {
        let model = self.settled.model();
        let counters: usize = model.groups.iter().filter_map(Counter::of).map(|counter| counter.clauses()).sum();
        counters + model.constraints.iter().map(|line| self.line_clauses(line)).sum::<usize>()
    }

    /// The clauses of a line that are not left out, over all entrants.
    fn line_clauses(&self, line: &Constraint) -> usize {
        let model = self.settled.model();
        let kept = |clause: &[Literal], entrants: u64| {
            let left_out = clause.iter().fold(0, |set, literal| set | literal.holds(&model.groups));
            (entrants & !left_out).count_ones() as usize
        };
        let mut many = 0;
        line.each_clause(|clause| many += kept(clause, model.everyone()));
        match undecided(&model.groups, line) {
            0 => many,
            entrants => 1 + line.ties().iter().map(|(literals, _)| kept(literals, entrants)).sum::<usize>(),
        }
    }

    /// Calls `visit` with each clause of a block from 1 on, in order.
    pub fn each_clause(&self, block: usize, visit: &mut impl FnMut(&[i32])) {
        match self.part(block) {
            Part::Header => {}
            Part::Node { group, at } => self.node_clauses(group, at, visit),
            Part::Line(index) => match &self.settled.model().constraints[index] {
                line if line.code == 7 => self.each_difference_clause(index, visit),
                line => self.each_line_clause(line, visit),
            },
        }
    }

    /// The clauses of a node, and after the root's the units.
    fn node_clauses(&self, group: usize, at: usize, visit: &mut impl FnMut(&[i32])) {
        let Some(counter) = Counter::of(&self.settled.model().groups[group]) else { return };
        let node = Node::at(Child { first: self.first[group], size: counter.size as i32 }, self.outputs[group], at as i32);
        node.each_clause(visit);
        if at as u32 + 2 == counter.size {
            let output = |index: u32| node.own + index as i32 - 1;
            (1..=counter.low).for_each(|index| visit(&[output(index)]));
            (counter.high + 1..=counter.size).for_each(|index| visit(&[-output(index)]));
        }
    }

    fn each_line_clause(&self, line: &Constraint, visit: &mut impl FnMut(&[i32])) {
        let model = self.settled.model();
        for entrant in 0..model.entrants {
            line.each_clause(|clause| {
                let mut kept = [0; UNION_MAX as usize + 1];
                if let Some(many) = self.keep(clause, entrant, &mut kept) {
                    visit(&kept[..many]);
                }
            });
        }
    }

    /// By entrant the clauses that tie an X, then the clause of all X.
    fn each_difference_clause(&self, index: usize, visit: &mut impl FnMut(&[i32])) {
        let ties = self.settled.model().constraints[index].ties();
        let mut all = [0; ENTRANTS as usize];
        let mut different = 0;
        for (entrant, x) in self.each_x(index) {
            for (literals, positive) in &ties {
                let mut kept = [0; 3];
                if let Some(many) = self.keep(literals, entrant, &mut kept) {
                    kept[many] = if *positive { x } else { -x };
                    visit(&kept[..=many]);
                }
            }
            all[different] = x;
            different += 1;
        }
        if different > 0 {
            visit(&all[..different]);
        }
    }

    /// Keeps the literals of a clause that are not settled false for an entrant, and gives their number; none where one is settled true.
    fn keep(&self, clause: &[Literal], entrant: u32, kept: &mut [i32]) -> Option<usize> {
        let groups = &self.settled.model().groups;
        let here = |set: u64| set >> entrant & 1 == 1;
        let mut many = 0;
        for literal in clause {
            if here(literal.holds(groups)) {
                return None;
            }
            if !here(literal.fails(groups)) {
                let variable = self.variable(literal.group, entrant);
                kept[many] = if literal.positive { variable } else { -variable };
                many += 1;
            }
        }
        Some(many)
    }

    /// The entrants of a line who have an X, in rising order, and their X.
    pub fn each_x(&self, index: usize) -> impl Iterator<Item = (u32, i32)> {
        let model = self.settled.model();
        let entrants = undecided(&model.groups, &model.constraints[index]);
        (0..model.entrants).filter(move |e| entrants >> e & 1 == 1).zip(self.differences[index]..)
    }

    /// The variable of an entrant who is open in a group.
    pub fn variable(&self, group: usize, entrant: u32) -> i32 {
        let before = self.settled.model().groups[group].open() & ((1 << entrant) - 1);
        self.first[group] + before.count_ones() as i32
    }

    /// A counter's first output and its number of leaves, none where the group has no counter.
    pub fn counter_start(&self, group: usize) -> Option<(i32, u32)> {
        let counter = Counter::of(&self.settled.model().groups[group])?;
        Some((self.outputs[group], counter.size))
    }
}

/// The entrants of a line who have an X; only lines of code 7 have any.
fn undecided(groups: &[Group], line: &Constraint) -> u64 {
    line.different(groups).map_or(0, |pair| pair.undecided())
}

/// Outputs, or leaves, numbered on from the first.
#[derive(Clone, Copy, Debug, PartialEq, Eq)]
struct Child {
    first: i32,
    size: i32,
}

impl Child {
    /// The leaves of both halves.
    fn halves(self) -> (Child, Child) {
        let (a, b) = halves(self.size as u32);
        (Child { size: a as i32, ..self }, Child { first: self.first + a as i32, size: b as i32 })
    }

    /// The outputs of a half with these leaves, whose tree is numbered on from `next`: its root has the last of them, and a leaf is its own.
    fn outputs(self, next: i32) -> Child {
        match self.size {
            1 => self,
            size => Child { first: next + OUTPUTS[size as usize] - size, size },
        }
    }
}

/// A node of a tree: the outputs of its halves and its own first one.
#[derive(Clone, Copy, Debug, PartialEq, Eq)]
struct Node {
    c: Child,
    d: Child,
    own: i32,
}

impl Node {
    /// The node that stands at a place, from 0, in the order of a tree over these leaves, numbered on from `next`: a tree of m leaves has m - 1.
    fn at(leaves: Child, next: i32, at: i32) -> Node {
        let (left, right) = leaves.halves();
        let behind = next + OUTPUTS[left.size as usize];
        let own = behind + OUTPUTS[right.size as usize];
        match at {
            _ if at < left.size - 1 => Node::at(left, next, at),
            _ if at < leaves.size - 2 => Node::at(right, behind, at - (left.size - 1)),
            _ => Node { c: left.outputs(next), d: right.outputs(behind), own },
        }
    }

    fn each_clause(&self, visit: &mut impl FnMut(&[i32])) {
        for p in 0..=self.c.size {
            for q in 0..=self.d.size {
                self.clauses_at(p, q, visit);
            }
        }
    }

    /// The up clause, then the down clause, at (p, q): true and false put in for the outer indexes.
    fn clauses_at(&self, p: i32, q: i32, visit: &mut impl FnMut(&[i32])) {
        let (a, b) = (self.c.size, self.d.size);
        let (c, d, n) = (|i| self.c.first + i - 1, |i| self.d.first + i - 1, |i| self.own + i - 1);
        match (p, q) {
            (0, 0) => {}
            (0, _) => visit(&[-d(q), n(q)]),
            (_, 0) => visit(&[-c(p), n(p)]),
            _ => visit(&[-c(p), -d(q), n(p + q)]),
        }
        match (p == a, q == b) {
            (true, true) => {}
            (true, false) => visit(&[d(q + 1), -n(p + q + 1)]),
            (false, true) => visit(&[c(p + 1), -n(p + q + 1)]),
            (false, false) => visit(&[c(p + 1), d(q + 1), -n(p + q + 1)]),
        }
    }
}

#[cfg(test)]
mod tests {
    use super::*;
    use crate::model::{first_entrants, GROUPS, LINES, MOST_VARIABLES, NARROW_ENTRANTS, WIDE_GROUPS};
    use crate::settle::settle;
    use crate::steps::{tree, Outputs};

    #[test]
    fn examples_g_and_h() {
        assert_eq!((tree_clauses(3), tree_outputs(3)), (16, 5));
        assert_eq!((tree_clauses(32), tree_outputs(32)), (1_312, 160));
        assert_eq!((tree_clauses(64), tree_outputs(64)), (4_800, 384));
    }

    /// The clauses of a node.
    fn clauses(node: &Node) -> Vec<Vec<i32>> {
        let mut clauses = Vec::new();
        node.each_clause(&mut |clause| clauses.push(clause.to_vec()));
        clauses
    }

    #[test]
    fn each_node_has_the_clauses_of_the_printed_steps() {
        for size in 2..=ENTRANTS {
            let (leaf, first) = (100, 1_000);
            let steps = tree(Outputs { first: leaf, size }, first);
            assert_eq!(steps.len(), size as usize - 1);
            let mut many = 0;
            for (at, step) in steps.iter().enumerate() {
                let clauses = clauses(&Node::at(Child { first: leaf, size: size as i32 }, first, at as i32));
                assert_eq!(clauses, step.places().flat_map(|(p, q)| step.clauses(p, q)).collect::<Vec<_>>(), "node {at} of a tree of {size}");
                many += clauses.len();
            }
            assert_eq!(many, tree_clauses(size));
        }
    }

    /// A tree at one go, as a group's one block had it before; gives the root.
    fn whole_tree(leaves: Child, next: &mut i32, all: &mut Vec<Vec<i32>>) -> Child {
        if leaves.size < 2 {
            return leaves;
        }
        let (left, right) = leaves.halves();
        let (c, d) = (whole_tree(left, next, all), whole_tree(right, next, all));
        let node = Node { c, d, own: *next };
        *next += leaves.size;
        all.extend(clauses(&node));
        Child { first: node.own, size: leaves.size }
    }

    #[test]
    fn the_nodes_of_a_tree_are_the_tree_at_one_go() {
        for size in 2..=ENTRANTS as i32 {
            let (leaves, mut next, mut all) = (Child { first: 7, size }, 500, Vec::new());
            let root = whole_tree(leaves, &mut next, &mut all);
            assert_eq!((root.first, next), (500 + OUTPUTS[size as usize] - size, 500 + OUTPUTS[size as usize]));
            let nodes: Vec<Vec<i32>> = (0..size - 1).flat_map(|at| clauses(&Node::at(leaves, 500, at))).collect();
            assert_eq!(nodes, all, "tree of {size}");
        }
    }

    /// Groups with all entrants open and a counter each, in a ring of lines of code 7.
    fn ring(entrants: u32, groups: u32) -> Settled {
        let group = Group { fixed: 0, possible: first_entrants(entrants), low: 1, high: entrants - 1 };
        let line = |first: u32| Constraint { code: 7, groups: [first, first + 1].map(|at| (at % groups) as usize).to_vec() };
        settle(Model { entrants, groups: vec![group; groups as usize], constraints: (0..LINES).map(line).collect() }).unwrap()
    }

    #[test]
    fn as_many_variables_and_blocks_as_there_can_be() {
        for (entrants, groups, variables, blocks) in [(NARROW_ENTRANTS, GROUPS, 57_344, 8_192), (ENTRANTS, WIDE_GROUPS, MOST_VARIABLES, 6_304)] {
            let settled = ring(entrants, groups);
            let encoding = Encoding::of(&settled);
            assert_eq!((encoding.variables, encoding.blocks(), blocks_of(settled.model())), (variables, blocks, blocks));
        }
    }

    /// Trees of 3 and 2 with groups without a counter before, between and after, and two lines.
    #[test]
    fn the_part_of_each_block() {
        let group = |open: u64, low: u32, high: u32| Group { fixed: 0, possible: open, low, high };
        let groups = vec![group(0, 0, 0), group(7, 1, 3), group(7, 0, 3), group(6, 1, 1), group(1, 0, 1)];
        let line = |code: u32, groups: [usize; 2]| Constraint { code, groups: groups.to_vec() };
        let model = Model { entrants: 3, groups, constraints: vec![line(7, [1, 2]), line(7, [2, 4])] };
        let settled = settle(model).unwrap();
        let encoding = Encoding::of(&settled);
        let node = |group: usize, at: usize| Part::Node { group, at };
        let wanted = [Part::Header, node(1, 0), node(1, 1), node(3, 0), Part::Line(0), Part::Line(1)];
        assert_eq!((0..=encoding.blocks()).map(|block| encoding.part(block)).collect::<Vec<_>>(), wanted);
        assert_eq!((0..5).map(|group| encoding.group_blocks(group).count()).collect::<Vec<_>>(), [0, 2, 0, 1, 0]);
        assert_eq!(encoding.group_blocks(3), 3..=3);
    }

    /// A tree of one, or of none, has no block; limits below the fixed are cut off.
    #[test]
    fn the_blocks_of_a_model_that_is_not_settled() {
        let blocks = |fixed: u64, possible: u64, low: u32, high: u32| {
            let group = Group { fixed, possible, low, high };
            blocks_of(&Model { entrants: 64, groups: vec![group; 2], constraints: vec![Constraint { code: 1, groups: vec![0, 1] }] })
        };
        assert_eq!(blocks(0, u64::MAX, 0, 64), 1);
        assert_eq!(blocks(0, u64::MAX, 1, 64), 127);
        assert_eq!(blocks(0, u64::MAX, 0, 63), 127);
        assert_eq!(blocks(1, u64::MAX, 1, 63), 1 + 2 * 62);
        assert_eq!(blocks(1, 3, 2, 2), 1);
        assert_eq!(blocks(0, 0, 1, 1), 1);
        assert_eq!(blocks(7, 31, 0, 2), 1 + 2);
        assert_eq!(blocks(7, 7, 0, 2), 1);
    }
}

//! A counter's clauses by the steps of document 001, section 6.4: form both clauses, put in true and false for the outer indexes, then drop.
use crate::model::Group;

/// Whose output a literal names: C^1, C^2 and N of document 001, which document 01 calls C, D and N.
#[derive(Clone, Copy, Debug, PartialEq, Eq)]
pub enum Set {
    C,
    D,
    N,
}

/// A literal as it is printed: an output, by its set and its index, and the sign.
#[derive(Clone, Copy, Debug, PartialEq, Eq)]
pub struct Printed {
    pub set: Set,
    pub index: u32,
    pub positive: bool,
}

/// The first step: both clauses at p and q, up (-C_p -D_q N_(p+q)) and then down (C_(p+1) D_(q+1) -N_(p+q+1)).
pub fn form(p: u32, q: u32) -> [[Printed; 3]; 2] {
    let yes = |set, index| Printed { set, index, positive: true };
    let not = |set, index| Printed { set, index, positive: false };
    let up = [not(Set::C, p), not(Set::D, q), yes(Set::N, p + q)];
    let down = [yes(Set::C, p + 1), yes(Set::D, q + 1), not(Set::N, p + q + 1)];
    [up, down]
}

/// What stands for a printed literal once true and false are put in.
#[derive(Clone, Copy, Debug, PartialEq, Eq)]
pub enum Value {
    True,
    False,
    Literal(i32),
}

impl Value {
    fn negated(self) -> Value {
        match self {
            Value::True => Value::False,
            Value::False => Value::True,
            Value::Literal(literal) => Value::Literal(-literal),
        }
    }
}

/// Outputs with variables numbered on from the first; their number is the size.
#[derive(Clone, Copy, Debug, PartialEq, Eq)]
pub struct Outputs {
    pub first: i32,
    pub size: u32,
}

impl Outputs {
    /// The output of an index: "C^1_0 = C^2_0 = N_0 = 1, and C^1_{|C^1|+1} = C^2_{|C^2|+1} = N_{|M|+1} = 0".
    fn value(&self, index: u32) -> Value {
        match index {
            0 => Value::True,
            _ if index > self.size => Value::False,
            _ => Value::Literal(self.first + index as i32 - 1),
        }
    }
}

/// A node of a tree: its children's outputs, C and D, and its own, N.
#[derive(Clone, Copy, Debug, PartialEq, Eq)]
pub struct Node {
    pub c: Outputs,
    pub d: Outputs,
    pub n: Outputs,
}

/// The second step: true and false for the outer indexes, and a variable for each output there is.
pub fn put_in(node: &Node, clause: [Printed; 3]) -> [Value; 3] {
    clause.map(|literal| {
        let value = node.outputs(literal.set).value(literal.index);
        if literal.positive {
            value
        } else {
            value.negated()
        }
    })
}

/// The third step: "a clause with a true literal is left out, a false literal dropped".
pub fn dropped(clause: [Value; 3]) -> Option<Vec<i32>> {
    let mut kept = Vec::new();
    for value in clause {
        match value {
            Value::True => return None,
            Value::False => {}
            Value::Literal(literal) => kept.push(literal),
        }
    }
    Some(kept)
}

impl Node {
    pub fn outputs(&self, set: Set) -> Outputs {
        match set {
            Set::C => self.c,
            Set::D => self.d,
            Set::N => self.n,
        }
    }

    /// Every p up to a, and within it every q up to b.
    pub fn places(&self) -> impl Iterator<Item = (u32, u32)> {
        let (a, b) = (self.c.size, self.d.size);
        (0..=a).flat_map(move |p| (0..=b).map(move |q| (p, q)))
    }

    /// What the last step leaves at p and q, one clause or two.
    pub fn clauses(&self, p: u32, q: u32) -> Vec<Vec<i32>> {
        form(p, q).into_iter().filter_map(|clause| dropped(put_in(self, clause))).collect()
    }
}

/// The nodes of a tree over these leaves, in the tree's order, with outputs numbered on from `first`.
pub fn tree(leaves: Outputs, first: i32) -> Vec<Node> {
    let mut nodes = Vec::new();
    let mut next = first;
    add_nodes(leaves, &mut next, &mut nodes);
    nodes
}

/// "Order is left half, right half, then the node itself"; gives the outputs, and "a leaf's output is its entrant's variable".
fn add_nodes(leaves: Outputs, next: &mut i32, nodes: &mut Vec<Node>) -> Outputs {
    if leaves.size < 2 {
        return leaves;
    }
    let half = leaves.size / 2;
    let c = add_nodes(Outputs { first: leaves.first, size: half }, next, nodes);
    let d = add_nodes(Outputs { first: leaves.first + half as i32, size: leaves.size - half }, next, nodes);
    let n = Outputs { first: *next, size: leaves.size };
    *next += n.size as i32;
    nodes.push(Node { c, d, n });
    n
}

/// A group's counter: the nodes of its tree, the root last, and the limits of its open entrants, L and U.
pub struct Counter {
    pub nodes: Vec<Node>,
    pub low: u32,
    pub high: u32,
}

impl Counter {
    /// There is one: a settled group with a counter has two open entrants or more.
    pub fn root(&self) -> &Node {
        &self.nodes[self.nodes.len() - 1]
    }

    /// What comes after the root's clauses: "units N_1..N_L, then -N_(U+1)..-N_m".
    pub fn units(&self) -> Vec<Vec<i32>> {
        let n = self.root().n;
        let output = |index: u32| n.first + index as i32 - 1;
        let low = (1..=self.low).map(|index| vec![output(index)]);
        let high = (self.high + 1..=n.size).map(|index| vec![-output(index)]);
        low.chain(high).collect()
    }
}

/// The counter of each settled group, where it has one: the open marks of all groups are numbered first, then the outputs of tree after tree.
pub fn counters(groups: &[Group]) -> Vec<Option<Counter>> {
    let mut leaf = 1;
    let mut next = 1 + groups.iter().map(|group| group.open().count_ones() as i32).sum::<i32>();
    let mut counter = |group: &Group| {
        let leaves = Outputs { first: leaf, size: group.open().count_ones() };
        leaf += leaves.size as i32;
        let fixed = group.fixed.count_ones();
        let (low, high) = (group.low - fixed, group.high - fixed);
        if low == 0 && high >= leaves.size {
            return None;
        }
        let nodes = tree(leaves, next);
        next += nodes.iter().map(|node| node.n.size as i32).sum::<i32>();
        Some(Counter { nodes, low, high })
    };
    groups.iter().map(&mut counter).collect()
}

#[cfg(test)]
mod tests {
    use super::*;

    const NODE: Node = Node { c: Outputs { first: 1, size: 1 }, d: Outputs { first: 4, size: 2 }, n: Outputs { first: 6, size: 3 } };

    fn after_two_steps(p: u32, q: u32) -> [[Value; 3]; 2] {
        form(p, q).map(|clause| put_in(&NODE, clause))
    }

    #[test]
    fn the_steps_at_the_first_place() {
        let [up, down] = after_two_steps(0, 0);
        assert_eq!(up, [Value::False, Value::False, Value::True]);
        assert_eq!(down, [Value::Literal(1), Value::Literal(4), Value::Literal(-6)]);
        assert_eq!((dropped(up), dropped(down)), (None, Some(vec![1, 4, -6])));
    }

    #[test]
    fn the_steps_at_the_last_place() {
        let [up, down] = after_two_steps(1, 2);
        assert_eq!(up, [Value::Literal(-1), Value::Literal(-5), Value::Literal(8)]);
        assert_eq!(down, [Value::False, Value::False, Value::True]);
        assert_eq!((dropped(up), dropped(down)), (Some(vec![-1, -5, 8]), None));
    }

    #[test]
    fn the_steps_at_an_edge() {
        let [up, down] = after_two_steps(1, 0);
        assert_eq!(up, [Value::Literal(-1), Value::False, Value::Literal(6)]);
        assert_eq!(down, [Value::False, Value::Literal(4), Value::Literal(-7)]);
        assert_eq!(NODE.clauses(1, 0), [[-1, 6], [4, -7]]);
    }

    #[test]
    fn a_tree_of_three() {
        let below = Node { c: Outputs { first: 2, size: 1 }, d: Outputs { first: 3, size: 1 }, n: Outputs { first: 4, size: 2 } };
        assert_eq!(tree(Outputs { first: 1, size: 3 }, 4), [below, NODE]);
    }

    #[test]
    fn no_clause_is_left_empty() {
        for size in 2..=64 {
            for node in tree(Outputs { first: 1, size }, 65) {
                assert!(node.places().all(|(p, q)| node.clauses(p, q).iter().all(|clause| clause.len() >= 2)));
            }
        }
    }
}

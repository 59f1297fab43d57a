//! Sheets with trees of every size, and the block of each node cut place by place: there stands what the last of the printed steps leaves.
use super::calls::{settled, Calls};
use super::case::{junk, Kind, Outcome};
use super::code_7::has_x;
use super::random::Random;
use crate::encode::Encoding;
use crate::model::{Group, Model, BLOCK_BYTES, ENTRANTS, NARROW_ENTRANTS};
use crate::sheet;
use crate::steps::{counters, Counter, Node};

macro_rules! trees {
    ($($size:literal)*) => { [$(concat!("steps: tree of ", $size)),*] };
}

/// By the size of the tree, from 2 to 64.
const TREES: [Kind; 63] = trees![
    2 3 4 5 6 7 8 9 10 11 12 13 14 15 16 17 18 19 20 21 22 23 24 25 26 27 28 29 30 31 32 33 34 35 36 37 38 39 40 41 42 43 44 45 46 47 48 49 50 51 52 53 54 55
    56 57 58 59 60 61 62 63 64
];

/// By what is there, in the order of the report.
const KINDS: &[Kind] = &[
    "steps: first counter of the sheet",
    "steps: later counter",
    "steps: root",
    "steps: node below the root",
    "steps: node over two leaves",
    "steps: node over a leaf and a node",
    "steps: node over two nodes",
    "steps: up left out, p = q = 0",
    "steps: up without C, p = 0 < q",
    "steps: up without D, q = 0 < p",
    "steps: up of three literals",
    "steps: down left out, p = a and q = b",
    "steps: down without C, p = a and q < b",
    "steps: down without D, q = b and p < a",
    "steps: down of three literals",
    "steps: both of three literals",
    "steps: units at the low end",
    "steps: units at the high end",
    "steps: units at both ends",
];

pub fn kinds() -> impl Iterator<Item = Kind> {
    TREES.into_iter().chain(KINDS.iter().copied())
}

/// One call a node, those of a tree counted as one. A difference is one in the piece where it shows and in the whole tree.
pub fn check(sheet: &[u8], other: &dyn Calls, outcome: &mut Outcome) {
    let Ok(settled) = settled(sheet) else { return };
    let counters: Vec<Counter> = counters(&settled.model().groups).into_iter().flatten().collect();
    let with_x = has_x(&Encoding::of(&settled));
    outcome.calls = counters.len() as u64;
    let (mut block, mut buffer) = (1, junk(BLOCK_BYTES));
    for (before, counter) in counters.iter().enumerate() {
        let mut same = Ok(());
        for (node, pieces) in (block..).zip(node_pieces(counter)) {
            same = same.and_then(|()| cut(written(sheet, node, &mut buffer, other), &pieces, outcome).map_err(|words| format!("block {node}, {words}")));
        }
        block += counter.nodes.len() as u32;
        outcome.note(if before == 0 { "steps: first counter of the sheet" } else { "steps: later counter" });
        outcome.note(TREES[counter.root().n.size as usize - 2]);
        outcome.kinds.extend(with_x.then_some("different: counters by their steps"));
        if let Err(words) = same {
            outcome.differ(words);
        }
    }
}

/// What a block has on the other side; nothing where it is refused.
fn written<'a>(sheet: &[u8], block: u32, buffer: &'a mut [u8], other: &dyn Calls) -> &'a [u8] {
    let answer = other.block(sheet, block, buffer);
    buffer.get(..answer as usize).unwrap_or_default()
}

/// The pieces stand one behind the other, each where the text of those before it ends, and nothing is behind the last. Stops at the first difference.
fn cut(written: &[u8], pieces: &[Piece], outcome: &mut Outcome) -> Result<(), String> {
    let mut rest = written;
    for piece in pieces {
        outcome.go_on();
        piece.kinds.iter().for_each(|kind| outcome.note(kind));
        let wanted = text(&piece.clauses);
        let (found, behind) = rest.split_at(wanted.len().min(rest.len()));
        if found != wanted.as_bytes() {
            let (at, found) = (written.len() - rest.len(), String::from_utf8_lossy(found));
            return Err(format!("{} at byte {at}: the steps leave {wanted:?}, there stands {found:?}", piece.what));
        }
        rest = behind;
    }
    match rest.len() {
        0 => Ok(()),
        more => Err(format!("{more} bytes behind the last clause")),
    }
}

/// What the last step leaves at one place, or the units.
struct Piece {
    what: String,
    clauses: Vec<Vec<i32>>,
    kinds: Vec<Kind>,
}

/// Node by node in the tree's order, p by p, q by q; after the root's come the units.
fn node_pieces(counter: &Counter) -> Vec<Vec<Piece>> {
    let mut nodes: Vec<Vec<Piece>> = counter.nodes.iter().map(|node| pieces(node, counter.root())).collect();
    let units = Piece { what: "units".to_string(), clauses: counter.units(), kinds: vec![units_kind(counter)] };
    nodes.last_mut().expect("a node").push(units);
    nodes
}

fn pieces(node: &Node, root: &Node) -> Vec<Piece> {
    let of_node = node_kinds(node, root);
    let piece = |(p, q)| {
        let what = format!("node of {}, p = {p}, q = {q},", node.n.size);
        Piece { what, clauses: node.clauses(p, q), kinds: [&place_kinds(node, p, q)[..], &of_node].concat() }
    };
    node.places().map(piece).collect()
}

/// "A clause is its literals (minus sign for negation) each followed by one space, then `0` and byte 10."
pub fn text(clauses: &[Vec<i32>]) -> String {
    let line = |clause: &Vec<i32>| clause.iter().map(|literal| format!("{literal} ")).collect::<String>() + "0\n";
    clauses.iter().map(line).collect()
}

fn node_kinds(node: &Node, root: &Node) -> [Kind; 2] {
    let leaves = [node.c, node.d].iter().filter(|child| child.size == 1).count();
    let below = match leaves {
        2 => "steps: node over two leaves",
        1 => "steps: node over a leaf and a node",
        _ => "steps: node over two nodes",
    };
    [below, if node == root { "steps: root" } else { "steps: node below the root" }]
}

fn place_kinds(node: &Node, p: u32, q: u32) -> Vec<Kind> {
    let (a, b) = (node.c.size, node.d.size);
    let up = match (p, q) {
        (0, 0) => "steps: up left out, p = q = 0",
        (0, _) => "steps: up without C, p = 0 < q",
        (_, 0) => "steps: up without D, q = 0 < p",
        _ => "steps: up of three literals",
    };
    let down = match (p == a, q == b) {
        (true, true) => "steps: down left out, p = a and q = b",
        (true, false) => "steps: down without C, p = a and q < b",
        (false, true) => "steps: down without D, q = b and p < a",
        (false, false) => "steps: down of three literals",
    };
    let inside = (1..a).contains(&p) && (1..b).contains(&q);
    [up, down].into_iter().chain(inside.then_some("steps: both of three literals")).collect()
}

fn units_kind(counter: &Counter) -> Kind {
    match (counter.low > 0, counter.high < counter.root().n.size) {
        (true, true) => "steps: units at both ends",
        (true, false) => "steps: units at the low end",
        _ => "steps: units at the high end",
    }
}

/// A sheet of a few groups, each with a counter, of at most 32 entrants.
pub fn sheet(random: &mut Random) -> Vec<u8> {
    let most = NARROW_ENTRANTS as usize;
    let sizes: Vec<usize> = (0..random.from_to(1, 5)).map(|_| random.from_to(2, most)).collect();
    let entrants = random.from_to(sizes.iter().copied().max().unwrap_or(2), most) as u32;
    of_sizes(random, entrants, &sizes)
}

/// The same of more entrants.
pub fn wide(random: &mut Random) -> Vec<u8> {
    let sizes: Vec<usize> = (0..random.from_to(1, 2)).map(|_| random.from_to(2, ENTRANTS as usize)).collect();
    let least = sizes.iter().copied().max().unwrap_or(2).max(NARROW_ENTRANTS as usize + 1);
    let entrants = random.from_to(least, ENTRANTS as usize) as u32;
    of_sizes(random, entrants, &sizes)
}

/// A tree of every second size above 32, the even or the odd ones, in any order.
pub fn large(random: &mut Random) -> Vec<u8> {
    let first = NARROW_ENTRANTS as usize + 1 + random.below(2);
    let mut sizes: Vec<usize> = (first..=ENTRANTS as usize).step_by(2).collect();
    random.shuffle(&mut sizes);
    of_sizes(random, ENTRANTS, &sizes)
}

/// Groups with so many open entrants each.
fn of_sizes(random: &mut Random, entrants: u32, sizes: &[usize]) -> Vec<u8> {
    let groups = sizes.iter().map(|&size| group(random, entrants, size)).collect();
    sheet::write(&Model { entrants, groups, constraints: Vec::new() })
}

/// So many entrants are open, the others fixed or barred; a limit leaves some choice among the open ones, and not all.
fn group(random: &mut Random, entrants: u32, size: usize) -> Group {
    let mut order: Vec<u32> = (0..entrants).collect();
    random.shuffle(&mut order);
    let open = order[..size].iter().fold(0, |set, e| set | 1 << e);
    let percent = random.pick(&[0, 50, 100]);
    let fixed = random.set(entrants, percent) & !open;
    let least = random.below(size);
    let most = match least {
        0 => random.from_to(1, size - 1),
        _ => random.from_to(least, size),
    };
    let limit = |many: usize| fixed.count_ones() + many as u32;
    let low = if least == 0 { 0 } else { limit(least) };
    let high = if most == size { entrants } else { limit(most) };
    Group { fixed, possible: fixed | open, low, high }
}

#[cfg(test)]
mod tests {
    use super::*;
    use crate::listing::write_block;

    const MAKERS: [fn(&mut Random) -> Vec<u8>; 3] = [sheet, wide, large];

    #[test]
    fn every_group_keeps_its_open_entrants_and_has_a_counter() {
        let mut random = Random(41);
        for make in MAKERS.repeat(200) {
            let sheet = make(&mut random);
            let model = sheet::read(&sheet).unwrap();
            let settled = settled(&sheet).unwrap();
            let sizes = |groups: &[Group]| groups.iter().map(|group| group.open().count_ones()).collect::<Vec<_>>();
            let trees: Vec<u32> = counters(&settled.model().groups).iter().flatten().map(|counter| counter.root().n.size).collect();
            assert_eq!(trees, sizes(&model.groups));
        }
    }

    /// The pieces of each node together are the block that the listing has.
    #[test]
    fn the_steps_make_each_block() {
        let mut random = Random(42);
        for make in MAKERS.repeat(20) {
            let settled = settled(&make(&mut random)).unwrap();
            let encoding = Encoding::of(&settled);
            let blocks: Vec<Vec<Piece>> = counters(&settled.model().groups).iter().flatten().flat_map(node_pieces).collect();
            assert_eq!(blocks.len(), encoding.blocks());
            let mut buffer = vec![0; BLOCK_BYTES];
            for (pieces, block) in blocks.iter().zip(1..) {
                let made: String = pieces.iter().map(|piece| text(&piece.clauses)).collect();
                let length = write_block(&encoding, block, &mut buffer).unwrap();
                assert_eq!(made.as_bytes(), &buffer[..length]);
            }
        }
    }
}

//! The listing: the clauses as text.
use crate::encode::Encoding;
use crate::refusal::{NO_BLOCK, SHORT_BUFFER};

/// All blocks, from 0 up.
pub fn listing(encoding: &Encoding) -> Vec<u8> {
    let mut text = Vec::new();
    for block in 0..=encoding.blocks() {
        push_block(encoding, block, &mut text);
    }
    text
}

/// Writes one block into a lent buffer and gives its length; a refusal (23, 24) changes no byte.
pub fn write_block(encoding: &Encoding, block: usize, buffer: &mut [u8]) -> Result<usize, u32> {
    if block > encoding.blocks() {
        return Err(NO_BLOCK);
    }
    let mut text = Vec::new();
    push_block(encoding, block, &mut text);
    buffer.get_mut(..text.len()).ok_or(SHORT_BUFFER)?.copy_from_slice(&text);
    Ok(text.len())
}

/// Writes blocks from `block` on as long as they fit, and gives the first that is not written and the text's length. Refused as its first block is.
pub fn write_blocks(encoding: &Encoding, block: usize, buffer: &mut [u8]) -> Result<(usize, usize), u32> {
    let mut length = write_block(encoding, block, buffer)?;
    let mut next = block + 1;
    while let Ok(more) = write_block(encoding, next, &mut buffer[length..]) {
        length += more;
        next += 1;
    }
    Ok((next, length))
}

fn push_block(encoding: &Encoding, block: usize, text: &mut Vec<u8>) {
    if block == 0 {
        push_header(encoding, text);
    } else {
        encoding.each_clause(block, &mut |clause| push_clause(clause, text));
    }
}

fn push_header(encoding: &Encoding, text: &mut Vec<u8>) {
    text.extend_from_slice(b"p cnf ");
    push_number(encoding.variables as u32, text);
    text.push(b' ');
    push_number(encoding.clauses() as u32, text);
    text.push(b'\n');
}

/// The literals of the longest clause but for the last of a line of code 7.
const LITERALS: usize = 17;

/// Such a clause: a sign, five digits and a space for each literal, then `0` and the newline.
const CLAUSE_BYTES: usize = LITERALS * 7 + 2;

fn push_clause(clause: &[i32], text: &mut Vec<u8>) {
    if clause.len() > LITERALS {
        return push_long_clause(clause, text);
    }
    let mut bytes = [0; CLAUSE_BYTES];
    let mut at = bytes.len() - 2;
    bytes[at..].copy_from_slice(b"0\n");
    for &literal in clause.iter().rev() {
        at -= 1;
        bytes[at] = b' ';
        at = digits_before(literal.unsigned_abs(), at, &mut bytes);
        if literal < 0 {
            at -= 1;
            bytes[at] = b'-';
        }
    }
    text.extend_from_slice(&bytes[at..]);
}

/// The last clause of a line of code 7, of up to 64 literals.
#[cold]
fn push_long_clause(clause: &[i32], text: &mut Vec<u8>) {
    for &literal in clause {
        if literal < 0 {
            text.push(b'-');
        }
        push_number(literal.unsigned_abs(), text);
        text.push(b' ');
    }
    text.extend_from_slice(b"0\n");
}

/// Appends the number in decimal.
pub fn push_number(number: u32, text: &mut Vec<u8>) {
    let mut digits = [0; 10];
    let start = digits_before(number, digits.len(), &mut digits);
    text.extend_from_slice(&digits[start..]);
}

/// Writes the number in decimal so that it ends before `end`; gives where it starts.
fn digits_before(mut number: u32, end: usize, bytes: &mut [u8]) -> usize {
    let mut at = end;
    loop {
        at -= 1;
        bytes[at] = b'0' + (number % 10) as u8;
        number /= 10;
        if number == 0 {
            return at;
        }
    }
}

#[cfg(test)]
mod tests {
    use super::*;
    use crate::model::{Constraint, Group, Model, BLOCK_BYTES};
    use crate::settle::settle;
    use crate::sheet::read;

    fn with<T>(sheet: &str, then: impl FnOnce(&Encoding) -> T) -> T {
        then(&Encoding::of(&settle(read(sheet.as_bytes()).unwrap()).unwrap()))
    }

    const A: &str = "   1   3   2   1\n   2   1   1   1   1   1   1\n   2   2   0   3   1   1   0\n   3   2   1   2\n";

    #[test]
    fn example_a_is_the_papers_listing() {
        let one = "1 2 -5 0\n-2 5 0\n1 -6 0\n-1 5 0\n2 -6 0\n-1 -2 6 0\n5 0\n-6 0\n";
        let two = "3 4 -7 0\n-4 7 0\n3 -8 0\n-3 7 0\n4 -8 0\n-3 -4 8 0\n7 0\n";
        let wanted = format!("p cnf 8 17\n{one}{two}-1 3 0\n-2 4 0\n");
        assert_eq!(with(A, listing), wanted.as_bytes());
    }

    const E: &str = "   1   2   1   0\n   2   1   0   1   2   1\n";

    #[test]
    fn example_e_has_no_variables() {
        assert_eq!(with(E, listing), b"p cnf 0 0\n");
    }

    #[test]
    fn example_f_has_thirty_clauses() {
        let mut sheet = "   1   2   6   3\n".to_string();
        (1..=3).for_each(|g| sheet += &format!("   2{g:4}   1   1   1   1\n"));
        (4..=6).for_each(|g| sheet += &format!("   2{g:4}   0   0   1   1\n"));
        sheet += "   3   3   4   1   2\n   3   3   5   1   3\n   3   3   6   2   3\n";
        with(&sheet, |encoding| {
            assert_eq!(encoding.settled.passes(), 2);
            let text = String::from_utf8(listing(encoding)).unwrap();
            assert!(text.starts_with("p cnf 12 30\n"));
            assert_eq!(text.lines().count(), 31);
        });
    }

    #[test]
    fn example_k_the_buffers_length() {
        with(A, |encoding| {
            let length = write_block(encoding, 1, &mut [0; 99]).unwrap();
            assert_eq!(write_block(encoding, 1, &mut vec![7; length]), Ok(length));
            let mut short = vec![7; length - 1];
            assert_eq!(write_block(encoding, 1, &mut short), Err(24));
            assert!(short.iter().all(|&byte| byte == 7));
            assert_eq!(write_block(encoding, 2, &mut []), Err(24));
            assert_eq!(write_block(encoding, 4, &mut []), Err(23));
        });
        // a group without a counter has no block
        with(E, |encoding| assert_eq!(write_block(encoding, 1, &mut []), Err(23)));
    }

    /// Two groups of two, all marks open: nothing is dropped or left out.
    #[test]
    fn two_groups_that_must_not_be_the_same() {
        let sheet = "   1   2   2   1\n   2   1   0   2   1   1\n   2   2   0   2   1   1\n   3   7   1   2\n";
        let one = "-1 -3 -5 0\n1 3 -5 0\n-1 3 5 0\n1 -3 5 0\n";
        let two = "-2 -4 -6 0\n2 4 -6 0\n-2 4 6 0\n2 -4 6 0\n";
        let wanted = format!("p cnf 6 9\n{one}{two}5 6 0\n");
        assert_eq!(String::from_utf8(with(sheet, listing)).unwrap(), wanted);
    }

    /// X after the counter of group 1, on from line to line, with a line of another code between; entrants fixed and barred in one of the groups.
    #[test]
    fn x_are_numbered_after_all_counters_by_line_and_entrant() {
        let groups = "   2   1   1   1   1   1   1\n   2   2   0   3   1   2   0\n   2   3   0   3   1   1   1\n";
        let lines = "   3   7   2   1\n   3   2   2   3\n   3   7   1   3\n";
        let first = "-4 -1 -12 0\n4 1 -12 0\n-4 1 12 0\n4 -1 12 0\n-2 -13 0\n2 13 0\n3 -14 0\n-3 14 0\n12 13 14 0\n";
        let second = "-1 -5 -15 0\n1 5 -15 0\n-1 5 15 0\n1 -5 15 0\n-2 -16 0\n2 16 0\n-3 -6 -17 0\n3 6 -17 0\n-3 6 17 0\n3 -6 17 0\n15 16 17 0\n";
        with(&format!("   1   3   3   3\n{groups}{lines}"), |encoding| {
            let text = String::from_utf8(listing(encoding)).unwrap();
            assert!(text.starts_with("p cnf 17 40\n"), "{text}");
            assert!(text.ends_with(&format!("{first}-4 5 0\n{second}")), "{text}");
            assert_eq!(text.lines().count(), 41);
        });
    }

    #[test]
    fn a_line_that_differs_already_has_no_variables_and_no_clauses() {
        let sheet = "   1   2   3   2\n   2   1   0   2   2   1\n   2   2   0   2   0   1\n   2   3   0   2   0   0\n   3   7   1   2\n   3   7   3   2\n";
        // group 2 must not be empty, so entrant 2 is fixed in it and differs from group 3
        assert_eq!(with(sheet, listing), b"p cnf 1 0\n");
        let open = sheet.replace("   2   1   0   2   2   1", "   2   1   0   2   1   1").replace("   3   7   3   2", "   3   7   2   3");
        assert_eq!(with(&open, listing), b"p cnf 4 5\n1 -3 0\n-1 3 0\n-2 -4 0\n2 4 0\n3 4 0\n");
    }

    /// The only entrant who is not settled alike is open in both: a last clause of one X.
    #[test]
    fn a_last_clause_of_one_x_and_none_for_those_settled_alike() {
        let sheet = "   1   3   2   1\n   2   1   0   3   2   1   0\n   2   2   0   3   2   1   0\n   3   7   1   2\n";
        assert_eq!(with(sheet, listing), b"p cnf 3 5\n-1 -2 -3 0\n1 2 -3 0\n-1 2 3 0\n1 -2 3 0\n3 0\n");
    }

    #[test]
    fn as_many_variables_as_there_can_be() {
        let group = Group { fixed: 0, possible: u32::MAX.into(), low: 1, high: 31 };
        let line = |first: usize| Constraint { code: 7, groups: vec![first, (first + 1) % 256] };
        let model = Model { entrants: 32, groups: vec![group; 256], constraints: (0..256).map(line).collect() };
        let settled = settle(model).unwrap();
        let encoding = Encoding::of(&settled);
        let text = String::from_utf8(listing(&encoding)).unwrap();
        assert!(text.starts_with("p cnf 57344 369408\n"));
        assert_eq!(text.lines().count(), 369_409);
        let last: String = (57_313..=57_344).map(|x| format!("{x} ")).collect();
        assert!(text.ends_with(&format!("\n8192 -32 57344 0\n{last}0\n")));
        assert_eq!(encoding.blocks(), 256 * 31 + 256);
        assert!(longest_block(&encoding) <= BLOCK_BYTES);
    }

    /// The length of the longest block; together the blocks are the listing.
    fn longest_block(encoding: &Encoding) -> usize {
        let (mut buffer, mut text) = (vec![0; BLOCK_BYTES], Vec::new());
        let lengths = (0..=encoding.blocks()).map(|block| {
            let length = write_block(encoding, block, &mut buffer).unwrap();
            text.extend_from_slice(&buffer[..length]);
            length
        });
        let longest = lengths.max().unwrap();
        assert_eq!(write_block(encoding, encoding.blocks() + 1, &mut buffer), Err(23));
        assert_eq!(text, listing(encoding));
        longest
    }

    /// Sixty-four entrants, ninety-six groups with a counter each, 256 lines of code 7.
    #[test]
    fn the_most_variables() {
        let group = Group { fixed: 0, possible: u64::MAX, low: 1, high: 63 };
        let line = |first: usize| Constraint { code: 7, groups: vec![first % 96, (first + 1) % 96] };
        let model = Model { entrants: 64, groups: vec![group; 96], constraints: (0..256).map(line).collect() };
        let settled = settle(model).unwrap();
        let encoding = Encoding::of(&settled);
        let text = String::from_utf8(listing(&encoding)).unwrap();
        let clauses = 96 * (4_800 + 2) + 256 * (4 * 64 + 1);
        assert!(text.starts_with(&format!("p cnf 59392 {clauses}\n")), "{}", &text[..30]);
        assert_eq!(text.lines().count(), clauses + 1);
        let last: String = (59_329..=59_392).map(|x| format!("{x} ")).collect();
        assert!(text.ends_with(&format!("{last}0\n")));
        assert_eq!(encoding.blocks(), 96 * 63 + 256);
        // the root's block is longer than any block was before
        assert!((32_769..=BLOCK_BYTES).contains(&longest_block(&encoding)));
    }

    /// The block of a tree's first node, of its root, of the next tree's, and of the lines.
    #[test]
    fn the_blocks_of_two_trees_and_a_line() {
        let sheet = "   1   3   3   1\n   2   1   1   3   1   1   1\n   2   2   0   3   1   1   1\n   2   3   0   1   1   1   0\n   3   7   2   1\n";
        with(sheet, |encoding| {
            let block = |block: usize| {
                let mut buffer = vec![0; BLOCK_BYTES];
                write_block(encoding, block, &mut buffer).map(|length| String::from_utf8(buffer[..length].to_vec()).unwrap())
            };
            assert_eq!(block(0).unwrap(), format!("p cnf 18 {}\n", 16 + 1 + 6 + 1 + 13));
            assert_eq!(block(1).unwrap(), "2 3 -9 0\n-3 9 0\n2 -10 0\n-2 9 0\n3 -10 0\n-2 -3 10 0\n");
            let root = block(2).unwrap();
            assert!(root.starts_with("1 9 -11 0\n-9 11 0\n") && root.ends_with("-1 -10 13 0\n11 0\n"), "{root}");
            assert_eq!(block(3).unwrap(), "7 8 -14 0\n-8 14 0\n7 -15 0\n-7 14 0\n8 -15 0\n-7 -8 15 0\n-15 0\n");
            assert!(block(4).unwrap().ends_with("16 17 18 0\n"));
            assert_eq!(block(5), Err(23));
        });
    }

    #[test]
    fn the_largest_sheet() {
        let group = Group { fixed: 0, possible: u32::MAX.into(), low: 1, high: 31 };
        let line = |first: usize| Constraint { code: 6, groups: (first..first + 17).map(|group| group % 256).collect() };
        let model = Model { entrants: 32, groups: vec![group; 256], constraints: (0..256).map(line).collect() };
        assert_eq!(crate::sheet::write(&model).len(), crate::model::SHEET_BYTES);
        let settled = settle(model).unwrap();
        let encoding = Encoding::of(&settled);
        let text = listing(&encoding);
        assert!(text.starts_with(b"p cnf 49152 475648\n"));
        assert_eq!(text.len(), 8_987_411);
        assert!(longest_block(&encoding) <= BLOCK_BYTES);
    }
}

//! What a sheet says: entrants, groups with their sets as words (bit e is entrant e + 1), constraint lines.

pub const ENTRANTS: u32 = 64;
pub const GROUPS: u32 = 256;
/// With more entrants than so many, a sheet has fewer groups.
pub const NARROW_ENTRANTS: u32 = 32;
pub const WIDE_GROUPS: u32 = 96;
pub const LINES: u32 = 256;
pub const SHEET_BYTES: usize = 57_873;
pub const UNION_MIN: u32 = 2;
pub const UNION_MAX: u32 = 16;
/// The largest V: 96 groups of 64 entrants, each with a counter, and 256 lines of code 7 with 64 X each.
pub const MOST_VARIABLES: usize = 59_392;
/// The largest V with 32 entrants at most: 256 groups, each with a counter, and 256 lines of code 7 with 32 X each.
pub const NARROW_VARIABLES: usize = 57_344;
/// So many bytes hold each block.
pub const BLOCK_BYTES: usize = 65_536;

/// The most groups that a sheet of so many entrants may have.
pub fn most_groups(entrants: u32) -> u32 {
    if entrants > NARROW_ENTRANTS {
        WIDE_GROUPS
    } else {
        GROUPS
    }
}

/// Whether a sheet may have so many entrants, groups and lines.
pub fn sizes_in_range(n: u32, s: u32, c: u32) -> bool {
    (1..=ENTRANTS).contains(&n) && (1..=most_groups(n)).contains(&s) && c <= LINES
}

/// The first so many entrants, as a set; 64 fill the word.
pub fn first_entrants(many: u32) -> u64 {
    u64::MAX.checked_shr(64 - many).unwrap_or(0)
}

#[derive(Clone, Copy, Debug, PartialEq, Eq)]
pub struct Group {
    pub fixed: u64,
    pub possible: u64,
    pub low: u32,
    pub high: u32,
}

impl Group {
    /// The entrants with mark 1.
    pub fn open(&self) -> u64 {
        self.possible & !self.fixed
    }
}

/// A constraint line. `groups` has the line's groups in its order, counted from 0.
#[derive(Clone, Debug, PartialEq, Eq)]
pub struct Constraint {
    pub code: u32,
    pub groups: Vec<usize>,
}

#[derive(Clone, Debug, PartialEq, Eq)]
pub struct Model {
    pub entrants: u32,
    pub groups: Vec<Group>,
    pub constraints: Vec<Constraint>,
}

impl Model {
    /// All entrants, as a set.
    pub fn everyone(&self) -> u64 {
        first_entrants(self.entrants)
    }
}

#[cfg(test)]
mod tests {
    use super::*;

    #[test]
    fn everyone_up_to_a_whole_word() {
        for (many, wanted) in [(0, 0), (1, 1), (31, 0x7FFF_FFFF), (32, 0xFFFF_FFFF), (33, 0x1_FFFF_FFFF), (63, u64::MAX >> 1), (64, u64::MAX)] {
            assert_eq!(first_entrants(many), wanted);
        }
    }

    #[test]
    fn more_than_96_groups_have_at_most_32_entrants() {
        for (n, s, wanted) in [(1, 1, true), (32, 256, true), (32, 257, false), (33, 96, true), (33, 97, false), (64, 96, true), (64, 97, false)] {
            assert_eq!(sizes_in_range(n, s, 0), wanted, "{n} entrants, {s} groups");
        }
        for (n, s, c) in [(0, 1, 0), (65, 1, 0), (1, 0, 0), (33, 256, 0), (64, 96, 257), (32, 256, 257)] {
            assert!(!sizes_in_range(n, s, c), "{n} entrants, {s} groups, {c} lines");
        }
    }
}

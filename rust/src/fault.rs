//! What is wrong with a refused sheet, in the words of the crates `sheet_fault` and `fault_text`: the columns of a field with what it
//! has and must be, a stray byte, the number of fields, or what the head says and how many lines there are.
use crate::model::*;
use crate::refusal::*;
use crate::sheet::{self, read_field, Field, Refused};

const BYTE_ORDER_MARK: &[u8] = b"\xef\xbb\xbf";

/// The words for a refused sheet; none where the refusal says it all.
pub fn words(bytes: &[u8], no: &Refused) -> Option<String> {
    let lines: Vec<&[u8]> = bytes.strip_suffix(b"\n").unwrap_or(bytes).split(|&byte| byte == b'\n').collect();
    let line = lines.get(no.line.saturating_sub(1) as usize).copied().unwrap_or_default();
    let head = Head::of(lines[0]);
    match no.number {
        NO_END if bytes.is_empty() => Some("the sheet is empty".to_string()),
        NO_END => Some(format!("the last line, line {}, does not end in a newline", lines.len())),
        LENGTH => Some(stray(line, no.line).unwrap_or_else(|| format!("the line has {} columns", line.len()))),
        FIELD => stray(line, no.line).or_else(|| unread(line)),
        KIND if no.line == 1 => Some(must_be(0, numbers(line)[0], "the first field of the head", 1, 1)),
        KIND => Some(head.counts(lines.len(), no.line)),
        COUNT => Some(head.count(&numbers(line), no.line)),
        RANGE => head.outside(&numbers(line), no.line),
        NOT_NEXT => Some(must_be(1, numbers(line)[1], "the number of this group", no.line - 1, no.line - 1)),
        _ => None,
    }
}

/// A byte that no field has: a byte order mark before the head, a carriage return at the end, the first tab.
fn stray(line: &[u8], number: u32) -> Option<String> {
    if number == 1 && line.starts_with(BYTE_ORDER_MARK) {
        return Some("the sheet begins with a byte order mark".to_string());
    }
    if line.ends_with(b"\r") {
        return Some("the line ends in a carriage return".to_string());
    }
    let tab = line.iter().position(|&byte| byte == b'\t')?;
    Some(format!("the line has a tab in column {}", tab + 1))
}

/// The first field that is no number, nor blank where a mark may be.
fn unread(line: &[u8]) -> Option<String> {
    let group = read_field(&line[..4]) == Field::Number(2);
    let (at, field) = line.chunks(4).enumerate().find(|&(at, field)| match read_field(field) {
        Field::Number(_) => false,
        Field::Blank => !(group && at >= 4),
        Field::Bad => true,
    })?;
    let shown: String = field.iter().map(|&byte| if (b' '..=b'~').contains(&byte) { byte as char } else { '?' }).collect();
    Some(format!("columns {} to {} have `{shown}`", 4 * at + 1, 4 * at + 4))
}

/// The numbers of a line whose fields are as they should be; a blank is a mark of 1.
fn numbers(line: &[u8]) -> Vec<u32> {
    let number = |field: &[u8]| match read_field(field) {
        Field::Number(number) => number,
        Field::Blank | Field::Bad => 1,
    };
    line.chunks(4).map(number).collect()
}

fn must_be(field: usize, has: u32, name: &str, least: u32, most: u32) -> String {
    let range = if least == most { least.to_string() } else { format!("{least} to {most}") };
    format!("columns {} to {} have {has}: {name} must be {range}", 4 * field + 1, 4 * field + 4)
}

/// What a head says that is not refused; zeros otherwise.
#[derive(Default)]
struct Head {
    entrants: u32,
    groups: u32,
    constraints: u32,
}

impl Head {
    fn of(line: &[u8]) -> Head {
        let alone = [line, b"\n"].concat();
        let good = !matches!(sheet::read(&alone), Err(Refused { line: 1, .. }));
        match numbers(line)[..] {
            [_, entrants, groups, constraints] if good => Head { entrants, groups, constraints },
            _ => Head::default(),
        }
    }

    fn is_group(&self, line: u32) -> bool {
        line <= 1 + self.groups
    }

    fn counts(&self, has: usize, line: u32) -> String {
        let lines = 1 + self.groups + self.constraints;
        let due = match line {
            _ if self.is_group(line) => "; a group (2) is due here",
            _ if line <= lines => "; a constraint (3) is due here",
            _ => "",
        };
        format!("the head says {} groups and {} constraints, so {lines} lines; the sheet has {has}{due}", self.groups, self.constraints)
    }

    fn count(&self, fields: &[u32], line: u32) -> String {
        let has = fields.len();
        if line == 1 {
            return format!("the line has {has} fields: it must have 4");
        }
        if self.is_group(line) {
            return format!("the line has {has} fields: a group has 4, and a mark for each of the {} entrants", self.entrants);
        }
        match fields {
            &[_, code, k, _, ..] => match code {
                1 | 2 | 7 => format!("the line has {has} fields: it must have 4"),
                3..=5 => format!("the line has {has} fields: it must have 5"),
                6 if (UNION_MIN..=UNION_MAX).contains(&k) => format!("the line has {has} fields: it must have {}", 4 + k),
                6 => must_be(2, k, "the count of code 6", UNION_MIN, UNION_MAX),
                _ => must_be(1, code, "the code", 1, 7),
            },
            _ => format!("the line has {has} fields: it must have 4 to {}", 4 + UNION_MAX),
        }
    }

    /// The first field that is out of its range.
    fn outside(&self, fields: &[u32], line: u32) -> Option<String> {
        let start = match line {
            1 => 1,
            _ if self.is_group(line) || fields[1] != 6 => 2,
            _ => 3,
        };
        (start..fields.len()).find_map(|at| {
            let (name, least, most) = self.range(fields, line, at);
            (!(least..=most).contains(&fields[at])).then(|| must_be(at, fields[at], name, least, most))
        })
    }

    fn range(&self, fields: &[u32], line: u32, at: usize) -> (&'static str, u32, u32) {
        match line {
            1 => head_range(fields[1], at),
            _ if self.is_group(line) => group_range(self.entrants, fields[3], at),
            _ => ("a group's number", 1, self.groups),
        }
    }
}

fn head_range(entrants: u32, at: usize) -> (&'static str, u32, u32) {
    match at {
        1 => ("the number of entrants", 1, ENTRANTS),
        2 if entrants <= NARROW_ENTRANTS => ("the number of groups", 1, GROUPS),
        2 => ("the number of groups, with more than 32 entrants,", 1, WIDE_GROUPS),
        _ => ("the number of constraints", 0, LINES),
    }
}

fn group_range(entrants: u32, high: u32, at: usize) -> (&'static str, u32, u32) {
    match at {
        2 => ("the low of a group, at most its high,", 0, high.min(entrants)),
        3 => ("the high of a group", 0, entrants),
        _ => ("a mark", 0, 2),
    }
}

#[cfg(test)]
mod tests {
    use super::*;

    const SHEET: &str = "   1   3   2   1\n   2   1   1   1   1   1   1\n   2   2   0   3   1   1   0\n   3   2   1   2\n";

    /// The words for the sheet with one part changed.
    fn words_with(part: &str, other: &str) -> Option<String> {
        let changed = SHEET.replacen(part, other, 1);
        words(changed.as_bytes(), &sheet::read(changed.as_bytes()).unwrap_err())
    }

    #[test]
    fn the_field_named_is_the_first() {
        assert_eq!(words_with("   1   1   1   1\n", "   1   1   x   y\n").unwrap(), "columns 21 to 24 have `   x`");
        assert_eq!(words_with("   1   1   1   1\n", "   1   1   3   4\n").unwrap(), "columns 21 to 24 have 3: a mark must be 0 to 2");
        assert_eq!(words_with("   0   3", "   0   4").unwrap(), "columns 13 to 16 have 4: the high of a group must be 0 to 3");
        assert_eq!(words_with("   0   3", "  80  70").unwrap(), "columns 9 to 12 have 80: the low of a group, at most its high, must be 0 to 3");
        assert_eq!(words_with("   1   2\n", "   1   3\n"), Some("columns 13 to 16 have 3: a group's number must be 1 to 2".to_string()));
    }

    #[test]
    fn a_stray_byte_is_named_before_the_field() {
        assert_eq!(words_with("   1   3", "\u{feff}   1   3").unwrap(), "the sheet begins with a byte order mark");
        assert_eq!(words_with("   2   1   1", "   2\t1   x").unwrap(), "the line has a tab in column 5");
        assert_eq!(words_with("   1   1   1   1\n", "\t  1   1   1   1\r\n").unwrap(), "the line ends in a carriage return");
    }

    #[test]
    fn the_lines_are_counted() {
        let says = "the head says 2 groups and 1 constraints, so 4 lines; the sheet has";
        assert_eq!(words_with("   3   2   1   2\n", "").unwrap(), format!("{says} 3; a constraint (3) is due here"));
        assert_eq!(words_with("   3   2   1   2\n", "   3   2   1   2\n   3   2   1   2\n").unwrap(), format!("{says} 5"));
    }
}

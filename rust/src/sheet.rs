//! The sheet reader: bytes to a model, or refusals 1 to 9 with the line.
use crate::model::*;
use crate::refusal::*;

#[derive(Clone, Copy, Debug, PartialEq, Eq)]
pub struct Refused {
    pub number: u32,
    pub line: u32,
}

pub fn read(sheet: &[u8]) -> Result<Model, Refused> {
    if sheet.len() > SHEET_BYTES {
        return Err(Refused { number: TOO_LONG, line: 0 });
    }
    let Some((b'\n', text)) = sheet.split_last() else {
        return Err(Refused { number: NO_END, line: 0 });
    };
    let mut reader = Reader::default();
    let mut fields = Vec::new();
    let mut line = 0;
    for bytes in text.split(|&byte| byte == b'\n') {
        line += 1;
        read_fields(bytes, &mut fields).and_then(|()| reader.take(&fields)).map_err(|number| Refused { number, line })?;
    }
    reader.finish().ok_or(Refused { number: KIND, line: line + 1 })
}

/// The numbers of a line. A blank in a mark column, the fifth field or a later one where the first is 2, is a mark of 1.
fn read_fields(line: &[u8], fields: &mut Vec<u32>) -> Result<(), u32> {
    if line.is_empty() || !line.len().is_multiple_of(4) {
        return Err(LENGTH);
    }
    fields.clear();
    for field in line.chunks_exact(4) {
        let is_mark = fields.len() >= 4 && fields[0] == 2;
        fields.push(match read_field(field) {
            Field::Number(number) => number,
            Field::Blank if is_mark => 1,
            Field::Blank | Field::Bad => return Err(FIELD),
        });
    }
    Ok(())
}

/// What stands in a field's four columns.
#[derive(Clone, Copy, Debug, PartialEq, Eq)]
pub enum Field {
    Number(u32),
    Blank,
    Bad,
}

/// A number is spaces, then digits without needless zero to the last column; a blank is spaces alone.
pub fn read_field(field: &[u8]) -> Field {
    let spaces = field.iter().take_while(|&&byte| byte == b' ').count();
    match &field[spaces..] {
        [] => Field::Blank,
        [b'0', _, ..] => Field::Bad,
        digits if digits.iter().all(u8::is_ascii_digit) => Field::Number(digits.iter().fold(0, |number, digit| 10 * number + u32::from(digit - b'0'))),
        _ => Field::Bad,
    }
}

/// The model as far as it has been read, and how many lines of each kind the head announced.
#[derive(Default)]
struct Reader {
    head: Option<(usize, usize)>,
    entrants: u32,
    groups: Vec<Group>,
    constraints: Vec<Constraint>,
}

impl Reader {
    fn take(&mut self, fields: &[u32]) -> Result<(), u32> {
        let kind = self.next_kind().ok_or(KIND)?;
        if fields[0] != kind {
            return Err(KIND);
        }
        match kind {
            1 => self.take_head(fields),
            2 => self.take_group(fields),
            _ => self.take_constraint(fields),
        }
    }

    /// The kind of line that belongs next, none after the last.
    fn next_kind(&self) -> Option<u32> {
        match self.head {
            None => Some(1),
            Some((groups, _)) if self.groups.len() < groups => Some(2),
            Some((_, lines)) if self.constraints.len() < lines => Some(3),
            Some(_) => None,
        }
    }

    fn take_head(&mut self, fields: &[u32]) -> Result<(), u32> {
        let &[_, n, s, c] = fields else { return Err(COUNT) };
        if !sizes_in_range(n, s, c) {
            return Err(RANGE);
        }
        self.head = Some((s as usize, c as usize));
        self.entrants = n;
        Ok(())
    }

    fn take_group(&mut self, fields: &[u32]) -> Result<(), u32> {
        if fields.len() != 4 + self.entrants as usize {
            return Err(COUNT);
        }
        let (number, low, high, marks) = (fields[1], fields[2], fields[3], &fields[4..]);
        if low > high || high > self.entrants || marks.iter().any(|&mark| mark > 2) {
            return Err(RANGE);
        }
        if number as usize != self.groups.len() + 1 {
            return Err(NOT_NEXT);
        }
        let set = |wanted: u32| marks.iter().rev().fold(0, |set, &mark| set << 1 | u64::from(mark >= wanted));
        self.groups.push(Group { fixed: set(2), possible: set(1), low, high });
        Ok(())
    }

    fn take_constraint(&mut self, fields: &[u32]) -> Result<(), u32> {
        let (code, numbers) = constraint_groups(fields).ok_or(COUNT)?;
        if numbers.iter().any(|&number| number == 0 || number as usize > self.groups.len()) {
            return Err(RANGE);
        }
        let groups: Vec<usize> = numbers.iter().map(|&number| number as usize - 1).collect();
        if (1..groups.len()).any(|at| groups[..at].contains(&groups[at])) {
            return Err(TWICE);
        }
        self.constraints.push(Constraint { code, groups });
        Ok(())
    }

    fn finish(self) -> Option<Model> {
        match self.next_kind() {
            None => Some(Model { entrants: self.entrants, groups: self.groups, constraints: self.constraints }),
            Some(_) => None,
        }
    }
}

/// Code and group numbers of a constraint line, if it has as many fields as its code asks for.
fn constraint_groups(fields: &[u32]) -> Option<(u32, &[u32])> {
    let &code = fields.get(1)?;
    let (start, wanted) = match code {
        1 | 2 | 7 => (2, 2),
        3..=5 => (2, 3),
        6 => (3, 1 + union_size(*fields.get(2)?)?),
        _ => return None,
    };
    let groups = &fields[start..];
    (groups.len() == wanted).then_some((code, groups))
}

fn union_size(k: u32) -> Option<usize> {
    (UNION_MIN..=UNION_MAX).contains(&k).then_some(k as usize)
}

/// The sheet of a model.
pub fn write(model: &Model) -> Vec<u8> {
    let mut text = Vec::new();
    write_line(&[1, model.entrants, model.groups.len() as u32, model.constraints.len() as u32], &mut text);
    for (index, group) in model.groups.iter().enumerate() {
        let mark = |e: u32| (group.fixed >> e & 1) as u32 + (group.possible >> e & 1) as u32;
        let mut fields = vec![2, index as u32 + 1, group.low, group.high];
        fields.extend((0..model.entrants).map(mark));
        write_line(&fields, &mut text);
    }
    for constraint in &model.constraints {
        let mut fields = vec![3, constraint.code];
        if constraint.code == 6 {
            fields.push(constraint.groups.len() as u32 - 1);
        }
        fields.extend(constraint.groups.iter().map(|&group| group as u32 + 1));
        write_line(&fields, &mut text);
    }
    text
}

fn write_line(fields: &[u32], text: &mut Vec<u8>) {
    for &field in fields {
        text.extend_from_slice(&write_field(field));
    }
    text.push(b'\n');
}

/// A number up to 9999 in its four columns.
fn write_field(mut number: u32) -> [u8; 4] {
    let mut field = [b' '; 4];
    for column in field.iter_mut().rev() {
        *column = b'0' + (number % 10) as u8;
        number /= 10;
        if number == 0 {
            break;
        }
    }
    field
}

#[cfg(test)]
mod tests {
    use super::*;

    fn refusal(sheet: &str) -> (u32, u32) {
        match read(sheet.as_bytes()) {
            Ok(_) => (0, 0),
            Err(refused) => (refused.number, refused.line),
        }
    }

    const A: &str = "   1   3   2   1\n   2   1   1   1   1   1   1\n   2   2   0   3   1   1   0\n   3   2   1   2\n";

    #[test]
    fn example_a_is_read() {
        let model = read(A.as_bytes()).unwrap();
        assert_eq!(model.entrants, 3);
        assert_eq!(model.groups[1], Group { fixed: 0, possible: 3, low: 0, high: 3 });
        assert_eq!(write(&model), A.as_bytes());
        assert_eq!(model.constraints, [Constraint { code: 2, groups: vec![0, 1] }]);
    }

    #[test]
    fn example_j_sixteen_pass_seventeen_do_not() {
        let sheet = |k: usize| {
            let mut text = "   1   1  18   1\n".to_string();
            (1..=18).for_each(|g| text += &format!("   2{g:4}   0   1   1\n"));
            text += &format!("   3   6{k:4}");
            (1..=k + 1).for_each(|g| text += &format!("{g:4}"));
            text + "\n"
        };
        assert_eq!(refusal(&sheet(16)), (0, 0));
        assert_eq!(refusal(&sheet(17)), (6, 20));
        assert_eq!(refusal(&sheet(1)), (6, 20));
    }

    #[test]
    fn refusals_of_the_whole_sheet() {
        assert_eq!(refusal(""), (2, 0));
        assert_eq!(refusal(A.trim_end()), (2, 0));
        assert_eq!(refusal(&" ".repeat(57_874)), (1, 0));
        assert_eq!(refusal("\n"), (3, 1));
        assert_eq!(refusal(&(A.to_string() + "\n")), (3, 5));
        assert_eq!(refusal(&(A.to_string() + "   3   2   1   2\n")), (5, 5));
        assert_eq!(refusal(&A.replace("   3   2   1   2\n", "")), (5, 4));
    }

    #[test]
    fn refusals_of_a_line() {
        for (from, to, wanted) in [
            ("   3   2   1   2", "   3   2   1    ", (4, 4)),
            ("   3   2   1   2", "   3   2   1  02", (4, 4)),
            ("   3   2   1   2", "   3   2   1  2 ", (4, 4)),
            ("   3   2   1   2", "   3   2   1  2", (3, 4)),
            ("   3   2   1   2", "   3", (6, 4)),
            ("   3   2   1   2", "   3   6", (6, 4)),
            ("   3   2   1   2", "   3   8   1   2", (6, 4)),
            ("   3   2   1   2", "   3   0   1   2", (6, 4)),
            ("   3   2   1   2", "   3   7   1   2", (0, 0)),
            ("   3   2   1   2", "   3   7", (6, 4)),
            ("   3   2   1   2", "   3   7   1", (6, 4)),
            ("   3   2   1   2", "   3   7   1   2   1", (6, 4)),
            ("   3   2   1   2", "   3   7   2   1   2", (6, 4)),
            ("   3   2   1   2", "   3   7   2   2", (9, 4)),
            ("   3   2   1   2", "   3   7   0   1", (7, 4)),
            ("   3   2   1   2", "   3   7   1   3", (7, 4)),
            ("   3   2   1   2", "   3   7   3   3", (7, 4)),
            ("   3   2   1   2", "   3   2   0   0", (7, 4)),
            ("   3   2   1   2", "   3   2   1   3", (7, 4)),
            ("   3   2   1   2", "   3   2   1   1", (9, 4)),
            ("   2   2   0   3", "   2   0   0   3", (8, 3)),
            ("   2   2   0   3", "   2   1   0   4", (7, 3)),
            ("   2   2   0   3", "   2   2   3   2", (7, 3)),
            ("   1   3   2   1", "   1  65   2   1", (7, 1)),
            ("   1   3   2   1", "   1  33  97   1", (7, 1)),
            ("   1   3   2   1", "   1  64 256   1", (7, 1)),
            ("   1   3   2   1", "   1  33   2   1", (6, 2)),
            ("   1   3   2   1", "   2   3   2   1", (5, 1)),
        ] {
            assert_eq!(refusal(&A.replace(from, to)), wanted, "{to}");
        }
    }

    #[test]
    fn a_field_is_a_number_blank_or_bad() {
        for number in [0, 1, 10, 999, 9999] {
            assert_eq!(read_field(&write_field(number)), Field::Number(number));
        }
        assert_eq!(read_field(b"    "), Field::Blank);
        for bad in [b"\t   ", b"   \t", b"  \0 ", b"1   ", b"  1 ", b"  01", b"  00", b"  -1", b" 1 1"] {
            assert_eq!(read_field(bad), Field::Bad, "{}", bad.escape_ascii());
        }
    }

    const ONE: &str = "   2   1   1   1   1   1   1\n";
    const TWO: &str = "   2   2   0   3   1   1   0\n";

    #[test]
    fn a_blank_mark_is_1() {
        let wanted = read(A.as_bytes()).unwrap();
        for (from, to) in [
            (ONE, "   2   1   1   1   1       1\n"),
            (ONE, "   2   1   1   1       1   1\n"),
            (ONE, "   2   1   1   1   1   1    \n"),
            (ONE, "   2   1   1   1            \n"),
            (TWO, "   2   2   0   3           0\n"),
        ] {
            assert_eq!(read(A.replace(from, to).as_bytes()).as_ref(), Ok(&wanted), "{to}");
        }
        let blank = A.replace(ONE, "   2   1   1   1            \n").replace(TWO, "   2   2   0   3           0\n");
        assert_eq!(read(blank.as_bytes()).as_ref(), Ok(&wanted));
        assert_eq!(write(&wanted), A.as_bytes());
    }

    #[test]
    fn a_blank_is_4_where_no_mark_stands() {
        for (from, to, line) in [
            ("   1   3   2   1\n", "       3   2   1\n", 1),
            ("   1   3   2   1\n", "   1       2   1\n", 1),
            ("   1   3   2   1\n", "   1   3       1\n", 1),
            ("   1   3   2   1\n", "   1   3   2    \n", 1),
            ("   1   3   2   1\n", "   1   3   2   1    \n", 1),
            (ONE, "       1   1   1   1   1   1\n", 2),
            (ONE, "   2       1   1   1   1   1\n", 2),
            (ONE, "   2   1       1   1   1   1\n", 2),
            (ONE, "   2   1   1       1   1   1\n", 2),
            (ONE, "   2   1   1       1       1\n", 2),
            ("   3   2   1   2\n", "       2   1   2\n", 4),
            ("   3   2   1   2\n", "   3       1   2\n", 4),
            ("   3   2   1   2\n", "   3   2       2\n", 4),
            ("   3   2   1   2\n", "   3   2   1    \n", 4),
            ("   3   2   1   2\n", "   3   2   1   2    \n", 4),
            // a line of another kind, or of none, has no mark columns
            (ONE, "   3   1   1   1   1       1\n", 2),
            (ONE, "   1   1   1   1   1       1\n", 2),
            (ONE, "   4   1   1   1   1       1\n", 2),
            (ONE, "  22   1   1   1   1       1\n", 2),
            (ONE, "  02   1   1   1   1       1\n", 2),
            (ONE, "  2    1   1   1   1       1\n", 2),
        ] {
            assert_eq!(refusal(&A.replace(from, to)), (4, line), "{to}");
        }
    }

    #[test]
    fn blank_marks_beside_another_fault() {
        for (from, to, wanted) in [
            // three or five spaces, a byte that is no space, and numbers out of their columns
            (ONE, "   2   1   1   1   1      1\n", (3, 2)),
            (ONE, "   2   1   1   1   1        1\n", (3, 2)),
            (ONE, "   2   1   1   1   1  \t    1\n", (4, 2)),
            (ONE, "   2   1   1   1   1    1  1\n", (4, 2)),
            (ONE, "   2   1   x   1            \n", (4, 2)),
            (ONE, "   2   1  01   1            \n", (4, 2)),
            (ONE, "   2   1   1   1        \n", (6, 2)),
            (ONE, "   2   1   1   1\n", (6, 2)),
            (ONE, "   2   1   1   1                \n", (6, 2)),
            (ONE, "   2   1   1   1   3        \n", (7, 2)),
            (ONE, "   2   1   2   1            \n", (7, 2)),
            (ONE, "   2   1   1   4            \n", (7, 2)),
            (ONE, "   2   2   1   1            \n", (8, 2)),
        ] {
            assert_eq!(refusal(&A.replace(from, to)), wanted, "{to}");
        }
    }

    #[test]
    fn blank_marks_where_another_line_is_due() {
        let blank = "   2   1   1   1            \n";
        assert_eq!(refusal(blank), (5, 1));
        assert_eq!(refusal(&(blank.to_string() + A)), (5, 1));
        assert_eq!(refusal(&A.replace("   3   2   1   2\n", blank)), (5, 4));
        assert_eq!(refusal(&A.replace("   3   2   1   2\n", "   2   3   1   2            \n")), (5, 4));
        assert_eq!(refusal(&(A.to_string() + blank)), (5, 5));
        assert_eq!(refusal(&(A.to_string() + "   2   3   0   0    \n")), (5, 5));
        assert_eq!(refusal(&(A.to_string() + "   2   3       0    \n")), (4, 5));
    }

    #[test]
    fn the_largest_sheet_may_be_blank() {
        let n = NARROW_ENTRANTS;
        let group = Group { fixed: 0, possible: first_entrants(n), low: 0, high: n };
        let line = |first: usize| Constraint { code: 6, groups: (first..=first + 16).map(|group| group % GROUPS as usize).collect() };
        let model = Model { entrants: n, groups: vec![group; GROUPS as usize], constraints: (0..LINES as usize).map(line).collect() };
        let sheet = String::from_utf8(write(&model)).unwrap();
        let blank = sheet.replace(&"   1".repeat(n as usize), &"    ".repeat(n as usize));
        assert_eq!(blank.len(), SHEET_BYTES);
        assert_ne!(blank, sheet);
        assert_eq!(read(blank.as_bytes()), Ok(model));
        assert_eq!(refusal(&(blank + "\n")), (1, 0));
    }

    /// A head and its group lines, all marks open.
    fn open_sheet(n: u32, s: u32) -> String {
        let group = |number: u32| format!("   2{number:4}   0{n:4}{}\n", "   1".repeat(n as usize));
        format!("   1{n:4}{s:4}   0\n{}", (1..=s).map(group).collect::<String>())
    }

    #[test]
    fn up_to_64_entrants_and_96_groups_of_more_than_32() {
        for (n, s) in [(32, 256), (33, 96), (63, 96), (64, 96), (64, 1)] {
            assert_eq!(refusal(&open_sheet(n, s)), (0, 0), "{n} entrants, {s} groups");
        }
        for (n, s) in [(32, 257), (33, 97), (63, 97), (64, 97), (65, 1), (65, 97)] {
            assert_eq!(refusal(&open_sheet(n, s)), (7, 1), "{n} entrants, {s} groups");
        }
        let model = read(open_sheet(64, 96).as_bytes()).unwrap();
        assert!(model.groups.iter().all(|group| group.open() == u64::MAX));
    }

    #[test]
    fn the_mark_of_entrant_64() {
        let sheet = |mark: &str| format!("   1  64   1   0\n   2   1   0  64{}{mark}\n", "   0".repeat(63));
        for (mark, fixed, possible) in [("   0", 0, 0), ("   1", 0, 1 << 63), ("    ", 0, 1 << 63), ("   2", 1 << 63, 1 << 63)] {
            let model = read(sheet(mark).as_bytes()).unwrap();
            assert_eq!((model.groups[0].fixed, model.groups[0].possible), (fixed, possible));
            assert_eq!(write(&model), sheet(mark.replace("    ", "   1").as_str()).as_bytes());
        }
        assert_eq!(refusal(&sheet("   3")), (7, 2));
        assert_eq!(refusal(&sheet("")), (6, 2));
        assert_eq!(refusal(&sheet("   1   1")), (6, 2));
    }
}

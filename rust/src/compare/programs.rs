//! Comparison with the built programs, each run on generated sheets: what they print against what this crate makes of the sheet.
use super::answers;
use super::blanks;
use super::calls::settled;
use super::case::{Case, Kind};
use super::combining::{self, CombineCase};
use super::differences;
use super::limits;
use super::random::Random;
use super::sheets;
use super::shrink::shrink;
use super::wide;
use crate::answer::read_lines;
use crate::combine::{clash, combine};
use crate::encode::Encoding;
use crate::fill::{self, assignment};
use crate::listing::listing;
use crate::model::Model;
use crate::refusal::{CLASH, OTHER_SIZE};
use crate::{close, fault, sheet};
use std::collections::BTreeMap;
use std::fs::{self, File};
use std::path::{Path, PathBuf};
use std::process::Command;

const PROGRAMS: [&str; 6] = [READ, "propagate_sheet", "write_cnf", "read_solution", "write_values", COMBINE];

/// Of a refused sheet it prints two lines: the refusal, and its meaning.
const READ: &str = "read_sheet";

/// It has two sheets of its own, files that are its arguments.
const COMBINE: &str = "combine_sheets";
const FILES: [&str; 2] = ["first", "second"];

/// A sheet, and what read_solution and write_values are given with it; two sheets to combine.
#[derive(Clone)]
struct Input {
    sheet: Vec<u8>,
    answer: Vec<u8>,
    groups: Vec<u64>,
    pair: [Vec<u8>; 2],
}

/// What a program must print: on standard output exactly, or as lines on either output beside words that are free.
struct Wanted {
    kind: Kind,
    out: Option<Vec<u8>>,
    lines: String,
}

pub struct Programs {
    bin: PathBuf,
    scratch: PathBuf,
}

impl Programs {
    pub fn new(bin: &Path) -> std::io::Result<Programs> {
        let scratch = std::env::temp_dir().join(format!("compare-{}", std::process::id()));
        fs::create_dir_all(&scratch)?;
        Ok(Programs { bin: bin.to_path_buf(), scratch })
    }

    /// Runs `many` sheets through each program that is there, and reports.
    pub fn run(&self, seed: u64, many: u64, say: &mut dyn FnMut(&str)) -> std::io::Result<bool> {
        let mut random = Random(seed);
        let mut met: BTreeMap<Kind, (u64, u64)> = BTreeMap::new();
        let built: Vec<&str> = PROGRAMS.into_iter().filter(|name| self.bin.join(name).is_file()).collect();
        for index in 0..many {
            let input = sample(&mut random);
            for name in &built {
                let (kind, same) = self.compare(name, &input)?;
                let counts = met.entry(kind).or_default();
                counts.0 += 1;
                counts.1 += u64::from(!same);
                if !same && counts.1 == 1 {
                    say(&self.smallest(name, kind, &input));
                }
            }
            if index % 500 == 499 {
                say(&format!("{} of {many} sheets", index + 1));
            }
        }
        PROGRAMS.iter().filter(|name| !built.contains(name)).for_each(|name| say(&format!("{name} is not built: left out")));
        let failures = met.values().filter(|counts| counts.1 > 0).count();
        met.iter().for_each(|(kind, counts)| say(&format!("{:>9}  {kind:<45} {}", counts.0, if counts.1 > 0 { "FAILED" } else { "same" })));
        say(&format!("{} passed, {failures} failed", met.len() - failures));
        Ok(failures == 0)
    }

    fn compare(&self, name: &str, input: &Input) -> std::io::Result<(Kind, bool)> {
        let wanted = wanted(name, input);
        let (out, err) = self.print(name, input)?;
        let two_lines = out.iter().filter(|&&byte| byte == b'\n').count() == 2;
        let same = match &wanted.out {
            Some(exactly) => out == *exactly && same_lines(&err, &wanted.lines),
            None => same_lines(&(err + &String::from_utf8_lossy(&out)), &wanted.lines),
        } && (name != READ || wanted.out.is_some() || two_lines);
        Ok((wanted.kind, same))
    }

    /// What a program prints, on standard output and on standard error.
    fn print(&self, name: &str, input: &Input) -> std::io::Result<(Vec<u8>, String)> {
        let (sheet_file, other_file) = (self.scratch.join("sheet"), self.scratch.join("other"));
        fs::write(&sheet_file, &input.sheet)?;
        let mut command = Command::new(self.bin.join(name));
        if name == COMBINE {
            for (file, sheet) in FILES.iter().zip(&input.pair) {
                fs::write(self.scratch.join(file), sheet)?;
                command.arg(self.scratch.join(file));
            }
        } else if let Some(other) = input.beside(name) {
            fs::write(&other_file, other)?;
            command.arg(&sheet_file).stdin(File::open(&other_file)?);
        } else {
            command.stdin(File::open(&sheet_file)?);
        }
        let output = command.output()?;
        // a sheet's name without its folder
        let err = String::from_utf8_lossy(&output.stderr).replace(&format!("{}/", self.scratch.display()), "");
        Ok((output.stdout, err))
    }

    fn smallest(&self, name: &str, kind: Kind, input: &Input) -> String {
        let with = |case: &Case| match case.clone().pair() {
            Some(pair) => Input { pair: pair.sheets.clone(), ..input.clone() },
            None => {
                let sheet = case.sheet().unwrap_or_default();
                Input { sheet: sheet.to_vec(), groups: fitted(&input.groups, sheet), ..input.clone() }
            }
        };
        let fails = |case: &Case| self.compare(name, &with(case)).is_ok_and(|(_, same)| !same);
        let case = if name == COMBINE { Case::Combine(CombineCase::new(input.pair.clone())) } else { Case::Read { sheet: input.sheet.clone() } };
        let smallest = shrink(case, &fails);
        let input = with(&smallest);
        let (out, err) = self.print(name, &input).unwrap_or_default();
        let wanted = wanted(name, &input);
        let wanted = String::from_utf8_lossy(&wanted.out.unwrap_or_default()).into_owned() + &wanted.lines;
        let printed = String::from_utf8_lossy(&out).into_owned() + &err;
        let other = input.beside(name).unwrap_or_default();
        format!("difference in {kind}\n{}standard input\n  {}\nit printed\n{printed}\nwanted\n{wanted}", smallest.show(), other.escape_ascii())
    }
}

impl Input {
    /// What a program has on standard input where the sheet is its argument.
    fn beside(&self, name: &str) -> Option<Vec<u8>> {
        match name {
            "read_solution" => Some(self.answer.clone()),
            "write_values" => Some(close::table(&self.groups).into_bytes()),
            _ => None,
        }
    }
}

impl Drop for Programs {
    fn drop(&mut self) {
        let _ = fs::remove_dir_all(&self.scratch);
    }
}

/// Whether the lines that report something are the wanted ones; such a line may go on in words after a colon.
fn same_lines(printed: &str, wanted: &str) -> bool {
    let of_a_file = |line: &str| FILES.iter().any(|file| line.starts_with(&format!("{file}: refused ")));
    let reports = printed.lines().filter(|line| of_a_file(line) || ["refused ", "passes ", "line "].iter().any(|start| line.starts_with(start)));
    let reports: Vec<&str> = reports.collect();
    let agree = |(printed, wanted): (&&str, &str)| printed.strip_prefix(wanted).is_some_and(|rest| rest.is_empty() || rest.starts_with(':'));
    reports.len() == wanted.lines().count() && reports.iter().zip(wanted.lines()).all(agree)
}

/// A sheet, valid, with blank marks, with lines of code 7, of more than 32 entrants or damaged, with an answer and groups for it.
fn sample(random: &mut Random) -> Input {
    let sevens = random.pick(&[0, 0, 30]);
    let pair = if random.chance(20) { wide::pair(random) } else { combining::sheets(random, sevens) };
    let mut sample = match random.below(20) {
        0..=2 => limits::sample(random),
        3..=5 => blanks::sample(random),
        6..=9 => differences::sample(random),
        10..=13 => wide::sample(random),
        _ => sheets::valid(random),
    };
    if random.chance(30) {
        sample.sheet = sheets::damaged(random, &sample.sheet);
        if random.chance(20) {
            sample.sheet = sheets::strayed(random, &sample.sheet);
        }
        sample.draw = None;
    }
    let Ok(model) = sheet::read(&sample.sheet) else {
        return Input { sheet: sample.sheet, answer: b"v 0\n".to_vec(), groups: vec![1], pair };
    };
    let mut groups = sample.draw.unwrap_or_else(|| vec![0; model.groups.len()]);
    let marks = settled(&sample.sheet).map_or(Vec::new(), |settled| assignment(&Encoding::of(&settled), &groups));
    if random.chance(30) {
        groups[random.below(model.groups.len())] ^= 1 << random.below(model.entrants as usize);
    }
    Input { sheet: sample.sheet, answer: answer(random, &marks), groups, pair }
}

/// Groups cut or lengthened to those of a sheet, without entrants that it does not have.
fn fitted(groups: &[u64], sheet: &[u8]) -> Vec<u64> {
    let Ok(model) = sheet::read(sheet) else { return groups.to_vec() };
    let mut groups: Vec<u64> = groups.iter().map(|set| set & model.everyone()).collect();
    groups.resize(model.groups.len(), 0);
    groups
}

/// The marks as a solver prints them, ten to a line; now and then a line of another kind between.
fn answer(random: &mut Random, marks: &[u8]) -> Vec<u8> {
    let literals: Vec<String> = marks.iter().enumerate().map(|(at, &mark)| format!(" {}{}", if mark == 1 { "" } else { "-" }, at + 1)).collect();
    let mut text = b"s SATISFIABLE\n".to_vec();
    for chunk in literals.chunks(10) {
        text.extend(format!("v{}\n", chunk.concat()).into_bytes());
        if random.chance(3) {
            text.extend(answers::line(random, marks.len()));
            text.push(b'\n');
        }
    }
    text.extend_from_slice(b"v 0\n");
    text
}

fn wanted(name: &str, input: &Input) -> Wanted {
    let sheet = &input.sheet;
    match name {
        READ => wanted_read(sheet),
        "propagate_sheet" => wanted_settled(sheet),
        "write_cnf" => wanted_listing(sheet),
        "read_solution" => wanted_groups(sheet, &input.answer),
        COMBINE => wanted_combined(&input.pair),
        _ => wanted_values(sheet, &input.groups),
    }
}

/// The kind of a sheet by its entrants.
fn by_entrants(model: &Model, [narrow, wide]: [Kind; 2]) -> Kind {
    if wide::is_wide(model) {
        wide
    } else {
        narrow
    }
}

fn refused(kind: Kind, lines: String) -> Wanted {
    Wanted { kind, out: None, lines }
}

fn whole(kind: Kind, out: Vec<u8>, lines: String) -> Wanted {
    Wanted { kind, out: Some(out), lines }
}

fn wanted_read(bytes: &[u8]) -> Wanted {
    match sheet::read(bytes) {
        Ok(model) => {
            let text = format!("{} entrants, {} groups, {} constraints\n", model.entrants, model.groups.len(), model.constraints.len());
            whole(by_entrants(&model, ["read_sheet: accepted", "read_sheet: accepted, wide"]), text.into_bytes(), String::new())
        }
        Err(no) => {
            let kind = fault::words(bytes, &no).as_deref().map_or("read_sheet: refused", fault_kind);
            refused(kind, format!("refused {} at line {}", no.number, no.line))
        }
    }
}

/// The kind of a fault, by its words.
fn fault_kind(words: &str) -> Kind {
    const KINDS: [(&str, Kind); 8] = [
        ("byte order mark", "read_sheet: refused, a byte order mark"),
        ("carriage return", "read_sheet: refused, a carriage return"),
        ("tab", "read_sheet: refused, a tab"),
        ("must be", "read_sheet: refused, a number"),
        ("`", "read_sheet: refused, a field"),
        ("fields", "read_sheet: refused, the number of fields"),
        ("the head says", "read_sheet: refused, the number of lines"),
        ("columns", "read_sheet: refused, the length of a line"),
    ];
    KINDS.iter().find(|(part, _)| words.contains(part)).map_or("read_sheet: refused, the end", |&(_, kind)| kind)
}

fn wanted_settled(bytes: &[u8]) -> Wanted {
    if let Err(no) = sheet::read(bytes) {
        return refused("propagate_sheet: sheet refused", format!("refused {} at line {}", no.number, no.line));
    }
    match settled(bytes) {
        Ok(settled) => {
            let kind = by_entrants(settled.model(), ["propagate_sheet: settled", "propagate_sheet: settled, wide"]);
            whole(kind, sheet::write(settled.model()), format!("passes {}\n", settled.passes()))
        }
        Err(number) => refused("propagate_sheet: 21", format!("refused {number}")),
    }
}

fn wanted_listing(bytes: &[u8]) -> Wanted {
    match settled(bytes) {
        Ok(settled) => {
            let kind = by_entrants(settled.model(), ["write_cnf: listing", "write_cnf: listing, wide"]);
            whole(kind, listing(&Encoding::of(&settled)), String::new())
        }
        Err(number) => whole("write_cnf: refused", format!("{number}\n").into_bytes(), String::new()),
    }
}

fn wanted_groups(bytes: &[u8], answer: &[u8]) -> Wanted {
    if let Err(no) = sheet::read(bytes) {
        return refused("read_solution: sheet refused", format!("refused {} at line {}", no.number, no.line));
    }
    let Ok(settled) = settled(bytes) else { return refused("read_solution: 21", "refused 21".to_string()) };
    let encoding = Encoding::of(&settled);
    let mut err = String::new();
    let (closed, marks) = read_lines(answer, encoding.variables, &mut |line, number| err += &format!("line {line}: refused {number}\n"));
    match close::close(&encoding, closed, &marks) {
        Ok(groups) => {
            let kind = by_entrants(settled.model(), ["read_solution: groups", "read_solution: groups, wide"]);
            whole(kind, close::table(&groups).into_bytes(), err)
        }
        Err(number) => refused("read_solution: refused", format!("{err}refused {number}")),
    }
}

fn wanted_values(bytes: &[u8], groups: &[u64]) -> Wanted {
    if let Err(no) = sheet::read(bytes) {
        return refused("write_values: sheet refused", format!("refused {} at line {}", no.number, no.line));
    }
    let Ok(settled) = settled(bytes) else { return refused("write_values: 21", "refused 21".to_string()) };
    let encoding = Encoding::of(&settled);
    let mut marks = vec![0; encoding.variables];
    match fill::fill(&encoding, groups, &mut marks) {
        Ok(()) => {
            let kind = by_entrants(settled.model(), ["write_values: values", "write_values: values, wide"]);
            whole(kind, fill::lines(&marks).into_bytes(), String::new())
        }
        Err(number) => refused("write_values: refused", format!("refused {number}")),
    }
}

fn wanted_combined(pair: &[Vec<u8>; 2]) -> Wanted {
    let [first, second] = [0, 1].map(|at| {
        let refused = |no: sheet::Refused| format!("{}: refused {} at line {}", FILES[at], no.number, no.line);
        sheet::read(&pair[at]).map_err(refused)
    });
    let (first, second) = match (first, second) {
        (Ok(first), Ok(second)) => (first, second),
        (Err(lines), _) => return refused_whole("combine_sheets: first sheet refused", lines),
        (_, Err(lines)) => return refused_whole("combine_sheets: second sheet refused", lines),
    };
    match (combine(&first, &second), clash(&first, &second)) {
        (Ok(model), _) => {
            let kind = by_entrants(&model, ["combine_sheets: combined", "combine_sheets: combined, wide"]);
            whole(kind, sheet::write(&model), String::new())
        }
        (Err(CLASH), Some(place)) => {
            let kind = if place.entrant.is_some() { "combine_sheets: 32 with an entrant" } else { "combine_sheets: 32 by limits" };
            refused_whole(kind, format!("refused 32 at {place}"))
        }
        (Err(number), _) => refused_whole(if number == OTHER_SIZE { "combine_sheets: 31" } else { "combine_sheets: 33" }, format!("refused {number}")),
    }
}

/// Refused on standard error, and nothing on standard output.
fn refused_whole(kind: Kind, lines: String) -> Wanted {
    whole(kind, Vec::new(), lines)
}

//! `bench_calls TITLE SHEET ANSWER RUNS`: the calls of the static library beside this crate's, in one process; prints rows of a table in microseconds, the last two nanoseconds a byte and a ratio.
//! `bench_calls SHEET RUNS`: settling alone, from a model's words; prints the microseconds of both sides, and of the proved call with n = 0, which ends once the words are taken.
use counterpart::compare::blanks::rewritten;
use counterpart::compare::calls::{settled, Calls, Counterpart};
use counterpart::encode::Encoding;
use counterpart::listing::listing;
use counterpart::sheet::{read as read_model, write as write_model};
use counterpart::words::to_words;
use std::hint::black_box;
use std::time::Instant;

struct Input {
    sheet: Vec<u8>,
    /// The sheet with its open marks blank.
    blank: Vec<u8>,
    /// The sheet without its lines, to be combined with it.
    bare: Vec<u8>,
    answer: Vec<u8>,
    variables: usize,
    /// The listing's last block, and its bytes.
    last: u64,
    length: usize,
    /// The marks that the answer says.
    marks: Vec<u8>,
    /// The groups that closing gives for them.
    groups: [u64; 256],
}

type Work = fn(&dyn Calls, &Input);

const STEPS: [(&str, Work); 8] = [
    ("read", read),
    ("read, open marks blank", read_blank),
    ("read two, combine and write", combine),
    ("read and settle", settle),
    ("read, settle and list", list),
    ("solver lines", lines),
    ("read, settle and close", close),
    ("read, settle and fill", fill),
];

fn read(calls: &dyn Calls, input: &Input) {
    black_box(calls.read(&input.sheet));
}

fn read_blank(calls: &dyn Calls, input: &Input) {
    black_box(calls.read(&input.blank));
}

fn combine(calls: &dyn Calls, input: &Input) {
    let length = input.sheet.len();
    assert_eq!(calls.combine(&input.sheet, &input.bare, &mut vec![0; length]), length as u64);
}

fn settle(calls: &dyn Calls, input: &Input) {
    black_box(calls.settle(&input.sheet, &mut [0; 1024]));
}

fn list(calls: &dyn Calls, input: &Input) {
    let wanted = (input.last + 1) << 32 | input.length as u64;
    assert_eq!(calls.blocks(&input.sheet, 0, &mut vec![0; input.length]), wanted);
}

fn lines(calls: &dyn Calls, input: &Input) {
    black_box(marks(calls, input));
}

fn close(calls: &dyn Calls, input: &Input) {
    assert_eq!(calls.close(&input.sheet, 1, &input.marks, &mut [0; 256]), 0);
}

fn fill(calls: &dyn Calls, input: &Input) {
    assert_eq!(calls.fill(&input.sheet, &input.groups, &mut vec![0; input.variables]), 0);
}

/// The marks after all lines of the answer.
fn marks(calls: &dyn Calls, input: &Input) -> Vec<u8> {
    let mut marks = vec![0; input.variables];
    let mut closed = 0;
    for line in input.answer.split(|&byte| byte == b'\n') {
        closed = calls.line(closed, line, &mut marks) & 1;
    }
    marks
}

/// Median microseconds of each side, their runs taking turns.
fn measure(work: impl Fn(&dyn Calls), sides: [&dyn Calls; 2], runs: usize) -> [f64; 2] {
    let mut times = [Vec::new(), Vec::new()];
    for _ in 0..runs {
        for (calls, times) in sides.into_iter().zip(&mut times) {
            let start = Instant::now();
            work(calls);
            times.push(start.elapsed().as_secs_f64() * 1e6);
        }
    }
    times.map(|mut times| {
        times.sort_by(f64::total_cmp);
        times[times.len() / 2]
    })
}

#[cfg(proved)]
fn other() -> Option<&'static dyn Calls> {
    Some(&counterpart::proved::Proved)
}

#[cfg(not(proved))]
fn other() -> Option<&'static dyn Calls> {
    None
}

/// Settling alone.
fn settle_model(sheet: &str, runs: &str) {
    let Some(other) = other() else { return println!("not built") };
    let runs = runs.parse().expect("a number of runs");
    let words = to_words(&read_model(&std::fs::read(sheet).expect("the sheet")).expect("a sheet"), 0);
    let mut out_of_range = words.clone();
    out_of_range[0] = 0;
    let call = |words: &[u64]| {
        measure(
            |calls| {
                black_box(calls.settle_model(words, &mut [0; 1024]));
            },
            [other, &Counterpart],
            runs,
        )
    };
    let ([proved, rust], [taken, _]) = (call(&words), call(&out_of_range));
    println!("{proved:.1} {rust:.1} {taken:.1}");
}

fn main() {
    let words: Vec<String> = std::env::args().collect();
    if let [_, sheet, runs] = &words[..] {
        return settle_model(sheet, runs);
    }
    let [_, title, sheet, answer, runs] = &words[..] else { panic!("usage: bench_calls TITLE SHEET ANSWER RUNS, or bench_calls SHEET RUNS") };
    let sheet = std::fs::read(sheet).expect("the sheet");
    let answer = std::fs::read(answer).expect("the answer");
    let settled = settled(&sheet).expect("a sheet that settles");
    let encoding = Encoding::of(&settled);
    let (variables, last, length) = (encoding.variables, encoding.blocks() as u64, listing(&encoding).len());
    let blank = rewritten(&sheet, |_| true);
    let mut model = read_model(&sheet).expect("a sheet");
    model.constraints.clear();
    let bare = write_model(&model);
    let mut input = Input { sheet, blank, bare, answer, variables, last, length, marks: Vec::new(), groups: [0; 256] };
    input.marks = marks(&Counterpart, &input);
    assert_eq!(Counterpart.close(&input.sheet, 1, &input.marks, &mut input.groups), 0);
    let Some(other) = other() else {
        STEPS.iter().for_each(|(step, _)| println!("| {step} | {title} | not built | | |"));
        return;
    };
    let runs = runs.parse().expect("a number of runs");
    let times = STEPS.map(|(step, work)| {
        let [proved, rust] = measure(|calls| work(calls, &input), [other, &Counterpart], runs);
        println!("| {step} | {title} | {proved:.0} | {rust:.0} | {:.2} |", proved / rust);
        [proved, rust]
    });
    let [_, _, _, _, list, _, close, fill] = times;
    let [proved, rust] = list.map(|time| 1_000.0 * time / length as f64);
    println!("| list, nanoseconds a byte | {title} | {proved:.2} | {rust:.2} | {:.2} |", proved / rust);
    println!("| fill over close | {title} | {:.2} | {:.2} | |", fill[0] / close[0], fill[1] / close[1]);
}

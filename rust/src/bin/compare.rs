//! Compares the proved code with this crate: `compare quick`, `compare long [SEED]`, `compare programs [SHEETS]`.
use counterpart::compare::programs::Programs;
use std::path::PathBuf;
use std::process::ExitCode;

const USAGE: &str = "usage: compare quick | long [SEED] | programs [SHEETS]
  quick      some ten seconds through the static library, always the same cases
  long       a million cases; SEED chooses which
  programs   the programs of target/bin (or of the folder DRAW_BIN), each run on so many sheets";

fn main() -> ExitCode {
    let words: Vec<String> = std::env::args().skip(1).collect();
    let number = words.get(1).map_or(Some(None), |word| word.parse().ok().map(Some));
    let (Some(mode), Some(number)) = (words.first(), number) else {
        eprintln!("{USAGE}");
        return ExitCode::from(2);
    };
    let same = match mode.as_str() {
        "quick" => library(1, QUICK),
        "long" => library(number.unwrap_or(2), LONG),
        "programs" => programs(number.unwrap_or(500)),
        _ => Err(USAGE.to_string()),
    };
    match same {
        Ok(true) => ExitCode::SUCCESS,
        Ok(false) => ExitCode::FAILURE,
        Err(message) => {
            eprintln!("{message}");
            ExitCode::from(2)
        }
    }
}

const QUICK: u64 = 200_000;
const LONG: u64 = 1_000_000;

#[cfg(proved)]
fn library(seed: u64, calls: u64) -> Result<bool, String> {
    let mut say = |line: &str| println!("{line}");
    let tally = counterpart::compare::run::run(&counterpart::proved::Proved, seed, calls, &mut say);
    Ok(tally.report(&mut say))
}

#[cfg(not(proved))]
fn library(_: u64, _: u64) -> Result<bool, String> {
    Err("compare was built without the proved code: run `rt lib` in crates/exports, then build again".to_string())
}

fn programs(sheets: u64) -> Result<bool, String> {
    let bin = std::env::var_os("DRAW_BIN").map_or_else(|| PathBuf::from(concat!(env!("CARGO_MANIFEST_DIR"), "/../target/bin")), PathBuf::from);
    let programs = Programs::new(&bin).map_err(|error| error.to_string())?;
    programs.run(1, sheets, &mut |line| println!("{line}")).map_err(|error| error.to_string())
}

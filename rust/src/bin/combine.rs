//! `combine FIRST SECOND`, two sheets: prints the combined sheet, or on standard error the refusal, of a sheet with its name and line, of both with the place.
use counterpart::combine::{clash, combine};
use counterpart::model::Model;
use counterpart::refusal::CLASH;
use counterpart::sheet;
use std::io::{self, Write};
use std::path::Path;

fn main() -> io::Result<()> {
    let words: Vec<_> = std::env::args_os().skip(1).collect();
    let [first, second] = &words[..] else {
        eprintln!("usage: combine FIRST SECOND");
        std::process::exit(2);
    };
    let (first, second) = (read(first.as_ref())?, read(second.as_ref())?);
    match first.and_then(|first| combined(&first, &second?)) {
        Ok(text) => io::stdout().lock().write_all(&text),
        Err(words) => {
            eprintln!("{words}");
            Ok(())
        }
    }
}

fn read(path: &Path) -> io::Result<Result<Model, String>> {
    let refused = |refused: sheet::Refused| format!("{}: refused {} at line {}", path.display(), refused.number, refused.line);
    Ok(sheet::read(&std::fs::read(path)?).map_err(refused))
}

fn combined(first: &Model, second: &Model) -> Result<Vec<u8>, String> {
    let words = |number: u32| match clash(first, second) {
        Some(place) if number == CLASH => format!("refused {number} at {place}"),
        _ => format!("refused {number}"),
    };
    combine(first, second).map(|model| sheet::write(&model)).map_err(words)
}

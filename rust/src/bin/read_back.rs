//! `read_back SHEET`, a solver's answer on standard input: prints the groups, one a line, or the refusal.
use counterpart::{answer::read_lines, close, encode::Encoding, settle::settle, sheet};
use std::io::{self, Read, Write};

fn main() -> io::Result<()> {
    let Some(path) = std::env::args_os().nth(1) else {
        eprintln!("usage: read_back SHEET < ANSWER");
        std::process::exit(2);
    };
    let sheet = std::fs::read(path)?;
    let mut answer = Vec::new();
    io::stdin().lock().read_to_end(&mut answer)?;
    io::stdout().lock().write_all(read_back(&sheet, &answer).as_bytes())
}

fn read_back(sheet: &[u8], answer: &[u8]) -> String {
    let model = match sheet::read(sheet) {
        Ok(model) => model,
        Err(refused) => return format!("refused {} at line {}\n", refused.number, refused.line),
    };
    let Some(settled) = settle(model) else { return "refused 21\n".to_string() };
    let encoding = Encoding::of(&settled);
    let (closed, marks) = read_lines(answer, encoding.variables, &mut |line, number| eprintln!("line {line}: refused {number}"));
    match close::close(&encoding, closed, &marks) {
        Ok(groups) => close::table(&groups),
        Err(number) => format!("refused {number}\n"),
    }
}

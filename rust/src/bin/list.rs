//! Sheet on standard input, its whole listing on standard output; on a refusal only the number.
use counterpart::{encode::Encoding, listing::listing, refusal::CONTRADICTION, settle::settle, sheet::read};
use std::io::{self, Read, Write};

fn list(sheet: &[u8]) -> Result<Vec<u8>, u32> {
    let model = read(sheet).map_err(|refused| refused.number)?;
    let settled = settle(model).ok_or(CONTRADICTION)?;
    Ok(listing(&Encoding::of(&settled)))
}

fn main() -> io::Result<()> {
    let mut sheet = Vec::new();
    io::stdin().lock().read_to_end(&mut sheet)?;
    let text = list(&sheet).unwrap_or_else(|number| format!("{number}\n").into_bytes());
    io::stdout().lock().write_all(&text)
}

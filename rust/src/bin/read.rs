//! Sheet on standard input; prints what was read, or the refusal and its line.
use counterpart::sheet::read;
use std::io::{self, Read};

fn main() -> io::Result<()> {
    let mut sheet = Vec::new();
    io::stdin().lock().read_to_end(&mut sheet)?;
    match read(&sheet) {
        Ok(model) => println!("{} entrants, {} groups, {} constraints", model.entrants, model.groups.len(), model.constraints.len()),
        Err(refused) => println!("refused {} at line {}", refused.number, refused.line),
    }
    Ok(())
}

//! Sheet on standard input, the settled sheet on standard output, the passes on standard error; or the refusal.
use counterpart::{settle::settle, sheet};
use std::io::{self, Read, Write};

fn main() -> io::Result<()> {
    let mut sheet = Vec::new();
    io::stdin().lock().read_to_end(&mut sheet)?;
    let model = match sheet::read(&sheet) {
        Ok(model) => model,
        Err(refused) => {
            println!("refused {} at line {}", refused.number, refused.line);
            return Ok(());
        }
    };
    match settle(model) {
        Some(settled) => {
            io::stdout().lock().write_all(&sheet::write(settled.model()))?;
            eprintln!("passes {}", settled.passes());
        }
        None => println!("refused 21"),
    }
    Ok(())
}

//! `elaborate LISTING PROOF`: a solver's proof (DRAT) as a certificate with hints (LRAT) on standard output.
//! Status 1 where the proof is none of the listing, 2 where something cannot be read or written.
use counterpart::certificate::{elaborate::elaborate, lrat, Fault};
use std::io::{self, IsTerminal};
use std::process::ExitCode;
use std::time::{Duration, Instant};

fn main() -> ExitCode {
    let words: Vec<_> = std::env::args_os().collect();
    let [_, listing, proof] = &words[..] else {
        eprintln!("usage: elaborate LISTING PROOF > CERTIFICATE");
        return ExitCode::from(2);
    };
    let read = |path| std::fs::read(path).map_err(|error| Fault::Form(format!("{}: {error}", std::path::Path::new(path).display())));
    let mut progress = Progress::new();
    let refutation = read(listing).and_then(|listing| elaborate(&listing, &read(proof)?, &mut |done, all| progress.tell(done, all)));
    drop(progress);
    let written = refutation.map(|refutation| lrat::write(refutation, &mut io::stdout().lock()));
    let (words, status) = match written {
        Ok(Ok(())) => return ExitCode::SUCCESS,
        Ok(Err(error)) => (format!("the certificate could not be written: {error}"), 2),
        Err(fault @ Fault::Form(_)) => (fault.to_string(), 2),
        Err(fault) => (fault.to_string(), 1),
    };
    eprintln!("elaborate: {words}");
    ExitCode::from(status)
}

/// Says on a terminal how far it is, from the first second on: one line, rewritten and at last removed.
struct Progress {
    next: Instant,
    terminal: bool,
    shown: bool,
}

impl Progress {
    fn new() -> Progress {
        Progress { next: Instant::now() + Duration::from_secs(1), terminal: io::stderr().is_terminal(), shown: false }
    }

    fn tell(&mut self, done: usize, all: usize) {
        if self.terminal && done % 1024 == 0 && Instant::now() >= self.next {
            eprint!("\relaborate: {} % of the proof", 100 * done / all);
            self.shown = true;
            self.next = Instant::now() + Duration::from_secs(1);
        }
    }
}

impl Drop for Progress {
    fn drop(&mut self) {
        if self.shown {
            eprint!("\r\x1b[K");
        }
    }
}

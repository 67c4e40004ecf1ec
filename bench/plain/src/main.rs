//! `plain report LAYOUT MANIFEST [--profile WORD] [--threads N] [--time]`: the report of an MPI trace, without proofs.

use plain::profile::Profile;
use plain::{Options, run};
use std::io::Write;
use std::process::ExitCode;

fn main() -> ExitCode {
    let mut words = Vec::new();
    let mut opts = Options { threads: 1, time: false, fast: true, profile: Profile::Numbers };
    let mut args = std::env::args_os().skip(1);
    let mut bad = false;
    let mut plain = false;
    while let Some(a) = args.next() {
        match a.to_str() {
            Some(s) if plain => words.push(s.to_string()),
            Some("--") => plain = true,
            Some("--time") => opts.time = true,
            Some("--slow-text") => opts.fast = false,
            Some("--profile") => match args.next().and_then(|word| Profile::named(word.to_str()?)) {
                Some(profile) => opts.profile = profile,
                None => bad = true,
            },
            Some("--threads") => match args.next().and_then(|n| n.to_str()?.parse().ok()) {
                Some(n) if (1..=1024).contains(&n) => opts.threads = n,
                _ => bad = true,
            },
            Some(s) if !s.starts_with('-') => words.push(s.to_string()),
            _ => bad = true,
        }
    }
    if std::env::args_os().nth(1).is_some_and(|w| ["--help", "-h", "help", "--version"].iter().any(|h| w == *h)) {
        println!("plain report LAYOUT MANIFEST [--profile WORD] [--threads N] [--time]");
        return ExitCode::SUCCESS;
    }
    if bad || words.len() != 3 || words[0] != "report" {
        eprintln!("usage: plain report LAYOUT MANIFEST [--profile WORD] [--threads N] [--time]");
        return ExitCode::from(2);
    }
    let mut out = std::mem::ManuallyDrop::new(unsafe {
        <std::fs::File as std::os::fd::FromRawFd>::from_raw_fd(1)
    });
    match run(&words[1], &words[2], &opts, &mut *out) {
        Ok(()) => {
            // The system takes all memory back at once.
            std::process::exit(0)
        }
        Err(line) => {
            // A control character of a file's name is no end of the line.
            let mut plain = String::new();
            for c in line.chars() {
                if c.is_control() { plain.extend(c.escape_debug()) } else { plain.push(c) }
            }
            let _ = std::io::stderr().write_all(format!("mpimatch: {plain}\n").as_bytes());
            ExitCode::from(1)
        }
    }
}

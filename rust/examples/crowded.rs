//! A crowded button's dump gathered: a second dump with the same files, full packets, filled directory pages and consecutive chains.
//!
//!     tools/build
//!     cargo run --offline --manifest-path rust/Cargo.toml --example crowded -- samples/crowded.dump gathered.dump
//!
//! The first argument is the dump, the second the name of the dump that is made; a file that is there already is not written over. What stands before the
//! image in the dump is kept as it is.

use std::env;
use std::fs::{self, File};
use std::io::Write;
use std::process::ExitCode;

use owfs::{check, gather, owner_table, Geometry};

/// The bytes of a dump's header: page length (2), page count (2), offset of page 0 (4), low byte first.
const HEADER: usize = 8;

/// What is printed for bytes that are no dump, as by `list`.
const MALFORMED: &str = "refused 19 page 0\n";

/// A number, low byte first.
fn number(bytes: &[u8]) -> u32 {
    let high_first = bytes.iter().rev();
    high_first.fold(0, |number, &byte| number << 8 | u32::from(byte))
}

/// The gathered dump, with what is to be printed; or why there is none.
fn gathered(dump: &[u8]) -> Result<(Vec<u8>, String), String> {
    let header = dump.get(..HEADER).ok_or(MALFORMED)?;
    let offset = number(&header[4..8]) as usize;
    let image = dump.get(offset..).filter(|_| offset >= HEADER);
    let image = image.ok_or(MALFORMED)?;
    let geometry = Geometry::new(number(&header[..2]), number(&header[2..4]));
    let mut owners = owner_table(geometry.page_count);
    let mut copy = vec![0; image.len()];
    let done = gather(geometry, image, &mut copy, &mut owners);
    let before = done.and_then(|()| check(geometry, image, &mut owners));
    let after = before.and_then(|_| check(geometry, &copy, &mut owners));
    let (before, after) = before
        .and_then(|before| after.map(|after| (before.used, after.used)))
        .map_err(|refusal| format!("refused {} page {}\n", refusal.number, refusal.page))?;
    let words = format!("pages in use {before}, gathered {after}\n");
    Ok(([&dump[..offset], &copy[..]].concat(), words))
}

/// Writes a file that is not there yet.
fn write_new(name: &str, bytes: &[u8]) -> Result<(), String> {
    let new = File::options().write(true).create_new(true).open(name);
    let written = new.and_then(|mut file| file.write_all(bytes));
    written.map_err(|error| format!("{name}: {error}\n"))
}

/// Gathers the dump of the first name into a new file of the second.
fn run(from: &str, to: &str) -> Result<String, String> {
    let dump = fs::read(from).map_err(|error| format!("{from}: {error}\n"))?;
    let (copy, words) = gathered(&dump)?;
    write_new(to, &copy)?;
    Ok(words)
}

fn main() -> ExitCode {
    let names: Vec<String> = env::args().skip(1).collect();
    let told = match &names[..] {
        [from, to] => run(from, to),
        _ => Err(String::from(
            "two arguments: the dump, the name of the gathered one\n",
        )),
    };
    match told {
        Ok(text) => {
            print!("{text}");
            ExitCode::SUCCESS
        }
        Err(text) => {
            print!("{text}");
            ExitCode::FAILURE
        }
    }
}

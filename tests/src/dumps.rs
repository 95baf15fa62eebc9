//! Dumps for the program `list`, and what it prints for them. `tools/build` makes `target/bin/list`.

use std::io::{ErrorKind, Write};
use std::path::{Path, PathBuf};
use std::process::{Command, Stdio};

use crate::generators::{
    damaged_case, fault_case, misfit, sound_case, two_faults_case, Case, Made,
};
use crate::{Button, Tally};
use referee::list_text;
use referee::rng::Rng;

/// The greatest offset, and the most bytes after it.
const LIMIT: usize = 32_768;

/// The program `list`.
fn program() -> PathBuf {
    Path::new(env!("CARGO_MANIFEST_DIR")).join("../target/bin/list")
}

/// What the program `list` prints for a dump on its standard input.
pub fn list_program(dump: &[u8]) -> Vec<u8> {
    let program = program();
    let mut list = Command::new(&program)
        .stdin(Stdio::piped())
        .stdout(Stdio::piped())
        .stderr(Stdio::piped())
        .spawn()
        .unwrap_or_else(|error| panic!("{}: {error}", program.display()));
    if let Some(mut input) = list.stdin.take() {
        match input.write_all(dump) {
            // The program may leave bytes unread that cannot change its answer.
            Err(error) if error.kind() != ErrorKind::BrokenPipe => panic!("{error}"),
            _ => drop(input),
        }
    }
    let output = list.wait_with_output().expect("the program ends");
    assert!(output.status.code().is_some(), "{}", output.status);
    assert!(output.stderr.is_empty(), "nothing on standard error");
    output.stdout
}

/// The text that the program `list` and the second program print for a dump.
pub fn text(dump: &[u8]) -> String {
    let expected = String::from_utf8(list_text(dump)).expect("ASCII");
    let printed = String::from_utf8_lossy(&list_program(dump)).into_owned();
    assert_eq!(printed, expected, "program `list` and second program");
    expected
}

/// Demands one text for a dump from the program `list` and the second program, and counts its first words.
pub fn compare(dump: &[u8], tally: &mut Tally) -> String {
    let text = text(dump);
    let words: Vec<&str> = text.split_whitespace().take(2).collect();
    let answer = match words[..] {
        ["refused", number] => format!("refused {number}"),
        _ => String::from("accepted 0"),
    };
    tally.add(&answer);
    answer
}

/// A dump: header, bytes up to the offset, image.
pub fn dump(page_length: u16, page_count: u16, offset: u32, image: &[u8]) -> Vec<u8> {
    let mut dump = page_length.to_le_bytes().to_vec();
    dump.extend(page_count.to_le_bytes());
    dump.extend(offset.to_le_bytes());
    dump.resize((offset as usize).clamp(8, 40_000), 0xB7);
    dump.extend_from_slice(image);
    dump
}

/// The dump of an image whose page length and page count fit its header, at an offset.
fn dump_of(button: &Button, offset: usize) -> Vec<u8> {
    let (page_length, page_count) = (button.page_length as u16, button.page_count as u16);
    dump(page_length, page_count, offset as u32, &button.image)
}

/// A case whose image a dump can hold.
fn fitting(rng: &mut Rng, mut make: impl FnMut(&mut Rng) -> Case) -> Case {
    loop {
        let case = make(rng);
        if case.button.image.len() <= LIMIT {
            return case;
        }
    }
}

/// An offset of page 0 that is allowed.
fn random_offset(rng: &mut Rng) -> usize {
    match rng.below(10) {
        0..=4 => 8,
        5 => [9, 10, 255, 256, 257, LIMIT - 1, LIMIT][rng.below(7)],
        6 => rng.between(8, LIMIT),
        _ => rng.between(8, 200),
    }
}

/// A dump of a sound image, with a label.
pub fn sound_dump(rng: &mut Rng) -> (&'static str, Vec<u8>) {
    let case = fitting(rng, sound_case);
    let offset = random_offset(rng);
    let has_stamps = case.built.entries.iter().any(|entry| entry.stamps > 0);
    let label = match offset {
        _ if has_stamps => "sound image with stamps",
        8 => "sound image at offset 8",
        _ => "sound image at another offset",
    };
    (label, dump_of(&case.button, offset))
}

/// A dump of an image with faults; `kind` chooses one fault of each number, two faults, or another damage.
pub fn faulty_dump(kind: u64, rng: &mut Rng) -> Vec<u8> {
    let case = fitting(rng, |rng| match kind % 24 {
        number @ 0..=11 => fault_case(2 + number as u32, rng),
        12..=16 => {
            let numbers = [rng.between(2, 13) as u32, rng.between(2, 13) as u32];
            two_faults_case(numbers, rng)
        }
        17..=19 => damaged_case(Made::Sealed, rng),
        20 | 21 => damaged_case(Made::Flipped, rng),
        _ => damaged_case(Made::Packets, rng),
    });
    dump_of(&case.button, random_offset(rng))
}

/// A dump that is malformed or nearly so, or whose image does not fit its header, with a label.
pub fn malformed_dump(kind: u64, rng: &mut Rng) -> (&'static str, Vec<u8>) {
    let mut case = fitting(rng, sound_case);
    let image_bytes = case.button.image.len();
    let mut whole = dump_of(&case.button, 8);
    match kind % 14 {
        0 => {
            whole.truncate(rng.below(8));
            ("short header", whole)
        }
        1 => {
            let length = rng.below(600);
            ("any bytes", rng.bytes(length))
        }
        2 => {
            case.button.image = rng.bytes(image_bytes);
            ("any bytes as the image", dump_of(&case.button, 8))
        }
        3 => ("offset below 8", with_offset(whole, rng.below(8))),
        4 => {
            let offset = whole.len().min(LIMIT);
            whole.truncate(offset);
            ("offset at the end", with_offset(whole, offset))
        }
        5 => {
            whole.truncate(rng.between(8, LIMIT - 1));
            let more = [0, rng.below(50), rng.below(LIMIT)][rng.below(3)];
            let offset = (whole.len() + 1 + more).min(LIMIT);
            ("offset past the end", with_offset(whole, offset))
        }
        6 => {
            let offset = [LIMIT + 1, 65_536 + 8, 1 << 24 | 8, u32::MAX as usize][rng.below(4)];
            ("offset above 32,768", with_offset(whole, offset))
        }
        7 => {
            let length = LIMIT + 1 + [0, rng.below(40), rng.below(9_000), 300_000][rng.below(4)];
            let offset = random_offset(rng);
            whole.resize(offset + length, 0);
            ("more than 32,768 bytes", with_offset(whole, offset))
        }
        8 => {
            let page_count = rng.between(129, 150) as u32;
            let button = Button::formatted(256, page_count, false);
            ("sound image too long", dump_of(&button, random_offset(rng)))
        }
        9 => {
            let page_length = [32, 64, 128, 256][rng.below(4)];
            let button = Button::formatted(page_length, LIMIT as u32 / page_length, false);
            ("just 32,768 bytes", dump_of(&button, random_offset(rng)))
        }
        10 => {
            whole.truncate(rng.between(8, whole.len() - 1));
            ("image cut short", whole)
        }
        11 => {
            let more = rng.between(1, 40);
            whole.extend(rng.bytes(more));
            whole.truncate(8 + LIMIT);
            ("bytes after the image", whole)
        }
        12 => {
            misfit(&mut case.button, rng);
            ("other numbers in the header", dump_of(&case.button, 8))
        }
        _ => {
            let place = rng.below(8);
            whole[place] ^= 1 << rng.below(8);
            ("a bit of the header flipped", whole)
        }
    }
}

/// The dump with another offset in its header.
fn with_offset(mut dump: Vec<u8>, offset: usize) -> Vec<u8> {
    dump[4..8].copy_from_slice(&(offset as u32).to_le_bytes());
    dump
}

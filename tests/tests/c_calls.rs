//! The library called by a C program, each call on a stack of 16 KiB, and four examples of firmware with what they print.
//!
//! Programs: the library, by the C program `tests/c/calls.c`, compiled here with warnings as errors, and the second program, whose answers and lent
//! bytes the C program must print; `tests/c/firmware.c`, `tests/c/booms.c`, `tests/c/pulled.c` and `tests/c/crowded.c`, which call the library alone
//! and print known texts. The archive is made by `tools/build`.

use std::path::Path;
use std::process::Command;

use common::c_calls::{request, Call};
use common::c_programs::{compiled, printed, stack_used, Caller, SMALL_STACK};
use common::generators::{
    damaged_case, fault_case, labelled_local, labelled_out_bytes, labelled_owner_bytes,
    labelled_position, random_directory_path, random_path, sound_case, Case, Made,
};
use common::reports::{
    forged_weighted_report, random_files, random_limit, random_margin, random_weight, weighed_files,
};
use common::trials::{random_allowed, random_copy_bytes};
use common::{run_seeds, Button, Seed, Tally};
use referee::builder::random::random_name;
use referee::rng::Rng;

/// The folder for the files of these tests.
fn folder() -> &'static Path {
    Path::new(env!("CARGO_TARGET_TMPDIR"))
}

/// A path and bytes for a put: near what the image holds, or of a new file in the root.
fn random_put(case: &Case, rng: &mut Rng) -> (Vec<u8>, Vec<u8>) {
    let path = match rng.below(3) {
        0 => [&random_name(rng)[..], &[rng.below(100) as u8]].concat(),
        _ => random_path(&case.built, rng).path,
    };
    let length = [0, rng.below(60), rng.below(3_000), 40_000][rng.below(4)];
    (path, rng.bytes(length))
}

/// A careful put or a careful delete, which may be stopped.
fn random_careful(case: &Case, owner_bytes: usize, rng: &mut Rng) -> Call {
    let allowed = random_allowed(rng);
    if rng.chance(60) {
        let (path, bytes) = random_put(case, rng);
        return Call::CarefulPut {
            owner_bytes,
            path,
            bytes,
            allowed,
        };
    }
    Call::CarefulDelete {
        owner_bytes,
        path: random_path(&case.built, rng).path,
        allowed,
    }
}

/// A listing of a position near the entries that there are.
fn random_list(case: &Case, owner_bytes: usize, rng: &mut Rng, tally: &mut Tally) -> Call {
    let (label, position) = labelled_position(case.built.entries.len(), rng);
    tally.add(label);
    Call::List {
        owner_bytes,
        position,
    }
}

/// A read of a path near what the image holds, into an output of any length.
fn random_read(case: &Case, owner_bytes: usize, rng: &mut Rng, tally: &mut Tally) -> Call {
    let wanted = random_path(&case.built, rng);
    let (label, out_bytes) = labelled_out_bytes(wanted.file_bytes, rng);
    tally.add(label);
    Call::Read {
        owner_bytes,
        path: wanted.path,
        out_bytes,
    }
}

/// A format with a local bitmap or a bitmap file.
fn random_format(owner_bytes: usize, rng: &mut Rng, tally: &mut Tally) -> Call {
    let (label, local) = labelled_local(rng);
    tally.add(label);
    Call::Format { owner_bytes, local }
}

/// Any call but a format.
fn random_call(case: &Case, owner_bytes: usize, rng: &mut Rng, tally: &mut Tally) -> Call {
    match rng.below(21) {
        0 => Call::Check { owner_bytes },
        1..=3 => {
            let (path, bytes) = random_put(case, rng);
            Call::Put {
                owner_bytes,
                path,
                bytes,
            }
        }
        4 | 5 => {
            let path = random_path(&case.built, rng).path;
            Call::Delete { owner_bytes, path }
        }
        6 | 7 => random_list(case, owner_bytes, rng, tally),
        10..=13 => random_careful(case, owner_bytes, rng),
        14 | 15 => Call::Mend { owner_bytes },
        16 => Call::MakeDirectory {
            owner_bytes,
            path: random_directory_path(&case.built, rng),
        },
        17 | 18 => Call::RemoveDirectory {
            owner_bytes,
            path: random_directory_path(&case.built, rng),
        },
        19 | 20 => Call::Gather {
            owner_bytes,
            copy_bytes: random_copy_bytes(case.button.image.len(), rng),
        },
        _ => random_read(case, owner_bytes, rng, tally),
    }
}

/// Some calls with a generated image, puts, deletes, careful ones, mends, gathers and directories made and removed among them; near the end there may
/// be a format.
fn random_calls(case: &Case, rng: &mut Rng, tally: &mut Tally) -> Vec<Call> {
    let mut calls = Vec::new();
    let format_at = if rng.chance(50) { 22 } else { usize::MAX };
    for place in 0..24 {
        let (label, owner_bytes) = labelled_owner_bytes(case.button.page_count, rng);
        tally.add(label);
        calls.push(if place == format_at {
            random_format(owner_bytes, rng, tally)
        } else {
            random_call(case, owner_bytes, rng, tally)
        });
    }
    calls
}

/// Every answer and every lent byte is the second program's.
#[test]
fn answers_in_c_are_the_second_programs() {
    let caller = Caller::new(folder(), "random-calls");
    let mut tally = Tally::default();
    let mut most_stack = 0;
    for seed in 0x7000_0000..0x7000_0000 + 400 {
        let _seed = Seed(seed);
        let mut rng = Rng::new(seed);
        let case = match seed % 5 {
            0 => fault_case(2 + (seed / 5 % 12) as u32, &mut rng),
            1 => damaged_case(Made::Misfit, &mut rng),
            2 => damaged_case(Made::Sealed, &mut rng),
            _ => sound_case(&mut rng),
        };
        let image = caller.write_image("some.image", &case.button);
        let calls = random_calls(&case, &mut rng, &mut tally);
        let mut button = case.button;
        let mut input = Vec::new();
        let mut expected = String::new();
        for call in &calls {
            let lines = call.expected(&mut button);
            tally.add(lines.split(' ').take(2).collect::<Vec<&str>>().join(" "));
            input.extend(call.bytes());
            expected += &lines;
        }
        let output = caller.run(&image, &input, "calls");
        printed(&output, &expected);
        most_stack = most_stack.max(stack_used(&output));
    }
    println!("most bytes of stack: {most_stack}");
    assert!(most_stack < SMALL_STACK);
    tally.print();
    tally.demand_numbers("c", 5, [0, 1]);
    tally.demand_numbers("l", 5, (0..=13).filter(|&number| number != 5).chain([15]));
    tally.demand_numbers("r", 5, (0..=13).chain([14, 15, 18]));
    tally.demand_numbers("f", 5, [0, 1, 4]);
    tally.demand_numbers("p", 5, (0..=17).chain([22]));
    tally.demand_numbers("d", 5, (0..=16).chain([22]));
    tally.demand_numbers("P", 5, (0..=17).chain([22]));
    tally.demand_numbers("D", 5, (0..=16).chain([22]));
    tally.demand_numbers("m", 5, 0..=13);
    tally.demand_numbers("g", 5, 0..=13);
    tally.demand_numbers("n", 1, (0..=15).chain([17, 21, 22]));
    tally.demand_numbers("x", 1, (0..=15).chain([20, 22]));
}

/// Check sums of any bytes, started with any number.
#[test]
fn check_sums_in_c_are_the_second_programs() {
    let caller = Caller::new(folder(), "sums");
    let image = caller.write_image("no.image", &Button::zeros(0, 0));
    let (mut input, mut expected) = (Vec::new(), String::new());
    run_seeds(0x7100_0000..0x7100_0000 + 200, |_, rng| {
        let start = rng.next_u64() as u16;
        let length = [0, 1, 2, 30, 31, 256, rng.below(40_000)][rng.below(7)];
        let bytes = rng.bytes(length);
        input.extend(request(b'k', &[u32::from(start), length as u32]));
        input.extend(&bytes);
        expected += &format!("k {}\n", referee::crc16(start, &bytes));
    });
    let output = caller.run(&image, &input, "calls");
    printed(&output, &expected);
    println!("bytes of stack: {}", stack_used(&output));
}

/// Reports in C: started with a weight and without, files added one after the other, and files added to reports that other hands have changed.
#[test]
fn reports_in_c_are_the_second_programs() {
    let caller = Caller::new(folder(), "reports");
    let none = Button::zeros(0, 0);
    let image = caller.write_image("no.image", &none);
    let mut tally = Tally::default();
    let (mut input, mut expected) = (Vec::new(), String::new());
    run_seeds(0x7200_0000..0x7200_0000 + 1_000, |seed, rng| {
        let (limit, margin) = (random_limit(rng), random_margin(rng));
        let (version, knee) = random_weight(rng);
        let mut calls = vec![
            Call::ReportStart { limit, margin },
            Call::ReportStartWeighted {
                limit,
                margin,
                version,
                knee,
            },
        ];
        let mut report = match seed % 3 {
            0 => forged_weighted_report(rng),
            1 => referee::report_start_weighted(limit, margin, version, knee),
            _ => referee::report_start(limit, margin),
        };
        let files = match report.version {
            0 => random_files(&report, rng, &mut tally),
            _ => weighed_files(&report, rng, &mut tally),
        };
        for file in files {
            let next = referee::report_add(report, &file).report;
            calls.push(Call::ReportAdd { report, file });
            report = next;
        }
        for call in &calls {
            let line = call.expected(&mut none.clone());
            tally.add(line.split(' ').take(2).collect::<Vec<&str>>().join(" "));
            input.extend(call.bytes());
            expected += &line;
        }
    });
    let output = caller.run(&image, &input, "calls");
    printed(&output, &expected);
    println!("bytes of stack: {}", stack_used(&output));
    tally.demand_numbers("a", 500, [0, 24, 25]);
}

/// What the example of firmware prints.
const FIRMWARE: &str = "\
format: 0 page 0
check: 0 page 0, pages in use 1, files 0
put of 9 bytes: 0 page 0
read: 0 page 0, \"Monday 12\"
check: 0 page 0, pages in use 2, files 1
put of 34 bytes: 0 page 0
read: 0 page 0, \"Monday 12, Tuesday 15, Wednesday 9\"
check: 0 page 0, pages in use 3, files 1
put of 512 bytes: 17 page 0
read: 0 page 0, \"Monday 12, Tuesday 15, Wednesday 9\"
delete: 0 page 0
delete: 15 page 0
check: 0 page 0, pages in use 1, files 0
";

/// The example is C99 without a warning, and every step is as it expects.
#[test]
fn example_of_firmware_is_c99_and_prints_each_step() {
    let program = compiled(folder(), "firmware.c", &["-std=c99", "-pedantic"]);
    let output = Command::new(program).output().expect("the example runs");
    printed(&output, FIRMWARE);
}

/// What the example of one directory for each boom prints.
const BOOMS: &str = "\
format: 0
make BM01: 0
make BM02: 0
make BM03: 0
make BM02: 21
put of 9 bytes to BM01: 0
put of 10 bytes to BM02: 0
put of 8 bytes to BM04: 15
remove BM02: 20
remove BM03: 0
remove BM03: 15
delete from BM02: 0
remove BM02: 0
BM01 127, level 0, page 2
CNT 007, level 1, page 5, 9 bytes
pages in use 4, files 1, directories 1
";

/// The example is C99 without a warning, and every step is as it expects.
#[test]
fn example_of_a_directory_for_each_boom_is_c99_and_prints_each_step() {
    let program = compiled(folder(), "booms.c", &["-std=c99", "-pedantic"]);
    let output = Command::new(program).output().expect("the example runs");
    printed(&output, BOOMS);
}

/// What the example with a button that is pulled prints.
const PULLED: &str = "\
16 pages of 32 bytes, bitmap in page 0: 19 edits, 69 pulls, 50 mends, 50 pulls while mending
32 pages of 64 bytes, bitmap in page 0: 19 edits, 85 pulls, 66 mends, 66 pulls while mending
24 pages of 32 bytes, bitmap file: 19 edits, 76 pulls, 57 mends, 57 pulls while mending
16 pages of 32 bytes, scattered bitmap file, files in a directory: 19 edits, 72 pulls, 53 mends, 75 pulls while mending
320 pages of 32 bytes, bitmap file of two pages: 19 edits, 288 pulls, 269 mends, 501 pulls while mending
";

/// The example is C99 without a warning; its button is pulled after every page write of every edit and of every mend.
#[test]
fn example_with_a_button_that_is_pulled_loses_no_file() {
    let program = compiled(folder(), "pulled.c", &["-std=c99", "-pedantic"]);
    let output = Command::new(program).output().expect("the example runs");
    printed(&output, PULLED);
}

/// What the example with a crowded button prints.
const CROWDED: &str = "\
crowded: pages in use 13, files 5, directories 1
gather: 2 page 1, the button is left alone
gathered: pages in use 10, files 5, directories 1
pulled after 0 to 27 page writes: 5 refused by a check, 4 accepted with wrong files, 19 sound
copy written again whole: 924 times after two pulls, every file as before
old image written back whole: 924 times after two pulls, every file as before
lost page writes found by reading back: 27
";

/// The example is C99 without a warning; its button is pulled at every moment of the gathering and of the next contact.
#[test]
fn example_with_a_crowded_button_keeps_both_images_until_it_reads_back() {
    let program = compiled(folder(), "crowded.c", &["-std=c99", "-pedantic"]);
    let output = Command::new(program).output().expect("the example runs");
    printed(&output, CROWDED);
}

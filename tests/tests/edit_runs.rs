//! Long seeded runs on one image of format, put, delete, making and removing directories, careful calls, check, list and read. Each answer is known by construction: the image has a plan, which the
//! edits change.
//!
//! Programs: the library and the second program. Each call is made by both; every answer and every lent byte is compared.
//! The archive is made by `tools/build`.

use common::edit_runs::Run;
use common::generators::stamped_plan;
use common::puts::{used_plan, DONE, ENTRIES, MAKE_ROOM, ROOM, STAMPED};
use common::{run_seeds, Seed, Tally};
use referee::rng::Rng;

/// Page length and page count of the formatted images, and 1 for a local bitmap.
const BUTTONS: [(u32, u32, u32); 21] = [
    (32, 2, 1),
    (32, 2, 0),
    (32, 3, 0),
    (32, 16, 1),
    (32, 16, 0),
    (33, 31, 1),
    (32, 31, 0),
    (32, 32, 1),
    (38, 32, 0),
    (40, 60, 0),
    (64, 100, 0),
    (32, 224, 0),
    (32, 225, 0),
    (39, 256, 0),
    (32, 257, 0),
    (32, 300, 0),
    (128, 24, 1),
    (255, 31, 1),
    (256, 32, 1),
    (256, 300, 0),
    (48, 1_000, 0),
];

/// Runs on formatted images: with a local bitmap and with a bitmap file, with one-byte and with two-byte page numbers.
#[test]
fn runs_on_formatted_images_are_as_planned() {
    let mut tally = Tally::default();
    for (place, (page_length, page_count, local)) in BUTTONS.into_iter().enumerate() {
        let seed = 0xB000_0000 + place as u64;
        let _seed = Seed(seed);
        let mut rng = Rng::new(seed);
        Run::formatted(page_length, page_count, local, &mut rng, &mut tally).run(1_100);
    }
    tally.print();
    tally.demand(6_000, &["puts"]);
    tally.demand_numbers("format", 20, [0, 4]);
    tally.demand_numbers("put", 100, [0, 14, 15, 17]);
    tally.demand_numbers("delete", 100, [0, 14, 15]);
    tally.demand_numbers("read", 100, [0, 15, 18]);
    tally.demand_numbers("check", 100, [0]);
    tally.demand_numbers("list", 100, [0, 15]);
    tally.demand_numbers("careful put", 50, [0, 15, 17]);
    tally.demand_numbers("careful delete", 50, [0, 15]);
    tally.demand(100, &["careful edits stopped"]);
    tally.demand_numbers("make directory", 50, [0, 14, 15, 17, 21]);
    tally.demand_numbers("remove directory", 50, [0, 14, 15, 20]);
    tally.demand(20, &["directory of several pages removed"]);
}

/// Runs on images with many stamps.
#[test]
fn runs_on_images_with_stamps_are_as_planned() {
    let mut tally = Tally::default();
    run_seeds(0xB200_0000..0xB200_0000 + 400, |_, rng| {
        Run::generated(stamped_plan(rng), rng, &mut tally).run(55);
    });
    tally.print();
    tally.demand(5_000, &["puts"]);
    tally.demand(40, &STAMPED);
    tally.demand(100, &["file with stamps deleted", "careful edits stopped"]);
    tally.demand_numbers("put", 100, [0, 14, 15, 16, 17, 22]);
    tally.demand_numbers("delete", 100, [0, 14, 15, 16, 22]);
    tally.demand_numbers("careful put", 50, [0, 15, 16, 17, 22]);
    tally.demand_numbers("careful delete", 20, [0, 15, 16, 22]);
    tally.demand_numbers("make directory", 50, [0, 14, 15, 17, 21, 22]);
    tally.demand_numbers("remove directory", 50, [0, 14, 15, 20, 22]);
    tally.demand(
        20,
        &[
            "directory with stamps removed",
            "parent must grow because of stamps: 0",
        ],
    );
}

/// Runs on generated images: nested directories, hidden ones too, scattered chains, odd packets, read-only files.
#[test]
fn runs_on_generated_images_are_as_planned() {
    let mut tally = Tally::default();
    run_seeds(0xB100_0000..0xB100_0000 + 300, |seed, rng| {
        Run::generated(used_plan(seed, rng), rng, &mut tally).run(100);
    });
    tally.print();
    tally.demand(10_000, &["puts"]);
    tally.demand(10, &DONE);
    tally.demand(10, &ENTRIES);
    tally.demand(10, &ROOM);
    tally.demand_numbers("format", 20, [0, 4]);
    tally.demand_numbers("put", 100, [0, 14, 15, 16, 17, 22]);
    tally.demand_numbers("delete", 100, [0, 14, 15, 16, 22]);
    tally.demand_numbers("read", 100, [0, 15, 18]);
    tally.demand_numbers("check", 100, [0]);
    tally.demand_numbers("list", 20, [0, 15]);
    tally.demand_numbers("careful put", 50, (14..=17).chain([22]));
    tally.demand_numbers("careful delete", 20, (14..=16).chain([22]));
    tally.demand(300, &["careful edits stopped"]);
    tally.demand(1, &MAKE_ROOM);
    tally.demand_numbers("make directory", 100, [0, 14, 15, 17, 21, 22]);
    tally.demand_numbers("remove directory", 100, [0, 14, 15, 20, 22]);
    tally.demand(
        10,
        &[
            "directory of several pages removed",
            "directory made at level eight",
        ],
    );
}

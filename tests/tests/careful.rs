//! Careful puts and careful deletes with every stopping point, or, of many writes, with some: answer, writes made and left, every byte, every owner;
//! then a mend, and every file read.
//!
//! Programs: the library and the second program. Each careful call, check and mend is made by both; every answer and every lent byte is compared. The
//! pages written and their order, the marks that a check finds and a mend clears, the entries and files then, and the image when nothing is left are
//! known by construction besides. The archive is made by `tools/build`.

use common::generators::{files, roomy_plan};
use common::plans::{directories, plan_with, Room};
use common::puts::{
    careful_bytes, done_features, labelled_path, path_in, stamp_feature, used_plan,
};
use common::stops::{careful_edit, lay_packets, Careful, Edit};
use common::{no_writes, run_seeds, Button, Tally};
use referee::builder::plan::{Built, BuiltEntry, ImagePlan};
use referee::rng::Rng;

/// The first seed of each test.
const PUTS: u64 = 0xE000_0000;
const DELETES: u64 = 0xE100_0000;
const STANDING: u64 = 0xE200_0000;
const GROWING: u64 = 0xE300_0000;
const LONG: u64 = 0xE400_0000;

/// The most entries of an image, each of which is read after every write.
const MOST_ENTRIES: usize = 30;

/// The most writes of an edit that is stopped after every one; an edit with more is stopped after some, but for a few.
const MOST_WRITES: usize = 60;

/// A plan of an image in use with not too many entries, most often with pages free; few have more than 300 pages.
fn plan_in_use(seed: u64, rng: &mut Rng) -> ImagePlan {
    let most_pages = if rng.chance(3) { 1_000 } else { 300 };
    loop {
        let plan = match seed % 3 {
            0 => used_plan(seed / 3, rng),
            _ => roomy_plan(most_pages, rng),
        };
        let few = plan.build().entries.len() <= MOST_ENTRIES;
        if few && plan.page_count as usize <= most_pages {
            return plan;
        }
    }
}

/// Stops an edit after every write, or after some if it has many, and counts the stopping points.
fn stop(edit: &Careful, rng: &mut Rng, tally: &mut Tally) {
    if edit.total() > MOST_WRITES && !rng.chance(4) {
        let points = edit.sample(rng);
        edit.stops(&points, rng);
        tally.add("edits stopped after some of many writes");
        tally.add_times("stopping points", points.len() as u32);
    } else {
        edit.every_stop(rng);
        tally.add("edits");
        tally.add_times("stopping points", edit.total() as u32 + 3);
    }
}

/// Demands a refusal whatever number of writes is allowed.
fn demand_refused(button: &Button, path: &[u8], edit: &Edit, number: u32, rng: &mut Rng) {
    for allowed in [0, 1, 2, 7, u32::MAX] {
        let mut copy = button.clone();
        let told = careful_edit(&mut copy, path, edit, allowed, rng);
        assert_eq!(told, no_writes(number, 0), "known by construction");
        assert!(copy == *button, "a refusal changes no byte");
    }
}

/// What a careful put is like.
fn put_features(edit: &Careful, bytes: &[u8]) -> Vec<&'static str> {
    let room = Room::careful(&edit.before.plan, &edit.path).expect("a put that is done");
    let needed = room.pages_needed(bytes.len());
    let kind = match (&room.old, room.grows()) {
        (Some(_), _) => "replaced file",
        (None, true) => "directory that grows",
        (None, false) => "new file",
    };
    let bitmap = edit.before.bitmap_pages();
    let is_of_bitmap = |page: &&usize| bitmap.iter().any(|(other, _)| other == *page);
    let marks = edit.order.pages.iter().take_while(is_of_bitmap).count();
    let released = edit.total() - edit.order.visible - 1;
    let met = [
        (true, kind),
        (needed == room.free.len(), "file of all remaining pages"),
        (
            !edit.before.built.local_bitmap && marks > 1,
            "several bitmap pages mark",
        ),
        (released > 1, "several bitmap pages release"),
        (
            room.grows() && edit.path.len() > 5,
            "nested directory that grows",
        ),
        (
            room.grows() && room.counts.len() > 1,
            "directory of several pages that grows",
        ),
    ];
    let met = met.into_iter().filter(|(is, _)| *is);
    let met = met.map(|(_, label)| label);
    met.chain(stamp_feature(&room)).collect()
}

/// Stops a careful put, and counts what it is like.
fn put(edit: Careful, bytes: &[u8], rng: &mut Rng, tally: &mut Tally) {
    stop(&edit, rng, tally);
    for label in put_features(&edit, bytes) {
        tally.add(label);
    }
    for label in done_features(&edit.before.built, &edit.after.built, &edit.path) {
        tally.add(label);
    }
}

/// The labels of all puts.
const PUT_LABELS: [&str; 26] = [
    "new file",
    "replaced file",
    "directory that grows",
    "nested directory that grows",
    "directory of several pages that grows",
    "file of all remaining pages",
    "several bitmap pages mark",
    "several bitmap pages release",
    "one-byte page numbers",
    "two-byte page numbers",
    "256 pages",
    "local bitmap",
    "bitmap file",
    "empty packet in the bitmap file's chain",
    "partly filled packet in the bitmap file's chain",
    "bitmap file's chain scattered",
    "file in the root",
    "file in a directory",
    "file in a directory at level 8",
    "file without bytes",
    "file on several pages",
    "file whose pages lie apart",
    "new file, stamps in its directory",
    "directory must grow because of stamps",
    "replaced file has stamps",
    "replaced file has none, but others have stamps",
];

/// Puts to images of every shape, stopped after every write.
#[test]
fn puts_are_stopped_after_every_write() {
    let mut tally = Tally::default();
    run_seeds(PUTS..PUTS + 5_000, |seed, rng| {
        let plan = plan_in_use(seed, rng);
        let button = Button::from(&plan.build());
        let path = labelled_path(&plan, &plan.build(), rng).1;
        let bytes = careful_bytes(&plan, &path, rng);
        let edit = Edit::Put(bytes.clone());
        match Careful::new(button.clone(), &plan, &path, edit.clone()) {
            Ok(careful) => put(careful, &bytes, rng, &mut tally),
            Err(number) => {
                demand_refused(&button, &path, &edit, number, rng);
                tally.add(format!("refused {number}"));
            }
        }
    });
    tally.print();
    tally.demand(1_700, &["edits"]);
    tally.demand(20, &["edits stopped after some of many writes"]);
    tally.demand(10, &PUT_LABELS);
    tally.demand_numbers("refused", 20, (14..=17).chain([22]));
}

/// The pages that an edit takes: free before it, in use after it.
fn new_pages(edit: &Careful) -> Vec<usize> {
    let (old, new) = (edit.before.used(), edit.after.used());
    (0..new.len())
        .filter(|&page| new[page] && !old[page])
        .collect()
}

/// Puts to images whose free pages hold packets of the new file already, or nearly.
#[test]
fn packets_that_stand_already_are_not_written() {
    let mut tally = Tally::default();
    run_seeds(STANDING..STANDING + 2_400, |seed, rng| {
        let plan = plan_in_use(seed, rng);
        let button = Button::from(&plan.build());
        let path = labelled_path(&plan, &plan.build(), rng).1;
        let bytes = careful_bytes(&plan, &path, rng);
        let Ok(plain) = Careful::new(button.clone(), &plan, &path, Edit::Put(bytes.clone())) else {
            return;
        };
        let mut pages = new_pages(&plain);
        if rng.chance(50) {
            pages.retain(|_| rng.chance(60));
        }
        let laid = lay_packets(&button, &Button::from(&plain.after.built), &pages, rng);
        let edit = Careful::new(laid, &plan, &path, Edit::Put(bytes.clone())).expect("as before");
        tally.add(
            match (plain.total() - edit.total(), new_pages(&plain).len()) {
                (0, _) => "every page is written",
                (some, all) if some < all => "some packets stand already",
                _ => "all packets stand already",
            },
        );
        put(edit, &bytes, rng, &mut tally);
    });
    tally.print();
    tally.demand(600, &["edits"]);
    let labels = [
        "every page is written",
        "some packets stand already",
        "all packets stand already",
    ];
    tally.demand(50, &labels);
    tally.demand(20, &["directory that grows", "replaced file", "new file"]);
}

/// A plan of up to so many pages with some of them free and a directory that has no space for an entry, and the names that lead to it; none if there
/// are too few pages.
fn plan_with_full_directory(most_pages: usize, rng: &mut Rng) -> Option<(ImagePlan, Vec<u8>)> {
    let mut plan = roomy_plan(most_pages, rng);
    if plan.page_length > 64 {
        return None;
    }
    let all = directories(&plan);
    let names = all[rng.below(all.len())].0.clone();
    loop {
        let path = path_in(&names, rng);
        let room = Room::careful(&plan, &path).ok()?;
        if room.grows() {
            return (room.free.len() >= 2).then_some((plan, names));
        }
        plan = plan_with(&plan, &path, b"").ok()?;
    }
}

/// Puts to directories that grow by a page, stopped after every write.
#[test]
fn puts_to_full_directories_are_stopped_after_every_write() {
    let mut tally = Tally::default();
    run_seeds(GROWING..GROWING + 3_000, |_, rng| {
        let Some((plan, names)) = plan_with_full_directory(60, rng) else {
            return;
        };
        let path = path_in(&names, rng);
        let bytes = careful_bytes(&plan, &path, rng);
        let button = Button::from(&plan.build());
        match Careful::new(button, &plan, &path, Edit::Put(bytes.clone())) {
            Ok(careful) => put(careful, &bytes, rng, &mut tally),
            Err(number) => tally.add(format!("refused {number}")),
        }
    });
    tally.print();
    let labels = [
        "directory that grows",
        "nested directory that grows",
        "directory of several pages that grows",
        "file of all remaining pages",
        "local bitmap",
        "bitmap file",
        "file on several pages",
        "directory must grow because of stamps",
    ];
    tally.demand(300, &["edits"]);
    tally.demand(40, &labels);
}

/// Bytes for a careful put of a file of more than `MOST_WRITES` pages, often of all that remain; none if there is less room.
fn long_bytes(room: &Room, rng: &mut Rng) -> Option<Vec<u8>> {
    let least = MOST_WRITES * room.geometry.max_data() + 1;
    let most = room.most_bytes();
    if most < least {
        return None;
    }
    let length = match rng.chance(30) {
        true => most,
        false => rng.between(least, most),
    };
    Some(rng.bytes(length))
}

/// A careful put of a file of so many pages, every fourth time to a directory that must grow, and the file's bytes; none if there is less room.
fn long_put(seed: u64, rng: &mut Rng) -> Option<(Careful, Vec<u8>)> {
    let (plan, path) = if seed.is_multiple_of(4) {
        let (plan, names) = plan_with_full_directory(300, rng)?;
        (plan, path_in(&names, rng))
    } else {
        let plan = plan_in_use(seed, rng);
        let path = labelled_path(&plan, &plan.build(), rng).1;
        (plan, path)
    };
    let bytes = long_bytes(&Room::careful(&plan, &path).ok()?, rng)?;
    let button = Button::from(&plan.build());
    let edit = Careful::new(button, &plan, &path, Edit::Put(bytes.clone()));
    Some((edit.expect("there is room"), bytes))
}

/// Puts of many writes, stopped after none, the first and the last ones, those around the visible one and any few.
#[test]
fn long_puts_are_stopped_after_some_writes() {
    let mut tally = Tally::default();
    run_seeds(LONG..LONG + 4_000, |seed, rng| {
        if let Some((edit, bytes)) = long_put(seed, rng) {
            put(edit, &bytes, rng, &mut tally);
        }
    });
    tally.print();
    tally.demand(100, &["edits stopped after some of many writes"]);
    let labels = [
        "new file",
        "replaced file",
        "directory that grows",
        "directory of several pages that grows",
        "file of all remaining pages",
        "several bitmap pages mark",
        "several bitmap pages release",
        "one-byte page numbers",
        "two-byte page numbers",
        "file in the root",
        "file in a directory",
    ];
    tally.demand(10, &labels);
}

/// A file that may be deleted.
fn file_to_delete<'a>(built: &'a Built, rng: &mut Rng) -> Option<&'a BuiltEntry> {
    let mut files = files(built);
    files.retain(|file| file.listing.attribute == 0);
    rng.pick(&files).copied()
}

/// A path to delete, most often of a file that may be deleted.
fn path_to_delete(plan: &ImagePlan, built: &Built, rng: &mut Rng) -> Vec<u8> {
    match file_to_delete(built, rng) {
        Some(file) if rng.chance(90) => file.path.clone(),
        _ => labelled_path(plan, built, rng).1,
    }
}

/// Stops a careful delete, and counts what it is like.
fn delete(edit: Careful, rng: &mut Rng, tally: &mut Tally) {
    stop(&edit, rng, tally);
    for label in done_features(&edit.before.built, &edit.after.built, &edit.path) {
        tally.add(label);
    }
    if edit.total() > 2 {
        tally.add("several bitmap pages release");
    }
    let file = edit.before.file(&edit.path);
    if file.is_some_and(|file| file.stamps > 0) {
        tally.add("file with stamps");
    }
}

/// The labels of all deletes.
const DELETE_LABELS: [&str; 10] = [
    "local bitmap",
    "bitmap file",
    "bitmap file's chain scattered",
    "partly filled packet in the bitmap file's chain",
    "several bitmap pages release",
    "file in the root",
    "file in a directory",
    "file in a directory at level 8",
    "two-byte page numbers",
    "file with stamps",
];

/// Deletes from images of every shape, stopped after every write.
#[test]
fn deletes_are_stopped_after_every_write() {
    let mut tally = Tally::default();
    run_seeds(DELETES..DELETES + 3_600, |seed, rng| {
        let plan = plan_in_use(seed, rng);
        let built = plan.build();
        let path = path_to_delete(&plan, &built, rng);
        let button = Button::from(&built);
        match Careful::new(button.clone(), &plan, &path, Edit::Delete) {
            Ok(edit) => delete(edit, rng, &mut tally),
            Err(number) => {
                demand_refused(&button, &path, &Edit::Delete, number, rng);
                tally.add(format!("refused {number}"));
            }
        }
    });
    tally.print();
    tally.demand(900, &["edits"]);
    tally.demand(10, &DELETE_LABELS);
    tally.demand_numbers("refused", 5, (14..=16).chain([22]));
}

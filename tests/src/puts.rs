//! What puts are called with, and what they meet, as labels to be counted.

use std::cmp::Ordering;

use crate::generators::{chain_features, files, random_path, worn_plan};
use crate::plans::{directories, geometry, page_with_space, plan_with_room, plan_without, Room};
use crate::{records, Button, Tally, FREE};
use referee::builder::plan::{Built, BuiltEntry, ChainOf, ImagePlan, Item};
use referee::builder::random::random_name;
use referee::rng::Rng;

/// A plan of an image in use: worn, thinned or crowded, by `kind`.
pub fn used_plan(kind: u64, rng: &mut Rng) -> ImagePlan {
    match kind % 3 {
        0 => worn_plan(rng),
        1 => thinned_plan(rng),
        _ => crowded_plan(rng),
    }
}

/// A plan with some pages free, and space in some directories, where files were removed.
pub fn thinned_plan(rng: &mut Rng) -> ImagePlan {
    let mut plan = worn_plan(rng);
    let built = plan.build();
    let mut removed = files(&built);
    rng.shuffle(&mut removed);
    for file in removed.iter().take(rng.between(1, 12)) {
        plan = plan_without(&plan, &file.path).expect("the plan has the file");
    }
    plan
}

/// A plan in which, if there are pages enough, a directory has no space for an entry, or only on a page in its middle, and a few pages
/// are free, or none.
pub fn crowded_plan(rng: &mut Rng) -> ImagePlan {
    let mut plan = thinned_plan(rng);
    let directories = directories(&plan);
    let names = directories[rng.below(directories.len())].0.clone();
    let pages = rng.between(1, 4);
    let mut last = None;
    while let Some((path, next)) = with_entry(&plan, &names, pages, rng) {
        last = Some(path);
        plan = next;
    }
    if rng.chance(30) {
        plan = with_space_in_the_middle(&plan, &names, rng).unwrap_or(plan);
    }
    match last {
        Some(path) => with_longer_file(&plan, &path, rng.below(6)).unwrap_or(plan),
        None => plan,
    }
}

/// The plan with one file more in a directory, and the file's path; none if the directory has so many pages, all full, or there is no room.
fn with_entry(
    plan: &ImagePlan,
    names: &[u8],
    pages: usize,
    rng: &mut Rng,
) -> Option<(Vec<u8>, ImagePlan)> {
    let path = path_in(names, rng);
    let room = Room::anywhere(plan, &path).ok()?;
    if room.space.is_none() && room.counts.len() >= pages {
        return None;
    }
    let plan = plan_with_room(plan, &room, &path, b"").ok()?;
    Some((path, plan))
}

/// The plan without one of the files whose entries stand between the first and the last page of a directory; none if there is none.
fn with_space_in_the_middle(plan: &ImagePlan, names: &[u8], rng: &mut Rng) -> Option<ImagePlan> {
    let mut places = directories(plan).into_iter();
    let (_, directory) = places.find(|(other, _)| other == names)?;
    let (_, counts) = directory.counts.split_last()?;
    let first = *counts.first()?;
    let end: usize = counts.iter().sum();
    let middle = &directory.items[first..end];
    let paths: Vec<Vec<u8>> = middle
        .iter()
        .filter_map(|item| file_path(names, item))
        .collect();
    plan_without(plan, rng.pick(&paths)?)
}

/// The path of a file in a directory.
fn file_path(names: &[u8], item: &Item) -> Option<Vec<u8>> {
    match item {
        Item::File(file) => Some([names, &file.name, &[file.extension]].concat()),
        Item::Directory { .. } => None,
    }
}

/// The plan with a file made longer, so that just so many pages are free; none if there are less.
fn with_longer_file(plan: &ImagePlan, path: &[u8], free: usize) -> Option<ImagePlan> {
    let room = Room::anywhere(plan, path).ok()?;
    let pages = room.free.len().checked_sub(free)?;
    let bytes = vec![0x3D; pages * room.geometry.max_data()];
    plan_with_room(plan, &room, path, &bytes).ok()
}

/// The path of any file in a directory.
pub fn path_in(names: &[u8], rng: &mut Rng) -> Vec<u8> {
    let mut path = names.to_vec();
    path.extend(random_name(rng));
    path.push(rng.below(100) as u8);
    path
}

/// The path of a new file in a directory that is there, which often has no space for an entry.
fn new_path(plan: &ImagePlan, rng: &mut Rng) -> Vec<u8> {
    let geometry = geometry(plan.page_length, plan.page_count);
    let mut places = directories(plan);
    if rng.chance(40) {
        let full = places.clone().into_iter();
        let full: Vec<_> = full
            .filter(|(_, directory)| page_with_space(&geometry, directory).is_none())
            .collect();
        if !full.is_empty() {
            places = full;
        }
    }
    path_in(&places[rng.below(places.len())].0, rng)
}

/// A path to put to, with a label: of a file that may be replaced, of a new file, or of anything near them.
pub fn labelled_path(plan: &ImagePlan, built: &Built, rng: &mut Rng) -> (&'static str, Vec<u8>) {
    let (read_only, writable): (Vec<&BuiltEntry>, Vec<&BuiltEntry>) = files(built)
        .into_iter()
        .partition(|file| file.listing.attribute == 1);
    match (rng.below(24), rng.pick(&writable), rng.pick(&read_only)) {
        (0..=9, Some(file), _) => ("path of a file to replace", file.path.clone()),
        (10, _, Some(file)) => ("path of a read-only file", file.path.clone()),
        (0..=17, ..) => ("path of a new file", new_path(plan, rng)),
        _ => {
            let wanted = random_path(built, rng);
            (wanted.label, wanted.path)
        }
    }
}

/// The length of a file to put: often just what there is room for, a page more, or near that of the file that is replaced.
fn random_length(room: &Room, rng: &mut Rng) -> usize {
    let packet = room.geometry.max_data();
    let most = room.most_bytes();
    let old = room.old.as_ref().map_or(0, |file| file.bytes.len());
    match rng.below(20) {
        0 | 1 => 0,
        2 => most,
        3 => most.saturating_sub(rng.below(packet)),
        4 | 5 => most + 1 + rng.below(packet),
        6 => most + packet * rng.between(1, 20),
        7..=9 => old,
        10 | 11 => old + 1 + rng.below(2 * packet),
        12 | 13 => rng.below(old + 1),
        14 | 15 => (packet * rng.between(1, 3) + rng.below(3)).saturating_sub(1),
        _ => rng.below(3 * packet),
    }
}

/// Bytes for a put: just what there is room for, or one page more.
pub fn tight_bytes(room: &Room, rng: &mut Rng) -> Vec<u8> {
    let more = rng.between(1, room.geometry.max_data());
    let length = room.most_bytes() + [0, more][rng.below(2)];
    rng.bytes(length)
}

/// Bytes for a put of this path.
pub fn random_bytes(plan: &ImagePlan, path: &[u8], rng: &mut Rng) -> Vec<u8> {
    bytes_for(Room::anywhere(plan, path), rng)
}

/// Bytes for a careful put of this path.
pub fn careful_bytes(plan: &ImagePlan, path: &[u8], rng: &mut Rng) -> Vec<u8> {
    let room = Room::anywhere(plan, path);
    bytes_for(room.map(|room| room.beside_the_old(plan)), rng)
}

/// Bytes for a put that meets this room, in a hidden directory or not, or a refusal: of a random length, sometimes those of the file that is replaced, or changed in one of them.
fn bytes_for(room: Result<Room, u32>, rng: &mut Rng) -> Vec<u8> {
    let Ok(room) = room else {
        let length = rng.below(100);
        return rng.bytes(length);
    };
    if let Some(old) = &room.old {
        if rng.chance(5) {
            let mut bytes = old.bytes.clone();
            if let Some(last) = bytes.last_mut() {
                *last ^= rng.below(2) as u8;
            }
            return bytes;
        }
    }
    let length = random_length(&room, rng);
    rng.bytes(length)
}

/// The labels of the images that puts are done on, and of the files that they put.
pub const DONE: [&str; 18] = [
    "one-byte page numbers",
    "two-byte page numbers",
    "256 pages",
    "local bitmap",
    "bitmap file",
    "empty packet in the bitmap file's chain",
    "partly filled packet in the bitmap file's chain",
    "bitmap file's chain scattered",
    "bits changed in several packets of the bitmap file",
    "bits of the bitmap as they were",
    "file in the root",
    "file in a directory",
    "file in a directory at level 8",
    "file without bytes",
    "file on one page",
    "file on several pages",
    "file whose pages lie apart",
    "file with a full last packet",
];

/// The labels of new entries, and of replaced files, with the answers of the puts.
pub const ENTRIES: [&str; 17] = [
    "space in the directory's only page: 0",
    "space in the first of several pages: 0",
    "space in a middle page: 0",
    "space in the last of several pages: 0",
    "space in an empty page: 0",
    "space behind in another page too: 0",
    "replaced by longer bytes: 0",
    "replaced by longer bytes: 17",
    "replaced by shorter bytes: 0",
    "replaced by other bytes of the same length: 0",
    "replaced by the same bytes: 0",
    "replaced by no bytes: 0",
    "replaced on more pages: 0",
    "replaced on as many pages: 0",
    "replaced on fewer pages: 0",
    "replaced file had odd packets: 0",
    "replaced file's chain was scattered: 0",
];

/// The labels of the pages that are free and needed, with the answers of the puts.
pub const ROOM: [&str; 21] = [
    "new file, pages to spare: 0",
    "new file, just enough pages: 0",
    "new file, one page too few: 17",
    "new file, more pages too few: 17",
    "replaced file, pages to spare: 0",
    "replaced file, just enough pages: 0",
    "replaced file, one page too few: 17",
    "replaced file, more pages too few: 17",
    "directory must grow, pages to spare: 0",
    "directory must grow, just enough pages: 0",
    "directory must grow, one page too few: 17",
    "directory must grow, more pages too few: 17",
    "every page in use, new file: 17",
    "every page in use, replaced file: 0",
    "every page in use, replaced file: 17",
    "every page in use, directory must grow: 17",
    "one page free, new file: 0",
    "one page free, new file: 17",
    "one page free, replaced file: 0",
    "one page free, replaced file: 17",
    "one page free, directory must grow: 17",
];

/// The labels of stamps in the directory of a put, with the answers of the puts.
pub const STAMPED: [&str; 7] = [
    "new file, stamps in its directory: 0",
    "new file, stamps in its directory: 17",
    "directory must grow because of stamps: 0",
    "directory must grow because of stamps: 17",
    "replaced file has stamps: 0",
    "replaced file has stamps: 17",
    "replaced file has none, but others have stamps: 0",
];

/// Counts the room for a put of these bytes and its entry, each with the number that the put answered.
pub fn count_room(room: &Room, bytes: &[u8], number: u32, tally: &mut Tally) {
    for label in room_features(room, bytes) {
        tally.add(format!("{label}: {number}"));
    }
    for label in entry_features(room, bytes) {
        tally.add(format!("{label}: {number}"));
    }
}

/// What the room for a put of these bytes is like.
pub fn room_features(room: &Room, bytes: &[u8]) -> Vec<String> {
    let put = match (&room.old, room.grows()) {
        (Some(_), _) => "replaced file",
        (None, true) => "directory must grow",
        (None, false) => "new file",
    };
    let needed = room.pages_needed(bytes.len());
    let enough = match needed.cmp(&room.free.len()) {
        Ordering::Less => "pages to spare",
        Ordering::Equal => "just enough pages",
        Ordering::Greater if needed == room.free.len() + 1 => "one page too few",
        Ordering::Greater => "more pages too few",
    };
    let mut labels = vec![format!("{put}, {enough}")];
    let old_pages = room.old.as_ref().map_or(0, |file| file.chain.pages.len());
    match room.free.len() - old_pages {
        0 => labels.push(format!("every page in use, {put}")),
        1 => labels.push(format!("one page free, {put}")),
        _ => {}
    }
    labels.extend(stamp_feature(room).map(String::from));
    labels
}

/// What the room for a new directory is like.
pub fn make_features(room: &Room) -> Vec<String> {
    let labels = room_features(room, b"").into_iter();
    let of_make = |label: String| {
        let label = label.replace("directory must grow", "parent must grow");
        label.replace("new file", "new directory")
    };
    labels.map(of_make).collect()
}

/// The labels of the pages that are free and needed for a new directory, with the answers of the makes.
pub const MAKE_ROOM: [&str; 12] = [
    "new directory, pages to spare: 0",
    "new directory, just enough pages: 0",
    "new directory, one page too few: 17",
    "parent must grow, pages to spare: 0",
    "parent must grow, just enough pages: 0",
    "parent must grow, one page too few: 17",
    "parent must grow, more pages too few: 17",
    "every page in use, new directory: 17",
    "every page in use, parent must grow: 17",
    "one page free, new directory: 0",
    "one page free, parent must grow: 17",
    "new directory, stamps in its directory: 0",
];

/// What the stamps in the directory of a put are to it, if there are any.
pub fn stamp_feature(room: &Room) -> Option<&'static str> {
    match (&room.old, room.old_stamps) {
        _ if room.stamps == 0 => None,
        (Some(_), 0) => Some("replaced file has none, but others have stamps"),
        (Some(_), _) => Some("replaced file has stamps"),
        (None, _) if room.grows() => Some("directory must grow because of stamps"),
        (None, _) => Some("new file, stamps in its directory"),
    }
}

/// What the entry of a put is like: its place in the directory, or the file that it replaces.
fn entry_features(room: &Room, bytes: &[u8]) -> Vec<&'static str> {
    let mut labels = Vec::new();
    if let Some(place) = room.space {
        let last = room.counts.len() - 1;
        labels.push(match place {
            0 if last == 0 => "space in the directory's only page",
            0 => "space in the first of several pages",
            _ if place < last => "space in a middle page",
            _ => "space in the last of several pages",
        });
        if room.counts[place] == 0 {
            labels.push("space in an empty page");
        }
        let later = &room.counts[place + 1..];
        let full = room.geometry.continuation_entries();
        if later.iter().any(|&count| count < full) {
            labels.push("space behind in another page too");
        }
    }
    let Some(old) = &room.old else {
        return labels;
    };
    labels.push(match bytes.len().cmp(&old.bytes.len()) {
        _ if bytes == old.bytes => "replaced by the same bytes",
        Ordering::Equal => "replaced by other bytes of the same length",
        Ordering::Greater => "replaced by longer bytes",
        Ordering::Less if bytes.is_empty() => "replaced by no bytes",
        Ordering::Less => "replaced by shorter bytes",
    });
    let pages = &old.chain.pages;
    labels.push(match room.pages_of(bytes.len()).cmp(&pages.len()) {
        Ordering::Greater => "replaced on more pages",
        Ordering::Equal => "replaced on as many pages",
        Ordering::Less => "replaced on fewer pages",
    });
    let (_, before_last) = old.chain.lengths.split_last().unwrap_or((&0, &[]));
    let packet = room.geometry.max_data();
    if before_last.iter().any(|&length| length < packet) {
        labels.push("replaced file had odd packets");
    }
    if pages.windows(2).any(|two| two[1] < two[0]) {
        labels.push("replaced file's chain was scattered");
    }
    labels
}

/// What a put that was done has to do with: the image before and after it, and the file.
pub fn done_features(before: &Built, after: &Built, path: &[u8]) -> Vec<&'static str> {
    let mut labels = bitmap_features(before, after);
    labels.push(match before.page_count {
        ..=256 => "one-byte page numbers",
        _ => "two-byte page numbers",
    });
    let names = &path[..path.len() - 5];
    labels.push(match names.len() {
        0 => "file in the root",
        32 => "file in a directory at level 8",
        _ => "file in a directory",
    });
    if before.page_count == 256 {
        labels.push("256 pages");
    }
    if let Some(file) = files(after).into_iter().find(|file| file.path == path) {
        labels.extend(file_features(after, file));
    }
    labels
}

/// What a file that was put is like.
fn file_features(after: &Built, file: &BuiltEntry) -> Vec<&'static str> {
    let packet = geometry(after.page_length, after.page_count).max_data();
    let pages = &after.chains[file.chain].pages;
    let length = file.bytes.len();
    let met = [
        (length == 0, "file without bytes"),
        (pages.len() == 1, "file on one page"),
        (pages.len() > 1, "file on several pages"),
        (
            pages.windows(2).any(|two| two[1] != two[0] + 1),
            "file whose pages lie apart",
        ),
        (
            length > 0 && length.is_multiple_of(packet),
            "file with a full last packet",
        ),
    ];
    let met = met.into_iter().filter(|(is, _)| *is);
    met.map(|(_, label)| label).collect()
}

/// What the bitmap is like, and how much of it a put changes.
fn bitmap_features(before: &Built, after: &Built) -> Vec<&'static str> {
    let (old, new) = (Button::from(before), Button::from(after));
    let (old_owners, new_owners) = (records(&before.owners), records(&after.owners));
    let mut owners = old_owners.iter().zip(&new_owners);
    let mut labels = Vec::new();
    if owners.all(|(old, new)| (*old == FREE) == (*new == FREE)) {
        labels.push("bits of the bitmap as they were");
    }
    let mut chains = before.chains.iter();
    let Some(chain) = chains.find(|chain| chain.of == ChainOf::Bitmap) else {
        labels.push("local bitmap");
        return labels;
    };
    labels.push("bitmap file");
    labels.extend(chain_features(&old.pages(), chain));
    let packets = (old.pages(), new.pages());
    let changed = |page: &&usize| packets.0.body(**page) != packets.1.body(**page);
    if chain.pages.iter().filter(changed).count() > 1 {
        labels.push("bits changed in several packets of the bitmap file");
    }
    labels
}

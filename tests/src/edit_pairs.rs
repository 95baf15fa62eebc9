//! Two edits of different files, made in one order and in the other from one image, by the library and the second program alike.

use crate::contents::{contents, demand_same, Contents, Found};
use crate::generators::files;
use crate::plans::{
    directories, geometry, is_hidden, page_with_space, plan_with, plan_without, split, Room,
};
use crate::puts::{path_in, random_bytes, tight_bytes, used_plan};
use crate::{both, table_bytes, Button};
use referee::builder::plan::{Built, BuiltEntry, ImagePlan};
use referee::builder::random::{random_plan, Shape};
use referee::rng::Rng;
use referee::Totals;

/// An edit of a file: a put of bytes, or a delete if there are none.
#[derive(Clone, Debug)]
pub struct FileEdit {
    pub path: Vec<u8>,
    pub bytes: Option<Vec<u8>>,
}

impl FileEdit {
    /// A put.
    pub fn put(path: &[u8], bytes: &[u8]) -> FileEdit {
        FileEdit {
            path: path.to_vec(),
            bytes: Some(bytes.to_vec()),
        }
    }

    /// A delete.
    pub fn delete(path: &[u8]) -> FileEdit {
        FileEdit {
            path: path.to_vec(),
            bytes: None,
        }
    }

    /// Makes the edit with both programs and tells the number answered.
    fn make(&self, button: &mut Button, rng: &mut Rng) -> u32 {
        let table = table_bytes(button.page_count) + rng.below(6);
        let told = match &self.bytes {
            Some(bytes) => both::put(button, table, &self.path, bytes, rng),
            None => both::delete(button, table, &self.path, rng),
        };
        assert_eq!(told.page, 0, "page told of an edit");
        told.number
    }

    /// What the edit makes of these files when it is done: a put clears the attribute bit and keeps the stamps.
    fn apply(&self, contents: &mut Contents) {
        let old = contents.remove(&self.path);
        if let Some(bytes) = &self.bytes {
            let file = Found {
                extension: self.path[self.path.len() - 1],
                stamps: old.map_or(Vec::new(), |old| old.stamps),
                bytes: bytes.clone(),
            };
            contents.insert(self.path.clone(), file);
        }
    }

    /// The plan after the edit; as before if it is refused.
    fn plan_after(&self, plan: &ImagePlan) -> ImagePlan {
        let after = match &self.bytes {
            Some(bytes) => plan_with(plan, &self.path, bytes).ok(),
            None => plan_without(plan, &self.path),
        };
        after.unwrap_or_else(|| plan.clone())
    }

    /// What a put meets in an image of this plan; none of a delete, and if something else than room refuses it.
    fn room(&self, plan: &ImagePlan) -> Option<Room> {
        self.bytes.as_ref()?;
        Room::of(plan, &self.path).ok()
    }

    /// Whether it is a put for which a directory of this plan must grow.
    fn grows(&self, plan: &ImagePlan) -> bool {
        self.room(plan).is_some_and(|room| room.grows())
    }
}

/// Two edits.
#[derive(Clone, Debug)]
pub struct Pair {
    pub edits: [FileEdit; 2],
}

/// What an order of two edits leaves.
#[derive(Debug)]
pub struct Outcome {
    /// The numbers answered: of the pair's first edit, then of its second, in whichever order they were made.
    pub numbers: [u32; 2],
    pub button: Button,
}

impl Outcome {
    /// Whether both edits were done.
    pub fn is_done(&self) -> bool {
        self.numbers == [0, 0]
    }

    /// What a check by both programs tells of an image that must be accepted.
    pub fn totals(&self, rng: &mut Rng) -> Totals {
        let table = table_bytes(self.button.page_count);
        let totals = both::check(&self.button, table, rng);
        assert_eq!(totals.number, 0, "image after two edits");
        totals
    }
}

impl Pair {
    /// Makes both edits of a copy of an image in the order given, and of another copy in the other order.
    pub fn outcomes(&self, before: &Button, rng: &mut Rng) -> [Outcome; 2] {
        [[0, 1], [1, 0]].map(|order| {
            let mut outcome = Outcome {
                numbers: [0, 0],
                button: before.clone(),
            };
            for place in order {
                let number = self.edits[place].make(&mut outcome.button, rng);
                outcome.numbers[place] = number;
            }
            outcome
        })
    }

    /// The number of puts among the edits.
    pub fn puts(&self) -> usize {
        let puts = self.edits.iter().filter(|edit| edit.bytes.is_some());
        puts.count()
    }

    /// The words for the two edits.
    pub fn kind(&self) -> &'static str {
        ["two deletes", "a put and a delete", "two puts"][self.puts()]
    }

    /// Demands of two outcomes, each with both edits done, that they have the same files, attributes, stamps and bytes: those before, changed by both
    /// edits. Two puts, and two deletes, must also leave as many pages in use. Tells the pages in use of each.
    pub fn demand_same(
        &self,
        before: &Contents,
        outcomes: &[Outcome; 2],
        rng: &mut Rng,
    ) -> [u32; 2] {
        let mut expected = before.clone();
        for edit in &self.edits {
            edit.apply(&mut expected);
        }
        let [one, other] = outcomes.each_ref().map(|outcome| contents(&outcome.button));
        demand_same(&one, &other);
        demand_same(&one, &expected);
        let totals = outcomes.each_ref().map(|outcome| outcome.totals(rng));
        let files = one.values().filter(|found| !found.is_directory()).count();
        for told in &totals {
            assert_eq!(told.files as usize, files, "files");
            assert_eq!(told.directories as usize, one.len() - files, "directories");
        }
        let used = totals.map(|told| told.used);
        if self.puts() != 1 {
            assert_eq!(used[0], used[1], "pages in use");
        }
        used
    }
}

/// Page length and page count: two in five images have pages of 32 bytes, most have few pages, so that there is no room now and then.
fn pair_sizes(rng: &mut Rng) -> (u32, u32) {
    let lengths = [33, 34, 38, 39, 40, 48, 64, 128, 255, 256];
    let page_length = match rng.below(10) {
        0..=3 => 32,
        4..=7 => lengths[rng.below(lengths.len())],
        _ => rng.between(32, 256),
    };
    let page_count = match rng.below(1_000) {
        0..=499 => rng.between(8, 32),
        500..=799 => rng.between(20, 64),
        800..=859 => [255, 256, 257, 258][rng.below(4)],
        860..=979 => rng.between(257, 300),
        980..=989 => rng.between(301, 1_000),
        990..=997 => rng.between(1_001, 3_000),
        _ => return (32, 65_535),
    };
    (page_length as u32, page_count as u32)
}

/// A plan of not many files, often with few pages free, full directory pages, stamps, and read-only files; some have hidden directories.
pub fn pair_plan(rng: &mut Rng) -> ImagePlan {
    if rng.chance(8) {
        let kind = rng.next_u64();
        return used_plan(kind, rng);
    }
    let (page_length, page_count) = pair_sizes(rng);
    let geometry = geometry(page_length, page_count);
    let free = [0, 1, 2, 4, 6, 9, 12, page_count as usize / 3];
    let shape = Shape {
        free_pages: free[rng.below(free.len())],
        least_entries: rng.between(2, 5),
        most_entries: [5, 8, 12][rng.below(3)],
        most_file_pages: [1, 2, 4][rng.below(3)],
        directory_percent: [0, 25, 25, 40][rng.below(4)],
        deep: rng.chance(6),
        stamp_percent: [0, 0, 25, 60][rng.below(4)],
        hidden_percent: [0, 0, 0, 25][rng.below(4)],
        ..Shape::random(&geometry, rng)
    };
    random_plan(page_length, page_count, shape, rng)
}

/// The paths of the files in a directory that may be edited.
fn writable_in(built: &Built, names: &[u8]) -> Vec<Vec<u8>> {
    let is_such = |file: &&BuiltEntry| file.listing.attribute == 0 && split(&file.path).0 == names;
    let found = files(built).into_iter().filter(is_such);
    found.map(|file| file.path.clone()).collect()
}

/// The names of two directories to edit in: often one directory, or one below the other; seldom a hidden one.
fn two_places(plan: &ImagePlan, rng: &mut Rng) -> [Vec<u8>; 2] {
    let any = rng.chance(5);
    let all = directories(plan).into_iter().map(|(names, _)| names);
    let is_open = |names: &Vec<u8>| any || !is_hidden(plan, &[names, &b"FILE\x01"[..]].concat());
    let all: Vec<Vec<u8>> = all.filter(is_open).collect();
    let first = all[rng.below(all.len())].clone();
    let others: Vec<Vec<u8>> = match rng.below(10) {
        0..=3 => vec![first.clone()],
        4..=6 => {
            let is_below = |names: &&Vec<u8>| names.starts_with(&first) && **names != first;
            all.iter().filter(is_below).cloned().collect()
        }
        _ => all.clone(),
    };
    let second = rng.pick(&others).unwrap_or(&first).clone();
    match rng.chance(50) {
        true => [first, second],
        false => [second, first],
    }
}

/// A directory without space for an entry, if there is one, for both edits; else two others.
fn full_places(plan: &ImagePlan, rng: &mut Rng) -> [Vec<u8>; 2] {
    let sizes = geometry(plan.page_length, plan.page_count);
    let all = directories(plan).into_iter();
    let full = all.filter(|(_, directory)| page_with_space(&sizes, directory).is_none());
    let full: Vec<Vec<u8>> = full.map(|(names, _)| names).collect();
    match rng.pick(&full) {
        Some(names) => [names.clone(), names.clone()],
        None => two_places(plan, rng),
    }
}

/// A path to put to in a directory: of a new file, or of one that is replaced.
fn put_path(built: &Built, names: &[u8], rng: &mut Rng) -> Vec<u8> {
    match rng.pick(&writable_in(built, names)) {
        Some(path) if rng.chance(45) => path.clone(),
        _ => path_in(names, rng),
    }
}

/// A path to delete, but not this one: of a file in a directory, or else of any; now and then of a read-only or a missing one.
fn delete_path(built: &Built, names: &[u8], not: &[u8], rng: &mut Rng) -> Vec<u8> {
    let mut there = writable_in(built, names);
    there.retain(|path| path != not);
    let mut all = files(built);
    all.retain(|file| file.path != not);
    match (rng.pick(&there), rng.pick(&all)) {
        (Some(path), _) if rng.chance(96) => path.clone(),
        (_, Some(file)) if rng.chance(96) => file.path.clone(),
        _ => path_in(names, rng),
    }
}

/// A path that differs from another: in its directories, if these are others, or in one byte of its name or its extension number.
fn near_path(path: &[u8], names: &[u8], rng: &mut Rng) -> Vec<u8> {
    let (own_names, own) = split(path);
    let mut near = path.to_vec();
    let last = near.len() - 1;
    match rng.below(4) {
        0 => near[last - 4] = b'A' + (near[last - 4] + 1) % 26,
        1..=3 if own_names != names => near = [names, own].concat(),
        _ => near[last] = (near[last] + 1) % 100,
    }
    near
}

/// The puts among two edits, true for each.
fn random_kind(rng: &mut Rng) -> [bool; 2] {
    match rng.below(10) {
        0..=3 => [true, true],
        4 | 5 => [true, false],
        6 | 7 => [false, true],
        _ => [false, false],
    }
}

/// Two different paths to edit, of which those to put to may be new.
fn two_paths(plan: &ImagePlan, built: &Built, is_put: [bool; 2], rng: &mut Rng) -> [Vec<u8>; 2] {
    let places = match rng.chance(25) {
        true => full_places(plan, rng),
        false => two_places(plan, rng),
    };
    let path = |place: usize, not: &[u8], rng: &mut Rng| match is_put[place] {
        true => put_path(built, &places[place], rng),
        false => delete_path(built, &places[place], not, rng),
    };
    let first = path(0, &[], rng);
    let second = path(1, &first, rng);
    if second == first || is_put[1] && rng.chance(12) {
        let near = near_path(&first, &places[1], rng);
        return [first, near];
    }
    [first, second]
}

/// Two edits of different files of an image. If the second is a put, there is often just room for it after the first, or a page less.
pub fn random_pair(plan: &ImagePlan, built: &Built, rng: &mut Rng) -> Pair {
    let is_put = random_kind(rng);
    let [first_path, second_path] = two_paths(plan, built, is_put, rng);
    let first = random_edit(plan, first_path, is_put[0], rng);
    let after = first.plan_after(plan);
    let second = match Room::of(&after, &second_path) {
        Ok(room) if is_put[1] && room.most_bytes() < 20_000 && rng.chance(30) => {
            FileEdit::put(&second_path, &tight_bytes(&room, rng))
        }
        _ => random_edit(plan, second_path, is_put[1], rng),
    };
    Pair {
        edits: [first, second],
    }
}

/// A put of random bytes for an image of this plan, often few, or less than those of the file that is replaced; or a delete.
fn random_edit(plan: &ImagePlan, path: Vec<u8>, is_put: bool, rng: &mut Rng) -> FileEdit {
    if !is_put {
        return FileEdit::delete(&path);
    }
    let old = Room::of(plan, &path).ok().and_then(|room| room.old);
    let old_length = old.map_or(0, |file| file.bytes.len());
    let length = match rng.below(20) {
        0..=9 => rng.below(plan.page_length as usize),
        10..=12 => rng.below(2 * plan.page_length as usize),
        13..=17 => rng.below(old_length),
        _ => return FileEdit::put(&path, &random_bytes(plan, &path, rng)),
    };
    FileEdit::put(&path, &rng.bytes(length))
}

/// The labels of pairs that were done in both orders.
pub const MET: [&str; 34] = [
    "both in one directory",
    "in different directories",
    "one directory below the other",
    "both in the root",
    "neither in the root",
    "in a directory at level 8",
    "paths differ in one byte",
    "one name and extension number in two directories",
    "two puts: a directory grows",
    "a put and a delete: a directory grows",
    "two puts: only the second makes the directory grow",
    "two puts: a new file and a replaced file",
    "two puts: two new files",
    "two puts: two replaced files",
    "a put and a delete: a new file",
    "a put and a delete: a replaced file",
    "two puts: a replaced file has stamps",
    "a put and a delete: a replaced file has stamps",
    "a put and a delete: a deleted file has stamps",
    "two deletes: a deleted file has stamps",
    "two puts: no bytes",
    "a put and a delete: no bytes",
    "several pages put",
    "pages of 32 bytes",
    "pages of 33 to 64 bytes",
    "pages of 65 to 255 bytes",
    "pages of 256 bytes",
    "one-byte page numbers",
    "two-byte page numbers",
    "65,535 pages",
    "local bitmap",
    "bitmap file",
    "a hidden directory in the image",
    "a read-only file in the image",
];

/// What a pair has to do with: the image, the two paths, the entries and the bytes.
pub fn pair_features(plan: &ImagePlan, built: &Built, pair: &Pair) -> Vec<String> {
    let labels = image_features(built).into_iter().chain(path_features(pair));
    let mut labels: Vec<String> = labels.map(String::from).collect();
    let kind = pair.kind();
    let edits = entry_features(plan, built, pair).into_iter();
    labels.extend(edits.map(|label| format!("{kind}: {label}")));
    let packet = geometry(plan.page_length, plan.page_count).max_data();
    let is_long = |edit: &FileEdit| edit.bytes.as_ref().is_some_and(|put| put.len() > packet);
    if pair.edits.iter().any(is_long) {
        labels.push("several pages put".to_string());
    }
    labels
}

/// What the image is like.
fn image_features(built: &Built) -> Vec<&'static str> {
    let has = |is_directory: bool| {
        let mut entries = built.entries.iter().map(|entry| &entry.listing);
        entries.any(|entry| entry.attribute == 1 && (entry.extension == 127) == is_directory)
    };
    let met = [
        (built.page_length == 32, "pages of 32 bytes"),
        (
            (33..=64).contains(&built.page_length),
            "pages of 33 to 64 bytes",
        ),
        (
            (65..=255).contains(&built.page_length),
            "pages of 65 to 255 bytes",
        ),
        (built.page_length == 256, "pages of 256 bytes"),
        (built.page_count <= 256, "one-byte page numbers"),
        (built.page_count > 256, "two-byte page numbers"),
        (built.page_count == 65_535, "65,535 pages"),
        (built.local_bitmap, "local bitmap"),
        (!built.local_bitmap, "bitmap file"),
        (has(true), "a hidden directory in the image"),
        (has(false), "a read-only file in the image"),
    ];
    only(&met)
}

/// What the two paths are to each other.
fn path_features(pair: &Pair) -> Vec<&'static str> {
    let [one, other] = pair.edits.each_ref().map(|edit| split(&edit.path));
    let is_below = one.0.starts_with(other.0) || other.0.starts_with(one.0);
    let [first, second] = pair.edits.each_ref().map(|edit| &edit.path);
    let differing = first.iter().zip(second).filter(|(a, b)| a != b).count();
    let met = [
        (one.0 == other.0, "both in one directory"),
        (one.0 != other.0, "in different directories"),
        (
            one.0 != other.0 && is_below,
            "one directory below the other",
        ),
        (one.0.is_empty() && other.0.is_empty(), "both in the root"),
        (
            !one.0.is_empty() && !other.0.is_empty(),
            "neither in the root",
        ),
        (
            one.0.len() == 32 || other.0.len() == 32,
            "in a directory at level 8",
        ),
        (
            first.len() == second.len() && differing == 1,
            "paths differ in one byte",
        ),
        (
            one.1 == other.1,
            "one name and extension number in two directories",
        ),
    ];
    only(&met)
}

/// What the entries and the bytes of the edits are like.
fn entry_features(plan: &ImagePlan, built: &Built, pair: &Pair) -> Vec<&'static str> {
    let all = files(built);
    let old = |edit: &FileEdit| all.iter().find(|file| file.path == edit.path).copied();
    let has_stamps = |edit: &FileEdit| old(edit).is_some_and(|file| file.stamps > 0);
    let is_put = |edit: &&FileEdit| edit.bytes.is_some();
    let (puts, deletes): (Vec<&FileEdit>, Vec<&FileEdit>) = pair.edits.iter().partition(is_put);
    let replaced = puts.iter().filter(|put| old(put).is_some()).count();
    let mut labels = Vec::new();
    labels.extend(match (puts.len(), replaced) {
        (2, 0) => Some("two new files"),
        (2, 1) => Some("a new file and a replaced file"),
        (2, 2) => Some("two replaced files"),
        (1, 0) => Some("a new file"),
        (1, 1) => Some("a replaced file"),
        _ => None,
    });
    if puts.iter().any(|put| has_stamps(put)) {
        labels.push("a replaced file has stamps");
    }
    if deletes.iter().any(|delete| has_stamps(delete)) {
        labels.push("a deleted file has stamps");
    }
    if puts.iter().any(|put| put.bytes.as_deref() == Some(b"")) {
        labels.push("no bytes");
    }
    let [first, second] = &pair.edits;
    if first.grows(plan) || second.grows(plan) {
        labels.push("a directory grows");
    } else if second.grows(&first.plan_after(plan)) {
        labels.push("only the second makes the directory grow");
    }
    labels
}

/// The labels that apply.
fn only(met: &[(bool, &'static str)]) -> Vec<&'static str> {
    let met = met.iter().filter(|(is, _)| *is);
    met.map(|(_, label)| *label).collect()
}

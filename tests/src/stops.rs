//! Careful edits stopped after every number of page writes, or after some of them, by the library and the second program alike. Answers, writes, what
//! a check and a mend tell, and what every file reads as are known by construction.

use crate::plans::{careful_plan_with, geometry, is_hidden, is_path, overlaid, plan_without};
use crate::write_orders::{Planned, WriteOrder};
use crate::{answer, both, library, mended, no_writes, records, table_bytes, writes, Button};
use referee::builder::plan::{BuiltEntry, ImagePlan};
use referee::rng::Rng;
use referee::Writes;

/// A careful put of these bytes, or a careful delete.
#[derive(Clone, Debug)]
pub enum Edit {
    Put(Vec<u8>),
    Delete,
}

/// A careful edit of an image, with what it leaves.
pub struct Careful {
    pub button: Button,
    pub before: Planned,
    /// What the image holds when nothing is left to write.
    pub after: Planned,
    pub path: Vec<u8>,
    pub edit: Edit,
    pub order: WriteOrder,
}

/// The plan after a careful edit, or the number of its refusal, 14 to 17 or 22.
pub fn edited_plan(plan: &ImagePlan, path: &[u8], edit: &Edit) -> Result<ImagePlan, u32> {
    let Edit::Put(bytes) = edit else {
        return plan_after_delete(plan, path);
    };
    careful_plan_with(plan, path, bytes)
}

/// The plan after a delete, or the number of its refusal: 14, 15, 22 or 16, in this order.
fn plan_after_delete(plan: &ImagePlan, path: &[u8]) -> Result<ImagePlan, u32> {
    if !is_path(path) {
        return Err(14);
    }
    let before = Planned::new(plan.clone());
    let file = before.file(path).ok_or(15_u32)?;
    if is_hidden(plan, path) {
        return Err(22);
    }
    if file.listing.attribute == 1 {
        return Err(16);
    }
    Ok(plan_without(plan, path).expect("the plan has the file"))
}

/// A careful edit by the library and the second program alike.
pub fn careful_edit(
    button: &mut Button,
    path: &[u8],
    edit: &Edit,
    allowed: u32,
    rng: &mut Rng,
) -> Writes {
    let table = table_bytes(button.page_count) + rng.below(6);
    match edit {
        Edit::Put(bytes) => both::careful_put(button, table, path, bytes, allowed, rng),
        Edit::Delete => both::careful_delete(button, table, path, allowed, rng),
    }
}

/// The place of each byte of the bitmap, by the packets that hold it: its page, and its place in the page.
pub fn bitmap_places(of: &Planned) -> Vec<(usize, usize)> {
    let geometry = geometry(of.built.page_length, of.built.page_count);
    let first = match of.built.local_bitmap {
        true => 3 + geometry.number_length(),
        false => 1,
    };
    let pages = of.bitmap_pages().into_iter();
    pages
        .flat_map(|(page, length)| (first..first + length).map(move |place| (page, place)))
        .collect()
}

/// The bits of the bitmap that are set.
pub fn marks(button: &Button, of: &Planned) -> Vec<usize> {
    let places = bitmap_places(of);
    let bytes: Vec<u8> = places
        .iter()
        .map(|&(page, place)| button.page(page)[place])
        .collect();
    let is_set = |bit: &usize| bytes[bit / 8] >> (bit % 8) & 1 == 1;
    (0..8 * bytes.len()).filter(is_set).collect()
}

/// The image with these bits of its bitmap the other way.
pub fn with_flipped_bits(button: &Button, of: &Planned, bits: &[usize]) -> Button {
    let places = bitmap_places(of);
    let mut pages = button.pages();
    for bit in bits {
        let (page, place) = places[bit / 8];
        let byte = pages.page(page)[place] ^ 1 << (bit % 8);
        pages.alter(page, place, &[byte]);
    }
    Button::from(&pages)
}

/// The pages that differ.
pub fn differing_pages(one: &Button, other: &Button) -> Vec<usize> {
    let pages = 0..one.page_count as usize;
    pages
        .filter(|&page| one.page(page) != other.page(page))
        .collect()
}

/// Pages that are written, rising, each of them once.
fn distinct(written: &[usize]) -> Vec<usize> {
    let mut pages = written.to_vec();
    pages.sort_unstable();
    pages.dedup();
    pages
}

/// The pages that a careful edit writes, in order, seen by allowing one write more each time; it is done.
pub fn pages_written(button: &Button, path: &[u8], edit: &Edit, rng: &mut Rng) -> Vec<usize> {
    let mut last = button.clone();
    let mut written = Vec::new();
    for allowed in 1.. {
        let mut next = button.clone();
        let told = careful_edit(&mut next, path, edit, allowed, rng);
        assert_eq!((told.number, told.made), (0, allowed));
        written.extend(differing_pages(&last, &next));
        last = next;
        if told.left == 0 {
            break;
        }
    }
    written
}

/// Lays packets of another image over an image's pages; a few of them get another check, another pointer or another last byte instead.
/// Only pages that are free may be laid over: the image is accepted as before.
pub fn lay_packets(button: &Button, from: &Button, pages: &[usize], rng: &mut Rng) -> Button {
    let mut image = button.pages();
    let source = from.pages();
    for &page in pages {
        image.packet(page, &source.body(page), source.pointer(page));
        match rng.below(12) {
            0 => {
                image.break_check(page);
            }
            1 => {
                let pointer = (source.pointer(page) + 1) % from.page_count as usize;
                image.set_pointer(page, pointer);
            }
            2 => {
                let last = from.page_length as usize - 1;
                image.page_mut(page)[last] ^= 0xFF;
            }
            _ => {}
        }
    }
    Button::from(&image)
}

impl Careful {
    /// The edit of an image that holds a plan; or the number of its refusal, 14 to 17 or 22.
    pub fn new(button: Button, plan: &ImagePlan, path: &[u8], edit: Edit) -> Result<Careful, u32> {
        let before = Planned::new(plan.clone());
        let after = Planned::new(edited_plan(plan, path, &edit)?);
        let order = WriteOrder::of(&button, &before, &after, path);
        Ok(Careful {
            button,
            before,
            after,
            path: path.to_vec(),
            edit,
            order,
        })
    }

    /// The number of writes.
    pub fn total(&self) -> usize {
        self.order.pages.len()
    }

    /// What the image holds after so many writes, besides marks.
    fn held_after(&self, made: usize) -> &Planned {
        match self.order.is_visible_after(made) {
            true => &self.after,
            false => &self.before,
        }
    }

    /// The image after the edit with so many writes allowed; the owner table is the one that a check then leaves.
    fn stopped(&self, allowed: u32) -> Button {
        let mut button = self.button.clone();
        let (told, _) = match &self.edit {
            Edit::Put(bytes) => button.careful_put(&self.path, bytes, allowed),
            Edit::Delete => button.careful_delete(&self.path, allowed),
        };
        let total = self.total() as u32;
        let expected = writes(allowed.min(total), allowed < total);
        assert_eq!(told, expected, "{allowed} allowed, {:?}", self.order);
        button
    }

    /// Every stopping point: none to one past the last write, and the greatest number.
    pub fn every_stop(&self, rng: &mut Rng) {
        let mut last = self.button.clone();
        for allowed in 0..=self.total() + 1 {
            let stopped = self.stopped(allowed as u32);
            let written = match allowed {
                0 => None,
                _ => self.order.pages.get(allowed - 1),
            };
            let written: Vec<usize> = written.into_iter().copied().collect();
            assert_eq!(differing_pages(&last, &stopped), written, "write {allowed}");
            self.demand_mendable(&stopped, allowed.min(self.total()), rng);
            last = stopped;
        }
        assert_eq!(self.stopped(u32::MAX), last);
        let expected = overlaid(&self.button, &self.after.built);
        assert!(last.image == expected, "known by construction");
    }

    /// Some stopping points of an edit with many writes, rising: none, the first and the last ones, those around the visible write, any few, one past
    /// the last, and the greatest number.
    pub fn sample(&self, rng: &mut Rng) -> Vec<u32> {
        let (total, visible) = (self.total() as u32, self.order.visible as u32);
        let mut points = vec![0, 1, 2, total - 1, total, total + 1, u32::MAX];
        points.extend(visible.saturating_sub(1)..=visible + 2);
        points.extend([(); 4].map(|()| rng.below(self.total()) as u32));
        points.sort_unstable();
        points.dedup();
        points
    }

    /// These stopping points: just the pages of the writes made differ from the image before, and just those of the writes left from the one that is
    /// known to be left in the end.
    pub fn stops(&self, points: &[u32], rng: &mut Rng) {
        let mut whole = self.button.clone();
        whole.image = overlaid(&self.button, &self.after.built);
        for &allowed in points {
            let stopped = self.stopped(allowed);
            let made = self.total().min(allowed as usize);
            let (written, left) = self.order.pages.split_at(made);
            let changed = differing_pages(&self.button, &stopped);
            assert_eq!(changed, distinct(written), "after {made} writes");
            let missing = differing_pages(&stopped, &whole);
            assert_eq!(missing, distinct(left), "after {made} writes");
            self.demand_mendable(&stopped, made, rng);
        }
    }

    /// Demands of an image after so many writes: a check finds nothing but marks that no chain has, a mend clears just these, and every file reads
    /// as it must.
    fn demand_mendable(&self, stopped: &Button, made: usize, rng: &mut Rng) {
        let held = self.held_after(made);
        let used = held.used();
        let marks = marks(stopped, &self.before);
        let is_marked = |page: &usize| marks.binary_search(page).is_ok();
        let unmarked = (0..used.len()).find(|page| used[*page] && !is_marked(page));
        assert_eq!(unmarked, None, "every page in use is marked");
        let extra: Vec<usize> = marks.into_iter().filter(|&page| !used[page]).collect();
        let verdict = match extra.first() {
            Some(&page) => answer(13, page as u32),
            None => answer(0, 0),
        };
        assert_eq!(stopped.verdict(), verdict, "after {made} writes");
        if made == self.total() {
            assert_eq!(verdict, answer(0, 0), "nothing is left");
        }
        if verdict.number == 13 && rng.chance(20) {
            let again = careful_edit(&mut stopped.clone(), &self.path, &self.edit, u32::MAX, rng);
            assert_eq!(again, no_writes(13, verdict.page), "mend first");
        }
        let mut button = stopped.clone();
        let (told, owners) = button.mend();
        assert_eq!(told, mended(extra.len() as u32), "after {made} writes");
        assert_eq!(owners, records(&held.built.owners), "owners once mended");
        self.demand_only_bitmap_written(stopped, &button);
        demand_held(&button, held);
        if held.file(&self.path).is_none() {
            assert_eq!(button.read(&self.path).0, 15, "after {made} writes");
        }
        if rng.chance(3) {
            self.again(&mut button, made, rng);
        }
    }

    /// Demands that two images differ in pages of the bitmap only.
    fn demand_only_bitmap_written(&self, stopped: &Button, mended: &Button) {
        let bitmap = self.before.bitmap_pages();
        for page in differing_pages(stopped, mended) {
            let is_of_bitmap = bitmap.iter().any(|(other, _)| *other == page);
            assert!(is_of_bitmap, "mend wrote page {page}");
        }
    }

    /// Makes the edit again of an image that was stopped and mended: it is done, if there is still something to do.
    fn again(&self, button: &mut Button, made: usize, rng: &mut Rng) {
        let held = self.held_after(made);
        let expected = edited_plan(&held.plan, &self.path, &self.edit);
        let told = careful_edit(button, &self.path, &self.edit, u32::MAX, rng);
        match expected {
            Ok(plan) => {
                assert_eq!((told.number, told.left), (0, 0), "after a mend");
                demand_held(button, &Planned::new(plan));
            }
            Err(number) => assert_eq!(told, no_writes(number, 0), "after a mend"),
        }
    }
}

/// Demands that the library accepts an image, and lists and reads every entry as planned.
fn demand_held(button: &Button, held: &Planned) {
    let (p, n, image) = (button.page_length, button.page_count, &button.image);
    let mut owners = vec![0; table_bytes(n)];
    let totals = library::check(p, n, image, &mut owners);
    assert_eq!(totals, held.built.totals, "totals");
    assert!(owners == held.built.owners, "owners");
    let mut out = vec![0; image.len()];
    for (position, entry) in held.built.entries.iter().enumerate() {
        let listing = library::list(p, n, image, &mut owners, position as u32);
        assert_eq!(listing, entry.listing, "entry {position}");
        if entry.listing.extension != 127 {
            demand_file(button, entry, &mut out, &mut owners);
        }
    }
}

/// Demands a file's bytes of the library.
fn demand_file(button: &Button, file: &BuiltEntry, out: &mut [u8], owners: &mut [u8]) {
    let (p, n, image) = (button.page_length, button.page_count, &button.image);
    let told = library::read(p, n, image, &file.path, out, owners);
    assert_eq!((told.number, told.length as usize), (0, file.bytes.len()));
    assert!(out[..file.bytes.len()] == file.bytes, "{:?}", file.path);
}

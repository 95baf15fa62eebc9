//! The page writes of careful edits, worked out on the plans of the image before and after: the pages in order, and the write that makes the change
//! visible.

use crate::plans::split;
use crate::Button;
use referee::builder::plan::{BitmapPlan, Built, BuiltEntry, ImagePlan};

/// The pages that a careful edit writes, in order.
#[derive(Clone, Debug, PartialEq, Eq)]
pub struct WriteOrder {
    pub pages: Vec<usize>,
    /// The place in `pages` of the write that makes the change visible.
    pub visible: usize,
}

/// A plan with its image.
pub struct Planned {
    pub plan: ImagePlan,
    pub built: Built,
}

impl Planned {
    /// The plan with its image.
    pub fn new(plan: ImagePlan) -> Planned {
        let built = plan.build();
        Planned { plan, built }
    }

    /// The file of a path.
    pub fn file(&self, path: &[u8]) -> Option<&BuiltEntry> {
        let is_file = |entry: &&BuiltEntry| entry.path == path && entry.listing.extension != 127;
        self.built.entries.iter().find(is_file)
    }

    /// The pages of a file's chain, in order; none if there is no such file.
    fn file_pages(&self, path: &[u8]) -> &[usize] {
        let file = self.file(path);
        file.map_or(&[], |file| &self.built.chains[file.chain].pages)
    }

    /// The pages of the directory that a path's names lead to.
    fn directory_pages(&self, path: &[u8]) -> &[usize] {
        let (names, _) = split(path);
        let is_such = |entry: &&BuiltEntry| entry.path == names && entry.listing.extension == 127;
        match self.built.entries.iter().find(is_such) {
            Some(directory) => &self.built.chains[directory.chain].pages,
            None => &self.plan.root.pages,
        }
    }

    /// For each page whether it is in use.
    pub fn used(&self) -> Vec<bool> {
        let mut used = vec![false; self.plan.page_count as usize];
        for page in self.plan.used_pages() {
            used[page] = true;
        }
        used
    }

    /// The pages that hold the bitmap, in chain order, each with the number of its bytes there.
    pub fn bitmap_pages(&self) -> Vec<(usize, usize)> {
        match &self.plan.bitmap {
            BitmapPlan::Local => vec![(0, 4)],
            BitmapPlan::File(chain) => {
                let lengths = chain.lengths.iter().copied();
                chain.pages.iter().copied().zip(lengths).collect()
            }
        }
    }

    /// The bitmap's pages whose bits differ for two sets of pages in use, in chain order.
    fn changed_bitmap_pages(&self, old: &[bool], new: &[bool]) -> Vec<usize> {
        let mut first = 0;
        let mut changed = Vec::new();
        for (page, bytes) in self.bitmap_pages() {
            let end = (first + 8 * bytes).min(old.len());
            if first < end && old[first..end] != new[first..end] {
                changed.push(page);
            }
            first += 8 * bytes;
        }
        changed
    }
}

/// The bytes of a page's packet.
fn packet(page: &[u8]) -> &[u8] {
    &page[..3 + usize::from(page[0])]
}

impl WriteOrder {
    /// The writes of a careful edit of a path: marks, the file's pages, a page that joins the directory, the visible page, releases.
    /// The image before may have any bytes in free pages; a page with its packet is not written.
    pub fn of(image: &Button, before: &Planned, after: &Planned, path: &[u8]) -> WriteOrder {
        let (old, new) = (before.used(), after.used());
        let both: Vec<bool> = old
            .iter()
            .zip(&new)
            .map(|(old, new)| *old || *new)
            .collect();
        let result = Button::from(&after.built);
        let is_written = |page: &&usize| {
            let wanted = packet(result.page(**page));
            image.page(**page)[..wanted.len()] != *wanted
        };
        let is_new = |page: &&usize| !old[**page];
        let file = after.file_pages(path).iter().filter(is_new);
        let joined = after.directory_pages(path).iter().filter(is_new);
        let mut pages = before.changed_bitmap_pages(&old, &both);
        pages.extend(file.filter(is_written));
        pages.extend(joined.filter(is_written));
        let visible = pages.len();
        pages.push(visible_page(before, after, path));
        pages.extend(before.changed_bitmap_pages(&both, &new));
        WriteOrder { pages, visible }
    }

    /// Whether the change is visible after so many writes.
    pub fn is_visible_after(&self, made: usize) -> bool {
        made > self.visible
    }
}

/// The directory page whose write makes the change visible: that of the entry, or the last one before if a page joins it.
fn visible_page(before: &Planned, after: &Planned, path: &[u8]) -> usize {
    let old_pages = before.directory_pages(path);
    if after.directory_pages(path).len() > old_pages.len() {
        return old_pages[old_pages.len() - 1];
    }
    let entry = after.file(path).or(before.file(path));
    entry.expect("the path's file, before or after").page
}

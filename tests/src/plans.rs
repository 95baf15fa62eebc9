//! What format, put, delete, and making and removing a directory make of an image, worked out on its plan: the answer and every byte afterwards are
//! known by construction.

use crate::Button;
use referee::builder::plan::{
    BitmapPlan, Built, Chain, DirectoryPlan, FilePlan, Fill, ImagePlan, Item,
};
use referee::geometry::{Geometry, MOST_LOCAL_PAGES};

/// The bytes that a name may have before its blanks.
const NAME_BYTES: &[u8] = b"ABCDEFGHIJKLMNOPQRSTUVWXYZ0123456789!#$%&'@^_`{}~";

/// The sizes that follow from page length and page count.
pub fn geometry(page_length: u32, page_count: u32) -> Geometry {
    Geometry::new(page_length, page_count).expect("P and N within their limits")
}

/// Whether an image of so many pages may have a local bitmap.
pub fn may_be_local(page_count: u32) -> bool {
    page_count as usize <= MOST_LOCAL_PAGES
}

/// The plan of a formatted image: an empty root, and from page 1 upward a bitmap file with full packets unless the bitmap is local.
pub fn formatted_plan(page_length: u32, page_count: u32, local: bool) -> ImagePlan {
    let geometry = geometry(page_length, page_count);
    let total = geometry.bitmap_file_length();
    let pages: Vec<usize> = (1..=total.div_ceil(geometry.max_data())).collect();
    let bitmap = if local {
        BitmapPlan::Local
    } else {
        BitmapPlan::File(Chain::full(&pages, total, geometry.max_data()))
    };
    ImagePlan {
        page_length,
        page_count,
        bitmap,
        root: DirectoryPlan {
            pages: vec![0],
            counts: vec![0],
            ..DirectoryPlan::default()
        },
        fill: Fill::Byte(0),
    }
}

/// Whether a path is well formed: names of none to eight directories and of a file, four bytes each, and a byte 0 to 99.
pub fn is_path(path: &[u8]) -> bool {
    let Some((&extension, names)) = path.split_last() else {
        return false;
    };
    let whole = names.len() % 4 == 0 && (4..=36).contains(&names.len());
    whole && extension <= 99 && names.chunks(4).all(is_name)
}

/// Whether the path of a directory is well formed: one to eight names, four bytes each.
pub fn is_directory_path(path: &[u8]) -> bool {
    path.len().is_multiple_of(4) && (4..=32).contains(&path.len()) && path.chunks(4).all(is_name)
}

/// Whether four bytes are a name: one to four allowed bytes, then blanks.
fn is_name(name: &[u8]) -> bool {
    let blanks = name.iter().rev().take_while(|&&byte| byte == b' ').count();
    let used = &name[..name.len() - blanks];
    !used.is_empty() && used.iter().all(|byte| NAME_BYTES.contains(byte))
}

/// The directory that names lead to from another.
fn directory<'a>(from: &'a DirectoryPlan, names: &[u8]) -> Option<&'a DirectoryPlan> {
    let Some((first, rest)) = names.split_first_chunk::<4>() else {
        return Some(from);
    };
    let below = from.items.iter().find_map(|item| match item {
        Item::Directory {
            name, directory, ..
        } if name == first => Some(directory),
        _ => None,
    })?;
    directory(below, rest)
}

/// The directory that names lead to from another, to change it.
pub fn directory_mut<'a>(
    from: &'a mut DirectoryPlan,
    names: &[u8],
) -> Option<&'a mut DirectoryPlan> {
    let Some((first, rest)) = names.split_first_chunk::<4>() else {
        return Some(from);
    };
    let below = from.items.iter_mut().find_map(|item| match item {
        Item::Directory {
            name, directory, ..
        } if name == first => Some(directory),
        _ => None,
    })?;
    directory_mut(below, rest)
}

/// Whether any of the directories that these names lead to from another, one after the other, is hidden; those after a missing one do not count.
fn is_any_hidden(from: &DirectoryPlan, names: &[u8]) -> bool {
    let Some((first, rest)) = names.split_first_chunk::<4>() else {
        return false;
    };
    from.items.iter().any(|item| match item {
        Item::Directory {
            name,
            hidden,
            directory,
        } => name == first && (*hidden || is_any_hidden(directory, rest)),
        Item::File(_) => false,
    })
}

/// Whether a directory of a path is hidden, so that no edit of the path is done.
pub fn is_hidden(plan: &ImagePlan, path: &[u8]) -> bool {
    is_any_hidden(&plan.root, split(path).0)
}

/// The place of a file among a directory's entries, by its name and extension number (five bytes).
pub fn file_place(directory: &DirectoryPlan, name: &[u8]) -> Option<usize> {
    directory.items.iter().position(|item| match item {
        Item::File(file) => file.name == name[..4] && file.extension == name[4],
        Item::Directory { .. } => false,
    })
}

/// The place of a directory among another's entries, by its name.
fn directory_place(directory: &DirectoryPlan, name: &[u8]) -> Option<usize> {
    directory.items.iter().position(|item| match item {
        Item::Directory { name: own, .. } => own == name,
        Item::File(_) => false,
    })
}

/// The names that lead to a directory's parent, and the four bytes of its own name.
pub fn split_directory(path: &[u8]) -> (&[u8], &[u8]) {
    path.split_at(path.len() - 4)
}

/// The names of a path's directories, and the five bytes of its file's name and extension number.
pub fn split(path: &[u8]) -> (&[u8], &[u8]) {
    path.split_at(path.len() - 5)
}

/// The names that lead to each directory of a plan, the root's empty, with the directory.
pub fn directories(plan: &ImagePlan) -> Vec<(Vec<u8>, &DirectoryPlan)> {
    let mut all = vec![(Vec::new(), &plan.root)];
    let mut next = 0;
    while next < all.len() {
        let (names, directory) = all[next].clone();
        for item in &directory.items {
            if let Item::Directory {
                name, directory, ..
            } = item
            {
                all.push(([names.as_slice(), name].concat(), directory));
            }
        }
        next += 1;
    }
    all
}

/// The place in a directory's chain of its first page with space for an entry; none if all are full. Stamps take slots as entries do.
pub fn page_with_space(geometry: &Geometry, directory: &DirectoryPlan) -> Option<usize> {
    let slots = directory.slots();
    slots.iter().enumerate().position(|(place, &taken)| {
        let slots = match place {
            0 => geometry.first_page_entries(),
            _ => geometry.continuation_entries(),
        };
        taken < slots
    })
}

/// The pages that no chain has, rising.
fn free_pages(plan: &ImagePlan) -> Vec<usize> {
    let mut taken = vec![false; plan.page_count as usize];
    for page in plan.used_pages() {
        taken[page] = true;
    }
    (0..taken.len()).filter(|&page| !taken[page]).collect()
}

/// What a put meets that nothing but room could refuse, or a hidden directory.
pub struct Room {
    pub geometry: Geometry,
    /// The slots taken in each page of the directory by entries and stamps, in chain order.
    pub counts: Vec<usize>,
    /// The stamps in the directory.
    pub stamps: usize,
    /// The place of the page that the new entry goes to; none if the directory must grow, or the file is replaced.
    pub space: Option<usize>,
    /// The file that is replaced.
    pub old: Option<FilePlan>,
    /// The stamps of the file that is replaced.
    pub old_stamps: usize,
    /// The pages that may be taken, rising: free ones and those of the replaced file.
    pub free: Vec<usize>,
}

impl Room {
    /// What a put of this path meets in an image of this plan; or the number of its refusal: 14, 15, 22 or 16, in this order.
    pub fn of(plan: &ImagePlan, path: &[u8]) -> Result<Room, u32> {
        match Room::anywhere(plan, path) {
            Err(number @ (14 | 15)) => Err(number),
            _ if is_hidden(plan, path) => Err(22),
            other => other,
        }
    }

    /// What a put of this path would meet if no directory were hidden; or the number of its refusal: 14, 15 or 16.
    pub fn anywhere(plan: &ImagePlan, path: &[u8]) -> Result<Room, u32> {
        if !is_path(path) {
            return Err(14);
        }
        let (names, name) = split(path);
        let directory = directory(&plan.root, names).ok_or(15_u32)?;
        let item = file_place(directory, name).map(|place| &directory.items[place]);
        let old = match item {
            Some(Item::File(file)) if file.read_only => return Err(16),
            Some(Item::File(file)) => Some(file.clone()),
            _ => None,
        };
        let mut free = free_pages(plan);
        free.extend(old.iter().flat_map(|file| &file.chain.pages));
        free.sort_unstable();
        let geometry = geometry(plan.page_length, plan.page_count);
        Ok(Room {
            geometry,
            counts: directory.slots(),
            stamps: directory.stamps.values().map(Vec::len).sum(),
            space: page_with_space(&geometry, directory).filter(|_| old.is_none()),
            old,
            old_stamps: item.map_or(0, |item| directory.stamps_of(item).len()),
            free,
        })
    }

    /// What making a directory at this path meets in an image of this plan; or the number of its refusal: 14, 15, 22 or 21, in this order. It is
    /// what a put of a new file without bytes would meet.
    pub fn of_directory(plan: &ImagePlan, path: &[u8]) -> Result<Room, u32> {
        if !is_directory_path(path) {
            return Err(14);
        }
        let (names, name) = split_directory(path);
        let parent = directory(&plan.root, names).ok_or(15_u32)?;
        if is_any_hidden(&plan.root, names) {
            return Err(22);
        }
        if directory_place(parent, name).is_some() {
            return Err(21);
        }
        let geometry = geometry(plan.page_length, plan.page_count);
        Ok(Room {
            geometry,
            counts: parent.slots(),
            stamps: parent.stamps.values().map(Vec::len).sum(),
            space: page_with_space(&geometry, parent),
            old: None,
            old_stamps: 0,
            free: free_pages(plan),
        })
    }

    /// What a careful put of this path meets: no page of the replaced file may be taken.
    pub fn careful(plan: &ImagePlan, path: &[u8]) -> Result<Room, u32> {
        Ok(Room::of(plan, path)?.beside_the_old(plan))
    }

    /// The same with only the plan's free pages to be taken.
    pub fn beside_the_old(self, plan: &ImagePlan) -> Room {
        Room {
            free: free_pages(plan),
            ..self
        }
    }

    /// Whether the directory must have a page more.
    pub fn grows(&self) -> bool {
        self.old.is_none() && self.space.is_none()
    }

    /// The pages that a file of so many bytes takes.
    pub fn pages_of(&self, length: usize) -> usize {
        length.div_ceil(self.geometry.max_data()).max(1)
    }

    /// The length of the longest file that there is room for; 0 if there is room for none.
    pub fn most_bytes(&self) -> usize {
        let pages = self.free.len().saturating_sub(usize::from(self.grows()));
        pages * self.geometry.max_data()
    }

    /// The pages that a file of so many bytes takes, and that of a directory that grows.
    pub fn pages_needed(&self, length: usize) -> usize {
        self.pages_of(length) + usize::from(self.grows())
    }
}

/// The plan after a put, or the number of its refusal, 14 to 17 or 22. A replaced entry stays in place with its stamps and its chain counts as free. A
/// new one goes to the end of the first directory page with space; if none has, the lowest free page joins the directory's end. The file
/// then has the lowest free pages, rising, all packets full but the last.
pub fn plan_with(plan: &ImagePlan, path: &[u8], bytes: &[u8]) -> Result<ImagePlan, u32> {
    plan_with_room(plan, &Room::of(plan, path)?, path, bytes)
}

/// The plan after a careful put with every write made, or the number of its refusal, 14 to 17 or 22: as after a put, but the replaced chain does not
/// count as free.
pub fn careful_plan_with(plan: &ImagePlan, path: &[u8], bytes: &[u8]) -> Result<ImagePlan, u32> {
    plan_with_room(plan, &Room::careful(plan, path)?, path, bytes)
}

/// The plan after a put that meets this room, or 17, whether a directory is hidden or not.
pub fn plan_with_room(
    plan: &ImagePlan,
    room: &Room,
    path: &[u8],
    bytes: &[u8],
) -> Result<ImagePlan, u32> {
    if room.pages_needed(bytes.len()) > room.free.len() {
        return Err(17);
    }
    let mut plan = plan.clone();
    let (names, name) = split(path);
    let directory = directory_mut(&mut plan.root, names).ok_or(15_u32)?;
    let mut free = room.free.iter().copied();
    if room.grows() {
        directory.pages.extend(free.next());
        directory.counts.push(0);
    }
    let pages: Vec<usize> = free.take(room.pages_of(bytes.len())).collect();
    let chain = Chain::full(&pages, bytes.len(), room.geometry.max_data());
    let four = [name[0], name[1], name[2], name[3]];
    let file = Item::File(FilePlan::new(four, name[4], bytes, chain));
    if let Some(place) = file_place(directory, name) {
        directory.items[place] = file;
        return Ok(plan);
    }
    let page = room.space.unwrap_or(directory.pages.len() - 1);
    insert_at_end(directory, page, file);
    Ok(plan)
}

/// Inserts an entry at the end of a directory's page with this place in its chain.
fn insert_at_end(directory: &mut DirectoryPlan, page: usize, item: Item) {
    directory.counts[page] += 1;
    let place: usize = directory.counts[..=page].iter().sum();
    directory.items.insert(place - 1, item);
}

/// The plan after a directory is made, or the number of the refusal, 14, 15, 22, 21 or 17. Its entry goes where that of a new file would go. If the
/// parent must grow, the lowest free page joins it, and the directory has the next; else the directory has the lowest.
pub fn plan_with_directory(plan: &ImagePlan, path: &[u8]) -> Result<ImagePlan, u32> {
    let room = Room::of_directory(plan, path)?;
    if room.pages_needed(0) > room.free.len() {
        return Err(17);
    }
    let mut plan = plan.clone();
    let (names, name) = split_directory(path);
    let parent = directory_mut(&mut plan.root, names).ok_or(15_u32)?;
    let mut free = room.free.iter().copied();
    if room.grows() {
        parent.pages.extend(free.next());
        parent.counts.push(0);
    }
    let made = Item::Directory {
        name: [name[0], name[1], name[2], name[3]],
        hidden: false,
        directory: DirectoryPlan {
            pages: free.take(1).collect(),
            counts: vec![0],
            ..DirectoryPlan::default()
        },
    };
    let page = room.space.unwrap_or(parent.pages.len() - 1);
    insert_at_end(parent, page, made);
    Ok(plan)
}

/// The plan after a directory is removed with its stamps, or the number of the refusal, 14, 15, 22 or 20. The page that held its entry has one less.
pub fn plan_without_directory(plan: &ImagePlan, path: &[u8]) -> Result<ImagePlan, u32> {
    if !is_directory_path(path) {
        return Err(14);
    }
    let removed = directory(&plan.root, path).ok_or(15_u32)?;
    if is_any_hidden(&plan.root, path) {
        return Err(22);
    }
    if !removed.items.is_empty() {
        return Err(20);
    }
    let mut plan = plan.clone();
    let (names, name) = split_directory(path);
    let parent = directory_mut(&mut plan.root, names).ok_or(15_u32)?;
    let place = directory_place(parent, name).ok_or(15_u32)?;
    remove_item(parent, place).ok_or(15_u32)?;
    Ok(plan)
}

/// Removes the entry with this place in a directory, and its stamps; the page that held it has one less.
fn remove_item(directory: &mut DirectoryPlan, place: usize) -> Option<()> {
    let removed = directory.items.remove(place);
    directory.stamps.remove(&removed.key());
    let mut place = place;
    for count in &mut directory.counts {
        if place < *count {
            *count -= 1;
            return Some(());
        }
        place -= *count;
    }
    None
}

/// The plan without the file of this path and its stamps; none if there is no such file. The page that held its entry has one less.
pub fn plan_without(plan: &ImagePlan, path: &[u8]) -> Option<ImagePlan> {
    let mut plan = plan.clone();
    let (names, name) = split(path);
    let directory = directory_mut(&mut plan.root, names)?;
    let place = file_place(directory, name)?;
    remove_item(directory, place)?;
    Some(plan)
}

/// An image with the packets of another laid over it: each page in use there has its packet, every other byte stays.
pub fn overlaid(image: &Button, built: &Built) -> Vec<u8> {
    let mut after = image.pages();
    let packets = Button::from(built);
    for &page in built.chains.iter().flat_map(|chain| &chain.pages) {
        let packet = packets.page(page);
        let length = 3 + usize::from(packet[0]);
        after.page_mut(page)[..length].copy_from_slice(&packet[..length]);
    }
    after.image
}

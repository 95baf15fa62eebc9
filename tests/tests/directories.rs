//! Making and removing directories (document 02, A1, with A2 and A6): first page, back reference, entry, bitmap and owner records, and what a removal
//! frees. The refusals are in `directory_refusals.rs`, room is searched for in `room.rs`, long runs are in `edit_runs.rs`.
//!
//! Programs: the library and the second program. The cases written by hand are put to each of them alone, in `library` and `second_program`, with the
//! bytes and answers that documents 01 and 02 give; the others are put to both, and every answer and every lent byte is compared.
//! The archive is made by `tools/build`.

use common::directory_edits::{names, unused, Edit, Program, BEFORE, EXTRA, UNUSED};
use common::generators::{
    files, hidden_plan, is_below_hidden, random_directory_path, stamped_plan, subdirectories,
    worn_plan,
};
use common::plans::{
    directories, directory_mut, overlaid, plan_with_directory, plan_without_directory, Room,
};
use common::puts::{make_features, used_plan, MAKE_ROOM};
use common::{answer, run_seeds, table_bytes, Button, Tally};
use referee::builder::pages::{name, Pages};
use referee::builder::plan::{ImagePlan, Item};
use referee::rng::Rng;
use referee::{Answer, Listing};

/// Demands these bytes at the front of a page, and that all others of it are unused.
fn demand_page(button: &Button, page: usize, bytes: &[u8]) {
    let (front, rest) = button.page(page).split_at(bytes.len());
    assert_eq!(front, bytes, "page {page}");
    assert!(
        rest.iter().all(|&byte| byte == UNUSED),
        "rest of page {page}"
    );
}

/// Demands the image of some pages that are written by hand, every other byte as before.
fn demand_image(button: &Button, expected: &Pages) {
    for page in 0..button.page_count as usize {
        assert_eq!(button.page(page), expected.page(page), "page {page}");
    }
}

/// Bytes 08 AA "ROOT" 00 00 00: marker, the root's name, a zero byte, its start page 0, and the pointer 0.
fn first_directory_is_bytes_by_hand(program: Program) {
    let mut button = program.formatted(32, 16, 1);
    program.done(&mut button, Edit::Make, b"BM01", &[(0, 1, 0), (1, 3, 0)]);
    demand_page(
        &button,
        0,
        b"\x0F\xAA\x00\x80\x03\x00\x00\x00BM01\x7F\x01\x00\x00\x43\x7C",
    );
    demand_page(&button, 1, b"\x08\xAAROOT\x00\x00\x00\x27\xAC");
    // A directory in it: name and start page of the first, not of the root and not its own.
    let records = [(0, 1, 0), (1, 3, 0), (2, 4, 0)];
    program.done(&mut button, Edit::Make, b"BM01JIB ", &records);
    demand_page(
        &button,
        0,
        b"\x0F\xAA\x00\x80\x07\x00\x00\x00BM01\x7F\x01\x00\x00\xB2\xB3",
    );
    demand_page(
        &button,
        1,
        b"\x0F\xAAROOT\x00\x00JIB \x7F\x02\x00\x00\x83\xD9",
    );
    demand_page(&button, 2, b"\x08\xAABM01\x00\x01\x00\x29\xE9");
    assert!(button.image[3 * 32..].iter().all(|&byte| byte == UNUSED));
    // Removed again: the packets are as before, the bytes behind them stay.
    program.done(&mut button, Edit::Remove, b"BM01JIB ", &records[..2]);
    let page = b"\x08\xAAROOT\x00\x00\x00\x27\xAC \x7F\x02\x00\x00\x83\xD9";
    demand_page(&button, 1, page);
    demand_page(
        &button,
        0,
        b"\x0F\xAA\x00\x80\x03\x00\x00\x00BM01\x7F\x01\x00\x00\x43\x7C",
    );
    program.done(&mut button, Edit::Remove, b"BM01", &records[..1]);
    demand_page(
        &button,
        0,
        b"\x08\xAA\x00\x80\x01\x00\x00\x00\x00\x30\x381\x7F\x01\x00\x00\x43\x7C".as_slice(),
    );
    demand_page(&button, 1, page);
    demand_page(&button, 2, b"\x08\xAABM01\x00\x01\x00\x29\xE9");
}

/// Two-byte page numbers and a bitmap file of two pages, of which one changes.
fn first_directory_with_two_byte_numbers_is_bytes_by_hand(program: Program) {
    let mut button = program.formatted(32, 257, 0);
    let second = button.page(2).to_vec();
    let bits = |byte: u8, check: [u8; 2]| [&[0x1D, byte][..], &[0; 26], &[2, 0], &check].concat();
    let records = [(0, 1, 0), (1, 2, 0), (2, 2, 1), (3, 3, 0), (4, 4, 0)];
    program.done(&mut button, Edit::Make, b"LAB ", &records[..4]);
    demand_page(
        &button,
        0,
        b"\x13\xAB\x00\x00\x00\x01\x00\x02\x00LAB \x7F\x03\x00\x00\x00\x00\x00\x26\xEE",
    );
    assert_eq!(button.page(1), bits(0x0F, [0xAB, 0x94]));
    assert_eq!(button.page(2), second);
    demand_page(&button, 3, b"\x0A\xABROOT\x00\x00\x00\x00\x00\xB4\x07");
    program.done(&mut button, Edit::Make, b"LAB A1  ", &records);
    assert_eq!(button.page(1), bits(0x1F, [0xAB, 0x88]));
    demand_page(
        &button,
        3,
        b"\x13\xABROOT\x00\x00\x00A1  \x7F\x04\x00\x00\x00\x00\x00\xB9\x78",
    );
    demand_page(&button, 4, b"\x0A\xABLAB \x00\x03\x00\x00\x00\x78\x6F");
    program.done(&mut button, Edit::Remove, b"LAB A1  ", &records[..4]);
    assert_eq!(button.page(1), bits(0x0F, [0xAB, 0x94]));
    program.done(&mut button, Edit::Remove, b"LAB ", &records[..3]);
}

/// What is listed of a directory that was made: extension number 127, not hidden, no pages, no bytes.
fn made_directory_is_listed_as_not_hidden(program: Program) {
    for (page_count, local) in [(16, 1), (16, 0), (300, 0)] {
        let mut button = program.formatted(64, page_count, local);
        let bitmap = program.check(&button).0.used - 1;
        assert_eq!(program.number(&button, Edit::Make, b"A   "), 0);
        let mut owners = vec![BEFORE; table_bytes(page_count)];
        program.edit(&mut button, &mut owners, Edit::Make, b"A   ");
        program.edit(&mut button, &mut owners, Edit::Make, b"A   B~  ");
        let entry = |level: u32, text: &str, start: u32| Listing {
            level,
            name: u32::from_le_bytes(name(text)),
            extension: 127,
            attribute: 0,
            start,
            ..Listing::default()
        };
        let expected = [entry(0, "A", 1 + bitmap), entry(1, "B~", 2 + bitmap)];
        assert_eq!(program.list(&button), expected);
        let totals = program.check(&button).0;
        let told = (totals.used, totals.files, totals.directories);
        assert_eq!(told, (3 + bitmap, 0, 2));
    }
}

/// A directory called ROOT below the root: what is made in it refers back to it by its name and its start page, not 0.
fn directory_called_root_is_a_parent_like_others(program: Program) {
    let mut button = program.formatted(32, 16, 1);
    let records = [(0, 1, 0), (1, 3, 0), (2, 4, 0), (3, 5, 0)];
    program.done(&mut button, Edit::Make, b"ROOT", &records[..2]);
    program.done(&mut button, Edit::Make, b"ROOTE   ", &records[..3]);
    program.done(&mut button, Edit::Make, b"ROOTE   ROOT", &records);
    let mut pages = button.pages();
    assert_eq!(pages.body(1)[..7], pages.sub_control("ROOT", 0));
    assert_eq!(pages.body(2)[..7], pages.sub_control("ROOT", 1));
    assert_eq!(pages.body(3), pages.sub_control("E", 2));
    // A reference to the root in its place is no directory of ROOT.
    pages.packet(3, &pages.sub_control("ROOT", 0), 0);
    assert_eq!(program.check(&Button::from(&pages)).0.number, 4);
    program.refused(&button, Edit::Make, b"ROOT", 21);
    program.refused(&button, Edit::Remove, b"ROOT", 20);
}

/// A button of 28 pages of 32 bytes, bitmap local or in pages 1, 3 and 2 (a byte, no byte, three bytes), whose root's chain is 0, 9, 4 and directory D's
/// 7, 12: the root's pages have 3, `middle` and 1 entries, those of D 1 and `last`. All entries but D are files, on pages from 13 up; D is the first.
fn long_chains(local: bool, middle: usize, last: usize) -> Pages {
    let mut pages = unused(32, 28);
    let mut next = 13;
    let mut next_files = |pages: &mut Pages, letter: char, count: usize| {
        let mut entries = Vec::new();
        for number in 0..count {
            entries.extend(pages.entry(&format!("{letter}{number}"), 1, next, 1));
            pages.packet(next, b"file", 0);
            next += 1;
        }
        entries
    };
    let mut root = pages.entry("D", 127, 7, 0);
    root.extend(next_files(&mut pages, 'A', 2));
    let second = next_files(&mut pages, 'B', middle);
    let mut sub = pages.sub_control("ROOT", 0);
    sub.extend(next_files(&mut pages, 'S', 1));
    let third = next_files(&mut pages, 'C', 1);
    let more = next_files(&mut pages, 'T', last);
    let mut marked: Vec<usize> = vec![0, 4, 7, 9, 12];
    marked.extend(13..next);
    if !local {
        marked.extend([1, 2, 3]);
    }
    let mut bits = [0; 4];
    for page in &marked {
        bits[page / 8] |= 1 << (page % 8);
    }
    let control = match local {
        true => pages.local_control(&marked),
        false => pages.file_control(1, 3),
    };
    if !local {
        pages
            .packet(1, &bits[..1], 3)
            .packet(3, b"", 2)
            .packet(2, &bits[1..], 0);
    }
    pages.packet(0, &[control, root].concat(), 9);
    pages.packet(9, &second, 4).packet(4, &third, 0);
    pages.packet(7, &sub, 12).packet(12, &more, 0);
    pages
}

/// The entry goes to the end of the first page with space in chain order, which may be a middle or an empty one; a bitmap file keeps its packets'
/// lengths. The directory has the lowest free page.
fn entry_goes_to_the_first_page_with_space(program: Program) {
    for local in [true, false] {
        let lowest = if local { 1 } else { 5 };
        for (middle, last, path, page) in [
            // In the root: its middle page has space, though not its first.
            (0, 4, names(&["NEW"]), 9),
            (3, 4, names(&["NEW"]), 9),
            // The middle page is full: the last one.
            (4, 4, names(&["NEW"]), 4),
            // In D: its first page has one entry of three.
            (4, 0, names(&["D", "NEW"]), 7),
        ] {
            let before = long_chains(local, middle, last);
            let button = Button::from(&before);
            assert_eq!(program.check(&button).0.number, 0);
            let mut after = before.clone();
            let parent = match path.len() {
                4 => before.sub_control("ROOT", 0),
                _ => before.sub_control("D", 7),
            };
            after.packet(lowest, &parent, 0);
            let entry = after.entry("NEW", 127, lowest, 0);
            let body = [before.body(page), entry].concat();
            after.packet(page, &body, before.pointer(page));
            mark(&mut after, local, &[lowest]);
            demand_made(program, &button, &path, &after);
        }
    }
}

/// Marks pages in the bitmap of long chains: local, or in pages 1 (a byte) and 2 (three bytes).
fn mark(pages: &mut Pages, local: bool, marked: &[usize]) {
    for &page in marked {
        let (holder, place) = match (local, page / 8) {
            (true, byte) => (0, 4 + byte),
            (false, 0) => (1, 1),
            (false, byte) => (2, byte),
        };
        let byte = pages.page(holder)[place] | 1 << (page % 8);
        pages.alter(holder, place, &[byte]);
    }
}

/// Demands that a make is done and leaves just this image, with the owner records of a check, and that a removal then leaves the old packets.
fn demand_made(program: Program, before: &Button, path: &[u8], expected: &Pages) {
    let mut button = before.clone();
    let mut owners = vec![BEFORE; table_bytes(before.page_count) + EXTRA];
    let told = program.edit(&mut button, &mut owners, Edit::Make, path);
    assert_eq!(told, answer(0, 0), "make of {path:?}");
    demand_image(&button, expected);
    let (totals, table) = program.check(&button);
    assert_eq!(totals.number, 0);
    assert_eq!(owners[..table.len()], table);
    assert!(owners[table.len()..].iter().all(|&byte| byte == BEFORE));
}

/// All pages of the parent are full: the lowest free page joins its end, and the directory has the next free one, whatever lies between.
fn page_joins_the_parent_before_the_directory_has_its_own(program: Program) {
    for local in [true, false] {
        // Free are 1, 2, 3, 5, .. or, with a bitmap file, 5, 6, 8, ..
        let (joined, own) = if local { (1, 2) } else { (5, 6) };
        let full = long_chains(local, 4, 4);
        // Three more files fill the root's last page; D's first page has one of three entries.
        let mut before = full.clone();
        let mut third = before.body(4);
        for (number, page) in [(1, 8), (2, 10), (3, 11)] {
            third.extend(before.entry(&format!("C{number}"), 1, page, 1));
            before.packet(page, b"file", 0);
        }
        before.packet(4, &third, 0);
        mark(&mut before, local, &[8, 10, 11]);
        let mut after = before.clone();
        after.packet(own, &before.sub_control("ROOT", 0), 0);
        after.packet(joined, &before.entry("NEW", 127, own, 0), 0);
        after.set_pointer(4, joined);
        mark(&mut after, local, &[joined, own]);
        demand_made(program, &Button::from(&before), b"NEW ", &after);
    }
    // The parent is a directory whose only page is full; free are 4, 6, 7 and more.
    let mut before = unused(32, 16);
    let mut sub = before.sub_control("ROOT", 0);
    for (text, page) in [("X", 2), ("Y", 3), ("Z", 5)] {
        sub.extend(before.entry(text, 1, page, 1));
        before.packet(page, b"file", 0);
    }
    let root = [
        before.local_control(&[0, 1, 2, 3, 5]),
        before.entry("D", 127, 1, 0),
    ];
    before.packet(0, &root.concat(), 0).packet(1, &sub, 0);
    let mut after = before.clone();
    after.packet(6, &before.sub_control("D", 1), 0);
    after.packet(4, &before.entry("NEW", 127, 6, 0), 0);
    after.set_pointer(1, 4).alter(0, 4, &[0b111_1111]);
    demand_made(program, &Button::from(&before), b"D   NEW ", &after);
    let mut button = Button::from(&before);
    // D has the records of its entry, walk position 0, its new page the place 1; the new directory has walk position 4.
    let records = [
        (0, 1, 0),
        (1, 3, 0),
        (4, 3, 1),
        (2, 4, 0),
        (3, 5, 0),
        (5, 6, 0),
        (6, 7, 0),
    ];
    program.done(&mut button, Edit::Make, b"D   NEW ", &records);
}

/// A stamp of an entry; to a reader that knows none it is an entry of a directory on page 1.
fn stamp(number: u8) -> Vec<u8> {
    vec![b'N' | 0x80, b'E', b'W', b' ', 0x7F, 1, number]
}

/// Stamps take space as entries do, and none is given to the new entry, which stands at the end of its page.
fn stamps_take_space_and_stay_with_their_entries(program: Program) {
    let file = |pages: &mut Pages, text: &str, page: usize| {
        pages.packet(page, b"file", 0);
        pages.entry(text, 1, page, 1)
    };
    // Two slots taken of three: the entry goes behind.
    let mut before = unused(32, 16);
    let control = before.local_control(&[0, 1]);
    let slots = [stamp(1), file(&mut before, "A", 1)].concat();
    before.packet(0, &[control, slots.clone()].concat(), 0);
    let mut after = before.clone();
    let control = after.local_control(&[0, 1, 2]);
    let entry = after.entry("NEW", 127, 2, 0);
    after.packet(0, &[control, slots, entry].concat(), 0);
    after.packet(2, &before.sub_control("ROOT", 0), 0);
    demand_made(program, &Button::from(&before), b"NEW ", &after);
    // Three of three: a page joins, though there is but one entry.
    let mut before = unused(32, 16);
    let control = before.local_control(&[0, 1]);
    let slots = [stamp(1), stamp(2), file(&mut before, "A", 1)].concat();
    before.packet(0, &[control, slots.clone()].concat(), 0);
    let mut after = before.clone();
    let control = after.local_control(&[0, 1, 2, 3]);
    after.packet(0, &[control, slots].concat(), 2);
    after.packet(2, &before.entry("NEW", 127, 3, 0), 0);
    after.packet(3, &before.sub_control("ROOT", 0), 0);
    demand_made(program, &Button::from(&before), b"NEW ", &after);
    let mut button = Button::from(&before);
    let records = [(0, 1, 0), (2, 1, 1), (1, 3, 0), (3, 4, 0)];
    program.done(&mut button, Edit::Make, b"NEW ", &records);
}

/// A button of 12 pages of 32 bytes with so many files A0, A1, .. in the root, which are free of stamps, and the last on so many pages that so many
/// are free.
fn with_free_pages(files: usize, free: usize) -> Button {
    let mut pages = unused(32, 12);
    let used = 12 - free;
    let mut root = pages.local_control(&(0..used).collect::<Vec<usize>>());
    for number in 0..files {
        let start = 1 + number;
        let last = number + 1 == files;
        let end = if last { used } else { start + 1 };
        root.extend(pages.entry(&format!("A{number}"), 1, start, end - start));
        for page in start..end {
            let next = if page + 1 == end { 0 } else { page + 1 };
            pages.packet(page, b"file", next);
        }
    }
    pages.packet(0, &root, 0);
    Button::from(&pages)
}

/// A page for the directory, and one for its entry if the parent is full: just so many free pages are enough, and one less is 17.
fn just_enough_pages_are_done_and_one_too_few_is_17(program: Program) {
    for (files, free, number) in [
        (1, 2, 0),
        (1, 1, 0),
        (1, 0, 17),
        (2, 1, 0),
        (2, 0, 17),
        (3, 3, 0),
        (3, 2, 0),
        (3, 1, 17),
        (3, 0, 17),
    ] {
        let button = with_free_pages(files, free);
        match number {
            0 => {
                let mut made = button.clone();
                let mut owners = vec![BEFORE; 48];
                let told = program.edit(&mut made, &mut owners, Edit::Make, b"NEW ");
                assert_eq!(told, answer(0, 0), "{files} files, {free} free");
                let used = program.check(&made).0.used as usize;
                assert_eq!(used, 12 - free + 1 + usize::from(files == 3));
            }
            _ => program.refused(&button, Edit::Make, b"NEW ", number),
        }
        // Nothing of it matters to a removal.
        program.refused(&button, Edit::Remove, b"NEW ", 15);
    }
}

/// A button with room for many: only the last page of 65,535 is free.
fn last_page_of_the_largest_button_is_taken(program: Program) {
    let mut button = program.formatted(32, 65_535, 0);
    let free = 65_535 - program.check(&button).0.used as usize;
    let bytes = vec![1; (free - 1) * 27];
    assert_eq!(program.put(&mut button, b"FULL\x01", &bytes), 0);
    let mut owners = vec![BEFORE; table_bytes(65_535)];
    let told = program.edit(&mut button, &mut owners, Edit::Make, b"NEW ");
    assert_eq!(told, answer(0, 0));
    assert_eq!(owners[4 * 65_534..], [4, 0, 0, 0]);
    let last = button.pages();
    assert_eq!(last.body(65_534), last.sub_control("ROOT", 0));
    assert_eq!(program.number(&button, Edit::Make, b"NEW2"), 17);
}

/// A file of the same name, read-only or not, of any extension number, is no obstacle to a directory, nor a directory to a file.
fn file_of_the_same_name_is_no_obstacle(program: Program) {
    for extension in [0, 1, 99, 0x80, 0x80 | 99] {
        let mut pages = unused(32, 16);
        let mut root = pages.local_control(&[0, 1]);
        root.extend(pages.entry("SAME", extension, 1, 1));
        pages.packet(0, &root, 0).packet(1, b"file", 0);
        let mut button = Button::from(&pages);
        program.refused(&button, Edit::Remove, b"SAME", 15);
        let records = [(0, 1, 0), (1, 3, 0), (2, 4, 0)];
        program.done(&mut button, Edit::Make, b"SAME", &records);
        program.refused(&button, Edit::Make, b"SAME", 21);
        assert_eq!(program.put(&mut button, b"SAME\x32", b"more"), 0);
        let listed: Vec<u32> = program
            .list(&button)
            .iter()
            .map(|one| one.extension)
            .collect();
        assert_eq!(listed, [u32::from(extension & 127), 127, 50]);
        let records = [(0, 1, 0), (1, 3, 0), (3, 4, 0)];
        program.done(&mut button, Edit::Remove, b"SAME", &records);
    }
}

/// All pages of a removed directory are free, however many there are: first, empty ones between, and the last; none has an entry. Its pages keep their
/// bytes, and the parent keeps its own pages.
fn directory_of_several_empty_pages_is_removed_whole(program: Program) {
    for local in [true, false] {
        for chain in [
            &[3][..],
            &[3, 9],
            &[9, 3],
            &[3, 11, 5, 8],
            &[11, 3, 4, 5, 6, 7, 8, 9],
        ] {
            let mut pages = unused(32, 16);
            let mut used = vec![0, 2, 10];
            used.extend(chain);
            let control = match local {
                true => pages.local_control(&used),
                false => {
                    used.push(1);
                    pages.file_control(1, 1)
                }
            };
            let mut bits = [0; 2];
            for page in &used {
                bits[page / 8] |= 1 << (page % 8);
            }
            if !local {
                pages.packet(1, &bits, 0);
            }
            let entries = [
                pages.entry("A", 1, 2, 1),
                pages.entry("OLD", 127, chain[0], 0),
                pages.entry("B", 1, 10, 1),
            ];
            pages.packet(0, &[control, entries.concat()].concat(), 0);
            pages.packet(2, b"a", 0).packet(10, b"b", 0);
            for (place, &page) in chain.iter().enumerate() {
                let body = match place {
                    0 => pages.sub_control("ROOT", 0),
                    _ => Vec::new(),
                };
                pages.packet(page, &body, chain.get(place + 1).copied().unwrap_or(0));
            }
            let mut button = Button::from(&pages);
            assert_eq!(program.check(&button).0.used as usize, used.len());
            program.refused(&button, Edit::Make, b"OLD ", 21);
            // By hand: B moves up, the bits of all its pages are clear, nothing else changes.
            let mut after = pages.clone();
            let kept: Vec<usize> = used
                .iter()
                .copied()
                .filter(|page| !chain.contains(page))
                .collect();
            let control = match local {
                true => after.local_control(&kept),
                false => after.file_control(1, 1),
            };
            let entries = [pages.entry("A", 1, 2, 1), pages.entry("B", 1, 10, 1)];
            after.packet(0, &[control, entries.concat()].concat(), 0);
            let mut records = vec![(0, 1, 0), (2, 3, 0), (10, 4, 0)];
            if !local {
                after.packet(1, &[0b111, 0b100], 0);
                records.push((1, 2, 0));
            }
            program.done(&mut button, Edit::Remove, b"OLD ", &records);
            demand_image(&button, &after);
            program.refused(&button, Edit::Remove, b"OLD ", 15);
        }
    }
}

/// A removed directory loses its stamps, and no other entry does; later ones of its page move up, those of other pages do not.
fn removed_directory_loses_its_stamps(program: Program) {
    let mut pages = unused(64, 16);
    let entry = |text: &str, page: usize| pages.entry(text, 127, page, 0);
    let first = [
        stamp(1),
        entry("A", 2),
        stamp(2),
        stamp(3),
        entry("B", 3),
        stamp(4),
        entry("C", 4),
    ];
    let second = [entry("E", 5), stamp(5), entry("F", 6)];
    let control = |used: &[usize]| Pages::new(64, 16).local_control(used);
    let before = control(&[0, 1, 2, 3, 4, 5, 6]);
    pages.packet(0, &[before, first.concat()].concat(), 1);
    pages.packet(1, &second.concat(), 0);
    for page in 2..=6 {
        pages.packet(page, &pages.sub_control("ROOT", 0), 0);
    }
    let owners = |others: [usize; 4]| {
        let mut records = vec![(0, 1, 0), (1, 1, 1)];
        records.extend((3..).zip(others).map(|(owner, page)| (page, owner, 0)));
        records
    };
    let kept = |slots: &[usize]| -> Vec<u8> {
        slots.iter().flat_map(|&slot| first[slot].clone()).collect()
    };
    for (path, page, slots) in [
        (b"A   ", 2, kept(&[2, 3, 4, 5, 6])),
        (b"B   ", 3, kept(&[0, 1, 5, 6])),
        (b"C   ", 4, kept(&[0, 1, 2, 3, 4])),
    ] {
        let mut button = Button::from(&pages);
        let used: Vec<usize> = (0..=6).filter(|&other| other != page).collect();
        let mut after = pages.clone();
        after.packet(0, &[control(&used), slots].concat(), 1);
        let others: Vec<usize> = (2..=6).filter(|&other| other != page).collect();
        let others = [others[0], others[1], others[2], others[3]];
        program.done(&mut button, Edit::Remove, path, &owners(others));
        demand_image(&button, &after);
    }
    // The last entries of the second page: F with its stamp, then E, which leaves the page in the root's chain without entries.
    let mut button = Button::from(&pages);
    let mut after = pages.clone();
    let whole = [control(&[0, 1, 2, 3, 4, 5]), first.concat()].concat();
    after.packet(0, &whole, 1).packet(1, &second[0], 0);
    program.done(&mut button, Edit::Remove, b"F   ", &owners([2, 3, 4, 5]));
    demand_image(&button, &after);
    let whole = [control(&[0, 1, 2, 3, 4]), first.concat()].concat();
    after.packet(0, &whole, 1).packet(1, b"", 0);
    let records = [(0, 1, 0), (1, 1, 1), (2, 3, 0), (3, 4, 0), (4, 5, 0)];
    program.done(&mut button, Edit::Remove, b"E   ", &records);
    demand_image(&button, &after);
    // A directory made then goes there, since the first page has no space, and has no stamps.
    let entry = after.entry("NEW", 127, 5, 0);
    let whole = [control(&[0, 1, 2, 3, 4, 5]), first.concat()].concat();
    after.packet(0, &whole, 1).packet(1, &entry, 0);
    after.packet(5, &pages.sub_control("ROOT", 0), 0);
    demand_made(program, &button, b"NEW ", &after);
}

/// A directory made, removed and made again gives the same image as made once; removed and made, the same tree as before.
fn remove_then_make_gives_the_same_tree(program: Program) {
    for (page_count, local) in [(16, 1), (16, 0), (300, 0)] {
        let mut button = program.formatted(32, page_count, local);
        let mut owners = vec![BEFORE; table_bytes(page_count)];
        for path in [&b"A   "[..], b"B   ", b"A   X   "] {
            let told = program.edit(&mut button, &mut owners, Edit::Make, path);
            assert_eq!(told, answer(0, 0));
        }
        assert_eq!(program.put(&mut button, b"A   F   \x01", b"file"), 0);
        let made = button.clone();
        let (totals, table) = program.check(&made);
        for path in [&b"B   "[..], b"A   X   "] {
            let mut again = made.clone();
            let told = program.edit(&mut again, &mut owners, Edit::Remove, path);
            assert_eq!(told, answer(0, 0));
            assert_eq!(program.check(&again).0.used, totals.used - 1);
            let told = program.edit(&mut again, &mut owners, Edit::Make, path);
            assert_eq!(told, answer(0, 0));
            let tree = |button: &Button| {
                let mut listed: Vec<[u32; 5]> = program.list(button).iter().map(fields).collect();
                listed.sort_unstable();
                listed
            };
            assert_eq!(tree(&again), tree(&made));
            assert_eq!(program.check(&again).0, totals);
            // B is the last entry of its page: all is as before, byte for byte.
            if path == b"B   " {
                assert!(again == made);
                assert_eq!(owners, table);
            }
        }
    }
}

/// Level, name, extension number, start page and length of an entry.
fn fields(listing: &Listing) -> [u32; 5] {
    [
        listing.level,
        listing.name,
        listing.extension,
        listing.start,
        listing.length,
    ]
}

/// A file is put into a directory that was made, which then has entries; deleted, it leaves the directory empty, also one that grew.
fn directory_is_filled_emptied_and_removed(program: Program) {
    let mut button = program.formatted(32, 16, 1);
    let mut owners = vec![BEFORE; 64];
    assert_eq!(program.put(&mut button, b"BM01A   \x01", b"x"), 15);
    let told = program.edit(&mut button, &mut owners, Edit::Make, b"BM01");
    assert_eq!(told, answer(0, 0));
    for letter in b'A'..=b'F' {
        let file = [&b"BM01"[..], &[letter], b"   \x01"].concat();
        assert_eq!(program.put(&mut button, &file, b"x"), 0);
        program.refused(&button, Edit::Remove, b"BM01", 20);
    }
    // Page 0, two of BM01, six files.
    assert_eq!(program.check(&button).0.used, 9);
    for letter in b'A'..=b'F' {
        program.refused(&button, Edit::Remove, b"BM01", 20);
        let file = [&b"BM01"[..], &[letter], b"   \x01"].concat();
        assert_eq!(program.delete(&mut button, &file), 0);
    }
    assert_eq!(program.check(&button).0.used, 3);
    program.done(&mut button, Edit::Remove, b"BM01", &[(0, 1, 0)]);
    // Case 2 of document 01: the root is as after a format.
    let front = b"\x08\xAA\x00\x80\x01\x00\x00\x00\x00\x30\x38";
    assert_eq!(button.page(0)[..11], *front);
}

/// A test of each rule, for the second program alone and for the library alone.
macro_rules! rules {
    ($($rule:ident,)*) => {
        mod second_program {
            $(#[test] fn $rule() { super::$rule(super::Program::Second); })*
        }
        mod library {
            $(#[test] fn $rule() { super::$rule(super::Program::Library); })*
        }
    };
}

rules!(
    first_directory_is_bytes_by_hand,
    first_directory_with_two_byte_numbers_is_bytes_by_hand,
    made_directory_is_listed_as_not_hidden,
    directory_called_root_is_a_parent_like_others,
    entry_goes_to_the_first_page_with_space,
    page_joins_the_parent_before_the_directory_has_its_own,
    stamps_take_space_and_stay_with_their_entries,
    just_enough_pages_are_done_and_one_too_few_is_17,
    last_page_of_the_largest_button_is_taken,
    file_of_the_same_name_is_no_obstacle,
    directory_of_several_empty_pages_is_removed_whole,
    removed_directory_loses_its_stamps,
    remove_then_make_gives_the_same_tree,
    directory_is_filled_emptied_and_removed,
);

/// The plan with the entries of one directory left out, if there is one below the root with files alone: it then has empty pages.
fn with_emptied_directory(plan: ImagePlan, rng: &mut Rng) -> ImagePlan {
    let mut plan = plan;
    let has_files = |item: &Item| matches!(item, Item::File(_));
    let all = directories(&plan).into_iter();
    let such: Vec<Vec<u8>> = all
        .filter(|(names, directory)| !names.is_empty() && directory.items.iter().all(has_files))
        .map(|(names, _)| names)
        .collect();
    if let Some(names) = rng.pick(&such) {
        let directory = directory_mut(&mut plan.root, names).expect("a directory");
        directory.items.clear();
        directory.stamps.clear();
        directory.counts.fill(0);
    }
    plan
}

/// A plan of any kind: worn, with many stamps, with hidden directories, or with few pages free.
fn any_plan(seed: u64, rng: &mut Rng) -> ImagePlan {
    let plan = match seed % 4 {
        0 => worn_plan(rng),
        1 => stamped_plan(rng),
        2 => hidden_plan(rng),
        _ => used_plan(seed, rng),
    };
    match rng.chance(60) {
        true => with_emptied_directory(plan, rng),
        false => plan,
    }
}

/// Makes and removals on random images, by the library and the second program; answers, images and owners are the plan's.
#[test]
fn makes_and_removals_on_random_images_are_as_planned() {
    let mut tally = Tally::default();
    run_seeds(0xFA00_0000..0xFA00_0000 + 3_000, |seed, rng| {
        let plan = any_plan(seed, rng);
        let built = plan.build();
        let before = Button::from(&built);
        for _ in 0..3 {
            let path = random_directory_path(&built, rng);
            let mut button = before.clone();
            let (told, owners) = button.make_directory(&path);
            tally.add(format!("make {}", told.number));
            if let Ok(room) = Room::of_directory(&plan, &path) {
                for label in make_features(&room) {
                    tally.add(format!("{label}: {}", told.number));
                }
            }
            demand_planned(&before, &button, told, plan_with_directory(&plan, &path));
            if told.number == 0 {
                demand_made_and_removed(&plan, &button, &path);
            } else {
                assert_eq!(owners, before.check().1);
            }
        }
        for _ in 0..3 {
            let path = random_directory_path(&built, rng);
            let mut button = before.clone();
            let (told, owners) = button.remove_directory(&path);
            tally.add(format!("remove {}", told.number));
            demand_planned(&before, &button, told, plan_without_directory(&plan, &path));
            if told.number != 0 {
                assert_eq!(owners, before.check().1);
                continue;
            }
            let mut all = subdirectories(&built).into_iter();
            let removed = all.find(|entry| entry.path == path).expect("a directory");
            let pages = built.chains[removed.chain].pages.len();
            tally.add(if pages > 1 {
                "several pages freed"
            } else {
                "one page freed"
            });
            if removed.stamps > 0 {
                tally.add("stamps lost");
            }
            assert_eq!(button.check().0.used + pages as u32, built.totals.used);
            assert_eq!(button.make_directory(&path).0, answer(0, 0), "made again");
            assert_eq!(button.check().0.used, built.totals.used + 1 - pages as u32);
        }
    });
    tally.print();
    tally.demand_numbers("make", 100, [0, 14, 15, 17, 21, 22]);
    tally.demand_numbers("remove", 100, [0, 14, 15, 20, 22]);
    tally.demand(
        10,
        &["several pages freed", "one page freed", "stamps lost"],
    );
    tally.demand(10, &MAKE_ROOM);
    tally.demand(10, &["parent must grow because of stamps: 0"]);
}

/// Demands the answer and the image that the plan gives.
fn demand_planned(before: &Button, after: &Button, told: Answer, planned: Result<ImagePlan, u32>) {
    match planned {
        Ok(plan) => {
            assert_eq!(told, answer(0, 0), "known by construction");
            let built = plan.build();
            assert!(
                after.image == overlaid(before, &built),
                "known by construction"
            );
            assert_eq!(after.check().0, built.totals);
        }
        Err(number) => {
            assert_eq!(told, answer(number, 0), "known by construction");
            assert!(after == before);
        }
    }
}

/// Demands of a directory that was made that it is listed where it should be, that every file reads as before, and that it can be removed.
fn demand_made_and_removed(plan: &ImagePlan, made: &Button, path: &[u8]) {
    let built = plan.build();
    for file in files(&built).into_iter().take(10) {
        assert_eq!(made.read(&file.path), (0, file.bytes.clone()));
    }
    let mut button = made.clone();
    assert_eq!(button.make_directory(path).0, answer(21, 0));
    assert_eq!(button.remove_directory(path).0, answer(0, 0));
    // Its page is free again; one that joined its parent stays with it.
    assert_eq!(button.check().0.used + 1, made.check().0.used);
    assert_eq!(button.list_all().len(), built.entries.len());
    for (listing, entry) in button.list_all().iter().zip(&built.entries) {
        assert_eq!(*listing, entry.listing);
    }
    assert!(!is_below_hidden(&built, &path[..path.len() - 4]));
}

/// One directory for each boom until there is no room: each make is done exactly while a page is free for it, and all can be removed in any order.
#[test]
fn directories_are_made_until_there_is_no_room_and_removed_again() {
    for (page_length, page_count, local) in [
        (32, 16, true),
        (32, 32, true),
        (40, 100, false),
        (32, 300, false),
    ] {
        run_seeds(0xFB00_0000..0xFB00_0000 + 6, |_, rng| {
            let mut button = Button::formatted(page_length, page_count, local);
            let empty = button.check().0.used;
            let mut made: Vec<Vec<u8>> = Vec::new();
            loop {
                let parents: Vec<&Vec<u8>> = made.iter().filter(|path| path.len() < 32).collect();
                let parent = match rng.chance(50) {
                    true => rng.pick(&parents).map_or(Vec::new(), |path| path.to_vec()),
                    false => Vec::new(),
                };
                let number = made.len();
                let own = [
                    b'B',
                    b'0' + (number / 100) as u8,
                    b'0' + (number / 10 % 10) as u8,
                    b'0' + (number % 10) as u8,
                ];
                let path = [parent, own.to_vec()].concat();
                let used = button.check().0.used;
                let told = button.make_directory(&path).0;
                if told.number == 17 {
                    assert!(page_count - used <= 1, "no more than a page is free");
                    break;
                }
                assert_eq!(told, answer(0, 0));
                made.push(path);
            }
            assert_eq!(button.check().0.directories as usize, made.len());
            made.sort_by_key(|path| usize::MAX - path.len());
            for path in &made {
                assert_eq!(button.remove_directory(path).0, answer(0, 0));
            }
            let totals = button.check().0;
            assert_eq!((totals.files, totals.directories), (0, 0));
            assert!(
                totals.used >= empty,
                "the root keeps the pages that joined it"
            );
        });
    }
}

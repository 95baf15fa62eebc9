//! Every refusal of making and removing directories (document 02, A1, with A6) and every order of two of them: 14, 15, 22, 21, 17 for a make, and 14,
//! 15, 22, 20 for a removal; faults of the image and of the arguments before them.
//!
//! Programs: the library and the second program. The cases written by hand are put to each of them alone, in `library` and `second_program`, with the
//! answers that documents 01 and 02 give; one case is put to both. Random images with these refusals are in `refusals.rs`.
//! The archive is made by `tools/build`.

use std::collections::BTreeSet;

use common::directory_edits::{names, unused, Edit, Program, BEFORE, BOTH, EXTRA};
use common::{answer, table_bytes, Button};
use referee::builder::pages::path;

/// The levels below the root.
const LEVELS: usize = 8;

/// A file's name leads to no directory: below it is 15, also where the directory would be the last name.
fn file_is_no_parent(program: Program) {
    let mut button = program.formatted(32, 16, 1);
    assert_eq!(program.put(&mut button, b"FILE\x01", b""), 0);
    program.refused(&button, Edit::Make, b"FILENEW ", 15);
    program.refused(&button, Edit::Remove, b"FILENEW ", 15);
    program.refused(&button, Edit::Remove, b"FILE", 15);
    program.refused(&button, Edit::Make, b"NONENEW ", 15);
    program.refused(&button, Edit::Make, b"NONENONENEW ", 15);
}

/// Eight names are level eight and allowed; nine are 14, whether the first eight lead anywhere or not.
fn eight_names_are_made_and_nine_are_14(program: Program) {
    for (page_count, local) in [(16, 1), (300, 0)] {
        let mut button = program.formatted(32, page_count, local);
        let mut owners = vec![BEFORE; table_bytes(page_count)];
        let nine = b"D1  D2  D3  D4  D5  D6  D7  D8  D9  ";
        for level in 1..=LEVELS {
            if level < LEVELS {
                program.refused(&button, Edit::Make, &nine[..4 * level + 4], 15);
            }
            program.refused(&button, Edit::Make, nine, 14);
            let path = &nine[..4 * level];
            let told = program.edit(&mut button, &mut owners, Edit::Make, path);
            assert_eq!(told, answer(0, 0), "level {level}");
            program.refused(&button, Edit::Make, path, 21);
        }
        let levels: Vec<u32> = program.list(&button).iter().map(|one| one.level).collect();
        assert_eq!(levels, [0, 1, 2, 3, 4, 5, 6, 7]);
        for edit in BOTH {
            program.refused(&button, edit, nine, 14);
            program.refused(&button, edit, &nine[4..].repeat(2), 14);
        }
        // A file at level eight is put, read and deleted; then all are removed from the last on.
        let file = [&nine[..32], b"CNT \x07"].concat();
        assert_eq!(program.put(&mut button, &file, b"12"), 0);
        program.refused(&button, Edit::Remove, &nine[..32], 20);
        assert_eq!(program.delete(&mut button, &file), 0);
        for level in (1..=LEVELS).rev() {
            if level > 1 {
                program.refused(&button, Edit::Remove, &nine[..4 * level - 4], 20);
            }
            let told = program.edit(&mut button, &mut owners, Edit::Remove, &nine[..4 * level]);
            assert_eq!(told, answer(0, 0), "level {level}");
            program.refused(&button, Edit::Remove, &nine[..4 * level], 15);
        }
        assert_eq!(program.list(&button), []);
    }
}

/// Any path but one to eight names is 14: lengths, and bytes that no name has, in every place.
fn malformed_path_is_14(program: Program) {
    let button = program.formatted(32, 16, 1);
    let whole = b"NAME".repeat(20);
    for length in 0..=whole.len() {
        let is_path = length % 4 == 0 && (4..=32).contains(&length);
        let missing = if length == 4 { 0 } else { 15 };
        let expected = if is_path { missing } else { 14 };
        let number = program.number(&button, Edit::Make, &whole[..length]);
        assert_eq!(number, expected, "make, {length} bytes");
        let expected = if is_path { 15 } else { 14 };
        program.refused(&button, Edit::Remove, &whole[..length], expected);
    }
    for byte in 0..=255_u8 {
        let is_mark = b"!#$%&'@^_`{}~".contains(&byte);
        let is_allowed = byte.is_ascii_uppercase() || byte.is_ascii_digit() || is_mark;
        for place in 0..4 {
            for names in 1..=3 {
                for last in [true, false] {
                    let mut path = b"NAME".repeat(names);
                    let start = if last { 4 * names - 4 } else { 0 };
                    path[start + place] = byte;
                    let blank_at_end = byte == b' ' && place == 3;
                    let number = match (is_allowed || blank_at_end, names) {
                        (false, _) => 14,
                        (true, 1) => 0,
                        (true, _) => 15,
                    };
                    assert_eq!(
                        program.number(&button, Edit::Make, &path),
                        number,
                        "{path:?}"
                    );
                    let number = number.max(14) + u32::from(number == 0);
                    assert_eq!(
                        program.number(&button, Edit::Remove, &path),
                        number,
                        "{path:?}"
                    );
                }
            }
        }
    }
    for name in [b"    ", b" A  ", b"A B ", b"A  B", b"A\0  ", b"a   "] {
        for edit in BOTH {
            program.refused(&button, edit, name, 14);
        }
    }
    for name in [b"A   ", b"AB  ", b"ABC ", b"~   ", b"`{}~", b"0   "] {
        assert_eq!(program.number(&button, Edit::Make, name), 0);
    }
}

/// One entry on any page of a directory keeps it from being removed: on the first, a middle or the last one; of a file or a directory; with stamps.
fn directory_with_an_entry_on_any_page_is_20(program: Program) {
    for place in 0..3 {
        for (extension, slots) in [(1, 0), (0x82, 0), (0x7F, 0), (0xFF, 0), (1, 2), (0x7F, 2)] {
            let mut pages = unused(32, 16);
            let control = pages.local_control(&[0, 1, 2, 3, 4]);
            let root = [control, pages.entry("D", 127, 1, 0)];
            pages.packet(0, &root.concat(), 0);
            let count = usize::from(extension & 127 != 127);
            let mut entries: Vec<u8> = b"\xCEEW \x7F\x01\x01".repeat(slots);
            entries.extend(pages.entry("IN", extension, 4, count));
            for page in 1..=3 {
                let control = if page == 1 {
                    pages.sub_control("ROOT", 0)
                } else {
                    Vec::new()
                };
                let own = if page == 1 + place {
                    entries.clone()
                } else {
                    Vec::new()
                };
                pages.packet(
                    page,
                    &[control, own].concat(),
                    if page == 3 { 0 } else { page + 1 },
                );
            }
            let inner = match count {
                0 => pages.sub_control("D", 1),
                _ => b"file".to_vec(),
            };
            pages.packet(4, &inner, 0);
            program.refused(&Button::from(&pages), Edit::Remove, b"D   ", 20);
        }
    }
}

/// A button of 16 pages of 40 bytes, whose directory pages have four slots. In the root: the directory A, the hidden directory H, the file X.1. In A: B
/// without entries, G hidden without entries, a file F.1. In H: C without entries, J with a file K.1, a file F.1. Free are 11 to 15; without room the
/// file Y.1 in the root has them.
fn world(room: bool) -> Button {
    let mut pages = unused(40, 16);
    let last = if room { 11 } else { 16 };
    let mut root = vec![
        pages.local_control(&(0..last).collect::<Vec<usize>>()),
        pages.entry("A", 0x7F, 1, 0),
        pages.entry("H", 0xFF, 2, 0),
        pages.entry("X", 1, 7, 1),
    ];
    if !room {
        root.push(pages.entry("Y", 1, 11, 5));
        for page in 11..16 {
            pages.packet(page, b"y", if page == 15 { 0 } else { page + 1 });
        }
    }
    let a = [
        pages.sub_control("ROOT", 0),
        pages.entry("B", 0x7F, 3, 0),
        pages.entry("G", 0xFF, 4, 0),
        pages.entry("F", 1, 8, 1),
    ];
    let h = [
        pages.sub_control("ROOT", 0),
        pages.entry("C", 0x7F, 5, 0),
        pages.entry("J", 0x7F, 6, 0),
        pages.entry("F", 1, 9, 1),
    ];
    let j = [pages.sub_control("H", 2), pages.entry("K", 1, 10, 1)];
    pages.packet(0, &root.concat(), 0);
    pages.packet(1, &a.concat(), 0).packet(2, &h.concat(), 0);
    pages.packet(3, &pages.sub_control("A", 1), 0);
    pages.packet(4, &pages.sub_control("A", 1), 0);
    pages.packet(5, &pages.sub_control("H", 2), 0);
    pages.packet(6, &j.concat(), 0);
    for page in 7..=10 {
        pages.packet(page, b"file", 0);
    }
    Button::from(&pages)
}

/// What is so of a path in that world.
#[derive(Clone, Copy, Debug)]
struct So {
    /// It is not one to eight names.
    malformed: bool,
    /// A directory before the last name is missing.
    no_parent: bool,
    /// The directory of the last name is missing.
    absent: bool,
    /// A directory before the last name is hidden.
    below_hidden: bool,
    /// The directory of the last name is hidden.
    hidden: bool,
    /// The directory of the last name has entries.
    has_entries: bool,
}

impl So {
    /// What these words say.
    fn of(words: &[&str]) -> So {
        let is = |word: &str| words.contains(&word);
        So {
            malformed: false,
            no_parent: is("no parent"),
            absent: is("no parent") || is("absent"),
            below_hidden: is("below hidden"),
            hidden: is("hidden"),
            has_entries: is("entries"),
        }
    }
}

/// Paths in that world, each with what is so of it; of a malformed path what is so of its whole names.
fn paths_of_world() -> Vec<(Vec<u8>, So)> {
    let rows: [(&[&str], &[&str]); 20] = [
        (&["A"], &["entries"]),
        (&["H"], &["hidden", "entries"]),
        (&["X"], &["absent"]),
        (&["NEW"], &["absent"]),
        (&["A", "B"], &[]),
        (&["A", "G"], &["hidden"]),
        (&["A", "F"], &["absent"]),
        (&["A", "NEW"], &["absent"]),
        (&["A", "B", "NEW"], &["absent"]),
        (&["A", "G", "NEW"], &["absent", "below hidden"]),
        (&["H", "C"], &["below hidden"]),
        (&["H", "J"], &["below hidden", "entries"]),
        (&["H", "F"], &["absent", "below hidden"]),
        (&["H", "NEW"], &["absent", "below hidden"]),
        (&["H", "J", "NEW"], &["absent", "below hidden"]),
        (&["NONE", "NEW"], &["no parent"]),
        (&["X", "NEW"], &["no parent"]),
        (&["A", "NONE", "NEW"], &["no parent"]),
        (&["H", "NONE", "NEW"], &["no parent", "below hidden"]),
        (&["H", "F", "C"], &["no parent", "below hidden"]),
    ];
    let well_formed = rows.map(|(path, words)| (names(path), So::of(words)));
    let malformed = well_formed.iter().flat_map(|(path, so)| {
        let so = So {
            malformed: true,
            ..*so
        };
        [&[1][..], b" ", b"A", b"\x7F", b"NE"].map(|more| ([path, more].concat(), so))
    });
    let mut all: Vec<(Vec<u8>, So)> = malformed.collect();
    all.extend(well_formed);
    all
}

/// What is wrong before the path is looked at.
#[derive(Clone, Copy, Debug, PartialEq, Eq)]
enum Wrong {
    Nothing,
    /// The image has a page whose check is wrong (2), the file X.1's.
    Image,
    /// The owner table is a byte too short (1); the image may have the fault too.
    Arguments {
        image: bool,
    },
}

/// The refusals that apply to an edit, in the order in which the first is told.
fn applying(edit: Edit, wrong: Wrong, room: bool, so: So) -> Vec<u32> {
    let image = matches!(wrong, Wrong::Image | Wrong::Arguments { image: true });
    let before = [
        (matches!(wrong, Wrong::Arguments { .. }), 1),
        (image, 2),
        (so.malformed, 14),
    ];
    let after = match edit {
        Edit::Make => vec![
            (so.no_parent, 15),
            (so.below_hidden, 22),
            (!so.absent, 21),
            (!room, 17),
        ],
        Edit::Remove => vec![
            (so.no_parent || so.absent, 15),
            (so.below_hidden || so.hidden, 22),
            (so.has_entries, 20),
        ],
    };
    let all = before.into_iter().chain(after);
    all.filter(|(applies, _)| *applies)
        .map(|(_, number)| number)
        .collect()
}

/// Of all refusals that apply the first is told, whatever others apply: each pair of refusals that can apply together is met.
fn the_first_refusal_that_applies_is_told(program: Program) {
    let mut pairs = BTreeSet::new();
    let mut alone = BTreeSet::new();
    for room in [true, false] {
        let sound = world(room);
        assert_eq!(program.check(&sound).0.number, 0);
        let mut broken = sound.pages();
        broken.break_check(7);
        let broken = Button::from(&broken);
        for wrong in [
            Wrong::Nothing,
            Wrong::Image,
            Wrong::Arguments { image: false },
            Wrong::Arguments { image: true },
        ] {
            let before = match wrong {
                Wrong::Image | Wrong::Arguments { image: true } => &broken,
                _ => &sound,
            };
            for (path, so) in paths_of_world() {
                for edit in BOTH {
                    let numbers = applying(edit, wrong, room, so);
                    for (place, &first) in numbers.iter().enumerate() {
                        pairs.extend(
                            numbers[place + 1..]
                                .iter()
                                .map(|&later| (edit, first, later)),
                        );
                    }
                    if let [only] = numbers[..] {
                        alone.insert((edit, only));
                    }
                    let told = numbers.first().copied().unwrap_or(0);
                    let what = format!("{edit:?} of {path:?}, {wrong:?}, room {room}");
                    demand_number(program, before, edit, &path, told, &what);
                }
            }
        }
    }
    let make = [1, 2, 14, 15, 22, 21, 17];
    let remove = [1, 2, 14, 15, 22, 20];
    let mut expected = BTreeSet::new();
    for (edit, order) in [(Edit::Make, &make[..]), (Edit::Remove, &remove)] {
        for (place, &first) in order.iter().enumerate() {
            for &later in &order[place + 1..] {
                expected.insert((edit, first, later));
            }
        }
        let each = order.iter().map(|&number| (edit, number));
        assert!(each.clone().all(|one| alone.contains(&one)), "{alone:?}");
    }
    // A directory whose parent is missing is not there, and one that is missing has no entries.
    expected.remove(&(Edit::Make, 15, 21));
    expected.remove(&(Edit::Remove, 15, 20));
    assert_eq!(pairs, expected);
}

/// Demands a number of an edit, with its page, and what it leaves.
fn demand_number(
    program: Program,
    before: &Button,
    edit: Edit,
    path: &[u8],
    number: u32,
    what: &str,
) {
    let mut button = before.clone();
    let length = if number == 1 { 63 } else { 64 + EXTRA };
    let mut owners = vec![BEFORE; length];
    let told = program.edit(&mut button, &mut owners, edit, path);
    let page = if number == 2 { 7 } else { 0 };
    assert_eq!(told, answer(number, page), "{what}");
    assert!((number == 0) != (button == *before), "{what}: image");
    match number {
        1 => assert!(owners.iter().all(|&byte| byte == BEFORE), "{what}: owners"),
        2 => assert!(owners[..64].iter().all(|&byte| byte == 0), "{what}: owners"),
        _ => assert_eq!(owners[..64], program.check(&button).1, "{what}: owners"),
    }
    assert!(owners.iter().skip(64).all(|&byte| byte == BEFORE));
}

/// A button of 32 pages of 32 bytes with directories D1 to D8 below each other on pages 1 to 8, those of these levels hidden; D8 has no entries, and
/// each of the others, and the root, has besides the next one a directory E without entries, on page 9 + its level.
fn tower(hidden: &[usize]) -> Button {
    let mut pages = unused(32, 32);
    for level in 0..=LEVELS {
        let mut body = match level {
            0 => pages.local_control(&(0..17).collect::<Vec<usize>>()),
            1 => pages.sub_control("ROOT", 0),
            _ => pages.sub_control(&format!("D{}", level - 1), level - 1),
        };
        if level < LEVELS {
            let below = level + 1;
            let bit = 0x80 * u8::from(hidden.contains(&below));
            body.extend(pages.entry(&format!("D{below}"), 0x7F | bit, below, 0));
            body.extend(pages.entry("E", 0x7F, 9 + level, 0));
            let parent = match level {
                0 => String::from("ROOT"),
                _ => format!("D{level}"),
            };
            let control = pages.sub_control(&parent, level);
            pages.packet(9 + level, &control, 0);
        }
        pages.packet(level, &body, 0);
    }
    Button::from(&pages)
}

/// Each of the 256 ways to hide directories of a path of eight names: a make is 22 exactly if one before the last name is hidden, a removal also if the
/// last one is.
fn every_set_of_hidden_directories_is_22(program: Program) {
    let all = b"D1  D2  D3  D4  D5  D6  D7  D8  ";
    for set in 0..1_usize << LEVELS {
        let hidden: Vec<usize> = (1..=LEVELS).filter(|k| set >> (k - 1) & 1 == 1).collect();
        let tower = tower(&hidden);
        for level in 1..=LEVELS {
            let is_below = hidden.iter().any(|&other| other < level);
            let path = &all[..4 * level];
            program.refused(&tower, Edit::Make, path, if is_below { 22 } else { 21 });
            let parent = &path[..4 * level - 4];
            for (text, make, remove) in [(b"NEW ", 0, 15), (b"E   ", 21, 0)] {
                let path = [parent, text].concat();
                let make = if is_below { 22 } else { make };
                assert_eq!(
                    program.number(&tower, Edit::Make, &path),
                    make,
                    "{hidden:?}"
                );
                let remove = match remove {
                    0 if is_below => 22,
                    other => other,
                };
                assert_eq!(
                    program.number(&tower, Edit::Remove, &path),
                    remove,
                    "{hidden:?}"
                );
            }
            let is_hidden = is_below || hidden.contains(&level);
            let number = match (is_hidden, level) {
                (true, _) => 22,
                (false, LEVELS) => 0,
                (false, _) => 20,
            };
            assert_eq!(
                program.number(&tower, Edit::Remove, path),
                number,
                "{hidden:?}"
            );
        }
    }
}

/// A hidden directory of the last name: 21 for a make, since its name is taken, and 22 for a removal, with entries or without.
fn hidden_directory_of_the_last_name_is_21_and_22(program: Program) {
    let world = world(true);
    program.refused(&world, Edit::Make, b"H   ", 21);
    program.refused(&world, Edit::Remove, b"H   ", 22);
    program.refused(&world, Edit::Make, b"A   G   ", 21);
    program.refused(&world, Edit::Remove, b"A   G   ", 22);
}

/// Faults of every kind are told with their page before anything of the path; owner records are then all 0.
fn fault_of_the_image_comes_first(program: Program) {
    let good = world(true);
    let with = |page: usize, place: usize, byte: u8| {
        let mut pages = good.pages();
        pages.alter(page, place, &[byte]);
        Button::from(&pages)
    };
    let mut unsealed = good.pages();
    unsealed.break_check(3);
    for (button, number, page) in [
        (Button::from(&unsealed), 2, 3),
        (with(0, 3, 0x81), 5, 0),
        (with(3, 1, 0xAB), 3, 3),
        (with(3, 2, b'B'), 4, 3),
        (with(0, 5, 0x0F), 13, 11),
        (with(0, 5, 0x03), 13, 10),
    ] {
        for path in [&b"NEW "[..], b"A   B   ", b"A   ", b"H   C   ", b"bad", b""] {
            for edit in BOTH {
                let mut after = button.clone();
                let mut owners = vec![BEFORE; 64 + EXTRA];
                let told = program.edit(&mut after, &mut owners, edit, path);
                assert_eq!(told, answer(number, page), "{edit:?} of {path:?}");
                assert!(after == button);
                assert!(owners[..64].iter().all(|&byte| byte == 0));
                assert!(owners[64..].iter().all(|&byte| byte == BEFORE));
            }
        }
    }
}

/// Arguments that do not fit are 1, and nothing is touched: page length, page count, image length, owner table.
fn arguments_that_do_not_fit_are_1(program: Program) {
    let good = world(true);
    let other = |page_length: u32, page_count: u32, length: usize| Button {
        page_length,
        page_count,
        image: good.image.iter().copied().cycle().take(length).collect(),
    };
    let buttons = [
        (other(31, 16, 31 * 16), 64),
        (other(257, 16, 257 * 16), 64),
        (other(40, 1, 40), 64),
        (other(40, 65_536, 40 * 16), 64),
        (other(40, 16, 40 * 16 - 1), 64),
        (other(40, 16, 40 * 16 + 1), 64),
        (other(40, 16, 0), 64),
        (other(40, 16, 40 * 16), 63),
        (other(40, 16, 40 * 16), 32),
        (other(40, 16, 40 * 16), 0),
    ];
    for (button, owner_bytes) in buttons {
        for path in [&b"NEW "[..], b"A   B   ", b"bad"] {
            for edit in BOTH {
                let mut after = button.clone();
                let mut owners = vec![BEFORE; owner_bytes];
                let told = program.edit(&mut after, &mut owners, edit, path);
                assert_eq!(told, answer(1, 0), "{edit:?} of {path:?}");
                assert!(after == button && owners.iter().all(|&byte| byte == BEFORE));
            }
        }
    }
}

/// A test of each rule, for the second program alone and for the library alone.
macro_rules! rules {
    ($($rule:ident,)*) => {
        mod second_program {
            $(#[test] fn $rule() { super::$rule(super::Program::Second); })*
        }
        mod library {
            $(#[test] fn $rule() { super::$rule(super::Program::Library); })*
        }
    };
}

rules!(
    file_is_no_parent,
    eight_names_are_made_and_nine_are_14,
    malformed_path_is_14,
    directory_with_an_entry_on_any_page_is_20,
    the_first_refusal_that_applies_is_told,
    every_set_of_hidden_directories_is_22,
    hidden_directory_of_the_last_name_is_21_and_22,
    fault_of_the_image_comes_first,
    arguments_that_do_not_fit_are_1,
);

/// The path of a file is no path of a directory, and the other way round.
#[test]
fn paths_of_files_and_of_directories_are_apart() {
    let mut button = Button::formatted(32, 16, true);
    assert_eq!(
        button.make_directory(&path(&["A"], "B", 1)).0,
        answer(14, 0)
    );
    assert_eq!(button.remove_directory(&path(&[], "A", 1)).0, answer(14, 0));
    assert_eq!(button.put(&names(&["A"]), b"x").0, answer(14, 0));
    assert_eq!(button.put(&path(&[], "A", 127), b"x").0, answer(14, 0));
    assert_eq!(button.delete(&names(&["A"])).0, answer(14, 0));
    assert_eq!(button.make_directory(&names(&["A"])).0, answer(0, 0));
    assert_eq!(button.delete(&path(&[], "A", 127)).0, answer(14, 0));
}

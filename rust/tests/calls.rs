//! The calls as a user of the crate makes them, with answers that are known.
//!
//! Programs: the library alone, by the functions of the crate. Its comparison with the second program is in `tests/`, which has that program.
//! The archive is made by `tools/build`.

use owfs::{
    careful_delete, careful_put, check, crc16, delete, directory_path, entries, gather, list,
    make_directory, mend, owner_of, owner_table, path, put, read, read_to_vec, remove_directory,
    Bitmap, Geometry, Kind, Listed, Name, Owner, Reason, Record, Refusal, Totals, Writes,
};

/// The geometry of most images here.
const GEOMETRY: Geometry = Geometry::new(32, 16);

/// A refusal.
fn refusal(number: u32, page: u32) -> Refusal {
    Refusal { number, page }
}

/// What the owner table tells of a page.
fn record(owner: Owner, place: u32) -> Option<Record> {
    Some(Record { owner, place })
}

/// A formatted image.
fn formatted() -> Vec<u8> {
    let mut image = vec![0; 32 * 16];
    let done = owfs::format(GEOMETRY, &mut image, &mut owner_table(16), Bitmap::Local);
    assert_eq!(done, Ok(()));
    image
}

/// Writes a packet that ends its chain.
fn packet(image: &mut [u8], page: u16, body: &[u8]) {
    chained(image, page, &[body, &[0]].concat());
}

/// Writes a packet of these bytes, the last of which is its pointer.
fn chained(image: &mut [u8], page: u16, bytes: &[u8]) {
    let mut packet = vec![bytes.len() as u8];
    packet.extend_from_slice(bytes);
    let check = !crc16(page, &packet);
    packet.extend(check.to_le_bytes());
    let start = 32 * usize::from(page);
    image[start..start + packet.len()].copy_from_slice(&packet);
}

/// An image with a read-only file FULL.5 and a hidden directory LAB, which has a directory A1 with a file X.99.
fn nested() -> Vec<u8> {
    let mut image = vec![0; 32 * 16];
    let root = b"\xAA\x00\x80\x1F\x00\x00\x00FULL\x85\x01\x01LAB \xFF\x02\x00";
    packet(&mut image, 0, root);
    packet(&mut image, 1, b"bytes");
    packet(&mut image, 2, b"\xAAROOT\x00\x00A1  \x7F\x03\x00");
    packet(&mut image, 3, b"\xAALAB \x00\x02X   \x63\x04\x01");
    packet(&mut image, 4, b"");
    image
}

#[test]
fn file_is_put_listed_and_deleted() {
    let mut image = formatted();
    let mut owners = owner_table(16);
    let demo = path(&[], "DEMO", 12).expect("a path");
    assert_eq!(
        put(GEOMETRY, &mut image, &demo, b"TEST", &mut owners),
        Ok(())
    );
    let known = [0x05, 0x54, 0x45, 0x53, 0x54, 0x00, 0x14, 0x6A];
    assert_eq!(image[32..40], known);
    let totals = Totals {
        used: 2,
        files: 1,
        directories: 0,
    };
    assert_eq!(check(GEOMETRY, &image, &mut owners), Ok(totals));
    assert_eq!(owner_of(&owners, 0), record(Owner::Root, 0));
    assert_eq!(owner_of(&owners, 1), record(Owner::Entry(0), 0));
    assert_eq!(owner_of(&owners, 2), record(Owner::Free, 0));
    let entry = list(GEOMETRY, &image, &mut owners, 0).expect("an entry");
    assert_eq!((entry.name.as_str(), entry.extension), ("DEMO", 12));
    assert_eq!((entry.start, entry.pages, entry.length), (1, 1, 4));
    assert_eq!(delete(GEOMETRY, &mut image, &demo, &mut owners), Ok(()));
    let absent = Err(refusal(15, 0));
    assert_eq!(delete(GEOMETRY, &mut image, &demo, &mut owners), absent);
    assert_eq!(list(GEOMETRY, &image, &mut owners, 0), Err(refusal(15, 0)));
    assert_eq!(owner_of(&owners, 1), record(Owner::Free, 0));
}

#[test]
fn read_fills_the_front_of_the_output_or_is_refused() {
    let mut image = formatted();
    let mut owners = owner_table(16);
    let demo = path(&[], "DEMO", 12).expect("a path");
    put(GEOMETRY, &mut image, &demo, b"TEST", &mut owners).expect("room");
    let mut out = *b"......";
    let short = read(GEOMETRY, &image, &demo, &mut out[..3], &mut owners);
    assert_eq!(short, Err(refusal(18, 0)));
    assert_eq!(&out, b"......");
    let length = read(GEOMETRY, &image, &demo, &mut out, &mut owners);
    assert_eq!(length, Ok(4));
    assert_eq!(&out, b"TEST..");
    let bytes = read_to_vec(GEOMETRY, &image, &demo, &mut owners);
    assert_eq!(bytes, Ok(b"TEST".to_vec()));
    // A file on every page that is free, and one that would need a page more.
    let most = vec![7; 15 * 28];
    assert_eq!(put(GEOMETRY, &mut image, &demo, &most, &mut owners), Ok(()));
    let bytes = read_to_vec(GEOMETRY, &image, &demo, &mut owners);
    assert_eq!(bytes.as_ref(), Ok(&most));
    for page in 1..16 {
        assert_eq!(owner_of(&owners, page), record(Owner::Entry(0), page - 1));
    }
    let more = vec![7; 15 * 28 + 1];
    let refused = put(GEOMETRY, &mut image, &demo, &more, &mut owners).expect_err("no room");
    assert_eq!(refused.reason(), Reason::NoRoom);
    let absent = path(&["NONE"], "DEMO", 12).expect("a path");
    let refused = read_to_vec(GEOMETRY, &image, &absent, &mut owners);
    assert_eq!(refused, Err(refusal(15, 0)));
}

/// The answer of a careful call that was done.
fn writes(made: u32, left: bool) -> Result<Writes, Refusal> {
    Ok(Writes { made, left })
}

#[test]
fn careful_put_is_stopped_and_mended() {
    let demo = path(&[], "DEMO", 12).expect("a path");
    let mut owners = owner_table(16);
    for allowed in [0, 1, 2, 3, 4, u32::MAX] {
        let mut image = formatted();
        let told = careful_put(GEOMETRY, &mut image, &demo, b"TEST", &mut owners, allowed);
        assert_eq!(told, writes(allowed.min(3), allowed < 3));
        let stopped = allowed == 1 || allowed == 2;
        assert_eq!(owners == owner_table(16), stopped, "no records");
        let verdict = check(GEOMETRY, &image, &mut owners);
        assert_eq!(verdict.is_err_and(|refusal| refusal.number == 13), stopped);
        let again = careful_put(GEOMETRY, &mut image.clone(), &demo, b"T", &mut owners, 0);
        assert_eq!(
            again.is_err_and(|refused| refused.reason() == Reason::Bitmap),
            stopped
        );
        let cleared = mend(GEOMETRY, &mut image, &mut owners);
        assert_eq!(cleared, Ok(u32::from(stopped)));
        let file = read_to_vec(GEOMETRY, &image, &demo, &mut owners);
        match allowed {
            0..=2 => assert_eq!(file, Err(refusal(15, 0))),
            _ => assert_eq!(file, Ok(b"TEST".to_vec())),
        }
    }
}

#[test]
fn careful_delete_is_stopped_and_mended() {
    let demo = path(&[], "DEMO", 12).expect("a path");
    let mut owners = owner_table(16);
    let mut full = formatted();
    put(GEOMETRY, &mut full, &demo, &[7; 60], &mut owners).expect("room");
    for (allowed, cleared) in [(0, 0), (1, 3), (2, 0), (u32::MAX, 0)] {
        let mut image = full.clone();
        let told = careful_delete(GEOMETRY, &mut image, &demo, &mut owners, allowed);
        assert_eq!(told, writes(allowed.min(2), allowed < 2));
        assert_eq!(mend(GEOMETRY, &mut image, &mut owners), Ok(cleared));
        let file = read_to_vec(GEOMETRY, &image, &demo, &mut owners);
        assert_eq!(file.is_ok(), allowed == 0);
    }
    let told = careful_delete(GEOMETRY, &mut formatted(), &demo, &mut owners, 9);
    assert_eq!(told, Err(refusal(15, 0)));
}

#[test]
fn mend_refuses_a_page_in_use_that_is_unmarked() {
    let mut image = nested();
    let mut owners = owner_table(16);
    assert_eq!(mend(GEOMETRY, &mut image, &mut owners), Ok(0));
    let root = image[1..22].to_vec();
    for (bits, told) in [
        ([0x1F, 0x80, 0, 0], Ok(1)),
        ([0xFF, 0xFF, 0, 0], Ok(11)),
        ([0x1E, 0, 0, 0], Err(refusal(13, 0))),
        ([0x3D, 0, 0, 0], Err(refusal(13, 1))),
        ([0x1F, 0, 1, 0], Err(refusal(13, 16))),
    ] {
        let mut body = root.clone();
        body[3..7].copy_from_slice(&bits);
        packet(&mut image, 0, &body);
        let before = image.clone();
        assert_eq!(mend(GEOMETRY, &mut image, &mut owners), told);
        assert_eq!(image == nested(), told.is_ok());
        assert!(told.is_ok() || image == before);
    }
}

/// The names that lead to an entry, each with a stroke after it, and its own.
fn words(listed: &Listed) -> String {
    let directories: String = listed
        .directories
        .iter()
        .map(|name| format!("{name}/"))
        .collect();
    format!("{directories}{}", listed.entry.name)
}

#[test]
fn entries_come_in_walk_order_with_their_paths() {
    let image = nested();
    let mut owners = owner_table(16);
    let listed: Result<Vec<Listed>, Refusal> = entries(GEOMETRY, &image, &mut owners).collect();
    let listed = listed.expect("an accepted image");
    let names: Vec<String> = listed.iter().map(words).collect();
    assert_eq!(names, ["FULL", "LAB", "LAB/A1", "LAB/A1/X"]);
    let kinds: Vec<Kind> = listed.iter().map(|listed| listed.entry.kind()).collect();
    let (file, directory) = (Kind::File, Kind::Directory);
    assert_eq!(kinds, [file, directory, directory, file]);
    let flags = listed
        .iter()
        .map(|listed| (listed.entry.is_read_only(), listed.entry.is_hidden()));
    let (none, read_only, hidden) = ((false, false), (true, false), (false, true));
    assert_eq!(flags.collect::<Vec<_>>(), [read_only, hidden, none, none]);
    let levels: Vec<u32> = listed.iter().map(|listed| listed.entry.level).collect();
    assert_eq!(levels, [0, 0, 1, 2]);
    let paths: Vec<Option<Vec<u8>>> = listed.iter().map(Listed::path).collect();
    assert_eq!(paths[1..3], [None, None]);
    assert_eq!(paths[3], path(&["LAB", "A1"], "X", 99).ok());
    for (path, bytes) in [(&paths[0], &b"bytes"[..]), (&paths[3], b"")] {
        let path = path.as_deref().expect("a file's path");
        let told = read_to_vec(GEOMETRY, &image, path, &mut owners);
        assert_eq!(told.as_deref(), Ok(bytes));
    }
    assert_eq!(owner_of(&owners, 0), record(Owner::Root, 0));
    for page in 1..5 {
        assert_eq!(owner_of(&owners, page), record(Owner::Entry(page - 1), 0));
    }
    assert_eq!(owner_of(&owners, 5), record(Owner::Free, 0));
}

/// Below the hidden directory LAB, at any depth, files are read, and neither put nor deleted; nothing changes.
#[test]
fn files_below_a_hidden_directory_are_not_changed() {
    let mut image = nested();
    let mut owners = owner_table(16);
    let hidden = refusal(22, 0);
    assert_eq!(hidden.reason(), Reason::Hidden);
    let there = path(&["LAB", "A1"], "X", 99).expect("a path");
    let new = path(&["LAB"], "NEW", 1).expect("a path");
    for path in [&there, &new] {
        let told = put(GEOMETRY, &mut image, path, b"new", &mut owners);
        assert_eq!(told, Err(hidden));
        let told = careful_put(GEOMETRY, &mut image, path, b"new", &mut owners, 9);
        assert_eq!(told, Err(hidden));
    }
    let told = delete(GEOMETRY, &mut image, &there, &mut owners);
    assert_eq!(told, Err(hidden));
    let told = careful_delete(GEOMETRY, &mut image, &there, &mut owners, 9);
    assert_eq!(told, Err(hidden));
    assert_eq!(owner_of(&owners, 4), record(Owner::Entry(3), 0));
    // The file that is not there comes first.
    let told = delete(GEOMETRY, &mut image, &new, &mut owners);
    assert_eq!(told, Err(refusal(15, 0)));
    assert_eq!(image, nested());
    let told = read_to_vec(GEOMETRY, &image, &there, &mut owners);
    assert_eq!(told, Ok(Vec::new()));
    let beside = path(&[], "NEW", 1).expect("a path");
    let told = put(GEOMETRY, &mut image, &beside, b"new", &mut owners);
    assert_eq!(told, Ok(()));
}

/// A directory is made, has a file put into it, is not removed while the file is there, and is removed once it is empty.
#[test]
fn directory_is_made_and_removed() {
    let mut image = formatted();
    let mut owners = owner_table(16);
    let boom = directory_path(&["BM01"]).expect("a path");
    let log = path(&["BM01"], "LOG", 7).expect("a path");
    let absent = refusal(15, 0);
    assert_eq!(
        put(GEOMETRY, &mut image, &log, b"12", &mut owners),
        Err(absent)
    );
    let told = remove_directory(GEOMETRY, &mut image, &boom, &mut owners);
    assert_eq!(told, Err(absent));
    assert_eq!(image, formatted());

    let told = make_directory(GEOMETRY, &mut image, &boom, &mut owners);
    assert_eq!(told, Ok(()));
    assert_eq!(
        image[..18],
        *b"\x0F\xAA\x00\x80\x03\x00\x00\x00BM01\x7F\x01\x00\x00\x43\x7C"
    );
    assert_eq!(image[32..43], *b"\x08\xAAROOT\x00\x00\x00\x27\xAC");
    assert_eq!(owner_of(&owners, 1), record(Owner::Entry(0), 0));
    let all: Vec<Listed> = entries(GEOMETRY, &image, &mut owners)
        .map(|listed| listed.expect("accepted"))
        .collect();
    assert_eq!(all.len(), 1);
    assert_eq!(all[0].directory_path(), Some(boom.clone()));
    assert_eq!(all[0].path(), None);
    assert!(!all[0].entry.is_hidden());

    let again = make_directory(GEOMETRY, &mut image, &boom, &mut owners).expect_err("there");
    assert_eq!(
        (again, again.reason()),
        (refusal(21, 0), Reason::AlreadyThere)
    );
    assert_eq!(put(GEOMETRY, &mut image, &log, b"12", &mut owners), Ok(()));
    let full = remove_directory(GEOMETRY, &mut image, &boom, &mut owners).expect_err("a file");
    assert_eq!((full, full.reason()), (refusal(20, 0), Reason::NotEmpty));
    assert_eq!(delete(GEOMETRY, &mut image, &log, &mut owners), Ok(()));
    let told = remove_directory(GEOMETRY, &mut image, &boom, &mut owners);
    assert_eq!(told, Ok(()));
    assert_eq!(owner_of(&owners, 1), record(Owner::Free, 0));
    assert_eq!(image[..11], formatted()[..11]);
}

/// A hidden directory is not removed, none is made below it, and its name is taken.
#[test]
fn hidden_directories_stay_as_they_are() {
    let mut image = nested();
    let mut owners = owner_table(16);
    let lab = directory_path(&["LAB"]).expect("a path");
    let below = directory_path(&["LAB", "A1"]).expect("a path");
    let new = directory_path(&["LAB", "NEW"]).expect("a path");
    for path in [&below, &new] {
        let told = make_directory(GEOMETRY, &mut image, path, &mut owners);
        assert_eq!(told, Err(refusal(22, 0)));
    }
    let told = make_directory(GEOMETRY, &mut image, &lab, &mut owners);
    assert_eq!(told, Err(refusal(21, 0)));
    for path in [&lab, &below] {
        let told = remove_directory(GEOMETRY, &mut image, path, &mut owners);
        assert_eq!(told, Err(refusal(22, 0)));
    }
    let told = remove_directory(GEOMETRY, &mut image, &new, &mut owners);
    assert_eq!(told, Err(refusal(15, 0)));
    // A file's path is no directory's.
    let told = make_directory(GEOMETRY, &mut image, b"NEW \x01", &mut owners);
    assert_eq!(told, Err(refusal(14, 0)));
    let told = remove_directory(GEOMETRY, &mut image, b"", &mut owners);
    assert_eq!(told, Err(refusal(14, 0)));
    assert_eq!(image, nested());
}

/// Two stamps before A.1, and one that looks like an entry before the directory LAB, which has none.
fn stamped() -> Vec<u8> {
    let mut image = vec![0; 32 * 16];
    let root = b"\xAA\x00\x80\x1F\x00\x00\x00\xCFWNER\x01\x01\xFF\xFF\xFF\xFF\xFF\xFF\xFFA   \x01\x01\x01\x02";
    let second = b"\xC1   \x01\x01\x01LAB \x7F\x03\x00\x00";
    chained(&mut image, 0, root);
    packet(&mut image, 1, b"bytes");
    chained(&mut image, 2, second);
    packet(&mut image, 3, b"\xAAROOT\x00\x00B   \x02\x04\x01");
    packet(&mut image, 4, b"");
    image
}

/// Stamps are no entries; a replaced file keeps its own, and a deleted one loses them.
#[test]
fn stamps_are_passed_over_kept_and_deleted() {
    let mut image = stamped();
    let mut owners = owner_table(16);
    let listed: Result<Vec<Listed>, Refusal> = entries(GEOMETRY, &image, &mut owners).collect();
    let names: Vec<String> = listed.expect("accepted").iter().map(words).collect();
    assert_eq!(names, ["A", "LAB", "LAB/B"]);
    assert_eq!(owner_of(&owners, 3), record(Owner::Entry(1), 0));
    let a = path(&[], "A", 1).expect("a path");
    let stamps = image[8..22].to_vec();
    put(GEOMETRY, &mut image, &a, &[7; 30], &mut owners).expect("room");
    assert_eq!(image[8..22], stamps);
    // The first page of the root is full because of its stamps; the second has space.
    let new = path(&[], "NEW", 1).expect("a path");
    put(GEOMETRY, &mut image, &new, b"", &mut owners).expect("room");
    assert_eq!(image[2 * 32 + 15..2 * 32 + 19], *b"NEW ");
    delete(GEOMETRY, &mut image, &a, &mut owners).expect("a file");
    assert_eq!(image[..9], [8, 0xAA, 0, 0x80, 0x5D, 0, 0, 0, 2]);
    let totals = Totals {
        used: 5,
        files: 2,
        directories: 1,
    };
    assert_eq!(check(GEOMETRY, &image, &mut owners), Ok(totals));
}

/// The root's second page comes first, then A.1, LAB and its file; every byte that no packet has is FF.
#[test]
fn gathered_copy_has_its_chains_in_order() {
    let image = stamped();
    let mut owners = vec![9; 72];
    let mut copy = vec![7; image.len()];
    assert_eq!(gather(GEOMETRY, &image, &mut copy, &mut owners), Ok(()));
    assert_eq!(image, stamped());
    let mut expected = vec![0xFF; 32 * 16];
    let root = b"\xAA\x00\x80\x1F\x00\x00\x00\xCFWNER\x01\x01\xFF\xFF\xFF\xFF\xFF\xFF\xFFA   \x01\x02\x01\x01";
    chained(&mut expected, 0, root);
    packet(&mut expected, 1, b"\xC1   \x01\x01\x01LAB \x7F\x03\x00");
    packet(&mut expected, 2, b"bytes");
    packet(&mut expected, 3, b"\xAAROOT\x00\x00B   \x02\x04\x01");
    packet(&mut expected, 4, b"");
    assert_eq!(copy, expected);
    assert_eq!(owner_of(&owners, 1), record(Owner::Root, 1));
    for page in 2..5 {
        assert_eq!(owner_of(&owners, page), record(Owner::Entry(page - 2), 0));
    }
    assert_eq!(owner_of(&owners, 5), record(Owner::Free, 0));
    assert_eq!(owners[64..], [9; 8]);
}

/// A copy of another length is 1 before all else and leaves the owner table alone; a fault is told as by a check. The copy stays.
#[test]
fn gather_is_refused_without_a_change() {
    let mut image = stamped();
    image[3 * 32 + 1] = 0xAB;
    for (length, told) in [
        (511, refusal(1, 0)),
        (513, refusal(1, 0)),
        (512, refusal(2, 3)),
    ] {
        let mut owners = vec![9; 72];
        let mut copy = vec![7; length];
        let refused = gather(GEOMETRY, &image, &mut copy, &mut owners);
        assert_eq!(refused, Err(told));
        assert!(copy.iter().all(|&byte| byte == 7));
        let record = if told.number == 1 { 9 } else { 0 };
        assert_eq!(owners[..64], [record; 64]);
        assert_eq!(owners[64..], [9; 8]);
    }
}

/// A stamp with no entry after it in its page is refused there.
#[test]
fn stamp_without_its_entry_is_refused() {
    let mut image = stamped();
    chained(&mut image, 2, b"LAB \x7F\x03\x00\xC1   \x01\x01\x01\x00");
    let told = check(GEOMETRY, &image, &mut owner_table(16)).expect_err("a stamp alone");
    assert_eq!((told.reason(), told.page), (Reason::Extension, 2));
}

#[test]
fn read_only_files_stay() {
    let mut image = nested();
    let before = image.clone();
    let mut owners = owner_table(16);
    let full = path(&[], "FULL", 5).expect("a path");
    let refused = put(GEOMETRY, &mut image, &full, b"new", &mut owners);
    assert_eq!(
        refused.map_err(|refusal| refusal.reason()),
        Err(Reason::ReadOnly)
    );
    let refused = delete(GEOMETRY, &mut image, &full, &mut owners);
    assert_eq!(refused, Err(refusal(16, 0)));
    assert_eq!(image, before);
}

/// An image with a fault: each call tells it, and the entries end with it.
#[test]
fn fault_of_an_image_is_told_by_each_call_and_ends_the_entries() {
    let mut image = nested();
    image[3 * 32 + 1] = 0xAB;
    let fault = refusal(2, 3);
    let mut owners = vec![9; 72];
    assert_eq!(check(GEOMETRY, &image, &mut owners), Err(fault));
    assert_eq!(owners[..64], [0; 64]);
    assert_eq!(owners[64..], [9; 8]);
    assert_eq!(list(GEOMETRY, &image, &mut owners, 0), Err(fault));
    let mut all = entries(GEOMETRY, &image, &mut owners);
    assert_eq!(all.next(), Some(Err(fault)));
    assert_eq!(all.next(), None);
    assert_eq!(all.next(), None);
    let full = path(&[], "FULL", 5).expect("a path");
    let before = image.clone();
    assert_eq!(
        put(GEOMETRY, &mut image, &full, b"", &mut owners),
        Err(fault)
    );
    assert_eq!(delete(GEOMETRY, &mut image, &full, &mut owners), Err(fault));
    for path in [&b"LAB "[..], b"NEW ", b"bad"] {
        let told = make_directory(GEOMETRY, &mut image, path, &mut owners);
        assert_eq!(told, Err(fault));
        let told = remove_directory(GEOMETRY, &mut image, path, &mut owners);
        assert_eq!(told, Err(fault));
    }
    assert_eq!(image, before);
}

/// Numbers that no button has, and buffers that do not fit: always 1, and no byte is changed.
#[test]
fn arguments_that_do_not_fit_are_1_and_change_nothing() {
    let numbers = [0, 1, 2, 31, 32, 256, 257, 65_535, 65_536, u32::MAX];
    for (page_length, page_count) in numbers
        .into_iter()
        .flat_map(|number| numbers.map(|other| (number, other)))
    {
        let geometry = Geometry::new(page_length, page_count);
        let mut image = vec![5; 33];
        let mut owners = vec![9; 7];
        let mut out = [3; 4];
        let wrong = refusal(1, 0);
        let path = b"DEMO\x0C";
        assert_eq!(check(geometry, &image, &mut owners), Err(wrong));
        assert_eq!(list(geometry, &image, &mut owners, u32::MAX), Err(wrong));
        let told = read(geometry, &image, path, &mut out, &mut owners);
        assert_eq!(told, Err(wrong));
        let told = read_to_vec(geometry, &image, path, &mut owners);
        assert_eq!(told, Err(wrong));
        for bitmap in [Bitmap::Local, Bitmap::File] {
            let told = owfs::format(geometry, &mut image, &mut owners, bitmap);
            assert_eq!(told, Err(wrong));
        }
        assert_eq!(
            put(geometry, &mut image, path, b"", &mut owners),
            Err(wrong)
        );
        assert_eq!(delete(geometry, &mut image, path, &mut owners), Err(wrong));
        let told = make_directory(geometry, &mut image, &path[..4], &mut owners);
        assert_eq!(told, Err(wrong));
        let told = remove_directory(geometry, &mut image, &path[..4], &mut owners);
        assert_eq!(told, Err(wrong));
        let mut all = entries(geometry, &image, &mut owners);
        assert_eq!(all.next(), Some(Err(wrong)));
        assert_eq!(all.next(), None);
        assert_eq!((image, owners, out), (vec![5; 33], vec![9; 7], [3; 4]));
        let mut owners = owner_table(page_count);
        assert_eq!(check(geometry, &[], &mut owners), Err(wrong));
    }
}

/// A table of less than four bytes a page is 1 and stays; of a longer one just the first four bytes a page are written.
#[test]
fn table_has_at_least_four_bytes_a_page() {
    let mut image = formatted();
    let demo = path(&[], "DEMO", 12).expect("a path");
    for length in [0, 32, 60, 61, 62, 63] {
        let mut owners = vec![9; length];
        let told = check(GEOMETRY, &image, &mut owners);
        assert_eq!(told, Err(refusal(1, 0)));
        let told = put(GEOMETRY, &mut image, &demo, b"TEST", &mut owners);
        assert_eq!((told, owners), (Err(refusal(1, 0)), vec![9; length]));
    }
    assert_eq!(image, formatted());
    for length in [64, 65, 67, 68] {
        let mut owners = vec![9; length];
        let told = put(GEOMETRY, &mut image, &demo, &[7; 60], &mut owners);
        assert_eq!(told, Ok(()));
        assert_eq!(owners[..8], [1, 0, 0, 0, 3, 0, 0, 0]);
        assert_eq!(owners[8..20], [3, 0, 1, 0, 3, 0, 2, 0, 0, 0, 0, 0]);
        assert_eq!(owners[20..64], [0; 44]);
        assert!(owners[64..].iter().all(|&byte| byte == 9));
    }
}

#[test]
fn local_bitmap_is_refused_from_33_pages_on() {
    for (page_count, local, file) in [
        (31, Ok(()), Ok(())),
        (32, Ok(()), Ok(())),
        (33, Err(refusal(4, 0)), Ok(())),
        (300, Err(refusal(4, 0)), Ok(())),
    ] {
        let geometry = Geometry::new(32, page_count);
        let mut image = vec![0; 32 * page_count as usize];
        let mut owners = owner_table(page_count);
        let told = owfs::format(geometry, &mut image, &mut owners, Bitmap::Local);
        assert_eq!(told, local);
        let told = owfs::format(geometry, &mut image, &mut owners, Bitmap::File);
        assert_eq!(told, file);
        assert_eq!(owner_of(&owners, 1), record(Owner::Bitmap, 0));
    }
}

/// Slices that are only read may overlap.
#[test]
fn slices_that_are_only_read_may_overlap() {
    let mut image = formatted();
    let mut owners = owner_table(16);
    let demo = path(&[], "DEMO", 12).expect("a path");
    assert_eq!(put(GEOMETRY, &mut image, &demo, &demo, &mut owners), Ok(()));
    // The entry's name and extension number stand in page 0, and the file's bytes are its path.
    for path in [&image[8..13], &image[33..38]] {
        assert_eq!(path, demo);
        let bytes = read_to_vec(GEOMETRY, &image, path, &mut owners);
        assert_eq!(bytes.as_ref(), Ok(&demo));
    }
}

/// The crate takes a name exactly if the library does.
#[test]
fn name_is_taken_exactly_if_the_library_takes_it() {
    let image = formatted();
    let mut owners = owner_table(16);
    let mut taken = 0;
    let mut compare = |stored: [u8; 4]| {
        let path = [&stored[..], &[1]].concat();
        let told = read_to_vec(GEOMETRY, &image, &path, &mut owners);
        let number = told.expect_err("no file is there").number;
        let text = String::from_utf8(stored.to_vec());
        let name = text.ok().and_then(|text| Name::new(&text).ok());
        let expected = if name.is_some() { 15 } else { 14 };
        assert_eq!(number, expected, "{stored:?}");
        taken += u32::from(name.is_some());
    };
    for byte in 0..=255 {
        for place in 0..4 {
            for mut stored in [*b"AAAA", *b"A   ", *b"AA  "] {
                stored[place] = byte;
                compare(stored);
            }
        }
    }
    let kinds = [b'A', b'~', b' ', b'a', 0];
    for number in 0..5_usize.pow(4) {
        compare([1, 5, 25, 125].map(|place| kinds[number / place % 5]));
    }
    assert!(taken > 200, "{taken} names");
}

/// The largest image, with one file on all pages that are free after a format.
#[test]
fn largest_image_is_formatted_filled_and_read() {
    let geometry = Geometry::new(32, 65_535);
    let mut image = vec![0; 32 * 65_535];
    let mut owners = owner_table(65_535);
    owfs::format(geometry, &mut image, &mut owners, Bitmap::File).expect("a geometry");
    let used = check(geometry, &image, &mut owners)
        .expect("formatted")
        .used;
    let free = 65_535 - used as usize;
    let bytes: Vec<u8> = (0..27 * free).map(|place| (place / 3) as u8).collect();
    let all = path(&[], "ALL", 0).expect("a path");
    put(geometry, &mut image, &all, &bytes, &mut owners).expect("room");
    let told = read_to_vec(geometry, &image, &all, &mut owners);
    assert!(told.as_ref() == Ok(&bytes), "the file's bytes");
    for page in [used, used + 255, used + 256, used + 257, 40_000, 65_534] {
        let known = record(Owner::Entry(0), page - used);
        assert_eq!(owner_of(&owners, page), known);
    }
    assert_eq!(owner_of(&owners, 65_535), None);
}

//! Reports on count files (document 02, A11): totals, greatest doubled peak, near misses, and the files that are refused with 24.
//!
//! Programs: the library and the second program, with equal answers in every call. The answers of the first tests are known by hand; those of the last
//! are the second program's. The archive is made by `tools/build`.

use common::agreed::{report_add, report_start};
use common::reports::{
    add_all, added, count_file, count_file_with, count_numbers, forged_report, header,
    in_any_order, malformed_file, not_added, random_count_file, random_files, random_limit,
    random_margin, totals, Row, MOST_FILES,
};
use common::{run_seeds, Tally};
use referee::Report;

/// The greatest doubled peak of one file with these rows.
fn greatest(rows: &[Row]) -> Option<i32> {
    let told = totals(report_start(0, 0), &[count_file(rows)]);
    assert!(told.has_greatest <= 1);
    (told.has_greatest == 1).then_some(told.greatest)
}

/// The near misses of one file with these rows.
fn near(limit: i32, margin: u16, rows: &[Row]) -> u64 {
    totals(report_start(limit, margin), &[count_file(rows)]).near
}

/// A row with this doubled peak, which is 0 or more and less than 65,536.
fn with_peak(peak: u16, cycles: u32) -> Row {
    (0, peak, cycles)
}

#[test]
fn report_starts_empty_with_its_limit_and_margin() {
    for limit in [i32::MIN, -1, 0, 900, i32::MAX] {
        for margin in [0, 1, 50, 65_535] {
            let empty = Report {
                limit,
                margin: u32::from(margin),
                ..Report::default()
            };
            assert_eq!(report_start(limit, margin), empty);
            assert_eq!(empty.has_greatest, 0);
        }
    }
}

/// Three files, one without rows and one with bytes between header and rows. Peaks 400, 200, 880, 850, 900; limit 900, margin 50.
#[test]
fn totals_of_three_files() {
    let files = [
        count_file(&[(100, 200, 1_000), (-50, 300, 20), (250, 380, 3)]),
        count_file_with(&[1, 2, 3, 4], &[(120, 610, 2), (300, 300, 1)]),
        count_file(&[]),
    ];
    let start = report_start(900, 50);
    let expected = Report {
        cycles: 1_026,
        near: 5,
        greatest: 900,
        has_greatest: 1,
        files: 3,
        ..start
    };
    assert_eq!(totals(start, &files), expected);
}

/// The bytes of a file, one by one: the fields are low byte first.
#[test]
fn fields_are_low_byte_first() {
    let file = [
        [1, 0, 4, 0].as_slice(),
        &[0x02, 0x01, 0x04, 0x03, 0x08, 0x07, 0x06, 0x05],
    ]
    .concat();
    let told = totals(report_start(0, 0), &[file]);
    assert_eq!(told.cycles, 0x0506_0708);
    assert_eq!(told.greatest, 2 * 0x0102 + 0x0304);
}

#[test]
fn mean_has_a_sign() {
    assert_eq!(greatest(&[(-1, 0, 1)]), Some(-2));
    assert_eq!(greatest(&[(-100, 30, 1)]), Some(-170));
    assert_eq!(greatest(&[(i16::MIN, 0, 1)]), Some(-65_536));
    assert_eq!(greatest(&[(i16::MIN, 65_535, 1)]), Some(-1));
    assert_eq!(greatest(&[(i16::MAX, 0, 1)]), Some(65_534));
    assert_eq!(greatest(&[(i16::MAX, 65_535, 1)]), Some(131_069));
}

#[test]
fn peak_is_twice_the_mean_plus_the_range() {
    assert_eq!(greatest(&[(100, 0, 1)]), Some(200));
    assert_eq!(greatest(&[(0, 100, 1)]), Some(100));
    assert_eq!(greatest(&[(7, 5, 1)]), Some(19));
    assert_eq!(greatest(&[(-7, 5, 1)]), Some(-9));
}

/// The greatest of peaks below 0 is below 0, in whatever order.
#[test]
fn greatest_may_be_below_zero() {
    assert_eq!(greatest(&[(-40, 10, 1), (-9, 0, 5)]), Some(-18));
    assert_eq!(greatest(&[(-9, 0, 5), (-40, 10, 1)]), Some(-18));
    let files = [
        count_file(&[(-40, 10, 1)]),
        count_file(&[]),
        count_file(&[(-50, 10, 1)]),
    ];
    let told = totals(report_start(0, 0), &files);
    assert_eq!((told.has_greatest, told.greatest), (1, -70));
}

/// A peak of 0 is a peak; no rows have none.
#[test]
fn greatest_of_zero_is_not_none() {
    assert_eq!(greatest(&[(0, 0, 1)]), Some(0));
    assert_eq!(greatest(&[(-5, 10, 1)]), Some(0));
    assert_eq!(greatest(&[]), None);
}

/// A row of 0 cycles has a peak; its cycles are no near misses.
#[test]
fn row_of_0_cycles_counts_for_the_greatest() {
    let told = totals(report_start(20, 9), &[count_file(&[(5, 2, 0)])]);
    assert_eq!((told.has_greatest, told.greatest), (1, 12));
    assert_eq!((told.cycles, told.near, told.files), (0, 0, 1));
}

#[test]
fn without_rows_the_totals_are_0_and_there_is_no_greatest() {
    let start = report_start(-7, 300);
    let files = vec![count_file(&[]), count_file_with(&[9; 40], &[])];
    assert_eq!(totals(start, &files), Report { files: 2, ..start });
}

/// Strictly below the limit, and by no more than the margin.
#[test]
fn near_miss_is_below_the_limit_by_no_more_than_the_margin() {
    for (peak, is_near) in [
        (93, false),
        (94, false),
        (95, true),
        (99, true),
        (100, false),
        (101, false),
    ] {
        let expected = if is_near { 3 } else { 0 };
        assert_eq!(near(100, 5, &[with_peak(peak, 3)]), expected, "{peak}");
    }
    let all: Vec<Row> = (90..110).map(|peak| with_peak(peak, 1)).collect();
    assert_eq!(near(100, 5, &all), 5);
}

/// Below zero and across it.
#[test]
fn near_misses_below_zero() {
    for (limit, peak, is_near) in [
        (-100, -106, false),
        (-100, -105, true),
        (-100, -101, true),
        (-100, -100, false),
        (-100, -99, false),
        (2, -3, true),
        (2, -4, false),
        (2, 1, true),
        (2, 2, false),
    ] {
        let mean = -200_i16;
        let range = (peak + 400) as u16;
        let told = near(limit, 5, &[(mean, range, 8)]);
        assert_eq!(told, if is_near { 8 } else { 0 }, "{limit} {peak}");
    }
}

#[test]
fn margin_of_0_counts_nothing() {
    let rows: Vec<Row> = (95..=105).map(|peak| with_peak(peak, 1)).collect();
    assert_eq!(near(100, 0, &rows), 0);
    assert_eq!(near(100, 1, &rows), 1);
}

#[test]
fn margin_of_65535_reaches_as_far_below() {
    assert_eq!(near(65_535, 65_535, &[with_peak(0, 4)]), 4);
    assert_eq!(near(65_536, 65_535, &[with_peak(0, 4)]), 0);
    assert_eq!(near(0, 65_535, &[(-32_768, 0, 4)]), 0);
    assert_eq!(near(0, 65_535, &[(-32_768, 1, 4)]), 4);
    assert_eq!(near(131_070, 65_535, &[(32_767, 65_535, 4)]), 4);
}

/// No doubled peak is near a limit at an end of 32 bits, and no difference wraps.
#[test]
fn limits_at_the_ends_of_32_bits() {
    let rows = [
        (i16::MIN, 0, 1),
        (i16::MIN, 65_535, 1),
        (0, 0, 1),
        (i16::MAX, 0, 1),
        (i16::MAX, 65_535, 1),
    ];
    for limit in [i32::MIN, i32::MIN + 131_069, i32::MAX - 65_536, i32::MAX] {
        assert_eq!(near(limit, 65_535, &rows), 0, "{limit}");
    }
    assert_eq!(near(-65_536, 65_535, &rows), 0);
    assert_eq!(near(-65_535, 65_535, &rows), 1);
}

/// Cycles of 32 bits, summed in 64.
#[test]
fn cycles_are_exact() {
    let file = count_file(&[(0, 9, u32::MAX), (0, 9, u32::MAX), (0, 8, 65_536)]);
    let told = totals(report_start(10, 1), &[file.clone(), file]);
    assert_eq!(told.cycles, 17_180_000_252);
    assert_eq!(told.near, 17_179_869_180);
}

/// As many rows as a header can say, of as many cycles as a row can have.
#[test]
fn file_of_65535_rows() {
    let file = count_file(&[(-3, 5, u32::MAX); 65_535]);
    assert_eq!(file.len(), 524_284);
    let start = report_start(0, 1);
    let expected = Report {
        cycles: 281_470_681_677_825,
        near: 281_470_681_677_825,
        greatest: -1,
        has_greatest: 1,
        files: 1,
        ..start
    };
    assert_eq!(totals(start, &[file.clone()]), expected);
    let longest = count_file_with(&[0xFF; 65_531], &[(-3, 5, u32::MAX); 65_535]);
    assert_eq!(longest.len(), 589_815);
    assert_eq!(totals(start, &[longest.clone()]), expected);
    for cut in [&file[..524_283], &longest[..589_814]] {
        assert_eq!(report_add(start, cut), not_added(24, start));
    }
}

/// A report with something in it, to see that a refusal keeps all of it.
fn used_report() -> Report {
    totals(
        report_start(100, 5),
        &[count_file(&[(10, 76, 3), (-1, 1, 4)])],
    )
}

/// Demands that a file is refused with 24, in an empty report and in a used one, and that nothing is added.
fn demand_24(file: &[u8], what: &str) {
    let used = used_report();
    assert_eq!((used.cycles, used.near, used.greatest), (7, 3, 96));
    for report in [report_start(100, 5), used] {
        assert_eq!(report_add(report, file), not_added(24, report), "{what}");
    }
}

#[test]
fn file_shorter_than_its_header_is_24() {
    let whole = header(0, 4);
    for length in 0..4 {
        demand_24(&whole[..length], "header of 0 to 3 bytes");
        demand_24(&vec![0; length], "zeros");
    }
    assert_eq!(report_add(report_start(0, 0), &whole).number, 0);
}

/// The length is that of the offset and the rows, so the offset alone is wrong.
#[test]
fn offset_below_4_is_24() {
    for offset in 0..4 {
        for rows in 1..4 {
            let mut file = header(rows, offset);
            file.resize(usize::from(offset) + 8 * usize::from(rows), 0);
            demand_24(&file, "offset in the header");
        }
        demand_24(&header(0, offset), "no rows");
    }
    for rows in 1..4 {
        let mut file = header(rows, 4);
        file.resize(4 + 8 * usize::from(rows), 0);
        assert_eq!(report_add(report_start(0, 0), &file).number, 0);
    }
}

#[test]
fn offset_past_the_end_is_24() {
    for offset in [5, 12, 256, 260, 65_535] {
        demand_24(&header(0, offset), "no rows");
        demand_24(&header(1, offset), "one row");
    }
    let mut file = count_file(&[(1, 1, 1)]);
    file[2] = 13;
    demand_24(&file, "offset past one row");
    file[2] = 12;
    demand_24(&file, "offset at the end, and a row after it");
}

/// One byte less or more than offset and rows say, and a row less or more.
#[test]
fn another_length_is_24() {
    for rows in [0, 1, 2, 31] {
        for between in [0, 1, 8, 300] {
            let file = count_file_with(&vec![5; between], &vec![(1, 1, 1); rows]);
            assert_eq!(report_add(report_start(0, 0), &file).number, 0);
            demand_24(&file[..file.len() - 1], "a byte less");
            demand_24(&[&file[..], &[0]].concat(), "a byte more");
            demand_24(&[&file[..], &[0; 8]].concat(), "a row more");
            if rows > 0 {
                demand_24(&file[..file.len() - 8], "a row less");
            }
        }
    }
}

/// Row counts whose bytes are a multiple of 65,536: offset and rows are not summed in 16 bits.
#[test]
fn length_is_not_taken_in_16_bits() {
    for rows in [0x2000, 0x4000, 0xE000] {
        demand_24(&header(rows, 4), "8 times the rows is 0 in 16 bits");
        let one = header(rows + 1, 4);
        demand_24(&[one, vec![0; 8]].concat(), "8 in 16 bits");
    }
    let all = header(8_191, 12);
    demand_24(&all, "the sum is 4 in 16 bits");
}

#[test]
fn bytes_between_header_and_offset_are_free() {
    let rows = [(12, 7, 5), (-3, 2, 9)];
    let start = report_start(32, 1);
    let expected = totals(start, &[count_file(&rows)]);
    assert_eq!(
        (expected.cycles, expected.near, expected.greatest),
        (14, 5, 31)
    );
    for between in [
        vec![0],
        vec![0xFF; 7],
        vec![0x80; 8],
        vec![0xA5; 4_000],
        vec![1; 65_531],
    ] {
        let file = count_file_with(&between, &rows);
        assert_eq!(totals(start, &[file]), expected);
    }
}

/// Files that are refused change nothing, wherever they stand.
#[test]
fn refused_file_is_as_if_it_had_not_been_given() {
    let good = [count_file(&[(1, 2, 3)]), count_file(&[(4, 5, 6)])];
    let bad = [vec![], header(1, 4), [&good[0][..], &[0]].concat()];
    let start = report_start(20, 10);
    let expected = Report {
        cycles: 9,
        near: 6,
        greatest: 13,
        has_greatest: 1,
        files: 2,
        ..start
    };
    let [first, second] = good;
    let [one, two, three] = bad;
    let (told, numbers) = add_all(start, &[one, first, two.clone(), second, two, three]);
    assert_eq!(numbers, [24, 0, 24, 0, 24, 24]);
    assert_eq!(told, expected);
}

/// All 24 orders of four files.
#[test]
fn order_changes_nothing() {
    let files = [
        count_file(&[(-40, 10, 1)]),
        count_file(&[]),
        count_file(&[(10, 70, u32::MAX), (10, 75, 2)]),
        count_file(&[(-9, 0, 5), (10, 79, 1)]),
    ];
    let start = report_start(100, 5);
    let expected = Report {
        cycles: 4_294_967_304,
        near: 3,
        greatest: 99,
        has_greatest: 1,
        files: 4,
        ..start
    };
    let mut orders = 0;
    for code in 0..256_usize {
        let order = [code % 4, code / 4 % 4, code / 16 % 4, code / 64];
        if (0..4).all(|file| order.contains(&file)) {
            let ordered = order.map(|file| files[file].clone());
            assert_eq!(totals(start, &ordered), expected, "{order:?}");
            orders += 1;
        }
    }
    assert_eq!(orders, 24);
}

/// 4,096 files are added, refused ones between them not counted; the next is 24 whatever it holds.
#[test]
fn files_are_4096_at_most() {
    let file = count_file(&[(1, 2, 3)]);
    let mut report = report_start(5, 1);
    for count in 1..=MOST_FILES {
        if count % 500 == 0 {
            assert_eq!(report_add(report, &file[..11]), not_added(24, report));
        }
        let told = report_add(report, &file);
        assert_eq!((told.number, told.report.files), (0, count));
        report = told.report;
    }
    assert_eq!((report.cycles, report.near), (12_288, 12_288));
    for file in [file, count_file(&[]), count_file(&[(9, 9, 0)]), vec![]] {
        assert_eq!(report_add(report, &file), not_added(24, report));
    }
}

/// A report that other hands have changed, with every field in use.
fn forged() -> Report {
    Report {
        cycles: 40,
        near: 30,
        limit: 100,
        greatest: 7,
        has_greatest: 1,
        margin: 5,
        files: 4_095,
        ..Report::default()
    }
}

#[test]
fn forged_number_of_files() {
    let file = count_file(&[(0, 95, 2)]);
    let expected = Report {
        cycles: 42,
        near: 32,
        greatest: 95,
        files: 4_096,
        ..forged()
    };
    assert_eq!(report_add(forged(), &file), added(expected));
    for files in [4_096, 4_097, 65_536, 0x8000_0000, u32::MAX] {
        let report = Report { files, ..forged() };
        assert_eq!(report_add(report, &file), not_added(24, report));
    }
}

/// The last sum that fits in 64 bits, and the first that does not.
#[test]
fn forged_sums_at_the_edge_of_64_bits() {
    let file = count_file(&[(0, 95, 2), (0, 1, 3)]);
    let fits = Report {
        cycles: u64::MAX - 5,
        near: u64::MAX - 2,
        files: 9,
        ..forged()
    };
    let expected = Report {
        cycles: u64::MAX,
        near: u64::MAX,
        greatest: 95,
        files: 10,
        ..fits
    };
    assert_eq!(report_add(fits, &file), added(expected));
    for (cycles, near) in [
        (u64::MAX - 4, u64::MAX - 2),
        (u64::MAX - 5, u64::MAX - 1),
        (u64::MAX, 0),
        (0, u64::MAX),
        (u64::MAX, u64::MAX),
    ] {
        let report = Report {
            cycles,
            near,
            ..fits
        };
        assert_eq!(report_add(report, &file), not_added(24, report));
    }
    let full = Report {
        cycles: u64::MAX,
        near: u64::MAX,
        ..fits
    };
    let none = count_file(&[(0, 95, 0)]);
    let expected = Report {
        greatest: 95,
        files: 10,
        ..full
    };
    assert_eq!(report_add(full, &none), added(expected));
}

/// Any number but 0 says that there is a greatest, and comes back as 1; the number beside a 0 does not count, and stays while there is no row.
#[test]
fn forged_greatest() {
    let low = count_file(&[(-100, 0, 1)]);
    for has_greatest in [1, 2, 256, u32::MAX] {
        let report = Report {
            has_greatest,
            ..forged()
        };
        for file in [&low, &count_file(&[])] {
            let told = report_add(report, file);
            assert_eq!(told.number, 0);
            assert_eq!((told.report.has_greatest, told.report.greatest), (1, 7));
        }
        let refused = report_add(report, &low[..3]);
        assert_eq!(refused, not_added(24, report));
    }
    let report = Report {
        has_greatest: 0,
        ..forged()
    };
    let told = report_add(report, &low).report;
    assert_eq!((told.has_greatest, told.greatest), (1, -200));
    let told = report_add(report, &count_file(&[])).report;
    assert_eq!((told.has_greatest, told.greatest), (0, 7));
    assert_eq!(report_add(report, &[]), not_added(24, report));
}

/// A margin above 65,535 is taken as it is, and the difference is not taken in 32 bits.
#[test]
fn forged_margin() {
    let far = |margin, limit| {
        let report = Report {
            margin,
            limit,
            near: 0,
            ..forged()
        };
        report_add(report, &count_file(&[(i16::MIN, 0, 1)])).report
    };
    assert_eq!(far(65_536, 0).near, 1);
    assert_eq!(far(65_535, 0).near, 0);
    assert_eq!(far(65_536, 1).near, 0);
    assert_eq!(far(2_147_549_183, i32::MAX).near, 1);
    assert_eq!(far(2_147_549_182, i32::MAX).near, 0);
    assert_eq!(far(u32::MAX, i32::MAX).near, 1);
    assert_eq!(far(u32::MAX, i32::MIN).near, 0);
    assert_eq!(far(u32::MAX, i32::MIN).margin, u32::MAX);
}

/// Thousands of reports of any limits and margins: each answer is the second program's, and neither the order nor refused files change the totals.
#[test]
fn reports_are_the_second_programs_in_any_order() {
    let mut tally = Tally::default();
    run_seeds(0x11A0_0000..0x11A0_0000 + 6_000, |_, rng| {
        let start = report_start(random_limit(rng), random_margin(rng));
        let files = random_files(&start, rng, &mut tally);
        let told = in_any_order(start, &files, rng, &mut tally);
        tally.add(match (told.near, told.has_greatest) {
            (1.., _) => "with near misses",
            (_, 0) => "without a greatest",
            _ => "without near misses",
        });
        if told.has_greatest == 1 && told.greatest < 0 {
            tally.add("greatest below zero");
        }
    });
    tally.print();
    tally.demand_numbers("report add", 5_000, [0, 24]);
    tally.demand(
        100,
        &[
            "with near misses",
            "without near misses",
            "without a greatest",
            "greatest below zero",
            "shorter than a header",
            "offset in the header",
            "offset past the end",
            "a byte less",
            "a byte more",
            "another row count",
            "another offset",
            "last row not whole",
            "bytes after the rows",
        ],
    );
}

/// Every malformed file is 24 in every report.
#[test]
fn malformed_files_are_24() {
    run_seeds(0x11A1_0000..0x11A1_0000 + 6_000, |seed, rng| {
        let report = match seed % 2 {
            0 => report_start(random_limit(rng), random_margin(rng)),
            _ => forged_report(rng),
        };
        let (label, file) = malformed_file(&report, rng);
        assert_eq!(report_add(report, &file), not_added(24, report), "{label}");
    });
}

/// Reports that other hands have changed, with any numbers in their fields.
#[test]
fn forged_reports_are_the_second_programs() {
    let mut tally = Tally::default();
    run_seeds(0x11A2_0000..0x11A2_0000 + 12_000, |_, rng| {
        let report = forged_report(rng);
        let files: Vec<Vec<u8>> = (0..3).map(|_| random_count_file(&report, rng)).collect();
        let (told, numbers) = add_all(report, &files);
        count_numbers(&numbers, &mut tally);
        for (sum, before, label) in [
            (told.cycles, report.cycles, "cycles"),
            (told.near, report.near, "near misses"),
        ] {
            if sum > before && sum > u64::MAX - (1 << 36) {
                tally.add(format!("{label} near the edge"));
            }
        }
    });
    tally.print();
    tally.demand_numbers("report add", 5_000, [0, 24]);
    tally.demand(100, &["cycles near the edge", "near misses near the edge"]);
}

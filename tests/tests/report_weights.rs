//! Reports with a weight (document 02, A12): version 1, version 2 with its knee K, and the files that are refused with 25.
//!
//! Programs: the library and the second program, with equal answers in every call. The answers of the first tests are known by hand; those of the last
//! are the second program's. The archive is made by `tools/build`.

use common::agreed::{report_add, report_start, report_start_weighted};
use common::reports::{
    add_all, added, count_file, count_file_with, count_numbers, forged_weighted_report, header,
    in_any_order, not_added, random_knee, random_limit, random_margin, random_weight, totals,
    weighed_file, weighed_files, Row, MOST_FILES,
};
use common::{run_seeds, Tally};
use referee::Report;

/// The version of a report that was started with none of 1 and 2.
const NO_VERSION: u32 = 0xFFFF_FFFF;

/// K that version 2 does not take: 65,543 is 7 in 16 bits, 4,000,000,000 is 10,240 there and below 0 in 32 bits with a sign.
const NO_KNEES: [u32; 7] = [
    0,
    1_001,
    65_536,
    65_543,
    0x8000_0001,
    4_000_000_000,
    u32::MAX,
];

/// Versions that no report has.
const NO_VERSIONS: [u32; 6] = [0, 3, 257, 65_538, 0x8000_0001, u32::MAX];

/// A report of limit 900 and margin 50 with this version and K.
fn weighted(version: u32, knee: u32) -> Report {
    report_start_weighted(900, 50, version, knee)
}

/// The weighted sum of one file with these rows.
fn weight(version: u32, knee: u32, rows: &[Row]) -> u64 {
    totals(weighted(version, knee), &[count_file(rows)]).weight
}

/// The weight of a cycle of this range.
fn weight_of(version: u32, knee: u32, range: u16) -> u64 {
    weight(version, knee, &[(0, range, 1)])
}

/// The rows of LOAD.7 and BOOM/LOAD.7 of the sample `counts.dump`.
fn sample_rows() -> [Vec<Row>; 2] {
    [
        vec![(100, 200, 1_000), (-50, 300, 20), (250, 380, 3)],
        vec![(120, 610, 2), (300, 300, 1)],
    ]
}

#[test]
fn report_starts_with_its_version_and_knee() {
    for limit in [i32::MIN, 0, i32::MAX] {
        for (version, knee) in [(1, 0), (1, 7), (1, u32::MAX), (2, 1), (2, 1_000)] {
            let empty = Report {
                limit,
                margin: 65_535,
                version,
                knee,
                ..Report::default()
            };
            let told = report_start_weighted(limit, 65_535, version, knee);
            assert_eq!(told, empty);
        }
    }
    for knee in NO_KNEES {
        assert_eq!(weighted(2, knee).knee, knee, "K is not narrowed");
    }
}

/// No report is without weight if one was asked for.
#[test]
fn other_versions_are_kept_as_none() {
    for version in NO_VERSIONS {
        for knee in [0, 7, 1_000] {
            let told = weighted(version, knee);
            let none = Report {
                version: NO_VERSION,
                ..report_start(900, 50)
            };
            assert_eq!(told, none, "{version}");
        }
    }
    assert_eq!(report_start(900, 50).version, 0);
}

#[test]
fn version_1_is_the_cube_of_the_range() {
    for (range, cube) in [
        (0, 0),
        (1, 1),
        (2, 8),
        (10, 1_000),
        (99, 970_299),
        (999, 997_002_999),
        (1_000, 1_000_000_000),
    ] {
        assert_eq!(weight_of(1, 0, range), cube, "{range}");
    }
    assert_eq!(weight(1, 0, &[(0, 10, 7), (-9, 2, 3), (5, 0, 9)]), 7_024);
}

/// Below the knee the fifth power, at it and above the cube times K squared.
#[test]
fn version_2_has_a_knee() {
    for (knee, range, known) in [
        (10, 0, 0),
        (10, 1, 1),
        (10, 2, 32),
        (10, 9, 59_049),
        (10, 10, 100_000),
        (10, 11, 133_100),
        (10, 1_000, 100_000_000_000),
        (300, 299, 2_389_769_101_499),
        (300, 300, 2_430_000_000_000),
        (300, 301, 2_454_381_090_000),
        (1_000, 1, 1),
        (1_000, 999, 995_009_990_004_999),
        (1_000, 1_000, 1_000_000_000_000_000),
    ] {
        assert_eq!(weight_of(2, knee, range), known, "K {knee}, {range}");
    }
}

/// With K 1 every range is at the knee or above it, but 0, whose powers are 0: version 2 weighs as version 1 does.
#[test]
fn version_2_with_knee_1_is_version_1() {
    for range in [0, 1, 2, 3, 500, 999, 1_000] {
        assert_eq!(weight_of(2, 1, range), weight_of(1, 0, range), "{range}");
    }
}

/// Version 2 carries its sum times K squared.
#[test]
fn at_the_knee_both_versions_agree() {
    for knee in 1..=1_000_u16 {
        let squared = u64::from(knee) * u64::from(knee);
        let first = weight_of(1, 0, knee);
        assert_eq!(weight_of(2, u32::from(knee), knee), first * squared);
        assert_eq!(first, squared * u64::from(knee));
    }
}

/// The worked example of `docs/OFFICE.md`.
#[test]
fn both_versions_on_the_rows_of_the_sample() {
    let files = sample_rows().map(|rows| count_file(&rows));
    for (version, knee, sum) in [
        (1, 0, 9_185_578_000),
        (1, 300, 9_185_578_000),
        (2, 300, 426_702_020_000_000),
    ] {
        let start = weighted(version, knee);
        let expected = Report {
            cycles: 1_026,
            near: 5,
            weight: sum,
            greatest: 900,
            has_greatest: 1,
            files: 2,
            ..start
        };
        assert_eq!(totals(start, &files), expected);
    }
}

/// K does not matter in version 1, and comes back as it was given.
#[test]
fn version_1_is_the_same_whatever_the_knee() {
    let files = sample_rows().map(|rows| count_file(&rows));
    let expected = totals(weighted(1, 0), &files);
    assert_eq!(expected.weight, 9_185_578_000);
    for knee in [1, 7, 200, 300, 1_000].into_iter().chain(NO_KNEES) {
        let told = totals(weighted(1, knee), &files);
        assert_eq!(told, Report { knee, ..expected });
    }
}

/// A K of version 2 out of its limits is 25 for every well-formed file, also without rows; a malformed one is 24.
#[test]
fn knee_out_of_its_limits_is_25() {
    for knee in NO_KNEES {
        let start = weighted(2, knee);
        for file in [count_file(&[]), count_file(&[(1, 1, 0)]), header(0, 4)] {
            assert_eq!(report_add(start, &file), not_added(25, start), "{knee}");
        }
        for file in [vec![], header(1, 4), header(0, 3)] {
            assert_eq!(report_add(start, &file), not_added(24, start), "{knee}");
        }
    }
    for knee in [1, 2, 999, 1_000] {
        let start = weighted(2, knee);
        let told = report_add(start, &count_file(&[]));
        assert_eq!(told, added(Report { files: 1, ..start }));
    }
}

/// The same for a version that no report has.
#[test]
fn other_versions_are_25() {
    for version in NO_VERSIONS {
        let start = weighted(version, 7);
        for file in [count_file(&[]), count_file(&[(1, 1, 1)])] {
            assert_eq!(report_add(start, &file), not_added(25, start));
        }
        for file in [vec![1], header(1, 4), header(0, 5)] {
            assert_eq!(report_add(start, &file), not_added(24, start));
        }
    }
}

/// 1,000 is weighed, 1,001 is 25: in any row, also in one of 0 cycles, and nothing of the file is added.
#[test]
fn range_above_1000_is_25() {
    for (version, knee) in [(1, 0), (1, 2_000), (2, 1), (2, 1_000)] {
        let used = totals(weighted(version, knee), &[count_file(&[(400, 60, 2)])]);
        assert_eq!((used.cycles, used.near, used.greatest), (2, 2, 860));
        for range in [1_001, 1_002, 2_000, 32_768, 65_535] {
            for cycles in [0, 1, 50] {
                let bad = (1_000, range, cycles);
                for rows in [
                    vec![bad],
                    vec![bad, (400, 60, 5)],
                    vec![(400, 60, 5), (0, 1, 1), bad],
                ] {
                    let told = report_add(used, &count_file(&rows));
                    assert_eq!(told, not_added(25, used), "{range} {cycles}");
                }
            }
        }
        let told = report_add(used, &count_file(&[(0, 1_000, 0)]));
        assert_eq!((told.number, told.report.weight), (0, used.weight));
        assert_eq!(told.report.greatest, 1_000);
    }
}

/// A report without weight takes every range, and its weight stays 0.
#[test]
fn report_without_weight_takes_every_range() {
    let start = report_start(900, 50);
    let expected = Report {
        cycles: u64::from(u32::MAX),
        greatest: 65_535,
        has_greatest: 1,
        files: 1,
        ..start
    };
    let file = count_file(&[(0, 65_535, u32::MAX), (0, 1_001, 0)]);
    assert_eq!(report_add(start, &file), added(expected));
    assert_eq!(
        (expected.weight, expected.version, expected.knee),
        (0, 0, 0)
    );
}

/// K 1,000 and range 1,000: 10^15 a cycle. 18,446 cycles fit into 64 bits, 18,447 do not.
#[test]
fn version_2_at_the_edge_of_64_bits() {
    let start = weighted(2, 1_000);
    let last = totals(start, &[count_file(&[(0, 1_000, 18_446)])]);
    assert_eq!(last.weight, 18_446_000_000_000_000_000);
    let first = count_file(&[(0, 1_000, 18_447)]);
    assert_eq!(report_add(start, &first), not_added(25, start));
    let rows = count_file(&[(0, 1_000, 18_000), (0, 1_000, 447)]);
    assert_eq!(report_add(start, &rows), not_added(25, start));
    let rows = count_file(&[(0, 1_000, 18_000), (0, 1_000, 446)]);
    assert_eq!(totals(start, &[rows]).weight, last.weight);
    // One cycle more, in a file of its own, is 25; a cycle below the knee still fits.
    let one = count_file(&[(0, 1_000, 1)]);
    assert_eq!(report_add(last, &one), not_added(25, last));
    // 744,073,709,551,615 are left: 900^5 is 590,490,000,000,000.
    let below = count_file(&[(0, 900, 1)]);
    let told = totals(last, &[below]);
    assert_eq!(told.weight, 18_446_590_490_000_000_000);
    // Far past the edge too, where one row alone passes it.
    let wraps = count_file(&[(0, 1_000, u32::MAX), (0, 1_000, u32::MAX)]);
    assert_eq!(report_add(start, &wraps), not_added(25, start));
}

/// Rows whose cubes sum to 2^64 - 1 exactly.
fn full_rows() -> Vec<Row> {
    vec![
        (0, 1_000, u32::MAX),
        (0, 1_000, u32::MAX),
        (0, 1_000, u32::MAX),
        (0, 1_000, u32::MAX),
        (0, 1_000, 1_266_874_893),
        (0, 1, 709_551_615),
    ]
}

/// The last sum that fits is 2^64 - 1, the first that does not is 2^64. Version 2 with K 1 is the same.
#[test]
fn version_1_at_the_edge_of_64_bits() {
    for (version, knee) in [(1, 0), (1, 1_000), (2, 1)] {
        let start = weighted(version, knee);
        let full = totals(start, &[count_file(&full_rows())]);
        assert_eq!(full.weight, u64::MAX);
        let mut more = full_rows();
        more.push((0, 1, 1));
        assert_eq!(report_add(start, &count_file(&more)), not_added(25, start));
        let mut more = full_rows();
        more[5].2 += 1;
        assert_eq!(report_add(start, &count_file(&more)), not_added(25, start));
        let one = count_file(&[(0, 1, 1)]);
        assert_eq!(report_add(full, &one), not_added(25, full));
        // What weighs nothing still fits.
        let light = count_file(&[(9, 0, 5), (0, 1_000, 0)]);
        let told = report_add(full, &light);
        assert_eq!((told.number, told.report.weight), (0, u64::MAX));
        assert_eq!(
            (told.report.files, told.report.cycles),
            (2, full.cycles + 5)
        );
    }
}

/// Sums that wrap to a small one in 64 bits: 2^32 - 1 cycles of range 1,000 in many rows.
#[test]
fn sums_do_not_wrap() {
    for count in [5, 6, 100, 65_535] {
        let file = count_file(&vec![(0, 1_000, u32::MAX); count]);
        for (version, knee) in [(1, 0), (2, 1), (2, 999), (2, 1_000)] {
            let start = weighted(version, knee);
            assert_eq!(report_add(start, &file), not_added(25, start), "{count}");
        }
    }
    // Four such rows are the most that fit in version 1.
    let most = count_file(&[(0, 1_000, u32::MAX); 4]);
    let told = totals(weighted(1, 0), &[most]);
    assert_eq!(told.weight, 17_179_869_180_000_000_000);
}

/// Which of two files meets the edge is decided by their order; the sum that does not fit is never kept.
#[test]
fn order_decides_which_file_is_past_64_bits() {
    let [large, small] = [18_000, 447].map(|cycles| count_file(&[(0, 1_000, cycles)]));
    let start = weighted(2, 1_000);
    let (told, numbers) = add_all(start, &[large.clone(), small.clone()]);
    assert_eq!((numbers, told.cycles), (vec![0, 25], 18_000));
    let (told, numbers) = add_all(start, &[small, large]);
    assert_eq!((numbers, told.cycles), (vec![0, 25], 447));
}

/// A malformed file, one with a range above 1,000, one that is too heavy beside others, and two good ones, in all orders: 24 and 25 leave nothing.
#[test]
fn refusals_24_and_25_in_every_order() {
    let files = [
        (count_file(&[(10, 10, 3)]), 0),
        (header(2, 4), 24),
        (count_file(&[(0, 1_001, 1)]), 25),
        (count_file_with(&[1], &[(-10, 7, 4)]), 0),
        (count_file(&[(0, 1_000, u32::MAX); 5]), 25),
    ];
    let start = report_start_weighted(31, 1, 1, 5);
    let expected = Report {
        cycles: 7,
        near: 3,
        weight: 3_000 + 1_372,
        greatest: 30,
        has_greatest: 1,
        files: 2,
        ..start
    };
    let mut orders = 0;
    for code in 0..3_125_usize {
        let order = [1, 5, 25, 125, 625].map(|power| code / power % 5);
        if !(0..5).all(|file| order.contains(&file)) {
            continue;
        }
        let ordered = order.map(|file| files[file].0.clone());
        let (told, numbers) = add_all(start, &ordered);
        assert_eq!(numbers, order.map(|file| files[file].1), "{order:?}");
        assert_eq!(told, expected, "{order:?}");
        orders += 1;
    }
    assert_eq!(orders, 120);
}

/// All orders of four files that are all added.
#[test]
fn order_changes_nothing_where_no_file_gets_25() {
    let files = [
        count_file(&[(-40, 10, 1)]),
        count_file(&[]),
        count_file(&[(10, 70, 5), (10, 75, 2)]),
        count_file(&[(-9, 0, 5), (10, 79, 1)]),
    ];
    for (version, knee, weight) in [
        (1, 0, 1_000 + 1_715_000 + 843_750 + 493_039),
        (
            2,
            75,
            100_000 + 8_403_500_000 + 4_746_093_750 + 2_773_344_375,
        ),
    ] {
        let start = weighted(version, knee);
        let expected = totals(start, &files);
        assert_eq!((expected.weight, expected.cycles), (weight, 14));
        for code in 0..256_usize {
            let order = [code % 4, code / 4 % 4, code / 16 % 4, code / 64];
            if (0..4).all(|file| order.contains(&file)) {
                let ordered = order.map(|file| files[file].clone());
                assert_eq!(totals(start, &ordered), expected, "{order:?}");
            }
        }
    }
}

/// Files with 25 are not counted; the file after 4,096 is 24 whatever it holds.
#[test]
fn file_4097_is_24_before_25() {
    let (good, bad) = (count_file(&[(1, 2, 3)]), count_file(&[(1, 1_001, 3)]));
    let mut report = weighted(2, 3);
    for count in 1..=MOST_FILES {
        if count % 400 == 0 {
            assert_eq!(report_add(report, &bad), not_added(25, report));
        }
        report = report_add(report, &good).report;
        assert_eq!(report.files, count);
    }
    assert_eq!((report.cycles, report.weight), (12_288, 32 * 12_288));
    for file in [good, bad, count_file(&[(0, 1_000, u32::MAX); 9]), vec![]] {
        assert_eq!(report_add(report, &file), not_added(24, report));
    }
    let no_knee = Report { knee: 0, ..report };
    let told = report_add(no_knee, &count_file(&[]));
    assert_eq!(told, not_added(24, no_knee));
}

/// A report with a weight that other hands have changed.
fn forged(version: u32, knee: u32) -> Report {
    Report {
        cycles: 40,
        near: 30,
        weight: 20,
        limit: 100,
        greatest: 7,
        has_greatest: 1,
        margin: 5,
        version,
        knee,
        files: 9,
    }
}

/// Sums of cycles and near misses past 64 bits are 24, before all that is 25.
#[test]
fn forged_sums_are_24_before_25() {
    let heavy = count_file(&[(0, 1_001, 0), (0, 95, 2), (0, 1_000, u32::MAX)]);
    let light = count_file(&[(0, 95, 2)]);
    for (version, knee) in [(1, 0), (2, 5), (2, 0), (3, 5), (NO_VERSION, 0)] {
        for (cycles, near) in [(u64::MAX - 1, 30), (40, u64::MAX - 1)] {
            let report = Report {
                cycles,
                near,
                weight: u64::MAX,
                ..forged(version, knee)
            };
            for file in [&heavy, &light] {
                assert_eq!(report_add(report, file), not_added(24, report));
            }
        }
        let report = forged(version, knee);
        assert_eq!(report_add(report, &heavy), not_added(25, report));
    }
}

/// The last weight that fits and the first that does not, for a weight that other hands have set.
#[test]
fn forged_weight_at_the_edge_of_64_bits() {
    let file = count_file(&[(0, 3, 2), (0, 4, 1)]);
    for (version, knee, adds) in [(1, 9, 118), (2, 4, 1_510), (2, 3, 1_062)] {
        let fits = Report {
            weight: u64::MAX - adds,
            ..forged(version, knee)
        };
        let expected = Report {
            cycles: 43,
            weight: u64::MAX,
            files: 10,
            ..fits
        };
        assert_eq!(report_add(fits, &file), added(expected));
        let past = Report {
            weight: u64::MAX - adds + 1,
            ..fits
        };
        assert_eq!(report_add(past, &file), not_added(25, past));
    }
}

/// Version 0 is a report without weight: a K beside it comes back as 0, a weight stays as it is. Refusals change nothing.
#[test]
fn forged_report_without_weight() {
    let file = count_file(&[(0, 65_535, 2)]);
    for knee in [0, 5, 1_001, u32::MAX] {
        let report = forged(0, knee);
        let expected = Report {
            cycles: 42,
            greatest: 65_535,
            knee: 0,
            files: 10,
            ..report
        };
        assert_eq!(report_add(report, &file), added(expected));
        assert_eq!(report_add(report, &file[..11]), not_added(24, report));
    }
}

/// Versions that were forged are 25, and stay as they are.
#[test]
fn forged_versions_are_25() {
    for version in [3, 7, 257, 65_538, 0x8000_0001, NO_VERSION] {
        let report = forged(version, 5);
        for file in [count_file(&[]), count_file(&[(0, 1, 1)])] {
            assert_eq!(report_add(report, &file), not_added(25, report));
        }
        assert_eq!(report_add(report, &[]), not_added(24, report));
    }
}

/// Thousands of reports of any weights: each answer is the second program's, and the order of those that are added changes nothing.
#[test]
fn weighted_reports_are_the_second_programs_in_any_order() {
    let mut tally = Tally::default();
    run_seeds(0x12A0_0000..0x12A0_0000 + 8_000, |_, rng| {
        let (version, knee) = random_weight(rng);
        let (limit, margin) = (random_limit(rng), random_margin(rng));
        let start = report_start_weighted(limit, margin, version, knee);
        let files = weighed_files(&start, rng, &mut tally);
        let told = in_any_order(start, &files, rng, &mut tally);
        tally.add(match (start.version, told.weight) {
            (1, 0) | (2, 0) => "no weight",
            (1, _) => "version 1",
            (2, _) => "version 2",
            _ => "no version",
        });
        // The totals are those of the same files without weight, if none gets 25.
        let (_, numbers) = add_all(start, &files);
        if !numbers.contains(&25) {
            let plain = add_all(report_start(limit, margin), &files).0;
            let without = Report {
                weight: 0,
                version: 0,
                knee: 0,
                ..told
            };
            assert_eq!(plain, without);
        }
    });
    tally.print();
    tally.demand_numbers("report add", 2_000, [0, 24, 25]);
    tally.demand(100, &["no weight", "version 1", "version 2", "no version"]);
}

/// Version 1 with any K is version 1 with K 0, for any files.
#[test]
fn any_files_weigh_the_same_in_version_1_whatever_the_knee() {
    run_seeds(0x12A1_0000..0x12A1_0000 + 4_000, |_, rng| {
        let knee = random_knee(rng);
        let start = weighted(1, knee);
        let files: Vec<Vec<u8>> = (0..4).map(|_| weighed_file(&start, rng)).collect();
        let (told, numbers) = add_all(start, &files);
        let (other, other_numbers) = add_all(weighted(1, 0), &files);
        assert_eq!(numbers, other_numbers);
        assert_eq!(told, Report { knee, ..other });
    });
}

/// Reports that other hands have changed, with any numbers in their fields.
#[test]
fn forged_weighted_reports_are_the_second_programs() {
    let mut tally = Tally::default();
    run_seeds(0x12A2_0000..0x12A2_0000 + 16_000, |_, rng| {
        let report = forged_weighted_report(rng);
        let files: Vec<Vec<u8>> = (0..3).map(|_| weighed_file(&report, rng)).collect();
        let (told, numbers) = add_all(report, &files);
        count_numbers(&numbers, &mut tally);
        let is_near_edge = told.weight > u64::MAX - 1_000_000_000_000_000;
        if told.weight > report.weight && is_near_edge {
            tally.add("weight near the edge");
        }
    });
    tally.print();
    tally.demand_numbers("report add", 2_000, [0, 24, 25]);
    tally.demand(50, &["weight near the edge"]);
}

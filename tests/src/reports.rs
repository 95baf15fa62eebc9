//! Count files and reports for tests: well-formed files, malformed ones, reports with a weight, reports that other hands have changed.

use crate::agreed;
use crate::Tally;
use referee::rng::Rng;
use referee::{Added, Report};

/// A row of a count file: mean, range, cycles.
pub type Row = (i16, u16, u32);

/// The most files of a report.
pub const MOST_FILES: u32 = 4_096;

/// The bytes of a row.
const ROW: usize = 8;

/// The greatest and the least doubled peak that a row can have.
const PEAKS: [i32; 2] = [2 * 32_767 + 65_535, -2 * 32_768];

/// The header of a count file.
pub fn header(rows: u16, offset: u16) -> Vec<u8> {
    [rows.to_le_bytes(), offset.to_le_bytes()].concat()
}

/// The bytes of rows.
fn row_bytes(rows: &[Row]) -> Vec<u8> {
    let row = |&(mean, range, cycles): &Row| {
        let ends = [mean.to_le_bytes(), range.to_le_bytes()].concat();
        [ends, cycles.to_le_bytes().to_vec()].concat()
    };
    rows.iter().flat_map(row).collect()
}

/// A count file with these bytes between its header and its rows.
pub fn count_file_with(between: &[u8], rows: &[Row]) -> Vec<u8> {
    let header = header(rows.len() as u16, 4 + between.len() as u16);
    [&header, between, &row_bytes(rows)].concat()
}

/// A count file whose rows follow its header.
pub fn count_file(rows: &[Row]) -> Vec<u8> {
    count_file_with(&[], rows)
}

/// The answer of adding a file that was done.
pub fn added(report: Report) -> Added {
    Added {
        number: 0,
        page: 0,
        report,
    }
}

/// The answer of adding a file that was refused.
pub fn not_added(number: u32, report: Report) -> Added {
    Added {
        number,
        page: 0,
        report,
    }
}

/// The report after files, refused ones among them, and the number of each.
pub fn add_all(mut report: Report, files: &[Vec<u8>]) -> (Report, Vec<u32>) {
    let mut numbers = Vec::new();
    for file in files {
        let told = agreed::report_add(report, file);
        numbers.push(told.number);
        report = told.report;
    }
    (report, numbers)
}

/// The report after files that are all added.
pub fn totals(report: Report, files: &[Vec<u8>]) -> Report {
    let (report, numbers) = add_all(report, files);
    assert!(numbers.iter().all(|&number| number == 0), "{numbers:?}");
    report
}

/// A limit at an end of 32 bits, at or near a doubled peak that a row can have, or any.
pub fn random_limit(rng: &mut Rng) -> i32 {
    let near = rng.between(0, 4) as i32 - 2;
    match rng.below(8) {
        0 => [i32::MIN, i32::MIN + 1, -1, 0, 1, i32::MAX - 1, i32::MAX][rng.below(7)],
        1 => PEAKS[rng.below(2)] + near,
        2 => PEAKS[rng.below(2)] + near + 65_535,
        3 => rng.next_u64() as i32,
        _ => rng.below(200_000) as i32 - 67_000,
    }
}

/// A margin at an end of 16 bits, or any.
pub fn random_margin(rng: &mut Rng) -> u16 {
    match rng.below(3) {
        0 => [0, 1, 65_534, 65_535][rng.below(4)],
        1 => rng.below(300) as u16,
        _ => rng.next_u64() as u16,
    }
}

/// The mean of a row: at an end of 16 bits, near 0, or any.
fn random_mean(rng: &mut Rng) -> i16 {
    match rng.below(3) {
        0 => [i16::MIN, i16::MIN + 1, -1, 0, 1, i16::MAX - 1, i16::MAX][rng.below(7)],
        _ => rng.next_u64() as i16,
    }
}

/// Mean and range of a row whose doubled peak is at or near the limit, or the limit less the margin, if a row can have it.
fn near_limit(report: &Report, rng: &mut Rng) -> Option<(i16, u16)> {
    let away = [0, i64::from(report.margin)][rng.below(2)] + rng.below(5) as i64 - 2;
    let peak = i64::from(report.limit) - away;
    let mean = random_mean(rng);
    let range = u16::try_from(peak - 2 * i64::from(mean)).ok()?;
    Some((mean, range))
}

/// The cycles of a row: at an end of 32 bits, few, or any.
fn random_cycles(rng: &mut Rng) -> u32 {
    match rng.below(4) {
        0 => [0, 1, u32::MAX - 1, u32::MAX, 65_535, 65_536][rng.below(6)],
        1 => rng.below(1_000) as u32,
        _ => rng.next_u64() as u32,
    }
}

/// A row, often near what the report's limit and margin decide.
fn random_row(report: &Report, rng: &mut Rng) -> Row {
    let any = (random_mean(rng), rng.next_u64() as u16);
    let near = near_limit(report, rng).filter(|_| rng.chance(60));
    let (mean, range) = near.unwrap_or(any);
    let range = match rng.below(12) {
        0 => [0, 1, 65_534, 65_535][rng.below(4)],
        _ => range,
    };
    (mean, range, random_cycles(rng))
}

/// A well-formed count file: rows, few or none, at an offset of 4 or more.
pub fn random_count_file(report: &Report, rng: &mut Rng) -> Vec<u8> {
    let count = [0, 1, rng.below(4), rng.below(30)][rng.below(4)];
    let rows: Vec<Row> = (0..count).map(|_| random_row(report, rng)).collect();
    let between = [0, 0, rng.below(9), rng.below(300)][rng.below(4)];
    count_file_with(&rng.bytes(between), &rows)
}

/// A malformed count file, with a label.
pub fn malformed_file(report: &Report, rng: &mut Rng) -> (&'static str, Vec<u8>) {
    let mut file = random_count_file(report, rng);
    let (rows, length) = (u16::from_le_bytes([file[0], file[1]]), file.len());
    match rng.below(9) {
        0 => {
            file.truncate(rng.below(4));
            ("shorter than a header", file)
        }
        1 => {
            // The length is right but for an offset that lies in the header.
            let offset = rng.below(4) as u16;
            let rows = rng.between(1, 20) as u16;
            let mut file = header(rows, offset);
            file.resize(usize::from(offset) + ROW * usize::from(rows), 7);
            ("offset in the header", file)
        }
        2 => {
            let past = rng.between(length + 1, 65_535) as u16;
            file[2..4].copy_from_slice(&past.to_le_bytes());
            ("offset past the end", file)
        }
        3 => {
            file.truncate(length - 1);
            ("a byte less", file)
        }
        4 => {
            file.push(rng.byte());
            ("a byte more", file)
        }
        5 => {
            let other = [rows.wrapping_sub(1), rows + 1, rows ^ 0x2000][rng.below(3)];
            file[..2].copy_from_slice(&other.to_le_bytes());
            ("another row count", file)
        }
        6 => {
            let offset = u16::from_le_bytes([file[2], file[3]]);
            let other = [offset - 1, offset + 1, offset + 8][rng.below(3)];
            file[2..4].copy_from_slice(&other.to_le_bytes());
            ("another offset", file)
        }
        7 => {
            file[..2].copy_from_slice(&(rows + 1).to_le_bytes());
            let part = rng.between(1, ROW - 1);
            file.extend(rng.bytes(part));
            ("last row not whole", file)
        }
        _ => {
            let more = [8, rng.between(2, 40)][rng.below(2)];
            file.extend(rng.bytes(more));
            ("bytes after the rows", file)
        }
    }
}

/// A sum that a few files may bring past 64 bits, or any.
pub fn random_sum(rng: &mut Rng) -> u64 {
    match rng.below(4) {
        0 => u64::MAX - [0, 1, 2, u64::from(u32::MAX)][rng.below(4)],
        1 => u64::MAX - rng.next_u64() % (1 << 36),
        2 => rng.next_u64(),
        _ => rng.next_u64() % 1_000,
    }
}

/// A report without weight that other hands have changed.
pub fn forged_report(rng: &mut Rng) -> Report {
    let margin = [
        u32::from(random_margin(rng)),
        65_536,
        65_537,
        rng.next_u64() as u32,
        u32::MAX,
    ];
    let files = [0, 1, 4_094, 4_095, 4_096, 4_097, 65_536, u32::MAX];
    let mut report = Report {
        cycles: random_sum(rng),
        near: random_sum(rng),
        limit: random_limit(rng),
        has_greatest: [0, 1, 1, 2, 256, u32::MAX][rng.below(6)],
        margin: margin[[0, 0, 1, 2, 3, 4][rng.below(6)]],
        files: files[[0, 1, 2, 3, 3, 4, 5, 6, 7, 0, 1, 2][rng.below(12)]],
        ..Report::default()
    };
    report.greatest = [0, random_limit(rng)][rng.below(2)];
    report
}

/// Some files, malformed ones among them, for a report; each is counted.
pub fn random_files(report: &Report, rng: &mut Rng, tally: &mut Tally) -> Vec<Vec<u8>> {
    let count = [rng.below(4), rng.below(20)][rng.below(2)];
    let mut files = Vec::new();
    for _ in 0..count {
        if rng.chance(25) {
            let (label, file) = malformed_file(report, rng);
            tally.add(label);
            files.push(file);
        } else {
            files.push(random_count_file(report, rng));
        }
    }
    files
}

/// Counts the answer of each file.
pub fn count_numbers(numbers: &[u32], tally: &mut Tally) {
    for number in numbers {
        tally.add(format!("report add {number}"));
    }
}

/// Adds files to a report, in their order, in another, and without those that are refused: the totals are the same. Each answer is counted. If a file
/// gets 25, another order is tried only without those that are refused.
pub fn in_any_order(report: Report, files: &[Vec<u8>], rng: &mut Rng, tally: &mut Tally) -> Report {
    let (told, numbers) = add_all(report, files);
    count_numbers(&numbers, tally);
    let taken = files
        .iter()
        .zip(&numbers)
        .filter(|(_, &number)| number == 0);
    let mut taken: Vec<Vec<u8>> = taken.map(|(file, _)| file.clone()).collect();
    rng.shuffle(&mut taken);
    assert_eq!(totals(report, &taken), told, "without refused files");
    if !numbers.contains(&25) {
        let mut shuffled = files.to_vec();
        rng.shuffle(&mut shuffled);
        assert_eq!(add_all(report, &shuffled).0, told, "in another order");
    }
    told
}

/// A K: at an end of its limits, within them, or out of them.
pub fn random_knee(rng: &mut Rng) -> u32 {
    match rng.below(12) {
        0 => [0, 1_001, 65_543, 65_536, 4_000_000_000, u32::MAX][rng.below(6)],
        1 | 2 => [1, 2, 999, 1_000][rng.below(4)],
        _ => rng.between(1, 1_000) as u32,
    }
}

/// A version and a K; now and then a version that no report has.
pub fn random_weight(rng: &mut Rng) -> (u32, u32) {
    let version = match rng.below(12) {
        0 => [0, 3, 257, 65_538, u32::MAX - 1, u32::MAX][rng.below(6)],
        1..=4 => 1,
        _ => 2,
    };
    (version, random_knee(rng))
}

/// A range at or near the knee, at an end of those that are weighed, or any of these; with `is_above` now and then one above 1,000.
fn weighed_range(knee: u32, is_above: bool, rng: &mut Rng) -> u16 {
    if is_above && rng.chance(30) {
        return [1_001, 1_002, 1_024, 65_535][rng.below(4)];
    }
    let near = (knee.min(1_000) + rng.below(3) as u32).saturating_sub(1);
    match rng.below(4) {
        0 => [0, 1, 2, 999, 1_000][rng.below(5)],
        1 => rng.below(1_001) as u16,
        _ => near.min(1_000) as u16,
    }
}

/// A well-formed count file for a report with a weight.
pub fn weighed_file(report: &Report, rng: &mut Rng) -> Vec<u8> {
    let count = [0, 1, rng.below(4), rng.below(20)][rng.below(4)];
    let is_above = rng.chance(15);
    let has_many = rng.chance(20);
    let rows: Vec<Row> = (0..count)
        .map(|_| {
            let cycles = if has_many {
                random_cycles(rng)
            } else {
                rng.below(900) as u32
            };
            let range = weighed_range(report.knee, is_above, rng);
            (random_mean(rng), range, cycles)
        })
        .collect();
    let between = [0, 0, rng.below(9)][rng.below(3)];
    count_file_with(&rng.bytes(between), &rows)
}

/// Some files, malformed ones among them, for a report with a weight; each malformed one is counted.
pub fn weighed_files(report: &Report, rng: &mut Rng, tally: &mut Tally) -> Vec<Vec<u8>> {
    let count = [rng.below(4), rng.below(16)][rng.below(2)];
    let mut files = Vec::new();
    for _ in 0..count {
        if rng.chance(15) {
            let (label, file) = malformed_file(report, rng);
            tally.add(label);
            files.push(file);
        } else {
            files.push(weighed_file(report, rng));
        }
    }
    files
}

/// A report, with a weight or without, that other hands have changed.
pub fn forged_weighted_report(rng: &mut Rng) -> Report {
    let (version, knee) = random_weight(rng);
    let weight = match rng.below(3) {
        0 => u64::MAX - rng.next_u64() % 1_000_000_000_000_000_000,
        _ => random_sum(rng),
    };
    let mut report = Report {
        weight,
        version,
        knee,
        ..forged_report(rng)
    };
    if rng.chance(70) {
        // Not full yet, so that the weight decides.
        (report.cycles, report.near) = (report.cycles / 2, report.near / 2);
        report.files %= MOST_FILES;
    }
    report
}

//! The office's quarterly report: the totals of all count files of several dumps.
//!
//!     tools/build
//!     cargo run --offline --manifest-path rust/Cargo.toml --example quarter -- 900 50 7,8 samples/counts.dump samples/counts-cut.dump
//!
//! The arguments are the report's limit and margin, its weight if it has one, the extension numbers that are count files, with commas between them, then
//! the dumps. The weight is `v1` for version 1, or `v2:300` for version 2 with the knee 300. A file of such an extension is added wherever it stands,
//! below hidden directories too.
//!
//! A file that is refused and a dump that is refused are named on standard error. The totals are then headed `incomplete`, and the status is 1: no count
//! is left out without a word.

use std::env;
use std::fs;
use std::process::ExitCode;

use owfs::{entries, owner_table, read_to_vec, Geometry, Listed, Refusal, Report, Weighting};

/// The bytes of a dump's header: page length (2), page count (2), offset of page 0 (4), low byte first.
const HEADER: usize = 8;

/// What stands on standard error if the arguments are not as above.
const USAGE: &str = "arguments: limit, margin, v1 or v2:K if the report has a weight, extension numbers with commas between them, dumps\n";

/// A dump that is malformed, as `list` tells it.
const MALFORMED: Refusal = Refusal {
    number: 19,
    page: 0,
};

/// The quarter's report: the totals so far, the dumps that were accepted, and what was left out.
struct Quarter {
    report: Report,
    extensions: Vec<u8>,
    dumps: u32,
    left_out: Vec<String>,
}

/// A number, low byte first.
fn number(bytes: &[u8]) -> u32 {
    let high_first = bytes.iter().rev();
    high_first.fold(0, |number, &byte| number << 8 | u32::from(byte))
}

/// The greatest offset of page 0, and the most bytes of an image, that `list` takes.
const MOST: usize = 32_768;

/// The geometry and the image of a dump; none if it is malformed as `list` says: no whole header, an offset out of its limits, a longer image.
fn parts(dump: &[u8]) -> Option<(Geometry, &[u8])> {
    let header = dump.get(..HEADER)?;
    let offset = number(&header[4..8]) as usize;
    let image = dump
        .get(offset..)
        .filter(|image| offset >= HEADER && offset <= MOST && image.len() <= MOST)?;
    let geometry = Geometry::new(number(&header[..2]), number(&header[2..4]));
    Some((geometry, image))
}

/// A file's path in words.
fn words(file: &Listed) -> String {
    let above: String = file
        .directories
        .iter()
        .map(|name| format!("{name}/"))
        .collect();
    format!("{above}{}.{:03}", file.entry.name, file.entry.extension)
}

impl Quarter {
    /// Adds the count files of a dump; those that are refused are left out, or the dump if it is refused itself.
    fn add_dump(&mut self, name: &str, dump: &[u8]) {
        match self.add_files(name, dump) {
            Ok(()) => self.dumps += 1,
            Err(refusal) => {
                let Refusal { number, page } = refusal;
                let line = format!("{name}: refused {number} page {page}");
                self.left_out.push(line);
            }
        }
    }

    /// Adds the count files of a dump that is accepted.
    fn add_files(&mut self, name: &str, dump: &[u8]) -> Result<(), Refusal> {
        let (geometry, image) = parts(dump).ok_or(MALFORMED)?;
        let mut owners = owner_table(geometry.page_count);
        let all: Result<Vec<Listed>, Refusal> = entries(geometry, image, &mut owners).collect();
        let mut files = Vec::new();
        for listed in all? {
            let path = listed
                .path()
                .filter(|_| self.extensions.contains(&listed.entry.extension));
            let Some(path) = path else {
                continue;
            };
            let file = read_to_vec(geometry, image, &path, &mut owners)?;
            files.push((words(&listed), file));
        }
        for (file, bytes) in files {
            if let Err(refusal) = self.report.add(&bytes) {
                let number = refusal.number;
                self.left_out
                    .push(format!("{name}: file {file} refused {number}"));
            }
        }
        Ok(())
    }

    /// The totals in words; if anything was left out they are headed `incomplete`.
    fn totals(&self) -> String {
        let report = &self.report;
        let heading = match self.left_out.len() {
            0 => String::new(),
            count => format!("incomplete: left out {count}\n"),
        };
        let greatest = match report.greatest() {
            Some(peak) => format!("greatest doubled peak {peak}"),
            None => String::from("no greatest doubled peak"),
        };
        let weight = match report.weighting() {
            None => String::new(),
            Some(Weighting::Version1) => format!("weight {} version 1\n", report.weight()),
            Some(Weighting::Version2 { knee }) => {
                let weight = report.weight();
                format!("weight {weight} version 2 knee {knee} times knee squared\n")
            }
        };
        format!(
            "{heading}dumps {} count files {}\ncycles {}\n{greatest}\nnear misses {} limit {} margin {}\n{weight}",
            self.dumps,
            report.files(),
            report.cycles(),
            report.near_misses(),
            report.limit(),
            report.margin(),
        )
    }
}

/// An extension number of a file.
fn extension(text: &str) -> Option<u8> {
    text.parse().ok().filter(|&number| number <= 99)
}

/// The weight that an argument names; none if it names none.
fn weighting(text: &str) -> Option<Weighting> {
    if text == "v1" {
        return Some(Weighting::Version1);
    }
    let knee = text.strip_prefix("v2:")?.parse().ok()?;
    Some(Weighting::Version2 { knee })
}

/// The report that the arguments ask for, with nothing added yet, and the dumps; none if they are not as above.
fn asked(arguments: &[String]) -> Option<(Quarter, &[String])> {
    let (limit, rest) = arguments.split_first()?;
    let (margin, rest) = rest.split_first()?;
    let (limit, margin) = (limit.parse().ok()?, margin.parse().ok()?);
    let (report, rest) = match rest.first().and_then(|text| weighting(text)) {
        Some(weighting) => (Report::start_weighted(limit, margin, weighting), &rest[1..]),
        None => (Report::start(limit, margin), rest),
    };
    let (extensions, dumps) = rest.split_first().filter(|(_, dumps)| !dumps.is_empty())?;
    let extensions: Option<Vec<u8>> = extensions.split(',').map(extension).collect();
    let quarter = Quarter {
        report,
        extensions: extensions?,
        dumps: 0,
        left_out: Vec::new(),
    };
    Some((quarter, dumps))
}

fn main() -> ExitCode {
    let arguments: Vec<String> = env::args().skip(1).collect();
    let Some((mut quarter, dumps)) = asked(&arguments) else {
        eprint!("{USAGE}");
        return ExitCode::from(2);
    };
    for name in dumps {
        match fs::read(name) {
            Ok(dump) => quarter.add_dump(name, &dump),
            Err(error) => quarter.left_out.push(format!("{name}: {error}")),
        }
    }
    for line in &quarter.left_out {
        eprintln!("{line}");
    }
    print!("{}", quarter.totals());
    match quarter.left_out[..] {
        [] => ExitCode::SUCCESS,
        _ => ExitCode::FAILURE,
    }
}

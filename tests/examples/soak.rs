//! A robustness run: the library against the second program on fresh seeds, for some minutes (ten if none are given):
//!
//!     cargo run --release --offline --manifest-path tests/Cargo.toml --example soak -- [minutes] [seed]
//!
//! Without a seed the clock gives one; it is printed. Every round has a seed of its own, the next after that of the round before, and makes
//! every call with images of every kind, a long run of edits, reports on count files, and now and then an image of tens of thousands of pages, and
//! dumps for the program `list`. Every answer and every lent byte is compared. If anything differs, the round's seed and the case are printed and the status is 1; a run
//! with that seed starts with that round.
//!
//! `tools/build` makes the archive and the program `list`.

use std::any::Any;
use std::env;
use std::panic::{catch_unwind, AssertUnwindSafe};
use std::process::ExitCode;
use std::time::{Duration, Instant, SystemTime, UNIX_EPOCH};

use common::dumps::{compare, faulty_dump, malformed_dump, sound_dump};
use common::edit_runs::Run;
use common::generators::{
    any_case, case_of, crowded_plan, large_image, random_case, random_sizes, stamped_plan,
    worn_plan, Case, Kind, Made, OWNER_TABLES,
};
use common::plans::{formatted_plan, geometry, may_be_local};
use common::puts::used_plan;
use common::reports::{
    add_all, count_numbers, forged_weighted_report, in_any_order, random_files, random_limit,
    random_margin, random_weight, weighed_files,
};
use common::trials::Trial;
use common::{agreed, Button, Tally};
use referee::builder::plan::ImagePlan;
use referee::rng::Rng;

/// The time of a run if none is given.
const MINUTES: f64 = 10.0;

/// The time between two reports.
const REPORT: Duration = Duration::from_secs(60);

/// The calls that are counted.
const CALLS: [&str; 13] = [
    "check",
    "list",
    "read",
    "format",
    "put",
    "delete",
    "careful put",
    "careful delete",
    "mend",
    "gather",
    "make directory",
    "remove directory",
    "report add",
];

/// What was done so far.
struct Soak {
    start: Instant,
    rounds: u64,
    /// The case that is tried.
    case: String,
    cases: u64,
    kinds: Tally,
    geometries: Tally,
    calls: Tally,
}

/// The class of a page length.
fn length_class(page_length: u32) -> &'static str {
    match page_length {
        32 => " 32",
        33..=63 => " 33 to 63",
        64..=127 => " 64 to 127",
        128..=255 => "128 to 255",
        _ => "256",
    }
}

/// The class of a page count.
fn count_class(page_count: u32) -> &'static str {
    match page_count {
        ..=32 => "     2 to 32",
        33..=255 => "    33 to 255",
        256 => "   256",
        257..=999 => "   257 to 999",
        1_000..=5_000 => " 1,000 to 5,000",
        5_001..=65_534 => " 5,001 to 65,534",
        _ => "65,535",
    }
}

/// The class of an image: page length, page count, bytes of a page number, and where page 0 says that the bitmap is.
fn geometry_class(button: &Button) -> String {
    let geometry = geometry(button.page_length, button.page_count);
    let numbers = match geometry.number_length() {
        1 => "one-byte",
        _ => "two-byte",
    };
    let bitmap = match button.image[2 + geometry.number_length()] & 0x80 {
        0 => "bitmap file",
        _ => "local bitmap",
    };
    format!(
        "page length {:<10}  page count {:<16}  {numbers} page numbers  {bitmap}",
        length_class(button.page_length),
        count_class(button.page_count),
    )
}

impl Soak {
    /// Nothing done yet.
    fn new() -> Soak {
        Soak {
            start: Instant::now(),
            rounds: 0,
            case: String::new(),
            cases: 0,
            kinds: Tally::default(),
            geometries: Tally::default(),
            calls: Tally::default(),
        }
    }

    /// Counts a case and keeps what it is.
    fn begin(&mut self, kind: &str, detail: &str) {
        self.case = format!("{kind}{detail}");
        self.cases += 1;
        self.kinds.add(kind);
    }

    /// Counts a case with an image.
    fn begin_image(&mut self, kind: &str, button: &Button) {
        let (page_length, page_count) = (button.page_length, button.page_count);
        let detail = format!(", {page_count} pages of {page_length} bytes");
        self.begin(kind, &detail);
    }

    /// Every call with the image of a case.
    fn trial(&mut self, kind: &str, case: &Case, rng: &mut Rng) {
        self.begin_image(kind, &case.button);
        self.geometries.add(match case.made {
            Made::Misfit | Made::Any => String::from("any bytes, or arguments that do not fit"),
            _ => geometry_class(&case.button),
        });
        let tally = &mut self.calls;
        Trial { case, rng, tally }.all_calls();
    }

    /// Counts a run of calls on the image of a plan.
    fn begin_run(&mut self, kind: &str, plan: &ImagePlan) {
        let button = Button::from(&plan.build());
        self.begin_image(kind, &button);
        self.geometries.add(geometry_class(&button));
    }

    /// Every call with an image of many stamps, sound or of another kind.
    fn stamps(&mut self, rng: &mut Rng) {
        let kinds = Kind::each(rng);
        for kind in [Kind::Sound, kinds[rng.below(kinds.len())]] {
            if let Some(case) = case_of(kind, stamped_plan(rng).build(), rng) {
                self.trial(&format!("with stamps, {}", words(kind)), &case, rng);
            }
        }
    }

    /// A run of calls on an image in use, with many stamps or any, or on a formatted one.
    fn edits(&mut self, rng: &mut Rng) {
        let steps = steps(rng);
        if rng.chance(25) {
            let plan = stamped_plan(rng);
            self.begin_run("edits of an image with stamps", &plan);
            return Run::generated(plan, rng, &mut self.calls).run(steps);
        }
        if rng.chance(75) {
            let plan = used_plan(rng.next_u64(), rng);
            self.begin_run("edits of an image in use", &plan);
            return Run::generated(plan, rng, &mut self.calls).run(steps);
        }
        let most = [32, 300, 300, 2_000][rng.below(4)];
        let sizes = random_sizes(rng, most);
        self.formatted_edits("edits of a formatted image", sizes, steps, rng);
    }

    /// A run of calls on a formatted image.
    fn formatted_edits(&mut self, kind: &str, sizes: (u32, u32), steps: usize, rng: &mut Rng) {
        let (page_length, page_count) = sizes;
        let local = u32::from(may_be_local(page_count) && rng.chance(50));
        self.begin_run(kind, &formatted_plan(page_length, page_count, local != 0));
        Run::formatted(page_length, page_count, local, rng, &mut self.calls).run(steps);
    }

    /// An image of tens of thousands of pages: every call with it, or some edits.
    fn large(&mut self, rng: &mut Rng) {
        if rng.chance(20) {
            let sizes = (
                rng.between(32, 256) as u32,
                rng.between(5_001, 65_535) as u32,
            );
            return self.formatted_edits("edits of a large image", sizes, 10, rng);
        }
        let kinds = Kind::each(rng);
        let kind = kinds[rng.below(kinds.len())];
        if let Some(case) = case_of(kind, large_image(rng), rng) {
            self.trial(&format!("large, {}", words(kind)), &case, rng);
        }
    }

    /// A dump of each kind for the program `list`.
    fn dumps(&mut self, rng: &mut Rng) {
        for (kind, dump) in [
            ("dump of a sound image", sound_dump(rng).1),
            ("dump with faults", faulty_dump(rng.next_u64(), rng)),
            ("malformed dump", malformed_dump(rng.next_u64(), rng).1),
        ] {
            self.begin(kind, &format!(", {} bytes", dump.len()));
            compare(&dump, &mut self.calls);
        }
    }

    /// Check sums of bytes of any length, started with any number.
    fn sums(&mut self, rng: &mut Rng) {
        let length = [rng.below(40), rng.below(5_000)][rng.below(2)];
        self.begin("check sum", &format!(" of {length} bytes"));
        agreed::crc16(rng.next_u64() as u16, &rng.bytes(length));
    }

    /// Reports on count files: without weight and with one, each with its files in several orders, and one that other hands have changed.
    fn reports(&mut self, rng: &mut Rng) {
        let (limit, margin) = (random_limit(rng), random_margin(rng));
        self.begin("report", &format!(", limit {limit}, margin {margin}"));
        let start = agreed::report_start(limit, margin);
        let files = random_files(&start, rng, &mut self.calls);
        in_any_order(start, &files, rng, &mut self.calls);
        let (version, knee) = random_weight(rng);
        self.begin(
            "report with a weight",
            &format!(", version {version}, K {knee}"),
        );
        let start = agreed::report_start_weighted(limit, margin, version, knee);
        let files = weighed_files(&start, rng, &mut self.calls);
        in_any_order(start, &files, rng, &mut self.calls);
        self.begin("forged report", "");
        let forged = forged_weighted_report(rng);
        let files = weighed_files(&forged, rng, &mut self.calls);
        count_numbers(&add_all(forged, &files).1, &mut self.calls);
    }

    /// A case of every kind, and a run of edits.
    fn round(&mut self, rng: &mut Rng) {
        for kind in Kind::each(rng) {
            let case = random_case(kind, rng);
            self.trial(words(kind), &case, rng);
        }
        if let Some(case) = case_of(Kind::Sound, worn_plan(rng).build(), rng) {
            self.trial("worn image", &case, rng);
        }
        if let Some(case) = case_of(Kind::Sound, crowded_plan(1_000, rng).build(), rng) {
            self.trial("crowded image", &case, rng);
        }
        self.trial("any bytes", &any_case(rng), rng);
        self.stamps(rng);
        self.sums(rng);
        self.reports(rng);
        self.edits(rng);
        if rng.chance(5) {
            self.dumps(rng);
        }
        if rng.chance(2) {
            self.large(rng);
        }
    }

    /// Prints the counts.
    fn report(&self) {
        let calls: u64 = CALLS.iter().map(|call| self.calls_of(call)).sum();
        println!();
        println!(
            "after {} s: {} rounds, {} cases, {calls} calls",
            self.start.elapsed().as_secs(),
            self.rounds,
            self.cases
        );
        println!("answers by call, each number with its count:");
        for call in CALLS {
            println!("  {call:<18}{}", self.numbers(call));
        }
        println!("program list, 0 or the number refused:");
        println!("  {}{}", self.numbers("accepted"), self.numbers("refused"));
        println!("owner tables:");
        for label in OWNER_TABLES {
            println!("{:8} {label}", self.calls.count(label));
        }
        println!("cases by kind:");
        self.kinds.print();
        println!("cases by geometry:");
        self.geometries.print();
    }

    /// How many times a function was called.
    fn calls_of(&self, call: &str) -> u64 {
        let numbers = self.calls.numbers(call).into_iter();
        numbers.map(|(_, count)| count).sum()
    }

    /// The numbers that a call answered, each with its count.
    fn numbers(&self, call: &str) -> String {
        let numbers = self.calls.numbers(call).into_iter();
        let words = numbers.map(|(number, count)| format!("  {number}: {count}"));
        words.collect()
    }
}

/// What a kind of case is called.
fn words(kind: Kind) -> &'static str {
    match kind {
        Kind::Sound => "sound image",
        Kind::OneFault(_) => "one fault",
        Kind::TwoFaults(_) => "two faults",
        Kind::Damaged(Made::Sealed) => "changes with repaired check sums",
        Kind::Damaged(Made::Flipped) => "flipped bits",
        Kind::Damaged(Made::Packets) => "random packets",
        Kind::Damaged(_) => "arguments that do not fit",
    }
}

/// The number of calls in a run of edits: often some dozens, sometimes a thousand.
fn steps(rng: &mut Rng) -> usize {
    match rng.below(20) {
        0 => 1_000,
        1..=4 => 200,
        _ => 40,
    }
}

/// The time and the seed that are given; none if they are no such numbers.
fn arguments() -> Option<(Duration, Option<u64>)> {
    let mut given = env::args().skip(1);
    let minutes = match given.next() {
        Some(text) => text.parse().ok()?,
        None => MINUTES,
    };
    let time = Duration::try_from_secs_f64(60.0 * minutes).ok()?;
    let seed = match given.next() {
        Some(text) => Some(text.parse().ok()?),
        None => None,
    };
    given.next().is_none().then_some((time, seed))
}

/// A seed by the clock.
fn clock_seed() -> u64 {
    let time = SystemTime::now().duration_since(UNIX_EPOCH);
    time.map_or(0, |time| time.as_nanos() as u64)
}

/// What a panic said.
fn message(panic: &(dyn Any + Send)) -> &str {
    let made = panic.downcast_ref::<String>().map(String::as_str);
    let fixed = panic.downcast_ref::<&str>().copied();
    made.or(fixed).unwrap_or("")
}

/// Rounds until the time is over; the first case that differs ends them.
fn run(soak: &mut Soak, time: Duration, seed: u64) -> Result<(), String> {
    let mut next_report = REPORT;
    while soak.start.elapsed() < time {
        let round_seed = seed.wrapping_add(soak.rounds);
        let round = AssertUnwindSafe(|| soak.round(&mut Rng::new(round_seed)));
        if let Err(panic) = catch_unwind(round) {
            let (case, message) = (&soak.case, message(&*panic));
            return Err(format!("seed {round_seed}, {case}: {message}"));
        }
        soak.rounds += 1;
        if soak.start.elapsed() >= next_report {
            soak.report();
            next_report += REPORT;
        }
    }
    Ok(())
}

fn main() -> ExitCode {
    let Some((time, seed)) = arguments() else {
        eprintln!("soak [minutes] [seed]");
        return ExitCode::from(2);
    };
    let seed = seed.unwrap_or_else(clock_seed);
    println!("{} s from seed {seed}", time.as_secs());
    let mut soak = Soak::new();
    let outcome = run(&mut soak, time, seed);
    soak.report();
    println!();
    match outcome {
        Ok(()) => {
            println!("nothing differed, from seed {seed}");
            ExitCode::SUCCESS
        }
        Err(case) => {
            println!("DIFFERENT: {case}");
            ExitCode::FAILURE
        }
    }
}

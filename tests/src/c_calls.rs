//! The calls that the C program `tests/c/calls.c` is told to make, and what it must print of each, by the second program's answers.

use crate::{Button, BEFORE};
use referee::{Answer, Length, Listing, Mended, Report, Totals, Writes};

/// A call that the C program is told to make.
pub enum Call {
    Check {
        owner_bytes: usize,
    },
    List {
        owner_bytes: usize,
        position: u32,
    },
    Read {
        owner_bytes: usize,
        path: Vec<u8>,
        out_bytes: usize,
    },
    Format {
        owner_bytes: usize,
        local: u32,
    },
    Put {
        owner_bytes: usize,
        path: Vec<u8>,
        bytes: Vec<u8>,
    },
    Delete {
        owner_bytes: usize,
        path: Vec<u8>,
    },
    CarefulPut {
        owner_bytes: usize,
        path: Vec<u8>,
        bytes: Vec<u8>,
        allowed: u32,
    },
    CarefulDelete {
        owner_bytes: usize,
        path: Vec<u8>,
        allowed: u32,
    },
    Mend {
        owner_bytes: usize,
    },
    Gather {
        owner_bytes: usize,
        copy_bytes: usize,
    },
    MakeDirectory {
        owner_bytes: usize,
        path: Vec<u8>,
    },
    RemoveDirectory {
        owner_bytes: usize,
        path: Vec<u8>,
    },
    ReportStart {
        limit: i32,
        margin: u16,
    },
    ReportStartWeighted {
        limit: i32,
        margin: u16,
        version: u32,
        knee: u32,
    },
    ReportAdd {
        report: Report,
        file: Vec<u8>,
    },
}

impl Call {
    /// The bytes of its owner table; 0 if it has none.
    fn owner_bytes(&self) -> usize {
        match self {
            Call::Check { owner_bytes }
            | Call::List { owner_bytes, .. }
            | Call::Read { owner_bytes, .. }
            | Call::Format { owner_bytes, .. }
            | Call::Put { owner_bytes, .. }
            | Call::Delete { owner_bytes, .. }
            | Call::CarefulPut { owner_bytes, .. }
            | Call::CarefulDelete { owner_bytes, .. }
            | Call::MakeDirectory { owner_bytes, .. }
            | Call::RemoveDirectory { owner_bytes, .. }
            | Call::Gather { owner_bytes, .. }
            | Call::Mend { owner_bytes } => *owner_bytes,
            Call::ReportStart { .. }
            | Call::ReportStartWeighted { .. }
            | Call::ReportAdd { .. } => 0,
        }
    }

    /// Its path; no bytes if it has none.
    fn path(&self) -> &[u8] {
        match self {
            Call::Read { path, .. }
            | Call::Put { path, .. }
            | Call::Delete { path, .. }
            | Call::CarefulPut { path, .. }
            | Call::CarefulDelete { path, .. }
            | Call::MakeDirectory { path, .. }
            | Call::RemoveDirectory { path, .. } => path,
            _ => &[],
        }
    }

    /// The bytes of the file to put or to add; none if there is none.
    fn file(&self) -> &[u8] {
        match self {
            Call::Put { bytes, .. } | Call::CarefulPut { bytes, .. } => bytes,
            Call::ReportAdd { file, .. } => file,
            _ => &[],
        }
    }

    /// The bytes of its output or copy.
    fn out_bytes(&self) -> usize {
        match self {
            Call::Read { out_bytes, .. } => *out_bytes,
            Call::Gather { copy_bytes, .. } => *copy_bytes,
            _ => 0,
        }
    }

    /// The call as the C program reads it: letter and numbers, then path and file.
    pub fn bytes(&self) -> Vec<u8> {
        let [owners, path, file, out] = [
            self.owner_bytes(),
            self.path().len(),
            self.file().len(),
            self.out_bytes(),
        ]
        .map(|length| length as u32);
        let request = match *self {
            Call::Check { .. } => request(b'c', &[owners]),
            Call::List { position, .. } => request(b'l', &[owners, position]),
            Call::Read { .. } => request(b'r', &[owners, path, out]),
            Call::Format { local, .. } => request(b'f', &[owners, local]),
            Call::Put { .. } => request(b'p', &[owners, path, file]),
            Call::Delete { .. } => request(b'd', &[owners, path]),
            Call::CarefulPut { allowed, .. } => request(b'P', &[owners, path, file, allowed]),
            Call::CarefulDelete { allowed, .. } => request(b'D', &[owners, path, allowed]),
            Call::Mend { .. } => request(b'm', &[owners]),
            Call::Gather { .. } => request(b'g', &[owners, out]),
            Call::MakeDirectory { .. } => request(b'n', &[owners, path]),
            Call::RemoveDirectory { .. } => request(b'x', &[owners, path]),
            Call::ReportStart { limit, margin } => {
                request(b't', &[limit as u32, u32::from(margin)])
            }
            Call::ReportStartWeighted {
                limit,
                margin,
                version,
                knee,
            } => request(b'w', &[limit as u32, u32::from(margin), version, knee]),
            Call::ReportAdd { ref report, .. } => {
                request(b'a', &[&report_numbers(report)[..], &[file]].concat())
            }
        };
        [&request, self.path(), self.file()].concat()
    }

    /// The lines that the C program must print, from the second program's answer; an edit is left in the button.
    pub fn expected(&self, button: &mut Button) -> String {
        let mut owners = vec![BEFORE; self.owner_bytes()];
        let mut out = vec![BEFORE; self.out_bytes()];
        let first = self.answer_line(button, &mut owners, &mut out);
        let last = match self {
            Call::ReportStart { .. }
            | Call::ReportStartWeighted { .. }
            | Call::ReportAdd { .. } => return first,
            Call::Check { .. } | Call::List { .. } => String::new(),
            Call::Read { .. } | Call::Gather { .. } => hex(&out),
            _ => hex(&button.image),
        };
        format!("{first}{}{last}", hex(&owners))
    }

    /// The line of the second program's answer; an edit is left in the button.
    fn answer_line(&self, button: &mut Button, owners: &mut [u8], out: &mut [u8]) -> String {
        let (p, n, image) = (button.page_length, button.page_count, &mut button.image);
        let (path, file) = (self.path(), self.file());
        match *self {
            Call::Check { .. } => check_line(referee::check(p, n, image, owners)),
            Call::List { position, .. } => list_line(referee::list(p, n, image, owners, position)),
            Call::Read { .. } => read_line(referee::read(p, n, image, path, out, owners)),
            Call::Format { local, .. } => {
                edit_line('f', referee::format(p, n, image, owners, local))
            }
            Call::Put { .. } => edit_line('p', referee::put(p, n, image, path, file, owners)),
            Call::Delete { .. } => edit_line('d', referee::delete(p, n, image, path, owners)),
            Call::CarefulPut { allowed, .. } => {
                let told = referee::careful_put(p, n, image, path, file, owners, allowed);
                careful_line('P', told)
            }
            Call::CarefulDelete { allowed, .. } => {
                let told = referee::careful_delete(p, n, image, path, owners, allowed);
                careful_line('D', told)
            }
            Call::Mend { .. } => mend_line(referee::mend(p, n, image, owners)),
            Call::Gather { .. } => edit_line('g', referee::gather(p, n, image, out, owners)),
            Call::MakeDirectory { .. } => {
                edit_line('n', referee::make_directory(p, n, image, path, owners))
            }
            Call::RemoveDirectory { .. } => {
                edit_line('x', referee::remove_directory(p, n, image, path, owners))
            }
            Call::ReportStart { limit, margin } => {
                format!("t{}", report_end(&referee::report_start(limit, margin)))
            }
            Call::ReportStartWeighted {
                limit,
                margin,
                version,
                knee,
            } => {
                let told = referee::report_start_weighted(limit, margin, version, knee);
                format!("w{}", report_end(&told))
            }
            Call::ReportAdd { report, .. } => {
                let told = referee::report_add(report, file);
                let end = report_end(&told.report);
                format!("a {} {}{end}", told.number, told.page)
            }
        }
    }
}

/// The line of a check.
fn check_line(told: Totals) -> String {
    let fields = [told.page, told.used, told.files, told.directories];
    line('c', told.number, &fields)
}

/// The line of a listing.
fn list_line(told: Listing) -> String {
    let fields = [
        told.page,
        told.level,
        told.name,
        told.extension,
        told.attribute,
        told.start,
        told.pages,
        told.length,
    ];
    line('l', told.number, &fields)
}

/// The line of a read.
fn read_line(told: Length) -> String {
    line('r', told.number, &[told.page, told.length])
}

/// The line of a format, a put, a delete, a gather or the making or removing of a directory.
fn edit_line(letter: char, told: Answer) -> String {
    line(letter, told.number, &[told.page])
}

/// The line of a careful put or a careful delete.
fn careful_line(letter: char, told: Writes) -> String {
    line(letter, told.number, &[told.page, told.made, told.left])
}

/// The line of a mend.
fn mend_line(told: Mended) -> String {
    line('m', told.number, &[told.page, told.cleared])
}

/// The fields of a report as numbers of 4 bytes, two for each of 8 bytes, the low one first.
fn report_numbers(report: &Report) -> Vec<u32> {
    let long = [report.cycles, report.near, report.weight];
    let mut numbers: Vec<u32> = long
        .iter()
        .flat_map(|&number| [number as u32, (number >> 32) as u32])
        .collect();
    numbers.extend([report.limit as u32, report.greatest as u32]);
    numbers.extend([report.has_greatest, report.margin, report.version]);
    numbers.extend([report.knee, report.files]);
    numbers
}

/// The end of a line with a report.
fn report_end(report: &Report) -> String {
    let Report {
        cycles,
        near,
        weight,
        limit,
        greatest,
        has_greatest,
        margin,
        version,
        knee,
        files,
    } = report;
    format!(
        " {cycles} {near} {weight} {limit} {greatest} {has_greatest} {margin} {version} {knee} {files}\n"
    )
}

/// A letter and numbers of 4 bytes, low byte first.
pub fn request(letter: u8, numbers: &[u32]) -> Vec<u8> {
    let mut bytes = vec![letter];
    bytes.extend(numbers.iter().flat_map(|number| number.to_le_bytes()));
    bytes
}

/// The line of an answer.
fn line(letter: char, number: u32, fields: &[u32]) -> String {
    let fields: String = fields.iter().map(|field| format!(" {field}")).collect();
    format!("{letter} {number}{fields}\n")
}

/// Bytes in hexadecimal, as a line.
fn hex(bytes: &[u8]) -> String {
    let digits = b"0123456789abcdef";
    let mut text = String::with_capacity(2 * bytes.len() + 1);
    for byte in bytes {
        text.push(char::from(digits[usize::from(byte >> 4)]));
        text.push(char::from(digits[usize::from(byte & 15)]));
    }
    text.push('\n');
    text
}

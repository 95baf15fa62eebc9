//! Files in the 1-Wire File Structure (Application Note 114) on a lent image of one memory button: format, check, list, read, put, delete;
//! make and remove directories; careful put, careful delete and mend, for a button that may be pulled off its probe; gather, for a crowded button;
//! and reports on count files.
//!
//! The calls are those of `include/owfs.h`, with slices, results and named fields. Any arguments are taken: what does not fit is refused, and nothing
//! panics. The caller lends the memory that a call works on, an owner table too, which tells afterwards who has each page and where in its chain the
//! page stands. A call needs less than 16 KiB of stack, whatever the image.
//!
//! The code of the calls, for x86-64, is in the archive `libowfs.a`, which `tools/build` makes in `target/staticlib`. The variable
//! `OWFS_LIB_DIR` names another folder where it stands when the crate is built; if it is not absolute, it starts at the crate's.
//!
//! ```
//! use owfs::{check, owner_of, owner_table, path, put, read, Bitmap, Geometry, Owner, Reason, Record};
//!
//! let geometry = Geometry::new(32, 16);
//! let mut image = vec![0; 32 * 16];
//! let mut owners = owner_table(geometry.page_count);
//! owfs::format(geometry, &mut image, &mut owners, Bitmap::Local)?;
//!
//! let demo = path(&[], "DEMO", 12)?;
//! put(geometry, &mut image, &demo, b"TEST", &mut owners)?;
//! assert_eq!(owner_of(&owners, 1), Some(Record { owner: Owner::Entry(0), place: 0 }));
//!
//! let mut out = [0; 10];
//! let length = read(geometry, &image, &demo, &mut out, &mut owners)?;
//! assert_eq!(&out[..length], b"TEST");
//!
//! let totals = check(geometry, &image, &mut owners)?;
//! assert_eq!((totals.used, totals.files, totals.directories), (2, 1, 0));
//!
//! // A damaged page is refused by its number.
//! image[32 + 1] ^= 1;
//! let refusal = check(geometry, &image, &mut owners).unwrap_err();
//! assert_eq!((refusal.reason(), refusal.page), (Reason::Packet, 1));
//! # Ok::<(), Box<dyn std::error::Error>>(())
//! ```
#![deny(missing_docs)]
#![deny(unsafe_code)]

mod calls;
mod entry;
mod owners;
mod path;
#[allow(unsafe_code)]
pub mod raw;
mod refusal;
mod report;

pub use calls::{
    careful_delete, careful_put, check, crc16, delete, format, gather, list, make_directory, mend,
    put, read, read_to_vec, remove_directory, Bitmap, Geometry, Totals, Writes,
};
pub use entry::{entries, Entries, Entry, Kind, Listed};
pub use owners::{owner_of, owner_table, Owner, Record};
pub use path::{directory_path, path, Name, PathError};
pub use refusal::{Reason, Refusal};
pub use report::{Report, Weighting};

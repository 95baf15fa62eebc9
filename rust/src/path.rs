//! Names, and paths of files and of directories.

use std::error::Error;
use std::fmt;

/// The marks that a name may have besides A to Z and 0 to 9.
const MARKS: &[u8] = b"!#$%&'@^_`{}~";

/// The most directory names of a path.
const MOST_DIRECTORIES: usize = 8;

/// The greatest extension number of a file.
const MOST_EXTENSION: u8 = 99;

/// The name of a file or a directory: one to four of A to Z, 0 to 9 and ``! # $ % & ' @ ^ _ ` { } ~``.
#[derive(Clone, Copy, PartialEq, Eq, PartialOrd, Ord, Hash)]
pub struct Name {
    stored: [u8; 4],
}

/// Why names and an extension number are no path.
#[derive(Clone, Debug, PartialEq, Eq, Hash)]
pub enum PathError {
    /// This is no name: it is empty or longer than four bytes, or has a byte that names do not have.
    Name(String),
    /// So many directory names are more than eight.
    Directories(usize),
    /// There is no name: a directory's path has one at least.
    Empty,
    /// This extension number is above 99.
    Extension(u8),
}

/// The bytes of a file's path: the names of the directories that lead to it, the highest first, its own name, and its extension number.
/// Names shorter than four bytes are filled with blanks.
///
/// The library refuses no path made here with 14. Whether the directories and the file are there is another matter (15).
///
/// ```
/// assert_eq!(owfs::path(&[], "DEMO", 12)?, b"DEMO\x0C");
/// assert_eq!(owfs::path(&["LAB", "A1"], "X", 0)?, b"LAB A1  X   \x00");
/// assert!(owfs::path(&[], "demo", 12).is_err());
/// # Ok::<(), owfs::PathError>(())
/// ```
///
/// # Errors
///
/// What cannot be a path: a name that is none, more than eight directories, an extension number above 99.
pub fn path(directories: &[&str], name: &str, extension: u8) -> Result<Vec<u8>, PathError> {
    let names: Result<Vec<Name>, PathError> =
        directories.iter().map(|text| Name::new(text)).collect();
    path_of(&names?, Name::new(name)?, extension)
}

/// The bytes of a directory's path, as [`crate::make_directory`] and [`crate::remove_directory`] take it: the names of the directories that lead to
/// it, the highest first, and its own name last. Names shorter than four bytes are filled with blanks.
///
/// The library refuses no path made here with 14. The root has no path.
///
/// ```
/// assert_eq!(owfs::directory_path(&["BM01"])?, b"BM01");
/// assert_eq!(owfs::directory_path(&["LAB", "A1"])?, b"LAB A1  ");
/// assert!(owfs::directory_path(&[]).is_err());
/// # Ok::<(), owfs::PathError>(())
/// ```
///
/// # Errors
///
/// What cannot be a directory's path: a name that is none, no name, more than eight names.
pub fn directory_path(names: &[&str]) -> Result<Vec<u8>, PathError> {
    let names: Result<Vec<Name>, PathError> = names.iter().map(|text| Name::new(text)).collect();
    directory_path_of(&names?)
}

/// The bytes of a directory's path of names.
pub(crate) fn directory_path_of(names: &[Name]) -> Result<Vec<u8>, PathError> {
    match names.len() {
        0 => Err(PathError::Empty),
        1..=MOST_DIRECTORIES => Ok(names.iter().flat_map(|name| name.stored).collect()),
        count => Err(PathError::Directories(count)),
    }
}

/// The bytes of a path of names.
pub(crate) fn path_of(
    directories: &[Name],
    name: Name,
    extension: u8,
) -> Result<Vec<u8>, PathError> {
    if directories.len() > MOST_DIRECTORIES {
        return Err(PathError::Directories(directories.len()));
    }
    if extension > MOST_EXTENSION {
        return Err(PathError::Extension(extension));
    }
    let names = directories.iter().chain([&name]);
    let mut path: Vec<u8> = names.flat_map(|name| name.stored).collect();
    path.push(extension);
    Ok(path)
}

/// Whether a byte may stand in a name.
fn is_name_byte(byte: u8) -> bool {
    byte.is_ascii_uppercase() || byte.is_ascii_digit() || MARKS.contains(&byte)
}

impl Name {
    /// The name with this text; blanks after it, up to four bytes in all, are left out.
    ///
    /// # Errors
    ///
    /// [`PathError::Name`] if the text is no name.
    pub fn new(text: &str) -> Result<Name, PathError> {
        let mut stored = [b' '; 4];
        if let Some(front) = stored.get_mut(..text.len()) {
            front.copy_from_slice(text.as_bytes());
            if Name::is_stored(&stored) {
                return Ok(Name { stored });
            }
        }
        Err(PathError::Name(String::from(text)))
    }

    /// The name that the library told by its four bytes, the first lowest.
    pub(crate) fn told(name: u32) -> Name {
        Name {
            stored: name.to_le_bytes(),
        }
    }

    /// The name as stored: four bytes, filled with blanks.
    pub fn stored(&self) -> [u8; 4] {
        self.stored
    }

    /// The name without blanks.
    pub fn as_str(&self) -> &str {
        // All bytes of a name are ASCII.
        let stored = std::str::from_utf8(&self.stored).unwrap_or_default();
        stored.trim_end_matches(' ')
    }

    /// Whether four bytes are a name: one to four bytes that names have, then blanks.
    fn is_stored(bytes: &[u8; 4]) -> bool {
        let used = bytes.iter().take_while(|&&byte| is_name_byte(byte)).count();
        used > 0 && bytes[used..].iter().all(|&byte| byte == b' ')
    }
}

impl fmt::Display for Name {
    fn fmt(&self, formatter: &mut fmt::Formatter<'_>) -> fmt::Result {
        formatter.pad(self.as_str())
    }
}

impl fmt::Debug for Name {
    fn fmt(&self, formatter: &mut fmt::Formatter<'_>) -> fmt::Result {
        fmt::Debug::fmt(self.as_str(), formatter)
    }
}

impl fmt::Display for PathError {
    fn fmt(&self, formatter: &mut fmt::Formatter<'_>) -> fmt::Result {
        match self {
            PathError::Name(text) => write!(formatter, "{text:?} is no name"),
            PathError::Directories(count) => {
                write!(formatter, "{count} directories are more than eight")
            }
            PathError::Empty => write!(formatter, "a directory's path has a name at least"),
            PathError::Extension(number) => {
                write!(formatter, "extension number {number} is above 99")
            }
        }
    }
}

impl Error for PathError {}

#[cfg(test)]
mod tests {
    use super::{directory_path, path, Name, PathError};

    #[test]
    fn names_are_filled_with_blanks() {
        for (text, stored) in [
            ("A", b"A   "),
            ("A~", b"A~  "),
            ("DEMO", b"DEMO"),
            ("`{}", b"`{} "),
        ] {
            let name = Name::new(text).expect("a name");
            assert_eq!(name.stored(), *stored);
            assert_eq!(name.as_str(), text);
            assert_eq!(name.to_string(), text);
            assert_eq!(Name::told(u32::from_le_bytes(*stored)), name);
        }
        assert_eq!(Name::new("A "), Name::new("A"));
        assert_eq!(
            format!("[{:>4}]", Name::new("AB").expect("a name")),
            "[  AB]"
        );
    }

    #[test]
    fn text_that_is_no_name_is_refused() {
        for text in [
            "", " ", "    ", " A", "A B", "a", "A.B", "ABCDE", "A    ", "É", "A\\", "A\0",
        ] {
            let error = PathError::Name(String::from(text));
            assert_eq!(Name::new(text), Err(error.clone()));
            assert_eq!(path(&[], text, 1), Err(error.clone()));
            assert_eq!(path(&["A", text], "B", 1), Err(error));
        }
    }

    #[test]
    fn nine_directories_or_an_extension_above_99_are_refused() {
        assert_eq!(path(&["A"; 8], "B", 99).expect("a path").len(), 37);
        assert_eq!(path(&["A"; 9], "B", 99), Err(PathError::Directories(9)));
        for extension in 100..=255 {
            let error = PathError::Extension(extension);
            assert_eq!(path(&[], "B", extension), Err(error));
        }
    }

    #[test]
    fn directory_path_has_one_to_eight_names() {
        for count in 1..=8 {
            let path = directory_path(&["A1"; 8][..count]);
            assert_eq!(path, Ok(b"A1  ".repeat(count)));
        }
        assert_eq!(directory_path(&[]), Err(PathError::Empty));
        assert_eq!(directory_path(&["A"; 9]), Err(PathError::Directories(9)));
        for text in ["", "a", "A B", "ABCDE", " "] {
            let error = PathError::Name(String::from(text));
            assert_eq!(directory_path(&[text]), Err(error.clone()));
            assert_eq!(directory_path(&["A", text]), Err(error.clone()));
            // The name comes before their number.
            assert_eq!(directory_path(&[text; 9]), Err(error));
        }
    }

    #[test]
    fn errors_say_what_is_wrong() {
        let text = |error: PathError| error.to_string();
        assert_eq!(text(PathError::Name("a".into())), "\"a\" is no name");
        assert_eq!(
            text(PathError::Directories(9)),
            "9 directories are more than eight"
        );
        assert_eq!(
            text(PathError::Empty),
            "a directory's path has a name at least"
        );
        assert_eq!(
            text(PathError::Extension(127)),
            "extension number 127 is above 99"
        );
    }
}

//! Names of files and directories (document 01, "Entry").

/// The marks that a name may have besides A to Z and 0 to 9.
const MARKS: &[u8] = b"!#$%&'@^_`{}~";

/// A name as stored: four bytes, filled with blanks.
pub(crate) type Name = [u8; 4];

/// The name that a back reference to the root carries.
pub(crate) const ROOT: Name = *b"ROOT";

/// Whether a byte may stand in a name.
fn is_name_byte(byte: u8) -> bool {
    byte.is_ascii_uppercase() || byte.is_ascii_digit() || MARKS.contains(&byte)
}

/// A name is one to four allowed bytes, with blanks only after them.
pub(crate) fn is_name(name: &Name) -> bool {
    let used = name.iter().take_while(|&&byte| is_name_byte(byte)).count();
    used >= 1 && name[used..].iter().all(|&byte| byte == b' ')
}

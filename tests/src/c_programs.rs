//! The C programs of `tests/c`: compiled with the library, run, and compared with what they must print. `tools/build` makes the archive.

use std::fs;
use std::path::{Path, PathBuf};
use std::process::{Command, Output, Stdio};

use crate::Button;

/// The bytes of the stack on which `calls.c` makes each call.
pub const SMALL_STACK: usize = 16 * 1_024;

/// Compiles a C program of `tests/c` with these options and the library, with warnings as errors, to a folder.
pub fn compiled(folder: &Path, source: &str, options: &[&str]) -> PathBuf {
    let tests = Path::new(env!("CARGO_MANIFEST_DIR"));
    let program = folder.join(source).with_extension("");
    let compiled = Command::new("cc")
        .args(["-Wall", "-Wextra", "-Werror"])
        .args(options)
        .arg("-I")
        .arg(tests.join("../include"))
        .arg(tests.join("c").join(source))
        .arg(tests.join("../target/staticlib/libowfs.a"))
        .arg("-o")
        .arg(&program)
        .output()
        .expect("cc runs");
    let said = String::from_utf8_lossy(&compiled.stderr);
    assert!(compiled.status.success(), "cc: {said}");
    program
}

/// The characters of a line around a place in it; a line can be an image.
fn around(line: &str, place: usize) -> String {
    line.chars()
        .skip(place.saturating_sub(40))
        .take(80)
        .collect()
}

/// Demands success and this text.
pub fn printed(output: &Output, expected: &str) {
    let said = String::from_utf8_lossy(&output.stderr);
    assert!(output.status.success(), "{}: {said}", output.status);
    let text = String::from_utf8_lossy(&output.stdout);
    for (place, (line, expected)) in text.lines().zip(expected.lines()).enumerate() {
        let mut pairs = line.bytes().zip(expected.bytes());
        let same = pairs.position(|(byte, other)| byte != other);
        let same = same.unwrap_or(line.len().min(expected.len()));
        let (line, expected) = (around(line, same), around(expected, same));
        assert_eq!(line, expected, "line {place}, character {same}");
    }
    assert!(text == expected, "as many lines");
}

/// The program `calls.c`, and the folder of its files.
pub struct Caller {
    folder: PathBuf,
    program: PathBuf,
}

impl Caller {
    /// Compiles it to a new folder of this name in another. All its functions are bound before it starts, so that no binding is done on the small stack.
    pub fn new(parent: &Path, name: &str) -> Caller {
        let folder = parent.join(name);
        fs::create_dir_all(&folder).expect("a folder");
        let program = compiled(&folder, "calls.c", &["-std=c11", "-Wl,-z,now"]);
        Caller { folder, program }
    }

    /// Writes page length, page count and image to a file of the folder.
    pub fn write_image(&self, name: &str, button: &Button) -> PathBuf {
        let mut bytes = button.page_length.to_le_bytes().to_vec();
        bytes.extend(button.page_count.to_le_bytes());
        bytes.extend(&button.image);
        let file = self.folder.join(name);
        fs::write(&file, bytes).expect("the image is written");
        file
    }

    /// Writes the calls to a file beside the image's, and runs the program with them as its standard input.
    pub fn run(&self, image: &Path, calls: &[u8], what: &str) -> Output {
        let input = image.with_extension(what);
        fs::write(&input, calls).expect("the calls are written");
        Command::new(&self.program)
            .arg(image)
            .stdin(fs::File::open(&input).expect("the calls are read"))
            .stdout(Stdio::piped())
            .stderr(Stdio::piped())
            .output()
            .expect("the C program runs")
    }
}

/// The most bytes of stack that a call of the program has used, as it says on standard error.
pub fn stack_used(output: &Output) -> usize {
    let said = String::from_utf8_lossy(&output.stderr);
    let used = said.trim().strip_prefix("stack ");
    let used = used.and_then(|bytes| bytes.parse().ok());
    used.unwrap_or_else(|| panic!("no stack is told: {said}"))
}

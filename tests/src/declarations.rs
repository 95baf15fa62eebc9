//! The structs and functions of the exported calls, read from three texts: the C header, the Rust crate's declarations and the Rattle sources.
//!
//! The readers know only what these texts have; anything else ends with a message. Types are kept as C writes them.

use std::collections::BTreeMap;

/// A field or a parameter.
#[derive(Clone, Debug, PartialEq, Eq)]
pub struct Item {
    /// None for the length of a slice in Rattle, which has no name there.
    pub name: Option<String>,
    /// The type in C.
    pub kind: String,
}

/// What is declared under a name.
#[derive(Clone, Debug, PartialEq, Eq)]
pub struct Declared {
    /// The fields of a struct or the parameters of a function, in order.
    pub items: Vec<Item>,
    /// The type of a function's result in C; none for a struct.
    pub result: Option<String>,
}

/// What a text declares: structs by `struct` and their name, functions by their name.
pub type Declarations = BTreeMap<String, Declared>;

/// The part of a text up to a mark, and the part after it.
fn cut<'a>(text: &'a str, mark: &str) -> (&'a str, &'a str) {
    text.split_once(mark)
        .unwrap_or_else(|| panic!("{mark:?} is missing after {text:?}"))
}

/// The text with each part between two marks left out.
fn without(text: &str, start: &str, end: &str) -> String {
    let mut parts = text.split(start);
    let mut kept = String::from(parts.next().unwrap_or_default());
    for part in parts {
        kept.push_str(cut(part, end).1);
    }
    kept
}

/// The text without comments from `//` to the end of the line.
fn without_line_comments(text: &str) -> String {
    let lines = text.lines().map(|line| line.split("//").next());
    lines.flatten().collect::<Vec<&str>>().join("\n")
}

/// The words of a text with one blank between them.
fn words(text: &str) -> String {
    text.split_whitespace().collect::<Vec<&str>>().join(" ")
}

/// The parts of a list, which may have a separator after the last.
fn parts(list: &str, separator: char) -> Vec<String> {
    let parts = list.split(separator).map(words);
    parts.filter(|part| !part.is_empty()).collect()
}

/// The items of a list, each read.
fn items(list: &str, separator: char, read: impl Fn(&str) -> Item) -> Vec<Item> {
    let parts = parts(list, separator);
    parts.iter().map(|part| read(part)).collect()
}

/// Adds a declaration; a name is declared once.
fn declare(all: &mut Declarations, name: &str, items: Vec<Item>, result: Option<String>) {
    let declared = Declared { items, result };
    let before = all.insert(String::from(name), declared);
    assert!(before.is_none(), "{name} is declared twice");
}

/// A field or parameter in C, as `const uint8_t *image`.
fn c_item(text: &str) -> Item {
    let is_of_name = |letter: char| letter.is_ascii_alphanumeric() || letter == '_';
    let kind = text.trim_end_matches(is_of_name);
    assert!(
        kind != text && !kind.is_empty(),
        "no type and name: {text:?}"
    );
    Item {
        name: Some(String::from(&text[kind.len()..])),
        kind: String::from(kind.trim_end()),
    }
}

/// What a C header declares: `struct NAME { TYPE FIELD; .. };` and `RESULT NAME(TYPE PARAMETER, ..);`.
pub fn of_header(text: &str) -> Declarations {
    let code = without(text, "/*", "*/");
    let lines = code.lines().filter(|line| !line.starts_with('#'));
    let code = words(&lines.collect::<Vec<&str>>().join("\n"));
    let mut all = Declarations::new();
    let mut rest = code.as_str();
    while !rest.is_empty() {
        let end = rest.find(['{', '(']).expect("a struct or a function");
        let (front, after) = (rest[..end].trim_end(), &rest[end + 1..]);
        if rest[end..].starts_with('{') {
            let (fields, after) = cut(after, "};");
            declare(&mut all, front, items(fields, ';', c_item), None);
            rest = after.trim_start();
        } else {
            let (parameters, after) = cut(after, ");");
            let function = c_item(front);
            let name = function.name.unwrap_or_default();
            let parameters = items(parameters, ',', c_item);
            declare(&mut all, &name, parameters, Some(function.kind));
            rest = after.trim_start();
        }
    }
    all
}

/// The type in C of a type in Rust or Rattle; a struct `Totals` or `OwfsTotals` is `struct owfs_totals`.
fn c_type(text: &str) -> String {
    let known = match text {
        "u16" => "uint16_t",
        "u32" => "uint32_t",
        "u64" => "uint64_t",
        "i32" => "int32_t",
        "usize" => "size_t",
        "*const u8" => "const uint8_t *",
        "*mut u8" => "uint8_t *",
        _ => {
            let is_name = text.starts_with(|letter: char| letter.is_ascii_uppercase());
            assert!(is_name, "no type in C for {text:?}");
            let name = text.trim_start_matches("Owfs").to_ascii_lowercase();
            return format!("struct owfs_{name}");
        }
    };
    String::from(known)
}

/// A field or parameter in Rust or Rattle, as `image: *const u8`; a field is public.
fn rust_item(text: &str) -> Item {
    let (name, kind) = cut(text.trim_start_matches("pub "), ": ");
    Item {
        name: Some(String::from(name)),
        kind: c_type(kind),
    }
}

/// Adds the structs of a Rust or Rattle text, which are all laid out as C does: `#[repr(C)] .. pub struct NAME { .. }`.
fn declare_structs(all: &mut Declarations, code: &str, read: impl Fn(&str) -> Item) {
    let marked = code.split("#[repr(C)]").skip(1);
    let structs = code.matches("pub struct ").count();
    assert_eq!(marked.clone().count(), structs, "structs marked #[repr(C)]");
    for text in marked {
        let (name, rest) = cut(cut(text, "pub struct ").1, "{");
        let fields = items(cut(rest, "}").0, ',', &read);
        declare(all, &c_type(name.trim()), fields, None);
    }
}

/// Adds a function of a Rust or Rattle text, which starts after `fn`: `NAME(PARAMETER: TYPE, ..) -> RESULT` and more.
fn declare_function(all: &mut Declarations, text: &str, read: impl Fn(&str) -> Vec<Item>) {
    let (name, rest) = cut(text, "(");
    let (parameters, rest) = cut(rest, ")");
    let after = cut(rest, "->").1;
    let result = after.split_whitespace().next().unwrap_or_default();
    let parameters = parts(parameters, ',');
    let items = parameters.iter().flat_map(|text| read(text)).collect();
    declare(all, name.trim(), items, Some(c_type(result)));
}

/// What a Rust file declares of C: its structs, and the functions of its one block `extern "C" { .. }`.
pub fn of_rust(text: &str) -> Declarations {
    let code = without_line_comments(text);
    let mut all = Declarations::new();
    declare_structs(&mut all, &code, rust_item);
    let blocks = code.matches("extern \"C\"").count();
    assert_eq!(blocks, 1, "blocks of functions of C");
    let block = cut(cut(&code, "extern \"C\" {").1, "}").0;
    for function in parts(block, ';') {
        let text = cut(&function, "fn ").1;
        declare_function(&mut all, text, |item| vec![rust_item(item)]);
    }
    all
}

/// A field in Rattle: whether a report has a greatest doubled peak has another name there.
fn rattle_field(text: &str) -> Item {
    let item = rust_item(text);
    match item.name.as_deref() {
        Some("found") => Item {
            name: Some(String::from("has_greatest")),
            ..item
        },
        _ => item,
    }
}

/// A parameter in Rattle: a slice is a pointer and a length for C; page length and page count have other names there.
fn rattle_parameter(text: &str) -> Vec<Item> {
    let (name, kind) = cut(text, ": ");
    let name = match name {
        "size" => "page_length",
        "pages" => "page_count",
        _ => name,
    };
    let pointer = match kind {
        "&[u8]" => "*const u8",
        "&mut [u8]" => "*mut u8",
        _ => return vec![rust_item(&format!("{name}: {kind}"))],
    };
    let length = Item {
        name: None,
        kind: c_type("usize"),
    };
    vec![rust_item(&format!("{name}: {pointer}")), length]
}

/// What the Rattle sources export: the structs of one file, and the functions of another, `#[unsafe(no_mangle)] pub extern "C" fn ..`.
pub fn of_rattle(structs: &str, functions: &str) -> Declarations {
    let mut all = Declarations::new();
    declare_structs(&mut all, &without_line_comments(structs), rattle_field);
    let code = words(&without_line_comments(functions));
    let exported = code.split("#[unsafe(no_mangle)] pub extern \"C\" fn ").skip(1);
    let marks = code.matches("extern \"C\"").count();
    assert_eq!(
        exported.clone().count(),
        marks,
        "functions marked #[unsafe(no_mangle)]"
    );
    for text in exported {
        declare_function(&mut all, text, rattle_parameter);
    }
    all
}

/// A field or parameter in words.
fn in_words(item: &Item) -> String {
    let name = item.name.as_deref().unwrap_or("(no name)");
    format!("{} {name}", item.kind)
}

/// Whether a field or parameter of another text is that of the header.
fn is_same(header: &Item, other: &Item) -> bool {
    let same_name = other.name.is_none() || other.name == header.name;
    same_name && other.kind == header.kind
}

/// How a declaration differs from the header's.
fn differences_of(name: &str, header: &Declared, other: &Declared) -> Vec<String> {
    let mut found = Vec::new();
    let (count, other_count) = (header.items.len(), other.items.len());
    if count != other_count {
        found.push(format!(
            "{name}: {other_count} items, the header has {count}"
        ));
    }
    for (place, (item, own)) in other.items.iter().zip(&header.items).enumerate() {
        if !is_same(own, item) {
            let (item, own) = (in_words(item), in_words(own));
            found.push(format!(
                "{name}, item {place}: {item}, the header has {own}"
            ));
        }
    }
    if header.result != other.result {
        let (result, own) = (&other.result, &header.result);
        found.push(format!("{name}: result {result:?}, the header has {own:?}"));
    }
    found
}

/// How the declarations of another text differ from the header's.
pub fn differences(header: &Declarations, other: &Declarations) -> Vec<String> {
    let mut found = Vec::new();
    for (name, declared) in header {
        match other.get(name) {
            Some(also) => found.extend(differences_of(name, declared, also)),
            None => found.push(format!("{name}: only the header has it")),
        }
    }
    let more = other.keys().filter(|name| !header.contains_key(*name));
    found.extend(more.map(|name| format!("{name}: the header does not have it")));
    found
}

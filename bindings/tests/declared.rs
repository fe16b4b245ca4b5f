//! The declarations of the proved functions say what the proved sources say: for Rust in src/embed.rs and src/probe.rs, for C in
//! include/figmorella.h. A linker looks at names alone, so a wrong type or order would be found by no one else.
use std::path::{Path, PathBuf};

fn root() -> PathBuf {
    Path::new(env!("CARGO_MANIFEST_DIR")).join("..")
}

fn read(path: &Path) -> String {
    std::fs::read_to_string(path).unwrap_or_else(|error| panic!("{}: {error}", path.display()))
}

/// All sources of a proved crate.
fn sources(name: &str) -> String {
    let folder = root().join("crates").join(name).join("src");
    let entries = std::fs::read_dir(&folder).expect("the crate's sources");
    let paths = entries.map(|entry| entry.expect("a source").path());
    paths.map(|path| read(&path)).collect()
}

fn rust(name: &str) -> String {
    read(&root().join("bindings/src").join(name))
}

fn header() -> String {
    read(&root().join("include/figmorella.h"))
}

/// The part of the header that declares the proved functions.
fn declared_for_c() -> String {
    cut(&header(), "/* ---- the proved functions").1.into()
}

/// The text up to a mark, without white space around it, and the text behind the mark.
fn cut<'a>(text: &'a str, mark: &str) -> (&'a str, &'a str) {
    let (before, after) = text
        .split_once(mark)
        .unwrap_or_else(|| panic!("no '{mark}' in: {text}"));
    (before.trim(), after)
}

fn words(text: &str) -> String {
    text.split_whitespace().collect::<Vec<_>>().join(" ")
}

/// A function as it is called: the name, the name and type of each parameter, the result. All in Rust's words.
fn function(name: &str, parameters: &[String], result: &str) -> String {
    format!("fn {name}({}) -> {result}", parameters.join(", "))
}

/// The parameters between two brackets, each made one or two of the call.
fn parameters(list: &str, passed: impl Fn(&str) -> Vec<String>) -> Vec<String> {
    let each = list.split(',').map(words).filter(|one| !one.is_empty());
    each.flat_map(|one| passed(&one)).collect()
}

/// A slice of a proved function passes as a pointer and a length.
fn proved_parameter(text: &str) -> Vec<String> {
    let (name, kind) = cut(text, ":");
    let slice = |element: &str, pointer: &str| {
        let element = element.strip_suffix(']').expect("a slice");
        vec![
            format!("{name}: *{pointer} {element}"),
            format!("{name}_len: usize"),
        ]
    };
    match kind.trim() {
        kind if kind.starts_with("&mut [") => slice(&kind["&mut [".len()..], "mut"),
        kind if kind.starts_with("&[") => slice(&kind["&[".len()..], "const"),
        kind => vec![format!("{name}: {kind}")],
    }
}

/// The functions that a proved crate exports.
fn proved(source: &str) -> Vec<String> {
    let one = |text: &str| {
        let (name, rest) = cut(text, "(");
        let (list, rest) = cut(rest, ")");
        let (_, rest) = cut(rest, "->");
        let result = rest.split_whitespace().next().expect("a result");
        function(name, &parameters(list, proved_parameter), result)
    };
    let found = source.split("pub extern \"C\" fn ").skip(1).map(one);
    sorted(found.collect())
}

/// The functions that a Rust source declares.
fn declared(source: &str) -> Vec<String> {
    let one = |text: &str| {
        let (name, rest) = cut(text, "(");
        let (list, rest) = cut(rest, ")");
        let (_, rest) = cut(rest, "->");
        let (result, _) = cut(rest, ";");
        function(name, &parameters(list, |one| vec![one.into()]), result)
    };
    let found = source.split("pub fn ").skip(1).map(one);
    sorted(found.collect())
}

const C_TYPES: [(&str, &str); 5] = [
    ("uint8_t", "u8"),
    ("uint16_t", "u16"),
    ("uint32_t", "u32"),
    ("uint64_t", "u64"),
    ("size_t", "usize"),
];

fn of_c(name: &str) -> &'static str {
    let found = C_TYPES.iter().find(|(c, _)| *c == name);
    found.unwrap_or_else(|| panic!("type {name}")).1
}

fn c_parameter(text: &str) -> Vec<String> {
    let (kind, name) = text.rsplit_once(' ').unwrap_or((text, ""));
    let declared = match (kind.strip_prefix("const "), name.strip_prefix('*')) {
        _ if text == "void" => return Vec::new(),
        (Some(kind), Some(name)) => format!("{name}: *const {}", of_c(kind)),
        (None, Some(name)) => format!("{name}: *mut {}", of_c(kind)),
        _ => format!("{name}: {}", of_c(kind)),
    };
    vec![declared]
}

/// The functions that a C header declares: their types stand at the beginning of a line.
fn in_header(source: &str) -> Vec<String> {
    let mut found = Vec::new();
    for (at, _) in source.match_indices('\n') {
        let text = &source[at + 1..];
        let kind = text.split_whitespace().next().unwrap_or("");
        if text.starts_with(kind) && C_TYPES.iter().any(|(c, _)| *c == kind) {
            let (name, rest) = cut(&text[kind.len()..], "(");
            let (list, _) = cut(rest, ");");
            found.push(function(name, &parameters(list, c_parameter), of_c(kind)));
        }
    }
    sorted(found)
}

fn sorted(mut functions: Vec<String>) -> Vec<String> {
    functions.sort();
    functions
}

#[test]
fn the_server_for_rust_is_as_proved() {
    let proved = proved(&sources("embed_c"));
    assert_eq!(proved.len(), 8);
    assert_eq!(declared(&rust("embed.rs")), proved);
}

#[test]
fn the_store_for_rust_is_as_proved() {
    let proved = proved(&sources("probe"));
    assert_eq!(proved.len(), 10);
    assert_eq!(declared(&rust("probe.rs")), proved);
}

#[test]
fn the_server_for_c_is_as_proved() {
    assert_eq!(in_header(&header()), proved(&sources("embed_c")));
}

/// Each change of a text changes what is read of it.
fn found(text: &str, read: fn(&str) -> Vec<String>, changes: &[(&str, &str)]) {
    for (old, new) in changes {
        let changed = text.replacen(old, new, 1);
        assert_ne!(changed, text, "there is no {old}");
        assert_ne!(read(&changed), read(text), "{old} became {new}");
    }
}

#[test]
fn a_declaration_that_differs_is_found() {
    let changes = [
        ("clock: u32", "clock: u64"),
        ("held: *mut u8", "held: *const u8"),
        ("held: *const u8", "held: *mut u8"),
        ("owner: *mut u16", "owner: *mut u32"),
        ("input_len: usize,", ""),
        ("blocks: usize,", "files: usize,"),
        ("-> u8", "-> u32"),
        ("pub fn figmorella_free", "pub fn figmorella_count"),
        ("pub fn figmorella_state_words() -> usize;", ""),
    ];
    found(&rust("embed.rs"), declared, &changes);
    let changes = [
        ("uint32_t clock", "uint64_t clock"),
        ("const uint8_t *disk", "uint8_t *disk"),
        ("uint8_t *held", "const uint8_t *held"),
        (
            "uint64_t *map, size_t map_len",
            "size_t map_len, uint64_t *map",
        ),
        (", size_t session);", ");"),
        ("size_t blocks, size_t files", "size_t files, size_t blocks"),
        ("uint8_t figmorella_free(", "size_t figmorella_free("),
        ("size_t figmorella_state_words(void);", ""),
    ];
    found(&declared_for_c(), in_header, &changes);
    let changes = [
        ("place: u16", "place: u32"),
        ("map: &mut [u64]", "map: &[u64]"),
        ("map: &[u64]", "map: &mut [u64]"),
        ("disk: &[u8]", "disk: &[u16]"),
        ("last: u32,", ""),
        ("pub extern \"C\" fn store_free", "pub fn store_free"),
    ];
    found(&sources("probe"), proved, &changes);
}

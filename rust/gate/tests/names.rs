//! The proved crate, the header for C and the declarations for Rust name the same functions.
use std::collections::BTreeSet;
use std::fs;
use std::path::Path;

/// The functions that a file names after `start`, each up to its opening bracket.
fn functions(file: &str, start: &str) -> BTreeSet<String> {
    let path = Path::new(env!("CARGO_MANIFEST_DIR")).join(file);
    let text = fs::read_to_string(&path).unwrap_or_else(|error| panic!("{}: {error}", path.display()));
    let calls = text.split(start).skip(1).filter_map(|rest| rest.split_once('('));
    calls.map(|(name, _)| name.trim().to_owned()).filter(|name| name.starts_with("roosteryore_")).collect()
}

/// The modules of the proved crate, whichever there are.
fn modules() -> Vec<String> {
    let folder = Path::new(env!("CARGO_MANIFEST_DIR")).join("../../crates/ffi/src");
    let entries = fs::read_dir(&folder).unwrap_or_else(|error| panic!("{}: {error}", folder.display()));
    let names = entries.map(|entry| entry.expect("a file of the crate").file_name());
    names.map(|name| format!("../../crates/ffi/src/{}", name.to_string_lossy())).collect()
}

#[test]
fn all_name_the_same_functions() {
    let proved: BTreeSet<String> = modules().iter().flat_map(|file| functions(file, "extern \"C\" fn ")).collect();
    assert_eq!(functions("src/ffi/declared.rs", "    fn "), proved);
    let header: BTreeSet<String> = functions("include/roosteryore.h", " ")
        .into_iter()
        .filter(|name| name.chars().all(|c| c.is_ascii_lowercase() || c == '_'))
        .collect();
    assert_eq!(header, proved);
    assert_eq!(proved.len(), 19);
}

//! The crate's numbers and names are those of nrbpf.h.

mod fixture;

use nrbpf::{Refusal, NAMES};
use std::collections::BTreeMap;
use std::fs;
use std::path::PathBuf;

fn header() -> String {
    let folder = std::env::var_os("NRBPF_INCLUDE").map_or_else(|| fixture::top().join("embed"), PathBuf::from);
    fs::read_to_string(folder.join("nrbpf.h")).expect("the header is there")
}

/// The number behind a name that the header defines.
fn defined(name: &str) -> u32 {
    let line = format!("#define NRBPF_{name} ");
    let header = header();
    let found = header.lines().find_map(|it| it.strip_prefix(&line)).expect(name);
    found.trim_end_matches('u').parse().expect(name)
}

#[test]
fn the_version_is_the_headers() {
    assert_eq!(nrbpf::sys::NRBPF_VERSION, 1_000 * defined("VERSION_MAJOR") + defined("VERSION_MINOR"));
    assert_eq!(nrbpf::version().0, defined("VERSION_MAJOR"));
    assert_eq!(nrbpf::ENDLESS, defined("ENDLESS"));
}

/// `BAD_LINE` of `BadLine`, and `NOT_UTF8` of `NotUtf8`.
fn shouted(name: &str) -> String {
    let mut told = String::new();
    for sign in name.chars() {
        if sign.is_uppercase() && !told.is_empty() {
            told.push('_');
        }
        told.push(sign.to_ascii_uppercase());
    }
    told
}

/// A line of the header names a refusal by its letter and number, and says that it has another name.
#[test]
fn refusals_have_the_headers_names() {
    let header = header();
    let is_word = |sign: char| sign.is_alphanumeric() || sign == '_';
    let mut wanted = BTreeMap::new();
    for line in header.lines() {
        let words: Vec<&str> = line.split(|sign| !is_word(sign)).filter_map(|word| word.strip_prefix("NRBPF_")).collect();
        if let [code, name, again] = words[..] {
            if code == again {
                wanted.insert(name.to_owned(), code.to_owned());
            }
        }
    }
    let code = |it: &Refusal| format!("{}{}", it.letter(), it.number());
    assert!(NAMES.iter().all(|(_, it)| it.text().starts_with(&format!("{}: ", code(it)))));
    let told: BTreeMap<String, String> = NAMES.iter().map(|(name, it)| (shouted(name), code(it))).collect();
    assert_eq!(told, wanted);
}

#[test]
fn each_function_of_the_header_is_declared() {
    let header = header();
    let sys = fs::read_to_string(concat!(env!("CARGO_MANIFEST_DIR"), "/src/sys.rs")).expect("it is there");
    let code: String = header.lines().map(|line| line.split("//").next().unwrap_or(line)).collect::<Vec<_>>().join("\n");
    let mut count = 0;
    for (at, _) in code.match_indices("nrbpf_") {
        let name = &code[at..at + code[at..].find(|sign: char| !sign.is_alphanumeric() && sign != '_').expect("a name ends")];
        if code[at + name.len()..].starts_with('(') && name != "nrbpf_writer" {
            assert!(sys.contains(&format!("pub fn {name}(")), "{name} is not declared");
            count += 1;
        }
    }
    assert_eq!(count, sys.matches("pub fn nrbpf_").count());
}

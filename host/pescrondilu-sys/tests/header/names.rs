//! Archive, header, this crate and the Rattle sources have the same names, and the last three the
//! same parameters, results, fields and layouts.

use crate::sources::{Declared, STRUCTS, header, rattle, rust, rust_names, rust_text};
use crate::support::{library_folder, read, root, run, tool};
use std::collections::{BTreeMap, BTreeSet};
use std::process::Command;

const COUNT: usize = 77;

fn names(declared: &Declared) -> BTreeSet<String> {
    declared.functions.keys().cloned().collect()
}

/// Fails, and names what only one of the two has.
fn same(one: &str, first: &BTreeSet<String>, other: &str, second: &BTreeSet<String>) {
    let only_first: Vec<_> = first.difference(second).collect();
    let only_second: Vec<_> = second.difference(first).collect();
    assert!(
        only_first.is_empty() && only_second.is_empty(),
        "only in {one}: {only_first:?}; only in {other}: {only_second:?}"
    );
}

#[test]
fn header_and_rattle_have_the_same_functions() {
    let (header, rattle) = (names(&header()), names(&rattle()));
    same("the header", &header, "crates/c_*", &rattle);
    assert_eq!(header.len(), COUNT);
}

#[test]
fn rust_and_rattle_have_the_same_functions() {
    let (rust, rattle) = (names(&rust()), names(&rattle()));
    same("pescrondilu-sys", &rust, "crates/c_*", &rattle);
    let all: BTreeSet<String> = rust_names().into_iter().collect();
    same("pescrondilu-sys as read", &rust, "all of its text", &all);
}

/// And the archive has no other global name, none twice, asks for none but memcpy and memset, and has
/// no data that a call could change.
#[test]
fn archive_and_header_have_the_same_functions() {
    let Some(nm) = tool("NM", "nm", "the names of the archive") else {
        return;
    };
    let said = run(Command::new(nm).arg(library_folder().join("libpescrondilu.a")));
    let mut found = BTreeSet::new();
    for line in said.lines() {
        let words: Vec<&str> = line.split_whitespace().collect();
        match words[..] {
            [_, "T", name] => assert!(found.insert(name.to_string()), "{name} is there twice"),
            // what is local to an object: code and constants, and no data that a call could change
            [_, "t" | "r", _] => {}
            // of the C library: a round copies what waits, and sets its counts to 0
            ["U", "memcpy" | "memset"] => {}
            // a heading with the object's name
            [] => {}
            [object] if object.ends_with(".o:") => {}
            _ => panic!("the archive has or asks for something else: {line}"),
        }
    }
    same("the archive", &found, "the header", &names(&header()));
    assert_eq!(found.len(), COUNT);
}

/// The header calls a parameter main_gain, since a compiler warns at one called main.
fn in_header(name: &str) -> &str {
    if name == "main" { "main_gain" } else { name }
}

#[test]
fn parameters_and_results_are_the_same() {
    let (header, rattle, rust) = (header(), rattle(), rust());
    for (name, function) in &rattle.functions {
        assert_eq!(rust.functions.get(name), Some(function), "{name} in Rust");
        let there = &header.functions[name];
        assert_eq!(there.result, function.result, "the result of {name}");
        let asked = function.parameters.iter();
        let asked: Vec<_> = asked
            .map(|(n, t)| (in_header(n).to_string(), t.clone()))
            .collect();
        assert_eq!(there.parameters, asked, "the parameters of {name}");
    }
}

#[test]
fn fields_are_the_same() {
    let (header, rattle, rust) = (header(), rattle(), rust());
    let all: BTreeSet<&str> = STRUCTS.iter().map(|(c, _, _)| *c).collect();
    for declared in [&header, &rattle, &rust] {
        let here: BTreeSet<&str> = declared.structs.keys().map(String::as_str).collect();
        assert_eq!(here, all);
    }
    for (name, fields) in &rattle.structs {
        assert_eq!(&header.structs[name], fields, "{name} in the header");
        assert_eq!(&rust.structs[name], fields, "{name} in Rust");
    }
}

/// Size, and the fields with their offsets.
type Layouts = BTreeMap<String, (usize, Vec<(String, usize)>)>;

/// SIZE(type, bytes) and FIELD(type, field, at) of host/c/layout.c.
fn layouts_in_c() -> Layouts {
    let mut found = Layouts::new();
    for line in read(&root().join("host/c/layout.c")).lines() {
        let Some(inner) = line.strip_suffix(");") else {
            continue;
        };
        let (kind, inner) = inner.split_once('(').expect("it has brackets");
        let words: Vec<&str> = inner.split(", ").collect();
        match (kind, &words[..]) {
            ("SIZE", [name, bytes]) => {
                let new = (bytes.parse().expect("a number"), Vec::new());
                assert!(
                    found.insert(name.to_string(), new).is_none(),
                    "{name} twice"
                );
            }
            ("FIELD", [name, field, at]) => {
                let field = (field.to_string(), at.parse().expect("a number"));
                found
                    .get_mut(*name)
                    .expect("SIZE stands before")
                    .1
                    .push(field);
            }
            _ => panic!("not understood: {line}"),
        }
    }
    found
}

/// The layout! lines of this crate.
fn layouts_in_rust() -> Layouts {
    let text = rust_text();
    let mut found = Layouts::new();
    for rest in text.split("layout!(").skip(1) {
        let inner = rest.split_once(");").expect("it ends").0;
        // a type may have a comma between its parameters
        let end = inner.find('>').map_or(0, |at| at + 1);
        let end = end + inner[end..].find(',').expect("a size stands after it");
        let here = inner[..end].replace(char::is_whitespace, "");
        let known = STRUCTS.iter().find(|(_, _, rust)| *rust == here);
        let name = known.unwrap_or_else(|| panic!("{here} is not known")).0;
        let words: Vec<&str> = inner[end + 1..].split(',').map(str::trim).collect();
        let fields = words[1..].iter().map(|word| {
            let (field, at) = word.split_once(' ').expect("a field and its offset");
            (field.to_string(), at.parse().expect("a number"))
        });
        let new = (words[0].parse().expect("a number"), fields.collect());
        assert!(
            found.insert(name.to_string(), new).is_none(),
            "{name} twice"
        );
    }
    found
}

#[test]
fn layouts_are_the_same() {
    let (c, rust) = (layouts_in_c(), layouts_in_rust());
    assert_eq!(c, rust);
    let declared = header().structs;
    assert!(c.keys().eq(declared.keys()), "not all structs are asserted");
    for (name, fields) in &declared {
        let asserted = c[name].1.iter().map(|(field, _)| field);
        let fields = fields.iter().map(|(field, _)| field);
        assert!(asserted.eq(fields), "not all fields of {name} are asserted");
    }
}

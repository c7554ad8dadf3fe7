//! The functions and structs that the header, this crate and the Rattle sources declare, each read
//! from the text and put in C's words. A text that is not understood fails the test.

use crate::support::{read, root};
use std::collections::BTreeMap;
use std::fs;
use std::path::PathBuf;

/// A parameter or field: its name and its type in C.
pub type Named = (String, String);

#[derive(Debug, PartialEq)]
pub struct Function {
    pub result: String,
    pub parameters: Vec<Named>,
}

#[derive(Default)]
pub struct Declared {
    pub functions: BTreeMap<String, Function>,
    pub structs: BTreeMap<String, Vec<Named>>,
}

impl Declared {
    fn function(&mut self, name: &str, result: String, parameters: Vec<Named>) {
        let parameters = without_length_names(parameters);
        let new = Function { result, parameters };
        let old = self.functions.insert(name.to_string(), new);
        assert!(old.is_none(), "{name} is declared twice");
    }

    fn fields(&mut self, name: &str, fields: Vec<Named>) {
        let old = self.structs.insert(name.to_string(), fields);
        assert!(old.is_none(), "{name} is declared twice");
    }
}

/// A struct in C, in Rattle and in Rust. In Rattle a slice of a list is no struct.
pub const STRUCTS: [(&str, &str, &str); 39] = [
    ("pescrondilu_answer", "Code", "Code"),
    ("pescrondilu_f32", "DecoderF32", "Decoder<f32>"),
    ("pescrondilu_q15", "DecoderQ15", "Decoder<i64>"),
    ("pescrondilu_f32_made", "CodedF32", "Coded<f32>"),
    ("pescrondilu_q15_made", "CodedQ15", "Coded<i64>"),
    ("pescrondilu_f32_reply", "ReplyF32", "Reply<f32,()>"),
    ("pescrondilu_q15_reply", "ReplyQ15", "Reply<i64,()>"),
    ("pescrondilu_f32_counted", "CountedF32", "Reply<f32,usize>"),
    ("pescrondilu_readout", "Readout", "Readout"),
    (
        "pescrondilu_f32_summary",
        "SummaryRecordF32",
        "Summary<f32>",
    ),
    (
        "pescrondilu_q15_summary",
        "SummaryRecordQ15",
        "Summary<i16>",
    ),
    (
        "pescrondilu_f32_summary_reply",
        "SummaryReplyF32",
        "SummaryReply<f32,f32,usize>",
    ),
    (
        "pescrondilu_q15_summary_reply",
        "SummaryReplyQ15",
        "SummaryReply<i64,i16,()>",
    ),
    ("pescrondilu_f32_rack", "RackF32", "Rack<f32>"),
    ("pescrondilu_q15_rack", "RackQ15", "Rack<i64>"),
    ("pescrondilu_waiting", "Waiting", "Waiting"),
    ("pescrondilu_rack_waiting", "RackWaiting", "RackWaiting"),
    ("pescrondilu_f32_round", "RoundF32", "Round<f32,usize>"),
    ("pescrondilu_q15_round", "RoundQ15", "Round<i64,()>"),
    ("pescrondilu_f32_input", "&[f32]", "Input<f32>"),
    ("pescrondilu_f32_output", "&mut[f32]", "Output<f32>"),
    ("pescrondilu_q15_input", "&[i16]", "Input<i16>"),
    ("pescrondilu_q15_output", "&mut[i16]", "Output<i16>"),
    ("pescrondilu_f32_scanned", "ScannedF32", "Scanned"),
    ("pescrondilu_nco", "Nco", "Nco"),
    ("pescrondilu_increment", "CodedIncrement", "CodedIncrement"),
    ("pescrondilu_nco_made", "CodedNco", "CodedNco"),
    ("pescrondilu_encode", "StereoEncode", "StereoEncode"),
    (
        "pescrondilu_encode_rds",
        "StereoEncodeRds",
        "StereoEncodeRds",
    ),
    ("pescrondilu_encode_made", "CodedEncode", "CodedEncode"),
    (
        "pescrondilu_encode_rds_made",
        "CodedEncodeRds",
        "CodedEncodeRds",
    ),
    ("pescrondilu_encode_reply", "EncodeReply", "EncodeReply"),
    (
        "pescrondilu_encode_rds_reply",
        "EncodeRdsReply",
        "EncodeRdsReply",
    ),
    ("pescrondilu_rds_words", "RdsWords", "RdsWords"),
    ("pescrondilu_rds_former", "Former", "Former"),
    ("pescrondilu_rds_reply", "FormerReply", "FormerReply"),
    ("pescrondilu_pair", "Pair", "Pair"),
    ("pescrondilu_q14", "CodedQ14", "CodedQ14"),
    ("pescrondilu_corrected", "Corrected", "Corrected"),
];

const SCALARS: [(&str, &str); 10] = [
    ("f32", "float"),
    ("f64", "double"),
    ("i16", "int16_t"),
    ("i32", "int32_t"),
    ("i64", "int64_t"),
    ("u8", "uint8_t"),
    ("u16", "uint16_t"),
    ("u32", "uint32_t"),
    ("usize", "size_t"),
    ("bool", "bool"),
];

/// A Rust or Rattle type that is no pointer, in C. An array is its element and its length.
fn in_c(name: &str) -> String {
    if let Some(inner) = name.strip_prefix('[').and_then(|n| n.strip_suffix(']')) {
        let (element, n) = inner.split_once(';').expect("an array has a length");
        return array(&in_c(element), n);
    }
    let scalar = SCALARS.iter().find(|(here, _)| *here == name);
    let known = STRUCTS
        .iter()
        .find(|(_, rattle, rust)| *rattle == name || *rust == name);
    match (scalar, known) {
        (Some((_, c)), _) => c.to_string(),
        (_, Some((c, _, _))) => c.to_string(),
        _ => panic!("the type {name} has no counterpart in C"),
    }
}

/// The lengths of arrays that have a name: in C, in Rust, and their number in Rattle.
const LENGTHS: [(&str, &str, &str); 1] = [("PESCRONDILU_RACK_PLACES", "PLACES", "8")];

/// An array in C, with its length as a number.
fn array(element: &str, n: &str) -> String {
    let named = LENGTHS.iter().find(|(c, rust, _)| *c == n || *rust == n);
    let number = named.map_or(n, |(_, _, number)| number);
    assert!(number.parse::<usize>().is_ok(), "{n} is not known");
    format!("{element} [{number}]")
}

/// What a length is called says nothing: it is the length of the pointer before it.
fn without_length_names(mut parameters: Vec<Named>) -> Vec<Named> {
    for i in 1..parameters.len() {
        if parameters[i - 1].1.contains('*') {
            assert_eq!(parameters[i].1, "size_t", "after {:?}", parameters[i - 1]);
            parameters[i].0.clear();
        }
    }
    parameters
}

// ---- Words

/// The words of a text without comments: names with their $, `->`, and single signs.
fn words(text: &str) -> Vec<String> {
    let mut found: Vec<String> = Vec::new();
    let mut inside = false;
    for sign in text.chars() {
        let part = sign.is_alphanumeric() || sign == '_' || sign == '$';
        match found.last_mut() {
            Some(last) if part && inside => last.push(sign),
            Some(last) if sign == '>' && last == "-" => last.push(sign),
            _ if sign.is_whitespace() => {}
            _ => found.push(sign.to_string()),
        }
        inside = part;
    }
    found
}

/// Without what stands after // in a line.
fn without_line_comments(text: &str) -> String {
    let code = |line: &str| line.split("//").next().unwrap_or("").to_string();
    text.lines().map(code).collect::<Vec<_>>().join("\n")
}

/// The place after the sign that closes the one at `open`.
fn closing(words: &[String], open: usize) -> usize {
    let mut depth = 0;
    for (i, word) in words.iter().enumerate().skip(open) {
        match word.as_str() {
            "(" | "{" | "[" => depth += 1,
            ")" | "}" | "]" => depth -= 1,
            _ => {}
        }
        if depth == 0 {
            return i + 1;
        }
    }
    panic!("not closed: {:?}", &words[open..words.len().min(open + 9)])
}

/// The parts between commas, without an empty last one.
fn parts(words: &[String]) -> Vec<&[String]> {
    let all = words.split(|word| word == ",");
    all.filter(|part| !part.is_empty()).collect()
}

fn starts(words: &[String], with: &[&str]) -> bool {
    words.len() >= with.len() && words.iter().zip(with).all(|(word, w)| word == w)
}

// ---- The header

/// The header's structs and functions. Whatever else stands in it must be a comment, a
/// preprocessor line or the braces of extern "C".
pub fn header() -> Declared {
    let text = read(&root().join("include/pescrondilu.h"));
    let mut code = String::new();
    let mut rest = text.as_str();
    while let Some((before, after)) = rest.split_once("/*") {
        code.push_str(before);
        rest = after.split_once("*/").expect("a comment ends").1;
    }
    code.push_str(rest);
    for (name, _, number) in LENGTHS {
        let line = format!("#define {name} {number}");
        assert!(code.lines().any(|l| l == line), "no line {line}");
    }
    let lines = code.lines().filter(|line| !line.starts_with('#'));
    let all = words(&lines.collect::<Vec<_>>().join("\n"));

    let mut declared = Declared::default();
    let mut at = 0;
    while at < all.len() {
        let here = &all[at..];
        if starts(here, &["extern", "\"", "C", "\"", "{"]) {
            at += 5;
        } else if here.len() == 1 && here[0] == "}" {
            at += 1;
        } else if starts(here, &["typedef", "struct"]) {
            let end = closing(here, 3);
            let fields = here[4..end - 1]
                .split(|word| word == ";")
                .filter(|field| !field.is_empty());
            declared.fields(&here[2], fields.map(c_named).collect());
            assert_eq!(here[end..end + 2], [here[2].clone(), ";".to_string()]);
            at += end + 2;
        } else {
            let open = here.iter().position(|word| word == "(");
            let open = open.unwrap_or_else(|| panic!("not a function: {here:?}"));
            let end = closing(here, open);
            let (name, result) = c_named(&here[..open]);
            let parameters = c_parameters(&here[open + 1..end - 1]);
            declared.function(&name, result, parameters);
            assert_eq!(here[end], ";", "after {name}");
            at += end + 1;
        }
    }
    declared
}

/// What stands between a function's brackets; `void` alone is no parameter.
fn c_parameters(words: &[String]) -> Vec<Named> {
    if words == ["void"] {
        return Vec::new();
    }
    parts(words).into_iter().map(c_named).collect()
}

/// A declaration's name, which is its last word, or for an array the word before its length, and
/// its type.
fn c_named(words: &[String]) -> Named {
    if let [kind @ .., name, open, n, close] = words
        && (open == "[" && close == "]")
    {
        return (name.clone(), array(&kind.join(" "), n));
    }
    let (name, kind) = words.split_last().expect("a declaration has words");
    (name.clone(), kind.join(" "))
}

// ---- The Rattle sources

fn rattle_files(crates: impl Fn(&str) -> bool) -> Vec<PathBuf> {
    let mut found = Vec::new();
    let folder = root().join("crates");
    for entry in fs::read_dir(&folder).expect("crates/ can be read") {
        let entry = entry.expect("crates/ can be read");
        if !crates(&entry.file_name().to_string_lossy()) {
            continue;
        }
        let Ok(sources) = fs::read_dir(entry.path().join("src")) else {
            continue;
        };
        let files = sources.map(|file| file.expect("src/ can be read").path());
        found.extend(files.filter(|file| file.extension().is_some_and(|e| e == "rt")));
    }
    found
}

/// The `pub extern "C" fn` of crates/c_*, the `#[repr(C)] pub struct` of all crates, and the slices
/// of lists.
pub fn rattle() -> Declared {
    let mut declared = Declared::default();
    for file in rattle_files(|name| name.starts_with("c_")) {
        let all = words(&without_line_comments(&read(&file)));
        for at in 0..all.len() {
            if starts(&all[at..], &["pub", "extern", "\"", "C", "\"", "fn"]) {
                let name = &all[at + 6];
                let end = closing(&all, at + 7);
                let mut parameters = Vec::new();
                for part in parts(&all[at + 8..end - 1]) {
                    rattle_parameter(part, &mut parameters);
                }
                assert_eq!(all[end], "->", "after {name}");
                declared.function(name, in_c(&all[end + 1]), parameters);
            }
        }
    }
    for file in rattle_files(|_| true) {
        let all = words(&without_line_comments(&read(&file)));
        for at in 0..all.len() {
            let head = ["#", "[", "repr", "(", "C", ")", "]"];
            if !starts(&all[at..], &head) {
                continue;
            }
            // other attributes may follow
            let mut after = at + head.len();
            while starts(&all[after..], &["#", "["]) {
                after = closing(&all, after + 1);
            }
            if starts(&all[after..], &["pub", "struct"]) {
                let name = &all[after + 2];
                let open = after + 3;
                let fields = rust_fields(&all[open..closing(&all, open)], &[]);
                declared.fields(&in_c(name), fields);
            }
        }
    }
    for (c, slice, _) in STRUCTS.iter().filter(|(_, name, _)| name.starts_with('&')) {
        let kind = words(slice);
        let pointer = rattle_pointer(&kind).expect("it is a slice");
        let fields = [("samples", pointer), ("n", in_c("usize"))];
        declared.fields(c, fields.map(|(n, t)| (n.to_string(), t)).to_vec());
    }
    declared
}

/// The pointer of a slice in C; none where the type is no slice.
fn rattle_pointer(kind: &[String]) -> Option<String> {
    let kind: Vec<&str> = kind.iter().map(String::as_str).collect();
    let (element, written) = match &kind[..] {
        ["&", "[", element @ .., "]"] => (element, false),
        ["&", "mut", "[", element @ .., "]"] => (element, true),
        _ => return None,
    };
    let pointer = format!("{} *", in_c(&element.concat()));
    Some(match written {
        true => pointer,
        false => format!("const {pointer}"),
    })
}

/// A parameter; a slice is a pointer and a length.
fn rattle_parameter(part: &[String], parameters: &mut Vec<Named>) {
    let name = part[0].clone();
    let Some(pointer) = rattle_pointer(&part[2..]) else {
        return parameters.push((name, in_c(&part[2..].concat())));
    };
    parameters.push((name, restricted(pointer)));
    parameters.push((String::new(), in_c("usize")));
}

/// A parameter's type: what is written overlaps nothing else.
fn restricted(kind: String) -> String {
    match kind.ends_with('*') && !kind.starts_with("const") {
        true => kind + " PESCRONDILU_RESTRICT",
        false => kind,
    }
}

/// What stands in the place of V, a decoder's number, of S, a sample, and of W, a count.
type Types = [(&'static str, &'static str); 3];

/// The two formats, as their fast calls have them.
const FORMATS: [Types; 2] = [
    [("V", "f32"), ("S", "f32"), ("W", "usize")],
    [("V", "i64"), ("S", "i16"), ("W", NOTHING)],
];

/// The plain way in f32, which has no count.
const UNCOUNTED: Types = [("V", "f32"), ("S", "f32"), ("W", NOTHING)];

/// The type of a field that takes no room and that C does not have.
const NOTHING: &str = "()";

/// The words with types in the place of parameters.
fn replaced(words: &[String], types: &[(&str, &str)]) -> Vec<String> {
    let kind = |word: &String| match types.iter().find(|(parameter, _)| parameter == word) {
        Some((_, kind)) => kind.to_string(),
        None => word.clone(),
    };
    words.iter().map(kind).collect()
}

/// A Rust type in C.
fn rust_type(kind: &[String]) -> String {
    match kind {
        [star, of, element @ ..] if star == "*" && of == "const" => {
            format!("const {} *", in_c(&element.concat()))
        }
        [star, of, element @ ..] if star == "*" && of == "mut" => {
            format!("{} *", in_c(&element.concat()))
        }
        _ => in_c(&kind.concat()),
    }
}

/// The fields of a struct from its brace on, with types in the place of parameters.
fn rust_fields(words: &[String], types: &[(&str, &str)]) -> Vec<Named> {
    let inner = &words[1..words.len() - 1];
    let field = |part: &[String]| {
        assert!(part[0] == "pub" && part[2] == ":", "not a field: {part:?}");
        let kind = replaced(&part[3..], types);
        // alone, or the element of an array
        let nothing = kind.iter().any(|word| word == NOTHING);
        (!nothing).then(|| (part[1].clone(), rust_type(&kind)))
    };
    parts(inner).into_iter().filter_map(field).collect()
}

// ---- This crate

pub fn rust_text() -> String {
    let mut text = String::new();
    let files = [
        "lib.rs",
        "decoder.rs",
        "encoder.rs",
        "numbers.rs",
        "rack.rs",
        "rds.rs",
        "summary.rs",
    ];
    for file in files {
        let path = root().join("host/pescrondilu-sys/src").join(file);
        text.push_str(&without_line_comments(&read(&path)));
        text.push('\n');
    }
    let folder = root().join("host/pescrondilu-sys/src");
    let there = fs::read_dir(folder).expect("src/ can be read").count();
    assert_eq!(there, files.len(), "a file of src/ is not read here");
    for (_, name, number) in LENGTHS {
        let line = format!("pub const {name}: usize = {number};");
        assert!(text.lines().any(|l| l == line), "no line {line}");
    }
    text
}

/// Every word of this crate that begins as the C names do.
pub fn rust_names() -> Vec<String> {
    let all = words(&rust_text()).into_iter();
    all.filter(|word| word.starts_with("pescrondilu_"))
        .collect()
}

/// The functions of this crate's extern blocks, the macro `format` carried out, and its structs.
pub fn rust() -> Declared {
    let all = words(&rust_text());
    let mut declared = Declared::default();
    let (mut macro_words, mut macro_block) = (Vec::new(), Vec::new());
    for at in 0..all.len() {
        let here = &all[at..];
        if starts(here, &["macro_rules", "!", "format", "{", "("]) {
            let end = closing(here, 4);
            let named = |part: &[String]| part[0].clone();
            macro_words = parts(&here[5..end - 1]).into_iter().map(named).collect();
            let inner = &here[end..closing(here, 3)];
            let block = inner
                .iter()
                .position(|word| word == "extern")
                .expect("it has one")
                + 4;
            macro_block = inner[block..closing(inner, block)].to_vec();
        } else if starts(here, &["format", "!", "("]) {
            let arguments = parts(&here[3..closing(here, 2) - 1]);
            assert_eq!(arguments.len(), macro_words.len());
            let replaced = |word: &String| match macro_words.iter().position(|w| w == word) {
                Some(i) => arguments[i].concat(),
                None => word.clone(),
            };
            let block: Vec<String> = macro_block.iter().map(replaced).collect();
            rust_block(&block, &mut declared);
        } else if starts(here, &["unsafe", "extern", "\"", "C", "\"", "{"]) {
            let block = &here[5..closing(here, 5)];
            // the macro's own block is read where the macro is used
            if !block.iter().any(|word| word.starts_with('$')) {
                rust_block(block, &mut declared);
            }
        } else if starts(here, &["pub", "struct"]) {
            let open = here
                .iter()
                .position(|word| word == "{")
                .expect("it has fields");
            let body = &here[open..closing(here, open)];
            let of = |types: &Types| replaced(&here[2..open], types).concat();
            let generic = here[3] == "<";
            let mut all = FORMATS[..if generic { 2 } else { 1 }].to_vec();
            // the reply of the plain way is there too
            let known = |name: String| STRUCTS.iter().any(|(_, _, rust)| *rust == name);
            if here[3..open].iter().any(|word| word == "W") && known(of(&UNCOUNTED)) {
                all.push(UNCOUNTED);
            }
            for types in all {
                declared.fields(&in_c(&of(&types)), rust_fields(body, &types));
            }
        }
    }
    declared
}

fn rust_block(block: &[String], declared: &mut Declared) {
    for at in 0..block.len() {
        if block[at] != "fn" {
            continue;
        }
        let name = &block[at + 1];
        let end = closing(block, at + 2);
        let parameters = parts(&block[at + 3..end - 1]);
        let parameters = parameters.into_iter().map(rust_parameter).collect();
        assert_eq!(block[end], "->", "after {name}");
        let stop = block[end..]
            .iter()
            .position(|word| word == ";")
            .expect("it ends")
            + end;
        declared.function(name, in_c(&block[end + 1..stop].concat()), parameters);
    }
}

fn rust_parameter(part: &[String]) -> Named {
    (part[0].clone(), restricted(rust_type(&part[2..])))
}

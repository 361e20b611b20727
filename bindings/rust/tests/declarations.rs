//! The numbers and the functions of `src/sys.rs` are those of the headers. `bindings/fields` compares
//! the structs, and the tables by which they are read and written.
#![forbid(unsafe_code)]

use std::fs;
use std::path::Path;

fn read(path: &str) -> String {
    fs::read_to_string(Path::new(env!("CARGO_MANIFEST_DIR")).join(path)).unwrap()
}

/// The text without comments and lines of the preprocessor, with one space between words, and none
/// beside punctuation.
fn squeezed(text: &str) -> String {
    let after_comment = |part: &str| part.split_once("*/").map_or(part, |(_, rest)| rest).into();
    let text: Vec<String> = text.split("/*").map(after_comment).collect();
    let is_code = |line: &&str| !line.trim_start().starts_with(['#', '/']);
    let text: Vec<&str> = text.iter().flat_map(|part| part.lines()).collect();
    let lines: Vec<_> = text.into_iter().filter(is_code).collect();
    let words: Vec<_> = lines
        .iter()
        .flat_map(|line| line.split_whitespace())
        .collect();
    let mut out = words.join(" ");
    for mark in ["(", ")", "{", "}", ",", ";", "*", ":", "=", "->"] {
        for form in [format!("{mark} "), format!(" {mark}")] {
            out = out.replace(&form, mark);
        }
    }
    out
}

/// The headers as one text, with the integers that stand for enumerations.
fn headers() -> String {
    let names = ["", "_raw", "_values", "_script", "_conform", "_config"];
    let of = |name: &str| read(&format!("../../include/iox2sd{name}.h"));
    let mut text = squeezed(&names.map(of).concat()).replace("struct ", "");
    for declaration in text.clone().split("typedef ").skip(1) {
        let (kind, rest) = declaration.split_once(' ').unwrap_or_default();
        if let ("uint32_t" | "uint64_t", Some((name, _))) = (kind, rest.split_once(';')) {
            text = text.replace(&format!("{name} "), &format!("{kind} "));
        }
    }
    text
}

/// What stands in a table of `src/sys.rs`, which has the macro's name.
fn table(name: &str) -> String {
    let sys = read("src/sys.rs");
    let (_, body) = sys.split_once(&format!("\n{name}! {{\n")).unwrap();
    body.split_once("\n}").unwrap().0.to_string()
}

/// A type of Rust as C spells it.
fn in_c(rust: &str) -> String {
    let pointer = |target: &str| format!("{}*", in_c(target));
    match rust {
        "u8" | "u32" | "u64" => format!("uint{}_t", &rust[1..]),
        "usize" => "size_t".to_string(),
        "c_char" => "char".to_string(),
        _ if rust.starts_with("*const ") => format!("const {}", pointer(&rust[7..])),
        _ if rust.starts_with("*mut ") => pointer(&rust[5..]),
        other => other.to_string(),
    }
}

/// A name behind its type of Rust, as C writes them.
fn named_in_c(kind: &str, name: &str) -> String {
    let kind = in_c(kind);
    let space = if kind.ends_with('*') { "" } else { " " };
    format!("{kind}{space}{name}")
}

/// The arguments of a function of Rust as C writes them.
fn arguments_in_c(arguments: &str) -> String {
    let each = arguments.split(',').filter_map(|argument| {
        let (name, kind) = argument.split_once(':')?;
        Some(named_in_c(kind, name))
    });
    let each: Vec<_> = each.collect();
    if each.is_empty() {
        "void".to_string()
    } else {
        each.join(",")
    }
}

#[test]
fn each_number_is_that_of_the_headers() {
    let (headers, mut count) = (headers(), 0);
    for number in squeezed(&table("numbers")).split(['u', ':', ';', ' ']) {
        if number.starts_with("IOX2SD_") {
            let is_there = |end| headers.contains(&format!("{number}{end}"));
            assert!(is_there(',') || is_there('}'), "{number}");
            count += 1;
        }
    }
    assert!(count > 120, "{count}");
}

#[test]
fn each_function_is_that_of_the_headers() {
    let (headers, mut count) = (headers(), 0);
    for functions in squeezed(&table("functions")).split_terminator(';') {
        let (arguments, rest) = functions.trim()[1..].split_once(")->").unwrap();
        let (answer, names) = rest.split_once(':').unwrap();
        for name in names.split(' ') {
            let arguments = arguments_in_c(arguments);
            let declared = format!("{}({arguments});", named_in_c(answer, name));
            assert!(headers.contains(&declared), "{declared}");
            count += 1;
        }
    }
    assert!(count > 60, "{count}");
}

/// The words of a text, without the marks of comments.
fn words(text: &str) -> String {
    let is_word = |word: &&str| !["*", "//"].contains(word);
    text.split_whitespace()
        .filter(is_word)
        .collect::<Vec<_>>()
        .join(" ")
}

#[test]
fn a_service_is_sent_and_shared_because_the_header_says_so() {
    let sentences = [
        "On one service any number of queries may run at once, or one change alone.",
        "A service may be moved to another thread. The caller orders moves and changes with other \
         calls, by a lock or by a thread's start or join.",
    ];
    for sentence in sentences {
        assert!(words(&read("../../include/iox2sd.h")).contains(sentence));
        assert!(words(&read("src/library/service.rs")).contains(sentence));
    }
}

/// `PowerOfTwo` as `POWER_OF_TWO`.
fn upper(name: &str) -> String {
    let mut out = String::new();
    for letter in name.chars() {
        if letter.is_uppercase() && !out.is_empty() {
            out.push('_');
        }
        out.extend(letter.to_uppercase());
    }
    out
}

#[test]
fn each_enumerator_has_the_number_of_its_name() {
    let mut count = 0;
    for file in [
        "container.rs",
        "messaging_pattern.rs",
        "config/choices.rs",
        "config/toml_kinds.rs",
        "static_config/message_type_details.rs",
        "static_config/setting.rs",
    ] {
        // A choice ends in `;`, on its line or below it, and an error, with a status, in `,`.
        for choice in squeezed(&read(&format!("src/{file}"))).split(';') {
            let (before, after) = match choice.rsplit_once("=IOX2SD_") {
                Some((before, after)) if !after.contains('}') => (before, after),
                _ => continue,
            };
            let name = before
                .rsplit(|letter: char| !letter.is_alphanumeric())
                .next()
                .unwrap();
            let constant = after.split(',').next().unwrap();
            let (_, of_kind) = constant.split_once('_').unwrap();
            if name == "DetailsNotGiven" {
                assert_eq!(constant, "STATUS_BAD_ALIGNMENT");
            } else {
                assert_eq!(of_kind, upper(name), "{file}");
                count += 1;
            }
        }
    }
    // Roles, patterns, strategies, kinds of segments, types of TOML and kinds of values, likenesses
    // of keys, variants and parts of messages, causes, and settings.
    assert_eq!(count, 9 + 4 + 2 + 3 + 2 + 7 + 8 + 4 + 2 + 3 + 5 + 25);
}

//! Each rule is asked of the library: the sources have no second copy of one.
#![forbid(unsafe_code)]

use std::collections::BTreeSet;
use std::fs;
use std::path::{Path, PathBuf};

/// The files of the sources.
fn sources(folder: &Path) -> Vec<PathBuf> {
    let mut files = Vec::new();
    for entry in fs::read_dir(folder).unwrap() {
        let path = entry.unwrap().path();
        if path.is_dir() {
            files.extend(sources(&path));
        } else {
            files.push(path);
        }
    }
    files
}

/// The one file of limits, which is compared with the library.
const LIMITS: &str = "limits.rs";

/// The lines of code of all sources but the declarations, the limits and the examples, without
/// comments and pages, each with its file.
fn code() -> Vec<(String, String)> {
    let folder = Path::new(env!("CARGO_MANIFEST_DIR")).join("src");
    let mut lines = Vec::new();
    for file in sources(&folder) {
        let name = file.strip_prefix(&folder).unwrap().display().to_string();
        if ["sys.rs", "examples.rs", LIMITS].contains(&name.as_str()) {
            continue;
        }
        for line in fs::read_to_string(&file).unwrap().lines() {
            let code = line.trim();
            if !code.starts_with("//") && !code.contains("include_str!") {
                lines.push((name.clone(), code.to_string()));
            }
        }
    }
    assert!(lines.len() > 2000);
    lines
}

/// The places of a piece of text in the code.
fn places(piece: &str) -> Vec<String> {
    let has = |(_, code): &&(String, String)| code.contains(piece);
    let place = |(file, code): &(String, String)| format!("{file}: {code}");
    code().iter().filter(has).map(place).collect()
}

#[test]
fn no_limit_stands_in_the_code() {
    let mut numbers = BTreeSet::new();
    for (_, line) in code() {
        let words = line.split(|letter: char| !letter.is_alphanumeric() && letter != '_');
        let is_number = |word: &&str| word.starts_with(|letter: char| letter.is_ascii_digit());
        numbers.extend(words.filter(is_number).map(str::to_string));
    }
    // The sizes of buffers for a short text, a short list and a report, the radix of an id's text,
    // and the line of a processor's cache, besides 0, 1 and 2.
    let expected = ["0", "1", "128", "16", "2", "256", "512"].map(str::to_string);
    assert_eq!(numbers, BTreeSet::from(expected));
    assert_eq!(places("(128)"), ["log/record.rs: #[repr(align(128))]"]);
    assert_eq!(places("256"), ["text.rs: const CAPACITY: usize = 256;"]);
    assert_eq!(places("512"), ["library.rs: const REPORT: usize = 512;"]);
    let sixteens = [
        "identifiers.rs: const RADIX: u32 = 16;",
        "library/service.rs: const SHORT: usize = 16;",
    ];
    let found = BTreeSet::from_iter(places(" 16;"));
    assert_eq!(found, BTreeSet::from(sixteens.map(str::to_string)));
    for limit in ["isize::MAX", "checked_", "wrapping_", "saturating_"] {
        assert_eq!(places(limit), Vec::<String>::new(), "{limit}");
    }
}

/// The limits are constants, each of which a test compares with what the library answers.
#[test]
fn each_limit_is_compared_with_the_library() {
    let folder = Path::new(env!("CARGO_MANIFEST_DIR"));
    let limits = fs::read_to_string(folder.join("src").join(LIMITS)).unwrap();
    let is_code = |line: &&str| !line.is_empty() && !line.starts_with("//");
    let mut names = Vec::new();
    for line in limits.lines().filter(is_code) {
        let constant = line.strip_prefix("pub(crate) const ").unwrap();
        names.push(constant.split(':').next().unwrap());
    }
    let compared = [
        "ATTRIBUTES",
        "ATTRIBUTE_KEY",
        "ATTRIBUTE_VALUE",
        "PATH",
        "FILE_NAME",
        "FILE_PATH",
        "RESTRICTED_FILE_NAME",
        "SERVICE_NAME",
        "INTERNAL_SERVICE_PREFIX",
        "CALLER_NAME",
    ];
    assert_eq!(names, compared);
}

#[test]
fn no_text_of_the_layer_stands_in_the_code() {
    for text in [
        "iox2:",
        "\"iox2_",
        "iceoryx2",
        "services\"",
        ".toml",
        "/tmp",
        "\".",
        "'/'",
        "\"/",
        "/\"",
        "starts_with",
    ] {
        assert_eq!(places(text), Vec::<String>::new(), "{text}");
    }
    // The name of a log's caller, which `logs.rs` compares with the library letter by letter.
    let legal = "let is_legal = name.bytes().all(|byte| byte.is_ascii_alphanumeric());";
    assert_eq!(places("is_ascii"), [format!("log/record.rs: {legal}")]);
}

/// The words of a log's lines, which the library reads and does not write. It has those of patterns
/// and roles, and the text of an id that is listed.
#[test]
fn the_words_of_the_lines_of_a_log_stand_in_one_file() {
    let texts_of = |file: &str| -> BTreeSet<String> {
        let of_file = |(name, code): (String, String)| (name == file).then_some(code);
        let lines: Vec<String> = code().into_iter().filter_map(of_file).collect();
        let texts = |line: &String| -> Vec<String> {
            line.split('"')
                .skip(1)
                .step_by(2)
                .map(str::to_string)
                .collect()
        };
        lines.iter().flat_map(texts).collect()
    };
    let lines = [
        r"service {pattern} {number} {max_nodes} {first} {second}\n",
        "> ",
        "< ",
        "register {}",
        "deregister {slot} {ticket}",
        "add {role} {port} {}",
        "release {} {slot} {ticket}",
        "dead {}",
        " skip",
        " {}",
        "nodes",
        "list {}",
        "count {}",
        "nodes?",
        "list? {}",
        "handle {slot} {ticket}",
        "count {ports}",
        "locked",
        "not-registered",
        "full",
        "wrong-pattern",
        "has-owners",
        "no-owners",
        "ports-attached",
        "released",
        "not-owned",
        "list",
        " {id}",
        "{process}.{seconds}.{nanoseconds}.{counter}",
        "",
        "a string takes all texts",
    ];
    assert_eq!(texts_of("log/lines.rs"), lines.map(str::to_string).into());
    assert_eq!(texts_of("log/record.rs"), BTreeSet::new());
    let errors = [
        "no memory",
        "a caller without an open call is expected",
        "the role of a port is expected",
        "one to sixteen letters and digits are expected",
        "a call that is dropped has no end",
    ];
    assert_eq!(texts_of("log.rs"), errors.map(str::to_string).into());
}

/// Sets are sorted by the library. The ids of ports that stay are sorted for it, since it is faster
/// then.
#[test]
fn the_ids_to_keep_alone_are_sorted() {
    let sorted = "kept.sort_unstable_by(|one, other| {";
    assert_eq!(
        places(".sort"),
        [format!("dynamic_config/service.rs: {sorted}")]
    );
}

/// No call answers how many tickets are left, and none can use up all of them.
#[test]
fn a_service_has_all_tickets_where_none_are_named() {
    let made = "Self::with_tickets(settings, max_nodes, service_number, u64::MAX)";
    assert_eq!(
        places("u64::MAX"),
        [format!("dynamic_config/service.rs: {made}")]
    );
}

#[test]
fn no_rule_stands_in_the_code() {
    for rule in [
        "sha1",
        "Sha1",
        "base64",
        "is_power_of_two",
        "next_multiple_of",
        " % ",
        "<<",
        ">>",
        ":x",
        "dedup",
        "binary_search",
    ] {
        let found = places(rule);
        let found: Vec<_> = found
            .iter()
            .filter(|place| !place.contains("Option<"))
            .collect();
        assert_eq!(found, Vec::<&String>::new(), "{rule}");
    }
}

#[test]
fn unsafe_code_stands_in_one_module() {
    let outside = |place: &String| !place.starts_with("library");
    let found = places("unsafe")
        .into_iter()
        .filter(outside)
        .collect::<Vec<_>>();
    assert_eq!(
        found,
        [
            "lib.rs: #![deny(unsafe_code, unsafe_op_in_unsafe_fn)]",
            "lib.rs: clippy::undocumented_unsafe_blocks",
            "lib.rs: #[allow(unsafe_code)]",
        ]
    );
}

#[test]
fn the_text_interface_is_not_linked() {
    assert_eq!(places("iox2_ffi"), Vec::<String>::new());
    let manifest = Path::new(env!("CARGO_MANIFEST_DIR"));
    for file in ["Cargo.toml", "build.rs"] {
        let text = fs::read_to_string(manifest.join(file)).unwrap();
        assert!(!text.contains("iox2_ffi"), "{file}");
    }
}

//! What the crate is built for, and that it says so.
#![forbid(unsafe_code)]

#[allow(dead_code)]
#[path = "../build.rs"]
mod build;

/// The refusal of a target, by its variables of cargo.
fn refusal(architecture: &str, system: &str, width: &str) -> Option<String> {
    build::refusal(|name| {
        let found = match name {
            "CARGO_CFG_TARGET_ARCH" => architecture,
            "CARGO_CFG_TARGET_OS" => system,
            "CARGO_CFG_TARGET_POINTER_WIDTH" => width,
            other => panic!("{other} is asked for"),
        };
        Some(found.to_string())
    })
}

#[test]
fn the_target_is_named_that_is_needed() {
    assert_eq!(refusal("x86_64", "linux", "64"), None);
    for (found, refused) in [
        ("aarch64", refusal("aarch64", "linux", "64")),
        ("macos", refusal("x86_64", "macos", "64")),
        ("32", refusal("x86_64", "linux", "32")),
    ] {
        let text = refused.unwrap();
        assert!(
            text.contains("x86-64 Linux") && text.contains(found),
            "{text}"
        );
    }
    assert!(build::refusal(|_| None).is_some());
}

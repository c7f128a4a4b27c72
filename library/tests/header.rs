//! The records and functions of `ffi` are those of include/register.h.

mod common;

use std::fs;
use std::path::Path;
use std::process::Command;

use common::Folder;
use library::ffi;
use library::memory::{Field, Record};

/// How C spells the functions that `ffi` declares.
const FUNCTIONS: [(&str, &str); 8] = [
    ("session_start", "uint8_t(Session *, uint8_t)"),
    (
        "session_invoke",
        "Sent(Session *, Operations, uint8_t *, size_t)",
    ),
    (
        "session_retry",
        "Sent(Session *, uint16_t, uint8_t *, size_t)",
    ),
    (
        "session_response",
        "Reply(Session *, const uint8_t *, size_t)",
    ),
    ("board_start", "uint8_t(Board *, uint8_t, uint8_t, uint8_t)"),
    (
        "board_step",
        "Stepped(Board *, const uint8_t *, size_t, uint8_t *, size_t)",
    ),
    ("shard_start", "uint8_t(Shard *, uint8_t, uint8_t)"),
    (
        "shard_step",
        "Stepped(Shard *, const uint8_t *, size_t, uint8_t *, size_t)",
    ),
];

fn constants() -> [(&'static str, usize); 8] {
    [
        ("BOARDS_MOST", ffi::BOARDS_MOST),
        ("SHARDS_MOST", ffi::SHARDS_MOST),
        ("KEYS", ffi::KEYS),
        ("CLIENTS", ffi::CLIENTS),
        ("OPERATIONS", ffi::OPERATIONS),
        ("LOG", ffi::LOG),
        ("WINDOW", ffi::WINDOW),
        ("OUT", ffi::OUT),
    ]
}

fn expectations<R: Record>(lines: &mut String) {
    let name = R::NAME;
    let mut expect = |what: String, value: usize| {
        *lines += &format!("_Static_assert({what} == {value}, \"{what}\");\n");
    };
    expect(format!("sizeof({name})"), std::mem::size_of::<R>());
    expect(format!("_Alignof({name})"), std::mem::align_of::<R>());
    for Field {
        name: field,
        at,
        size,
    } in R::FIELDS
    {
        expect(format!("offsetof({name}, {field})"), *at);
        expect(format!("sizeof((({name} *)0)->{field})"), *size);
    }
}

#[test]
fn records_and_functions_are_those_of_the_header() {
    let mut lines = String::from("#include <stddef.h>\n#include \"register.h\"\n");
    expectations::<ffi::Item>(&mut lines);
    expectations::<ffi::Entry>(&mut lines);
    expectations::<ffi::Queue>(&mut lines);
    expectations::<ffi::Board>(&mut lines);
    expectations::<ffi::Cell>(&mut lines);
    expectations::<ffi::Shard>(&mut lines);
    expectations::<ffi::Slot>(&mut lines);
    expectations::<ffi::Window>(&mut lines);
    expectations::<ffi::Session>(&mut lines);
    expectations::<ffi::Asked>(&mut lines);
    expectations::<ffi::Operations>(&mut lines);
    expectations::<ffi::Sent>(&mut lines);
    expectations::<ffi::Reply>(&mut lines);
    expectations::<ffi::Stepped>(&mut lines);
    for (name, type_of) in FUNCTIONS {
        lines += &format!(
            "_Static_assert(__builtin_types_compatible_p(__typeof__({name}), {type_of}), \"{name}\");\n"
        );
    }
    for (name, value) in constants() {
        lines += &format!("_Static_assert(REGISTER_{name} == {value}, \"{name}\");\n");
    }

    let folder = Folder::new("header");
    let source = folder.file("expected.c");
    fs::write(&source, lines).expect("the folder is there");
    let include = Path::new(env!("CARGO_MANIFEST_DIR")).join("../include");
    let output = Command::new("gcc")
        .args(["-std=c11", "-Wall", "-Wextra", "-Werror", "-fsyntax-only"])
        .arg("-I")
        .arg(include)
        .arg(source)
        .output()
        .expect("gcc can be run");
    let said = String::from_utf8_lossy(&output.stderr);
    assert!(output.status.success(), "{said}");
}

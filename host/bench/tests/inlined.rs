//! The compiler makes one piece of the strict walk over a node, and another of the loop over strings, which two walks call. A second
//! caller of one of the walk's functions would end that, at half as much again in time: so the archive must not list them. Integer
//! recognition has several callers, and is just small enough to become part of each.

use std::env;
use std::path::PathBuf;
use std::process::Command;

const WALK: [&str; 10] = [
    "node::strict::entry_at",
    "node::strict::head_at",
    "node::strict::body_at",
    "node::strict::names_at",
    "node::strict::number_at",
    "listpack::strict::read_number",
    "listpack::strict::string_size",
    "listpack::strict::short_text_size",
    "decimal::recognition::recognise",
    "decimal::recognition::walk",
];

fn archive() -> PathBuf {
    let folder = match env::var_os("WALLATHI_LIB") {
        Some(folder) => PathBuf::from(folder),
        None => PathBuf::from(env!("CARGO_MANIFEST_DIR")).join("../../target/staticlib"),
    };
    folder.join("libbench_node.a")
}

#[test]
fn the_walk_over_a_node_is_one_piece() {
    let listed = Command::new("nm").arg(archive()).output().expect("nm runs");
    assert!(listed.status.success(), "nm cannot read {:?}", archive());
    let names = String::from_utf8(listed.stdout).expect("names are text");
    assert!(names.contains("wallathi_bench_judge"), "{names}");
    for function in WALK {
        assert!(!names.lines().any(|line| line.ends_with(function)), "{function} stands by itself:\n{names}");
    }
}

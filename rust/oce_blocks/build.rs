//! Cuts out the parts of the published `lib.rs` that the ported files need, by the lines that they
//! begin and end at. The text is not edited: what is compiled is what stands in docs/src.
use std::{env, fs, path::Path};

const SOURCE: &str = "../../docs/src/crates/oce-blocks/src/lib.rs";

/// From the one line that starts with the first text up to the one that starts with the second.
const PARTS: [(&str, &str); 3] = [
    (
        "/// Wall-clock-free model time in seconds",
        "/// Maximum resolved width of one vector-style CDL port",
    ),
    (
        "/// Instance-resolved block interface descriptor",
        "/// Output-column kind expected for a flattened",
    ),
    (
        "// ---- shared hot-path value readers",
        "/// Read input `i` as an `Integer`",
    ),
];

/// The place of the only line that starts with `text`.
fn place(lines: &[&str], text: &str) -> usize {
    let mut found = (0..lines.len()).filter(|&n| lines[n].starts_with(text));
    let place = found
        .next()
        .unwrap_or_else(|| panic!("no line starts with {text}"));
    assert!(found.next().is_none(), "two lines start with {text}");
    place
}

fn main() {
    println!("cargo:rerun-if-changed={SOURCE}");
    println!("cargo:rerun-if-changed=build.rs");
    let text = fs::read_to_string(SOURCE).expect("docs/src holds lib.rs");
    let lines: Vec<&str> = text.lines().collect();
    let mut cut = String::new();
    for (first, past) in PARTS {
        let part = &lines[place(&lines, first)..place(&lines, past)];
        assert!(!part.is_empty(), "nothing stands at {first}");
        cut += &part.join("\n");
        cut.push('\n');
    }
    let folder = env::var("OUT_DIR").expect("cargo names the folder");
    fs::write(Path::new(&folder).join("lib_parts.rs"), cut).expect("the folder can be written");
}

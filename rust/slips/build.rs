//! Makes a copy of the model of document 01 for each slip of a block or of sound, with the slip put in, one of its sheet for each
//! slip of the sheet's, one of rounding for each of rounding's, and a module that holds them all with their calls.
use std::fmt::Write as _;
use std::path::{Path, PathBuf};
use std::{env, fs};

#[path = "src/pulse_table.rs"]
mod pulse_table;
#[path = "src/rounding_table.rs"]
mod rounding_table;
#[path = "src/sheet_table.rs"]
mod sheet_table;
#[path = "src/sound_table.rs"]
mod sound_table;
#[allow(dead_code)]
#[path = "src/table.rs"]
mod table;
use pulse_table::PULSE_SLIPS;
use rounding_table::{ROUNDING_SLIPS, USE_SLIPS};
use sheet_table::SHEET_SLIPS;
use sound_table::{REFUSING_SLIPS, SOUND_SLIPS};
use table::{SLIPS, Slip};

const MODEL: &str = "../comparison/src/model";

/// Where rounding stands.
const OWN: &str = "src";

/// The text of a file in this folder, with the slip put in. What it takes away must stand there exactly once.
fn slipped(folder: &str, slip: &Slip) -> String {
    let path = Path::new(folder).join(slip.file);
    let text = fs::read_to_string(path).expect("the file can be read");
    let places = text.matches(slip.text).count();
    assert_eq!(
        places, 1,
        "'{}' in {}: {places} places",
        slip.text, slip.file
    );
    text.replacen(slip.text, slip.slipped, 1)
}

/// Copies the model to the folder with the slip put in.
fn slip_into(slip: &Slip, folder: &Path) {
    fs::create_dir_all(folder).expect("the folder can be made");
    for entry in fs::read_dir(MODEL).expect("the model is there") {
        let path = entry.expect("the model can be listed").path();
        let name = path.file_name().expect("a file has a name");
        fs::copy(&path, folder.join(name)).expect("the copy can be written");
    }
    fs::write(folder.join(slip.file), slipped(MODEL, slip)).expect("the copy can be written");
}

/// All calls of a slipped model, and its sound among those of the model without a slip: the rest of it is then not compiled.
const ALL: fn(&str) -> String = |module| format!("{module}::CALLS");
const SOUND: fn(&str) -> String =
    |module| format!("crate::Calls {{ sound: {module}::sound, ..comparison::model::CALLS }}");

/// The models with a table's slips, and the list of their calls, by this name.
fn models(out: &Path, slips: &[Slip], list: &str, calls_of: fn(&str) -> String) -> String {
    let (mut modules, mut calls) = (String::new(), String::new());
    for (n, slip) in slips.iter().enumerate() {
        let module = format!("{}_{n}", list.to_lowercase());
        let folder = out.join(&module);
        slip_into(slip, &folder);
        let path = folder.join("mod.rs");
        writeln!(modules, "#[path = {path:?}]\nmod {module};").expect("text grows");
        writeln!(calls, "    {},", calls_of(&module)).expect("text grows");
    }
    let count = slips.len();
    format!("{modules}\npub const {list}: [crate::Calls; {count}] = [\n{calls}];\n")
}

/// The copies of one file with a table's slips, over the model without one, and the list of their calls, of this type and name.
fn copies(out: &Path, slips: &[Slip], folder: &str, file: &str, calls: [&str; 2]) -> String {
    let (mut modules, mut list) = (String::new(), String::new());
    let [calls_type, calls] = calls;
    for (n, slip) in slips.iter().enumerate() {
        let path = out.join(format!("{file}_{n}.rs"));
        fs::write(&path, slipped(folder, slip)).expect("the copy can be written");
        writeln!(
            modules,
            "mod {file}_{n} {{\n    use comparison::model::*;\n    #[path = {path:?}]\n    pub mod {file};\n}}"
        )
        .expect("text grows");
        writeln!(list, "    {file}_{n}::{file}::{calls},").expect("text grows");
    }
    let (name, count) = (file.to_uppercase(), slips.len());
    format!("{modules}\npub const {name}S: [{calls_type}; {count}] = [\n{list}];\n")
}

fn main() {
    println!("cargo:rerun-if-changed={MODEL}");
    println!("cargo:rerun-if-changed={OWN}");
    println!("cargo:rerun-if-changed=build.rs");
    let out = PathBuf::from(env::var("OUT_DIR").expect("cargo names the folder"));
    let text = [
        models(&out, &SLIPS, "CALLS", ALL),
        models(&out, &PULSE_SLIPS, "PULSE_CALLS", ALL),
        models(&out, &SOUND_SLIPS, "SOUND_CALLS", SOUND),
        models(&out, &REFUSING_SLIPS, "REFUSING_CALLS", ALL),
        models(&out, &USE_SLIPS, "USE_CALLS", ALL),
        copies(
            &out,
            &SHEET_SLIPS,
            MODEL,
            "sheet",
            ["crate::sheet::SheetCalls", "CALLS"],
        ),
        copies(
            &out,
            &ROUNDING_SLIPS,
            OWN,
            "rounding",
            ["crate::Leaves", "LEAVES"],
        ),
    ];
    fs::write(out.join("slipped.rs"), text.concat()).expect("the module can be written");
}

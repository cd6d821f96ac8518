//! Writes the stored lists to their places: `vectors ROOT SEED` fills ROOT/crates/replay/data and
//! ROOT/vectors.
use std::{fs, io, path::Path};

use comparison::{Kind, sessions};
use slips::lists;

fn write(root: &Path, seed: u64) -> io::Result<()> {
    let calls = root.join("crates/replay/data");
    let vectors = root.join("vectors");
    let soak = vectors.join("soak");
    fs::create_dir_all(&calls)?;
    fs::create_dir_all(&soak)?;
    for kind in Kind::ALL {
        let file = format!("{}.txt", kind.name());
        fs::write(calls.join(&file), lists::calls(kind, seed))?;
        fs::write(soak.join(&file), sessions::sessions(kind, seed))?;
    }
    fs::write(vectors.join("README.md"), include_str!("vectors.md"))
}

fn main() -> io::Result<()> {
    let args: Vec<String> = std::env::args().skip(1).collect();
    let [root, seed] = args.as_slice() else {
        return Err(io::Error::other("vectors ROOT SEED"));
    };
    let seed = seed.parse().map_err(io::Error::other)?;
    write(Path::new(root), seed)
}

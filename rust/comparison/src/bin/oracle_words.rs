//! Reads an input of the program `soak` and writes what the published Rust holds. Each tick has a
//! line: its outputs, its warning as 0 or 1, and the region's first six words after it, or all if
//! there are fewer. The last line is the whole region. There is room for every delta. Refusals are
//! document 01's: at a refusal or a bad line only a message is written, and the exit status is 1.
use std::io::{self, Read, Write};

use comparison::oracle::Oracle;
use comparison::{Kind, hex, model, soak};

/// How many words of the region the line of a tick shows.
const SHOWN: usize = 6;

/// A block that runs, and its region.
struct Run {
    kind: Kind,
    settings: Vec<u64>,
    oracle: Oracle,
    region: Vec<u64>,
}

/// An error if the number is a refusal's.
fn accepted(number: u64) -> Result<(), String> {
    match number {
        0 => Ok(()),
        _ => Err(format!("refused, number {number} of document 01")),
    }
}

impl Run {
    /// The started block of a first line.
    fn started(line: &[u8]) -> Result<Run, String> {
        let (kind, settings) = soak::block_line(line).ok_or("not a block and its settings")?;
        accepted(model::state_length(kind, &settings).0)?;
        let oracle = Oracle::new(kind, &settings);
        let region = oracle.started();
        Ok(Run {
            kind,
            settings,
            oracle,
            region,
        })
    }

    /// Does the tick of a later line; the line that is written for it.
    fn tick(&mut self, line: &[u8]) -> Result<String, String> {
        let (kind, region) = (self.kind, &mut self.region);
        let (time, inputs) = soak::tick_line(kind, line).ok_or("not a time and the inputs")?;
        accepted(model::refusal(kind, &self.settings, region, Some(time)))?;
        let time = f64::from_bits(time);
        let outputs = soak::outputs(kind, &self.oracle.emit(time, &inputs, region));
        let warning = u8::from(self.oracle.update(time, &inputs, region).warning);
        let words = hex(&region[..SHOWN.min(region.len())]);
        Ok(format!("{outputs} {warning} {words}").trim_end().into())
    }
}

/// All that is written for this input, or which line is at fault and why.
fn written(input: &[u8]) -> Result<String, String> {
    let lines = soak::lines(input);
    let (first, ticks) = lines.split_first().ok_or("no line")?;
    let mut run = Run::started(first).map_err(|why| format!("line 1: {why}"))?;
    let mut out = String::new();
    for (line, n) in ticks.iter().zip(1..) {
        let tick = run.tick(line);
        out += &tick.map_err(|why| format!("line {}, tick {n}: {why}", n + 1))?;
        out += "\n";
    }
    Ok(out + &hex(&run.region) + "\n")
}

fn main() -> io::Result<()> {
    let mut input = Vec::new();
    io::stdin().read_to_end(&mut input)?;
    match written(&input) {
        Ok(out) => io::stdout().write_all(out.as_bytes()),
        Err(why) => {
            eprintln!("oracle_words: {why}");
            std::process::exit(1)
        }
    }
}

//! Runs a match through libmars and prints its results: `fight ROUNDS FILE..`. A file whose name ends in `.load` is a load file,
//! every other file a source.

mod mars;

use mars::{Settings, Warrior};
use std::{env, error::Error, fs};

const USAGE: &str = "usage: fight ROUNDS FILE..";

/// Returns the warrior of a file.
fn read(path: &str, settings: &Settings, warriors: usize) -> Result<Warrior, Box<dyn Error>> {
    let bytes = fs::read(path).map_err(|fault| format!("{path}: {fault}"))?;
    let read = if path.ends_with(".load") {
        mars::read_load(&bytes, settings)
    } else {
        mars::assemble(&bytes, settings, u32::try_from(warriors)?)
    };
    Ok(read.map_err(|fault| format!("{path}: {fault}"))?)
}

fn main() -> Result<(), Box<dyn Error>> {
    let words: Vec<String> = env::args().skip(1).collect();
    let [rounds, files @ ..] = words.as_slice() else {
        return Err(USAGE.into());
    };
    let settings = Settings {
        rounds: rounds.parse().map_err(|_| USAGE)?,
        ..Settings::default()
    };
    let warriors = files
        .iter()
        .map(|path| read(path, &settings, files.len()))
        .collect::<Result<Vec<_>, _>>()?;
    let rows = mars::fight(&warriors, &settings, "(W*W-1)/S")?;
    println!("  points   wins   ties losses  file");
    for (row, path) in rows.iter().zip(files) {
        println!(
            "{:8} {:6} {:6} {:6}  {path}",
            row.points, row.wins, row.ties, row.losses
        );
    }
    Ok(())
}

//! The samples: a folder for each, with the two logs and what is printed for them.

use crate::tested::{compare, Scratch, NAMES};
use crate::{by_sets, Given, Runs};
use std::fs;
use std::path::{Path, PathBuf};

const PRINTED: &str = "merged.log";

pub fn compare_all(given: &Given) -> Runs {
    let scratch = Scratch::in_memory("samples");
    let samples = folders(Path::new(&given.samples));
    for sample in &samples {
        let name = sample.display().to_string();
        let pair = NAMES.map(|log| fs::read(sample.join(log)).ok());
        let expected = fs::read(sample.join(PRINTED)).map_err(|error| format!("{name}/{PRINTED}: {error}"))?;
        if by_sets::merge(&pair) != expected {
            return Err(format!("{name}: the merging by sets prints something else"));
        }
        scratch.put(&pair);
        compare(&name, &pair, &scratch.run(&mut given.tested.command()), &expected)?;
    }
    if samples.is_empty() {
        return Err(format!("{} has no sample", given.samples));
    }
    Ok(samples.len())
}

/// The folders in a folder, in the order of their names.
fn folders(parent: &Path) -> Vec<PathBuf> {
    let Ok(entries) = fs::read_dir(parent) else { return vec![] };
    let mut folders: Vec<PathBuf> =
        entries.map(|entry| entry.expect("a folder can be read").path()).filter(|path| path.is_dir()).collect();
    folders.sort();
    folders
}

//! The outside vectors, for the tests of both packages.

use std::fs;
use std::path::{Path, PathBuf};

/// The sets, by their folders' names.
const SETS: [&str; 1] = ["card-05"];

/// A case: what it takes beside its files, and the answers. A gate's answer that is
/// empty is none, since there is no such condition.
pub struct Case {
    folder: PathBuf,
    number: String,
    pub log_length: usize,
    pub derive: String,
    pub gate: Option<String>,
    pub gate_on_derived: Option<String>,
    pub run: String,
    /// The refusal of the old recipe, if any.
    pub convert: Option<String>,
}

impl Case {
    /// The case of a line, whose columns the header names; there may be others.
    fn new(folder: &Path, header: &str, line: &str) -> Case {
        let column = |name: &str| {
            let place = header.split('\t').position(|title| title == name);
            let answer = place.and_then(|place| line.split('\t').nth(place));
            answer.unwrap_or_else(|| panic!("{}: no {name:?} in {line:?}", folder.display())).to_string()
        };
        let given = |name: &str| Some(column(name)).filter(|answer| !answer.is_empty());
        Case {
            folder: folder.to_path_buf(),
            number: column("case"),
            log_length: column("log length").parse().unwrap(),
            derive: column("derive"),
            gate: given("gate on .condition"),
            gate_on_derived: given("gate on .derived"),
            run: column("run"),
            convert: given("convert .old"),
        }
    }

    /// The set and the number, to name the case by.
    #[must_use]
    pub fn name(&self) -> String {
        format!("{} {}", self.folder.display(), self.number)
    }

    /// A file of the case by its ending, or nothing if there is none.
    #[must_use]
    pub fn file(&self, ending: &str) -> Option<Vec<u8>> {
        fs::read(self.folder.join(format!("{}.{ending}", self.number))).ok()
    }

    /// A file that every case has.
    ///
    /// # Panics
    /// If there is none.
    #[must_use]
    pub fn input(&self, ending: &str) -> Vec<u8> {
        self.file(ending).unwrap_or_else(|| panic!("{}: no {ending}", self.name()))
    }
}

/// The cases of the folder that VECTORS names, or else of all sets beside the packages.
#[must_use]
pub fn cases() -> Vec<Case> {
    let folders = match std::env::var_os("VECTORS") {
        Some(folder) => vec![PathBuf::from(folder)],
        None => SETS.map(|set| Path::new("../vectors").join(set)).to_vec(),
    };
    folders.iter().flat_map(|folder| read(folder)).collect()
}

fn read(folder: &Path) -> Vec<Case> {
    let answers = folder.join("ANSWERS.tsv");
    let answers = fs::read_to_string(&answers).unwrap_or_else(|e| panic!("{}: {e}", answers.display()));
    let (header, lines) = answers.split_once('\n').expect("a header");
    let cases: Vec<Case> = lines.lines().map(|line| Case::new(folder, header, line)).collect();
    assert!(!cases.is_empty(), "no cases in {}", folder.display());
    cases
}

//! The refusals and causes mean the same here, in docs/REFUSALS.md and in include/gate.h, and the sizes are the
//! header's.

use gate::{scratch_words, Cause, Refusal, CONDITION, RECIPE, RECORD};
use std::fs;

fn lines(name: &str) -> Vec<String> {
    fs::read_to_string(format!("../../{name}")).unwrap().lines().map(str::to_string).collect()
}

fn meanings() -> Vec<(u8, String)> {
    Refusal::ALL.iter().map(|refusal| (refusal.number(), refusal.meaning().to_string())).collect()
}

#[test]
fn refusals_have_their_pages() {
    let heading = |line: &String| {
        let (number, meaning) = line.strip_prefix("## ")?.split_once(": ")?;
        Some((number.parse().ok()?, meaning.to_string()))
    };
    let pages: Vec<(u8, String)> = lines("docs/REFUSALS.md").iter().filter_map(heading).collect();
    assert_eq!(pages, meanings());
}

#[test]
fn the_header_names_the_refusals() {
    let refusal = |line: &String| {
        let (number, rest) = line.trim().strip_prefix("GATE_REFUSAL_")?.split_once(" = ")?.1.split_once(' ')?;
        let meaning = rest.split_once("/* ").map_or(rest, |parts| parts.1).trim_end_matches(" */");
        Some((number.trim_end_matches(',').parse().ok()?, meaning.to_string()))
    };
    let names: Vec<(u8, String)> = lines("include/gate.h").iter().filter_map(refusal).collect();
    assert_eq!(names, meanings());
}

#[test]
fn the_causes_have_their_words() {
    let named =
        |cause: Cause| format!("GATE_{} = {}", cause.to_string().to_uppercase().replace(' ', "_"), cause.number());
    let header = lines("include/gate.h");
    let page = lines("docs/REFUSALS.md");
    for cause in Cause::ALL {
        let (name, words) = (named(cause), format!("| `held {cause}` |"));
        assert!(header.iter().any(|line| line.trim().starts_with(&name)), "the header has no {name}");
        assert!(page.iter().any(|line| line.starts_with(&words)), "the page has no {words}");
    }
}

#[test]
fn the_header_has_the_sizes() {
    let header = lines("include/gate.h");
    let size = |name: &str| -> usize {
        let line = header.iter().find_map(|line| line.strip_prefix(&format!("#define {name} "))).unwrap();
        line.split('u').next().unwrap().parse().unwrap()
    };
    assert_eq!(size("GATE_SCRATCH_WORDS"), scratch_words());
    assert_eq!(size("GATE_CONDITION_BYTES"), CONDITION);
    assert_eq!(size("GATE_RECIPE_BYTES"), RECIPE);
    assert_eq!(size("GATE_RECORD_BYTES"), RECORD);
    assert_eq!(size("GATE_SHEET_BYTES"), size("GATE_MOST_FIELDS") * 8 * (1 + size("GATE_MOST_READINGS")));
}

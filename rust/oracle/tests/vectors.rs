//! The outside vectors: every answer and every output byte.

use gate_oracle::run::choice_file;
use gate_oracle::vectors::{cases, Case};
use gate_oracle::*;

/// A case, and the answers of it that differ from the expected ones.
struct Compared<'a> {
    case: &'a Case,
    found: Vec<String>,
}

impl Compared<'_> {
    fn compare(&mut self, what: &str, expected: &str, answer: &str) {
        if expected != answer {
            self.found.push(format!("{} {what}: expected {expected:?}, got {answer:?}", self.case.name()));
        }
    }

    /// A text that the case has in a file.
    fn text(&mut self, ending: &str, answer: &str) {
        self.compare(ending, &String::from_utf8(self.case.input(ending)).unwrap(), answer);
    }

    fn derive(&mut self, recipe: &[u8]) {
        let answer = derive(recipe);
        let text = match &answer {
            Ok(bytes) => format!("conjuncts {}", u32::from_le_bytes(bytes[..4].try_into().unwrap())),
            Err(number) => format!("refused {number}"),
        };
        self.compare("derive", &self.case.derive, &text);
        self.compare("derived bytes", &format!("{:?}", self.case.file("derived")), &format!("{:?}", answer.ok()));
        self.text("listing", &listing(recipe));
    }

    fn gate(&mut self, ending: &str, expected: Option<&String>, sheet: &[u8]) {
        let Some(expected) = expected else { return };
        let answer = match check(&self.case.input(ending), sheet) {
            Ok(Verdict::Pass) => "pass".to_string(),
            Ok(Verdict::Held(Cause::Above)) => "held above".to_string(),
            Ok(Verdict::Held(Cause::Below)) => "held below".to_string(),
            Ok(Verdict::Held(Cause::NoDivisor)) => "held divisor".to_string(),
            Err(number) => format!("refused {number}"),
        };
        self.compare(&format!("gate on .{ending}"), expected, &answer);
    }

    fn run(&mut self, recipe: &[u8], sheet: &[u8], limit: u32, choices: &[u8]) {
        let mut log = vec![0xA5; self.case.log_length];
        let mut expected = self.case.file("log").unwrap_or_default();
        let written = expected.len();
        expected.resize(log.len(), 0xA5);
        let answer = run(recipe, sheet, limit, choices, &mut log);
        let text = match answer {
            Ok(Ran { end, steps, records }) => format!("end {end} steps {steps} records {records}"),
            Err(number) => format!("refused {number}"),
        };
        self.compare("run", &self.case.run, &text);
        self.compare("log", &format!("{expected:?}"), &format!("{log:?}"));
        let records = answer.map_or(0, |ran| ran.records);
        self.compare("written bytes", &written.to_string(), &(12 * records).to_string());
    }

    fn convert(&mut self) {
        let answer = convert(&self.case.input("old"));
        let refusal = answer.as_ref().err().map(|number| format!("refused {number}"));
        self.compare("convert", &format!("{:?}", self.case.convert), &format!("{refusal:?}"));
        self.compare("converted bytes", &format!("{:?}", self.case.file("converted")), &format!("{:?}", answer.ok()));
    }

    /// The whole-number run.
    fn whole(&mut self, recipe: &[u8], sheet: &[u8], limit: u32, choices: &[u8]) {
        let text = match whole_run(recipe, sheet, limit, choices, self.case.log_length) {
            Ok(notes) => {
                let lines: Vec<String> =
                    notes.iter().map(|n| format!("{} {} {}\n", n.label, n.number, n.overflows)).collect();
                lines.concat()
            }
            Err(number) => format!("refused {number}\n"),
        };
        self.text("whole", &text);
    }
}

/// All answers of one case that differ from the expected ones.
fn differences(case: &Case) -> Vec<String> {
    let (recipe, sheet, choice_bytes) = (case.input("recipe"), case.input("sheet"), case.input("choices"));
    let (limit, choices) = choice_file(&choice_bytes);
    let mut compared = Compared { case, found: Vec::new() };
    compared.derive(&recipe);
    compared.gate("condition", case.gate.as_ref(), &sheet);
    compared.gate("derived", case.gate_on_derived.as_ref(), &sheet);
    compared.run(&recipe, &sheet, limit, choices);
    compared.whole(&recipe, &sheet, limit, choices);
    compared.convert();
    compared.found
}

#[test]
fn all_vectors() {
    let cases = cases();
    let found: Vec<String> = cases.iter().flat_map(differences).collect();
    assert!(found.is_empty(), "{} differences:\n{}", found.len(), found.join("\n"));
    println!("{} cases agree", cases.len());
}

//! The proved library beside an independent implementation on generated cases: answers, every output
//! byte, and the untouched rest.
//!
//! CASES gives the number of cases, SEED the first one's seed; both are printed, and how often the gate gave each
//! answer, a run the refusal 13, the analysis of nested loops and of procedures each of its answers, and a run of
//! procedures each of its ends. A third of the recipes are nested loops of many rounds and a third have procedures;
//! for these the independent implementation takes its shortcuts, which its own tests compare with the walk word by
//! word. The refusals 13 are told apart by the first wrong pair, or else whether a reading is beyond its bits, and the
//! refusals 16 by their cause, which the independent implementation gives and the library does not; so are the refusals
//! 8 that come before a 16. Each recipe, damaged or not, goes through the conversion too, as the recipe of the old form
//! with the same parts. A case is its seed.

#![allow(
    clippy::cast_possible_truncation,
    clippy::cast_possible_wrap,
    clippy::cast_sign_loss,
    reason = "the numbers of a test are small, and values wrap to their types"
)]

mod told;

use gate::{check, convert, derive, guarded, library, records, run, scratch, scratch_words};
use gate::{Choices, Guarded, Ran, Refusal, CONDITION, RECIPE, RECORD};
use gate_oracle::fields::{whole, Field};
use gate_oracle::generate::{self, Rng};
use gate_oracle::loops::{loops, Size};
use gate_oracle::procedures::Misuse;
use gate_oracle::recipe::Recipe;
use gate_oracle::sheet::{first_beyond, first_wrong};
use gate_oracle::{calls, misuses, nests, Verdict};
use std::collections::BTreeMap;
use std::sync::atomic::{AtomicU64, Ordering};
use told::told;

const MARK: u8 = 0xA5;

/// The answers of the gate that must occur on derived conditions, beside the refusals 13; on others 12 as well.
const ANSWERS: [&str; 6] = ["pass", "held too big", "held too small", "held no divisor", "refused 14", "refused 15"];

/// The refusals 13 that must occur on all conditions and in runs.
const REFUSALS_OF_SHEETS: [&str; 5] = [
    "refused 13 at the first pair",
    "refused 13 at a later pair",
    "refused 13 at the file's end alone",
    "refused 13 for a reading beyond its bits in the first field",
    "refused 13 for a reading beyond its bits in a later field",
];

/// The answers that the conversion must give.
const CONVERSIONS: [&str; 9] = [
    "a recipe",
    "refused 2",
    "refused 3",
    "refused 4",
    "refused 5",
    "refused 6",
    "refused 7",
    "refused 8",
    "refused 16",
];

fn setting(name: &str, usual: u64) -> u64 {
    std::env::var(name).map_or(usual, |text| text.parse().unwrap())
}

/// A recipe's fields, or else some field.
fn fields_of(recipe: &[u8]) -> Vec<Field> {
    Recipe::read(recipe).map_or_else(|_| whole(&[2]), |recipe| recipe.fields)
}

/// The fields that a condition lists, or else some field.
fn listed_fields(condition: &[u8]) -> Vec<Field> {
    gate_oracle::condition::Condition::read(condition).map_or_else(|_| whole(&[2]), |condition| condition.fields)
}

/// A sheet for some fields; at times it is damaged, in any way or in its pairs.
fn some_sheet(rng: &mut Rng, fields: &[Field]) -> Vec<u8> {
    let mut sheet = generate::sheet(rng, fields);
    match rng.below(100) {
        0..=2 => generate::damage(rng, &mut sheet),
        3..=7 => generate::damage_pairs(rng, &mut sheet, fields),
        _ => {}
    }
    sheet
}

/// Nested loops, seldom of as many rounds as there may be.
fn some_loops(rng: &mut Rng) -> Vec<u8> {
    if rng.chance(10) {
        return nests::some(rng).recipe();
    }
    let most = if rng.chance(10) { 16 } else { 9 };
    let size = Size { depth: rng.between(1, 4), body: rng.between(2, 7), chain: rng.between(2, most) };
    loops(rng, size)
}

/// The refusal 13 of a sheet for some fields, with the place of what is wrong first.
fn refused_sheet(sheet: &[u8], fields: &[Field]) -> &'static str {
    REFUSALS_OF_SHEETS[match (first_wrong(sheet, fields), first_beyond(sheet, fields)) {
        (Some(0), _) => 0,
        (Some(_), _) => 1,
        (None, None) => 2,
        (None, Some(0)) => 3,
        (None, Some(_)) => 4,
    }]
}

fn untouched(bytes: &[u8]) -> bool {
    bytes.iter().all(|&byte| byte == MARK)
}

/// A run's numbers as the other implementation gives them.
fn numbers(ran: Ran) -> (u8, u64, u64) {
    (ran.end as u8, ran.steps, ran.records)
}

/// What a recipe is made of.
#[derive(Clone, Copy, PartialEq)]
enum Made {
    Any,
    Loops,
    Procedures,
}

/// What a run takes.
struct Inputs {
    made: Made,
    /// The cause of 16 that another refusal comes before.
    hidden: Option<Misuse>,
    recipe: Vec<u8>,
    /// A recipe of the old form.
    old: Vec<u8>,
    sheet: Vec<u8>,
    limit: u32,
    choices: Choices,
}

impl Inputs {
    fn of(rng: &mut Rng) -> Inputs {
        let made = rng.pick(&[Made::Any, Made::Loops, Made::Procedures]);
        let (mut recipe, damaged) = match made {
            Made::Any => (generate::recipe(rng), 15),
            Made::Loops => (some_loops(rng), 2),
            Made::Procedures => (calls::recipe(rng), 25),
        };
        let mut hidden = None;
        if rng.chance(damaged) {
            if made == Made::Procedures {
                hidden = misuses::damage(rng, &mut recipe);
            } else {
                generate::damage(rng, &mut recipe);
            }
        }
        let sheet = some_sheet(rng, &fields_of(&recipe));
        let (limit, choices) = (generate::limit(rng), Choices::of_bytes(generate::choices(rng)));
        let old = generate::old_recipe(rng, &recipe);
        Inputs { made, hidden, recipe, old, sheet, limit, choices }
    }

    /// The condition as the other implementation has it.
    fn derived(&self) -> Result<Vec<u8>, u8> {
        if self.made == Made::Any {
            gate_oracle::derive(&self.recipe)
        } else {
            gate_oracle::derive_quickly(&self.recipe)
        }
    }

    /// The answer of the analysis in words, of 16 with its cause, and of 8 with the cause of 16 that it comes before.
    fn told(&self, answer: &Result<Vec<u8>, u8>) -> String {
        match (answer, Recipe::misuse(&self.recipe), self.hidden) {
            (Ok(_), ..) => "a condition".to_string(),
            (Err(16), Some(cause), _) => format!("refused 16, {cause:?}"),
            (Err(8), _, Some(cause)) => format!("refused 8 before 16, {cause:?}"),
            (Err(number), ..) => format!("refused {number}"),
        }
    }

    /// The run as the other implementation has it.
    fn expected(&self, log: &mut [u8]) -> Result<(u8, u64, u64), u8> {
        let ran = gate_oracle::run(&self.recipe, &self.sheet, self.limit, self.choices.as_bytes(), log)?;
        Ok((ran.end, ran.steps, ran.records))
    }
}

/// How often the gate gave each answer, and a run the refusal 13.
type Tally = BTreeMap<String, u64>;

struct Bench {
    condition: Vec<u8>,
    scratch: Vec<u64>,
    tally: Tally,
}

impl Bench {
    fn new() -> Bench {
        Bench { condition: vec![MARK; CONDITION + 16], scratch: scratch(), tally: Tally::new() }
    }

    /// The condition of a recipe: the same file or the same refusal, and nothing else touched.
    fn derive(&mut self, rng: &mut Rng, inputs: &Inputs) -> Result<Vec<u8>, u8> {
        let expected = inputs.derived();
        match inputs.made {
            Made::Any => {}
            Made::Loops => self.count("loops", &inputs.told(&expected)),
            Made::Procedures => self.count("procedures", &inputs.told(&expected)),
        }
        let length = CONDITION + rng.below(17);
        let answer = derive(&inputs.recipe, &mut self.condition[..length], &mut self.scratch);
        match (&expected, answer) {
            (Ok(file), Ok(written)) => {
                assert_eq!(&self.condition[..written], &file[..]);
                assert!(untouched(&self.condition[written..]));
                self.condition[..written].fill(MARK);
            }
            (Err(number), Err(refusal)) => {
                assert_eq!(*number, refusal.number());
                assert!(untouched(&self.condition));
            }
            (expected, answer) => panic!("derive: {expected:?}, {answer:?}"),
        }
        expected
    }

    /// The new form of an old recipe: the same file or the same refusal, and nothing else touched.
    fn convert(&mut self, rng: &mut Rng, old: &[u8]) {
        let mut recipe = vec![MARK; RECIPE + rng.below(17)];
        let expected = gate_oracle::convert(old);
        let answer = convert(old, &mut recipe, &mut self.scratch);
        assert_eq!(expected.as_ref().map(Vec::len).map_err(|&number| number), answer.map_err(Refusal::number));
        let written = expected.as_ref().map_or(&[][..], |file| file);
        assert_eq!(&recipe[..written.len()], written);
        assert!(untouched(&recipe[written.len()..]));
        self.count("conversions", &expected.map_or_else(|number| format!("refused {number}"), |_| "a recipe".into()));
    }

    /// Too little room of a conversion is refused with 1, whatever the old recipe, and nothing is touched.
    fn short_convert(&mut self, rng: &mut Rng, old: &[u8]) {
        let mut recipe = vec![MARK; RECIPE];
        let (room, words) = (RECIPE - 1 - rng.below(3), scratch_words() - 1 - rng.below(3));
        assert_eq!(convert(old, &mut recipe[..room], &mut self.scratch), Err(Refusal::Room));
        assert_eq!(convert(old, &mut recipe, &mut self.scratch[..words]), Err(Refusal::Room));
        assert!(untouched(&recipe));
    }

    /// Too little room is refused with 1, whatever the recipe, and nothing is touched.
    fn short(&mut self, rng: &mut Rng, recipe: &[u8]) {
        let (room, words) = (CONDITION - 1 - rng.below(3), scratch_words() - 1 - rng.below(3));
        let Bench { condition, scratch, .. } = self;
        assert_eq!(derive(recipe, &mut condition[..room], scratch), Err(Refusal::Room));
        assert_eq!(derive(recipe, condition, &mut scratch[..words]), Err(Refusal::Room));
        let (to, work) = (condition.as_mut_ptr(), scratch.as_mut_ptr());
        let mut log = [MARK; 24];
        assert_eq!(run(recipe, &[], 1, &Choices::default(), &mut log, &mut scratch[..words]), Err(Refusal::Room));
        // SAFETY: each length is at most that of the slice pointed to.
        unsafe {
            assert_eq!(library::gate_derive(recipe.as_ptr(), recipe.len(), to, room, work, scratch.len()), 1 << 32);
            assert_eq!(library::gate_derive(recipe.as_ptr(), recipe.len(), to, condition.len(), work, words), 1 << 32);
            let (mut steps, mut records) = (7, 9);
            let none = [0u8; 0].as_ptr();
            let (to_log, room) = (log.as_mut_ptr(), log.len());
            let (file, length) = (recipe.as_ptr(), recipe.len());
            let answer = library::gate_run(
                file,
                length,
                none,
                0,
                1,
                none,
                0,
                to_log,
                room,
                work,
                words,
                &raw mut steps,
                &raw mut records,
            );
            assert_eq!((answer, steps, records), (1 << 32, 7, 9));
            let all = condition.len();
            let answer = library::gate_guarded(
                file,
                length,
                none,
                0,
                1,
                none,
                0,
                to_log,
                room,
                to,
                all,
                work,
                words,
                &raw mut steps,
                &raw mut records,
            );
            assert_eq!((answer, steps, records), (1 << 32, 7, 9));
        }
        assert!(untouched(condition));
        assert!(untouched(&log));
    }

    /// The verdict on a sheet, with its cause, or the refusal; it is counted under a name of the conditions.
    fn check(&mut self, conditions: &str, condition: &[u8], sheet: &[u8]) -> Result<Verdict, u8> {
        let expected = gate_oracle::check(condition, sheet);
        let answer = check(condition, sheet);
        assert_eq!(expected, told(answer));
        let words = match answer {
            Ok(verdict) => verdict.to_string(),
            Err(Refusal::Sheet) => refused_sheet(sheet, &listed_fields(condition)).to_string(),
            Err(refusal) => format!("refused {}", refusal.number()),
        };
        self.count(conditions, &words);
        expected
    }

    fn count(&mut self, kind: &str, answer: &str) {
        *self.tally.entry(format!("{kind}: {answer}")).or_default() += 1;
    }

    /// The run with a log of some length: the same numbers and the same log, or the same refusal.
    fn run(&mut self, inputs: &Inputs, length: usize) -> Result<Ran, Refusal> {
        let (mut log, mut other) = (vec![MARK; length], vec![MARK; length]);
        let expected = inputs.expected(&mut other);
        let Inputs { recipe, sheet, limit, choices, .. } = inputs;
        let answer = run(recipe, sheet, *limit, choices, &mut log, &mut self.scratch);
        assert_eq!(expected, answer.map(numbers).map_err(Refusal::number));
        assert_eq!(log, other);
        answer
    }

    /// The run behind the gate, from the answers of the three apart.
    fn guarded(
        &mut self,
        inputs: &Inputs,
        length: usize,
        derived: &Result<Vec<u8>, u8>,
        verdict: Option<Result<Verdict, u8>>,
    ) {
        let mut log = vec![MARK; length];
        let Inputs { recipe, sheet, limit, choices, .. } = inputs;
        let answer = guarded(recipe, sheet, *limit, choices, &mut log, &mut self.condition, &mut self.scratch);
        let expected = match (derived, verdict) {
            (Err(number), _) => Err(*number),
            (Ok(_), Some(Err(number))) => Err(number),
            (Ok(_), Some(Ok(verdict))) => Ok(verdict),
            (derived, verdict) => panic!("{derived:?}, {verdict:?}"),
        };
        match (expected, answer) {
            (Err(number), Err(refusal)) if number == refusal.number() => assert!(untouched(&log)),
            (Ok(Verdict::Held(_)), Ok(Guarded::Held)) => assert!(untouched(&log)),
            (Ok(Verdict::Pass), Ok(Guarded::Ran(ran))) => {
                let mut other = vec![MARK; length];
                assert_eq!(Ok(numbers(ran)), inputs.expected(&mut other));
                assert_eq!(log, other);
                assert!(records(&log).take(ran.records as usize).all(|record| !record.marked));
                let file = derived.as_ref().unwrap();
                assert_eq!(&self.condition[..file.len()], &file[..]);
                self.condition[..file.len()].fill(MARK);
            }
            (expected, answer) => panic!("guarded: {expected:?}, {answer:?}"),
        }
        assert!(untouched(&self.condition));
    }

    /// Compares a case.
    fn case(&mut self, seed: u64) {
        let rng = &mut Rng::new(seed);
        let inputs = Inputs::of(rng);
        let length = generate::log_length(rng);
        let derived = self.derive(rng, &inputs);
        let verdict = derived.as_ref().ok().map(|condition| self.check("derived", condition, &inputs.sheet));
        match self.run(&inputs, length) {
            Err(Refusal::Sheet) => self.count("runs", refused_sheet(&inputs.sheet, &fields_of(&inputs.recipe))),
            Ok(ran) if inputs.made == Made::Procedures => {
                self.count("runs of procedures", &format!("end {}", ran.end as u8));
            }
            _ => {}
        }
        self.guarded(&inputs, length, &derived, verdict);
        self.convert(rng, &inputs.old);
        if seed.is_multiple_of(64) {
            self.short(rng, &inputs.recipe);
            self.short_convert(rng, &inputs.old);
            for length in 0..3 * RECORD + 2 {
                let _ = self.run(&inputs, length);
            }
        }

        let mut condition = match (&derived, rng.chance(30)) {
            (Ok(condition), true) => condition.clone(),
            _ => generate::condition(rng),
        };
        if rng.chance(50) {
            generate::damage(rng, &mut condition);
        }
        let sheet = some_sheet(rng, &listed_fields(&condition));
        let _ = self.check("other", &condition, &sheet);
    }
}

#[test]
fn generated_cases() {
    let (first, cases) = (setting("SEED", 1), setting("CASES", 100_000));
    println!("SEED={first} CASES={cases}");
    let next = AtomicU64::new(first);
    let work = || {
        let mut bench = Bench::new();
        loop {
            let seed = next.fetch_add(1, Ordering::Relaxed);
            if seed >= first + cases {
                return bench.tally;
            }
            let compared = std::panic::catch_unwind(std::panic::AssertUnwindSafe(|| bench.case(seed)));
            compared.unwrap_or_else(|_| panic!("the case SEED={seed} CASES=1 differs"));
        }
    };
    let threads = std::thread::available_parallelism().map_or(1, std::num::NonZero::get);
    let mut tally = Tally::new();
    std::thread::scope(|scope| {
        let threads: Vec<_> = (0..threads).map(|_| scope.spawn(work)).collect();
        for (answer, times) in threads.into_iter().flat_map(|thread| thread.join().unwrap()) {
            *tally.entry(answer).or_default() += times;
        }
    });
    for (answer, times) in &tally {
        println!("{times:7} on {answer}");
    }
    let answers = ["derived", "other"].iter().flat_map(|kind| ANSWERS.map(|answer| format!("{kind}: {answer}")));
    let sheets = ["derived", "other", "runs"];
    let sheets = sheets.iter().flat_map(|kind| REFUSALS_OF_SHEETS.map(|answer| format!("{kind}: {answer}")));
    let walks = ["a condition", "refused 9", "refused 10", "refused 11"];
    let walks = ["loops", "procedures"].iter().flat_map(|made| walks.map(|answer| format!("{made}: {answer}")));
    let misused = ["refused 16", "refused 8 before 16"];
    let misused = misused.iter().flat_map(|answer| Misuse::ALL.map(|cause| format!("procedures: {answer}, {cause:?}")));
    let wrong = ["refused 5", "refused 6", "refused 8"].map(|answer| format!("procedures: {answer}"));
    let ends = (0..5).map(|end| format!("runs of procedures: end {end}"));
    let conversions = CONVERSIONS.map(|answer| format!("conversions: {answer}"));
    let of_recipes = walks.chain(misused).chain(wrong).chain(ends).chain(conversions);
    for answer in answers.chain(sheets).chain(of_recipes).chain(["other: refused 12".to_string()]) {
        assert!(tally.contains_key(&answer) || cases < 10_000, "{answer} never occurs");
    }
}

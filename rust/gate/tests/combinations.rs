//! The verdict and its cause beside the independent implementation on conjuncts with several atoms and many
//! combinations of readings, and on conditions whose first failure is known beforehand.
//!
//! CONJUNCTS gives the number of conjuncts, and of those conditions, SEED the first one's seed; each is its seed.

mod told;

use gate::check;
use gate_oracle::generate::Rng;
use gate_oracle::{combinations, failures, Cause, Verdict};
use told::told;

fn setting(name: &str, usual: u64) -> u64 {
    std::env::var(name).map_or(usual, |text| text.parse().unwrap())
}

fn seeds(usual: u64) -> std::ops::Range<u64> {
    let (first, number) = (setting("SEED", 1), setting("CONJUNCTS", usual));
    first..first + number
}

/// How often each verdict occurred, to be printed.
#[derive(Default)]
struct Tally {
    passed: usize,
    above: usize,
    below: usize,
    no_divisor: usize,
}

impl Tally {
    fn count(&mut self, verdict: Verdict) {
        *match verdict {
            Verdict::Pass => &mut self.passed,
            Verdict::Held(Cause::Above) => &mut self.above,
            Verdict::Held(Cause::Below) => &mut self.below,
            Verdict::Held(Cause::NoDivisor) => &mut self.no_divisor,
        } += 1;
    }

    fn words(&self) -> String {
        let Tally { passed, above, below, no_divisor } = self;
        format!("{passed} pass, {above} are held too big, {below} too small, {no_divisor} no divisor")
    }
}

#[test]
fn many_combinations() {
    let seeds = seeds(10_000);
    let (mut tally, mut many) = (Tally::default(), 0);
    for seed in seeds.clone() {
        let combinations::Case { condition, sheet, combinations } = combinations::case(&mut Rng::new(seed));
        let expected = gate_oracle::check(&condition, &sheet);
        assert_eq!(told(check(&condition, &sheet)), expected, "SEED={seed} CONJUNCTS=1");
        let verdict = expected.expect("it is not refused");
        tally.count(verdict);
        many += usize::from(verdict == Verdict::Pass && combinations >= 128);
    }
    println!("of {} conjuncts {}; {many} passes with 128 combinations or more", seeds.count(), tally.words());
}

#[test]
fn known_failures() {
    let seeds = seeds(10_000);
    let mut tally = Tally::default();
    for seed in seeds.clone() {
        let failures::Case { condition, sheet, verdict } = failures::case(&mut Rng::new(seed));
        assert_eq!(told(check(&condition, &sheet)), Ok(verdict), "SEED={seed} CONJUNCTS=1");
        tally.count(verdict);
    }
    println!("of {} conditions with known failures {}", seeds.clone().count(), tally.words());
    let least = [tally.passed, tally.above, tally.below, tally.no_divisor].into_iter().min();
    assert!(least > Some(0) || seeds.count() < 1_000, "some verdict never occurs");
}

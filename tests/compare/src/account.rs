//! What was compared, and what came of it.

use oracle::Rules;

use crate::case::{Answer, Case};
use crate::progress;

/// Differences of one comparison that are printed; the rest are counted.
const SHOWN: u64 = 5;

pub struct Account {
    /// The rules of the release by which the build says that it answers.
    pub rules: Rules,
    pub seed: u64,
    passed: u64,
    failed: u64,
    /// Comparisons met so far.
    met: u64,
    /// How many there are. While they are counted it is not known, and none is run.
    all: Option<u64>,
}

/// One comparison under way.
pub struct Comparison {
    pub rules: Rules,
    inputs: u64,
    differences: u64,
}

impl Account {
    pub fn new(rules: Rules, seed: u64) -> Account {
        Account {
            rules,
            seed,
            passed: 0,
            failed: 0,
            met: 0,
            all: None,
        }
    }

    /// Goes through the comparisons twice: first without running one, to count them.
    pub fn run(&mut self, comparisons: impl Fn(&mut Account)) {
        comparisons(self);
        self.all = Some(std::mem::take(&mut self.met));
        comparisons(self);
    }

    /// Runs a comparison and counts it as one test: passed where it tried something and nothing
    /// differed. Says whether something differed.
    pub fn compare(&mut self, name: &str, run: impl FnOnce(&mut Comparison)) -> bool {
        self.met += 1;
        let Some(all) = self.all else {
            return false;
        };
        progress::tell(&format!("comparison {} of {all}: {name}", self.met));
        let mut comparison = Comparison {
            rules: self.rules.clone(),
            inputs: 0,
            differences: 0,
        };
        run(&mut comparison);
        let Comparison {
            inputs,
            differences,
            ..
        } = comparison;
        println!(
            "{name}: {inputs} inputs, {differences} differences (seed {})",
            self.seed
        );
        if inputs > 0 && differences == 0 {
            self.passed += 1;
        } else {
            self.failed += 1;
        }
        differences > 0
    }

    /// Prints the closing line and gives the exit status.
    pub fn close(self) -> i32 {
        println!("{} passed, {} failed", self.passed, self.failed);
        i32::from(self.failed > 0)
    }
}

/// Characters of an input that are shown.
const WIDTH: usize = 1_200;

impl Comparison {
    /// A call answered by both sides; gives the library's answer.
    pub fn case(&mut self, case: &Case) -> Answer {
        let got = case.by_library();
        let wanted = case.by_paper(&self.rules);
        self.same(&got, &wanted, || {
            let shown = format!("{case:?}");
            shown.chars().take(WIDTH).collect()
        });
        got
    }

    /// Counts an input, and a difference where `got` is not `wanted`.
    pub fn same<T: PartialEq + std::fmt::Debug>(
        &mut self,
        got: T,
        wanted: T,
        input: impl FnOnce() -> String,
    ) {
        self.inputs += 1;
        if got != wanted {
            self.differences += 1;
            if self.differences <= SHOWN {
                println!(
                    "  differs: {}\n    library {got:?}\n    paper   {wanted:?}",
                    input()
                );
            }
        }
    }
}

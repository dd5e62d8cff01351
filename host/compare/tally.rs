//! Cases and differences.
use std::collections::BTreeMap;
use std::panic::{AssertUnwindSafe, catch_unwind, set_hook, take_hook};

#[derive(Default)]
pub struct Tally {
    pub cases: u64,
    pub differences: u64,
    answers: BTreeMap<String, u64>,
}

impl Tally {
    /// Counts an answer by its sort.
    pub fn answered(&mut self, sort: String) {
        *self.answers.entry(sort).or_default() += 1;
    }

    /// Each of these sorts of answer was given often, so that none goes untried.
    pub fn assert_answered(&self, sorts: &[&str], often: u64) {
        for &sort in sorts {
            assert!(self.times(sort) >= often, "{sort} of {:?}", self.answers);
        }
    }

    pub fn times(&self, sort: &str) -> u64 {
        self.answers.get(sort).copied().unwrap_or_default()
    }

    pub fn case(&mut self, same: bool, what: impl FnOnce() -> String) {
        self.cases += 1;
        if !same {
            self.differences += 1;
            if self.differences <= 20 {
                println!("  differs: {}", what());
            }
        }
    }
}

/// The source's panics are answers here: nothing is printed while f runs.
pub fn silent<T>(f: impl FnOnce() -> T) -> T {
    let hook = take_hook();
    set_hook(Box::new(|_| {}));
    let result = f();
    set_hook(hook);
    result
}

/// Nothing, if the source gives up.
pub fn caught<T>(f: impl FnOnce() -> T) -> Option<T> {
    catch_unwind(AssertUnwindSafe(f)).ok()
}

/// Whether the source gives up.
pub fn panics<T>(f: impl FnOnce() -> T) -> bool {
    silent(|| caught(f).is_none())
}

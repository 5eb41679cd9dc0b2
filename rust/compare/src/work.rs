//! Many seeds on all processors, and how often each answer came up.

use second::random::Random;
use std::collections::BTreeMap;
use std::io::Write;
use std::sync::atomic::{AtomicU64, Ordering};
use std::thread;

/// How often each kind of answer came up.
#[derive(Default)]
pub struct Tally(BTreeMap<String, u64>);

impl Tally {
    pub fn count(&mut self, kind: impl Into<String>) {
        self.add(kind, 1);
    }

    pub fn add(&mut self, kind: impl Into<String>, times: u64) {
        *self.0.entry(kind.into()).or_default() += times;
    }

    pub fn of(&self, kind: &str) -> u64 {
        self.0.get(kind).copied().unwrap_or(0)
    }

    /// Each of these kinds came up at least so often.
    pub fn assert_at_least(&self, kinds: &[(&str, u64)]) {
        for (kind, least) in kinds {
            assert!(self.of(kind) >= *least, "{kind}: {}", self.of(kind));
        }
    }

    fn merge(&mut self, other: Tally) {
        for (kind, times) in other.0 {
            self.add(kind, times);
        }
    }

    /// Printed past the test's own capture, so that a passing run shows it.
    fn print(&self, title: &str) {
        let counts: Vec<String> = self.0.iter().map(|(kind, times)| format!("{kind} {times}")).collect();
        let _ = writeln!(std::io::stderr(), "{title}: {}", counts.join(", "));
    }
}

/// The documents' word for a number.
pub fn called(number: usize) -> &'static str {
    [
        "accepted",
        "misprint",
        "wrong frame",
        "torn",
        "tied",
        "bad mark",
        "cut short",
        "bad tally",
        "plot order",
        "no such plot",
        "full",
        "spotted",
        "bad span",
        "species list",
        "tract full",
        "no plots",
        "thin",
    ][number]
}

/// The numbers that a seed gives; the product spreads neighbouring seeds apart.
fn numbers_of(seed: u64) -> Random {
    Random::new(seed.wrapping_mul(0x9E37_79B9_7F4A_7C15))
}

/// Names the seed when its work panics.
struct Seed(u64);

impl Drop for Seed {
    fn drop(&mut self) {
        if thread::panicking() {
            let _ = writeln!(std::io::stderr(), "the seed was {}", self.0);
        }
    }
}

/// Runs the work for the seeds 1 to `seeds`, and prints what came up.
pub fn run(title: &str, seeds: u64, work: impl Fn(u64, &mut Random, &mut Tally) + Sync) -> Tally {
    let next = AtomicU64::new(1);
    let turns = || {
        let mut tally = Tally::default();
        loop {
            let seed = Seed(next.fetch_add(1, Ordering::Relaxed));
            if seed.0 > seeds {
                return tally;
            }
            work(seed.0, &mut numbers_of(seed.0), &mut tally);
        }
    };
    let threads = thread::available_parallelism().map_or(1, |count| count.get());
    let mut all = Tally::default();
    thread::scope(|scope| {
        let running: Vec<_> = (0..threads).map(|_| scope.spawn(turns)).collect();
        for thread in running {
            all.merge(thread.join().expect("the comparison holds"));
        }
    });
    all.print(title);
    all
}

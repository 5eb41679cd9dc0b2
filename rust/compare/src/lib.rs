//! The proved library beside the second decoder: each function here gives one input to both, with lent buffers of the same bytes, and
//! compares the answers and every byte of every buffer afterwards. The tests draw the inputs.

pub mod block;
pub mod candidates;
pub mod draw;
pub mod listing;
pub mod plot;
pub mod sheet;
pub mod stand;
pub mod work;

/// Number, place and two values of an answer. What an answer does not have is 0.
pub type Answer = (usize, usize, usize, usize);

/// A refusal of either.
pub trait Refused {
    /// Number, place, figure and line.
    fn numbers(&self) -> [usize; 4];
}

impl Refused for second::Refusal {
    fn numbers(&self) -> [usize; 4] {
        [self.number.into(), self.place, self.figure.into(), self.line]
    }
}

impl Refused for tishwabe::Error {
    fn numbers(&self) -> [usize; 4] {
        [self.number().into(), self.place(), self.figure().into(), self.line()]
    }
}

/// A result as its numbers, the two values from what is accepted.
pub fn outcome<T>(result: Result<T, impl Refused>, values: impl Fn(T) -> (usize, usize)) -> Answer {
    match result {
        Ok(value) => {
            let (first, second) = values(value);
            (0, 0, first, second)
        }
        Err(refusal) => {
            let [number, place, ..] = refusal.numbers();
            (number, place, 0, 0)
        }
    }
}

/// The wrapper's profile with these numbers, which both refuse or both accept. k and h are handed out where they are refused too.
pub fn profile(p: &second::Profile) -> Option<tishwabe::Profile> {
    let result = tishwabe::Profile::new(p.n, p.r, p.b, p.limit, p.depth);
    let answer = outcome(p.check(), |()| (0, 0));
    assert_eq!(outcome(result, |_| (0, 0)), answer, "{p:?}");
    let due = (answer.0, p.n.saturating_sub(p.r), p.r / 2);
    assert_eq!(tishwabe::ffi::profile(numbers(p)), due, "{p:?}");
    let made = result.ok()?;
    assert_eq!((made.k(), made.h()), (p.k(), p.h()), "{p:?}");
    assert_eq!(
        (made.sheet_length(), made.scratch_length(), made.payload_length()),
        (p.depth * p.n, p.n, p.depth * p.k()),
        "{p:?}"
    );
    assert_eq!(made.pairs_length(), 2 * p.n, "{p:?}");
    Some(made)
}

/// n, r, b, L and D.
pub fn numbers(p: &second::Profile) -> [usize; 5] {
    [p.n, p.r, p.b, p.limit, p.depth]
}

/// The library's mode of the same name.
pub fn library_mode(mode: second::Mode) -> tishwabe::Mode {
    match mode {
        second::Mode::Burst => tishwabe::Mode::Burst,
        second::Mode::Spots => tishwabe::Mode::Spots,
    }
}

//! The library beside that of a former commit, in one run: in each round both do the same work on the same inputs.

use std::hint::black_box;

use bench::blocks::{blocks, Block};
use bench::Shape;
use second::random::Random;
use tishwabe::ffi::{self, Numbers};
use tishwabe::{Mode, Profile};

use crate::pairs::{Pairs, Side};
use crate::sheets::{sheets, Sheet};
use crate::timing::each_once;

/// A sample takes each input once, so that it is short and seldom interrupted; there are many rounds instead.
const ROUNDS: usize = 801;

/// n, r and D.
const SHAPES: [(usize, usize, usize); 6] = [
    (255, 16, 16),
    (255, 32, 16),
    (255, 64, 16),
    (60, 20, 8),
    (60, 20, 16),
    (16, 8, 16),
];

/// The functions compared, with the numbers that they answer: a refusal's number or 0, and then what include/tishwabe.h has in its order.
pub trait Library {
    fn check(&self, numbers: Numbers, read: &[u8]) -> (usize, usize);
    fn correct(&self, numbers: Numbers, read: &[u8], out: &mut [u8]) -> (usize, usize, usize);
    fn read(
        &self,
        mode: Mode,
        numbers: Numbers,
        sheet: &[u8],
        scratch: &mut [u8],
        payload: &mut [u8],
    ) -> (usize, usize, usize);
}

/// The library that is linked.
struct Linked;

impl Library for Linked {
    fn check(&self, numbers: Numbers, read: &[u8]) -> (usize, usize) {
        ffi::check_block(numbers, read)
    }

    fn correct(&self, numbers: Numbers, read: &[u8], out: &mut [u8]) -> (usize, usize, usize) {
        ffi::correct_block(Mode::Burst, numbers, read, out)
    }

    fn read(
        &self,
        mode: Mode,
        numbers: Numbers,
        sheet: &[u8],
        scratch: &mut [u8],
        payload: &mut [u8],
    ) -> (usize, usize, usize) {
        ffi::read_sheet(mode, numbers, sheet, scratch, payload)
    }
}

/// A library with its scratch for sheets of one shape: n bytes or, before document 02's Note 6, D × n.
struct Reader<'a> {
    library: &'a dyn Library,
    scratch: Vec<u8>,
}

impl Reader<'_> {
    /// Asked to read a clean sheet with n bytes, a library that takes D × n answers 2.
    fn new<'a>(library: &'a dyn Library, bench: &Bench) -> Reader<'a> {
        let [n, .., depth] = bench.numbers;
        let (sheet, mut payload) = (&bench.sheets[0].clean, bench.payload.clone());
        let (number, ..) = library.read(Mode::Burst, bench.numbers, sheet, &mut vec![0; n], &mut payload);
        let length = if number == 2 { depth * n } else { n };
        Reader {
            library,
            scratch: vec![0; length],
        }
    }

    fn read(&mut self, mode: Mode, numbers: Numbers, sheet: &[u8], payload: &mut [u8]) -> (usize, usize, usize) {
        self.library
            .read(mode, numbers, black_box(sheet), &mut self.scratch, payload)
    }
}

#[derive(Clone, Copy)]
enum Work {
    ReadClean,
    ReadScratched,
    ReadSpots,
    CorrectRun,
    CorrectLongest,
    CorrectClean,
    Check,
}

const WORKS: [Work; 7] = [
    Work::ReadClean,
    Work::ReadScratched,
    Work::ReadSpots,
    Work::CorrectRun,
    Work::CorrectLongest,
    Work::CorrectClean,
    Work::Check,
];

/// The inputs of one shape, and the buffers but for the scratch.
struct Bench {
    numbers: Numbers,
    h: usize,
    blocks: Vec<Block>,
    /// The blocks with a run of r−1 cells wrong, for an L of r−1.
    longest: Vec<Vec<u8>>,
    sheets: Vec<Sheet>,
    out: Vec<u8>,
    payload: Vec<u8>,
}

impl Bench {
    fn new((n, r, depth): (usize, usize, usize)) -> Bench {
        let (b, h) = (1, r / 2);
        let profile = Profile::new(n, r, b, h, depth).expect("the shapes are in range");
        let blocks = blocks(Shape { n, r, b }, 0, crate::BLOCKS);
        Bench {
            numbers: [n, r, b, h, depth],
            h,
            longest: longest_runs([n, r, b, r - 1, depth], &blocks),
            blocks,
            sheets: sheets(profile),
            out: vec![0; n],
            payload: vec![0; profile.payload_length()],
        }
    }

    /// Asserts that the library corrects every block and reads every sheet.
    fn hold(&mut self, reader: &mut Reader) {
        for block in &self.blocks {
            for read in [&block.clean, &block.run] {
                self.out.fill(0);
                assert_eq!(reader.library.correct(self.numbers, read, &mut self.out).0, 0);
                assert_eq!(self.out, block.clean);
            }
        }
        for (block, read) in self.blocks.iter().zip(&self.longest) {
            let answer = reader.library.correct(longest_limit(self.numbers), read, &mut self.out);
            assert_eq!((answer.0, &self.out), (0, &block.clean));
        }
        for sheet in &self.sheets {
            for (mode, read) in [
                (Mode::Burst, &sheet.clean),
                (Mode::Burst, &sheet.scratched),
                (Mode::Spots, &sheet.spots),
            ] {
                self.payload.fill(0);
                assert_eq!(reader.read(mode, self.numbers, read, &mut self.payload).0, 0);
                assert_eq!(self.payload, sheet.payload);
            }
        }
    }

    /// Nanoseconds of a call.
    fn sample(&mut self, work: Work, reader: &mut Reader) -> f64 {
        let Bench {
            numbers,
            h,
            blocks,
            longest,
            sheets,
            out,
            payload,
        } = self;
        let (numbers, depth, library) = (*numbers, numbers[4], reader.library);
        match work {
            Work::ReadClean => each_once(sheets, |sheet| {
                assert_eq!(reader.read(Mode::Burst, numbers, &sheet.clean, payload), (0, 0, 0))
            }),
            Work::ReadScratched => each_once(sheets, |sheet| {
                let answer = reader.read(Mode::Burst, numbers, &sheet.scratched, payload);
                assert_eq!(answer, (0, depth, 0))
            }),
            Work::ReadSpots => each_once(sheets, |sheet| {
                let answer = reader.read(Mode::Spots, numbers, &sheet.spots, payload);
                assert_eq!(answer, (0, depth, 0))
            }),
            Work::CorrectRun => each_once(blocks, |block| {
                assert_eq!(library.correct(numbers, black_box(&block.run), out).2, *h)
            }),
            Work::CorrectLongest => each_once(longest, |read| {
                let longest = longest_limit(numbers);
                assert_eq!(library.correct(longest, black_box(read), out).2, longest[3])
            }),
            Work::CorrectClean => each_once(blocks, |block| {
                assert_eq!(library.correct(numbers, black_box(&block.clean), out), (0, 0, 0))
            }),
            Work::Check => each_once(blocks, |block| {
                assert_eq!(library.check(numbers, black_box(&block.clean)), (0, 1))
            }),
        }
    }

    fn called(&self, work: Work) -> String {
        let (h, scratch) = (self.h, self.numbers[4] * self.h);
        match work {
            Work::ReadClean => "reading a clean sheet".into(),
            Work::ReadScratched => format!("reading a sheet with a scratch of {scratch}"),
            Work::ReadSpots => format!("reading a sheet with {h} spots in each block"),
            Work::CorrectRun => format!("correcting a run of {h}"),
            Work::CorrectLongest => format!("correcting a run of {} with L = r − 1", self.numbers[1] - 1),
            Work::CorrectClean => "correcting a clean block".into(),
            Work::Check => "checking a clean block".into(),
        }
    }
}

/// The profile with an L of r−1.
fn longest_limit([n, r, b, _, depth]: Numbers) -> Numbers {
    [n, r, b, r - 1, depth]
}

/// The blocks with every cell of a run of L cells wrong. A run is drawn again where another is as short.
fn longest_runs(numbers: Numbers, blocks: &[Block]) -> Vec<Vec<u8>> {
    let mut random = Random::new(12);
    let [n, .., length, _] = numbers;
    let mut read = |block: &Block| loop {
        let start = random.between(0, n - length);
        let mut cells = block.clean.clone();
        random.change(&mut cells[start..start + length], length);
        let mut out = vec![0; n];
        if Linked.correct(numbers, &cells, &mut out) == (0, start, length) && out == block.clean {
            return cells;
        }
    };
    blocks.iter().map(&mut read).collect()
}

/// A line for each shape and work.
pub fn table(former: &dyn Library) -> String {
    let mut text = String::from(
        "| n | r | D | work | former, µs | this library, µs | this over former | half of the rounds |\n|---|---|---|---|---|---|---|---|\n",
    );
    for (n, r, depth) in SHAPES {
        let mut bench = Bench::new((n, r, depth));
        let [mut former, mut linked] = [former, &Linked].map(|library| Reader::new(library, &bench));
        bench.hold(&mut former);
        bench.hold(&mut linked);
        for work in WORKS {
            let mut pairs = Pairs::default();
            for _ in 0..ROUNDS {
                pairs.round(|side| match side {
                    Side::First => bench.sample(work, &mut former),
                    Side::Second => bench.sample(work, &mut linked),
                });
            }
            let work = bench.called(work);
            text += &format!("| {n} | {r} | {depth} | {work} | {}\n", pairs.columns());
        }
    }
    text
}

#[cfg(test)]
mod tests {
    use std::path::{Path, PathBuf};
    use std::process::Command;

    use super::*;
    use crate::shared_object::SharedObject;

    /// The linked library as a shared object, made as docs/PERFORMANCE.md says.
    fn shared_object() -> PathBuf {
        let archive = Path::new(env!("CARGO_MANIFEST_DIR")).join("../../crates/capi/out/libcapi.a");
        let file = Path::new(env!("OUT_DIR")).join("former.so");
        let compiler = std::env::var("CC").unwrap_or_else(|_| "cc".into());
        let made = Command::new(compiler)
            .args(["-shared", "-Wl,-Bsymbolic", "-Wl,--whole-archive"])
            .arg(archive)
            .args(["-Wl,--no-whole-archive", "-o"])
            .arg(&file)
            .status();
        assert!(made.expect("there is a C compiler").success());
        file
    }

    #[test]
    fn same_answers() {
        let former = SharedObject::open(&shared_object()).unwrap_or_else(|error| panic!("{error}"));
        for shape in SHAPES {
            let mut bench = Bench::new(shape);
            for library in [&former as &dyn Library, &Linked] {
                let mut reader = Reader::new(library, &bench);
                assert_eq!(reader.scratch.len(), shape.0);
                bench.hold(&mut reader);
                for work in WORKS {
                    assert!(bench.sample(work, &mut reader) > 0.0);
                }
            }
        }
    }

    #[test]
    fn no_shared_object() {
        for name in ["absent", "../Cargo.toml"] {
            let file = Path::new(env!("CARGO_MANIFEST_DIR")).join(name);
            assert!(SharedObject::open(&file).is_err());
        }
    }
}

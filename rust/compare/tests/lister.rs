//! The program `lister`, as `rt ci` leaves it, or `rt run` in its folder: standard input comes through a pipe in small pieces, and what it writes is the second
//! decoder's text. It ends with status 0 and writes nothing to standard error.

use std::io::{ErrorKind, Write};
use std::path::{Path, PathBuf};
use std::process::{Command, Stdio};
use std::time::Duration;

use second::plot::record;
use second::{cases, lister, sheet, Profile};

fn top() -> PathBuf {
    Path::new(env!("CARGO_MANIFEST_DIR")).join("../..")
}

/// What the program writes to standard output when its input comes in pieces of so many bytes.
fn run(input: &[u8], piece: usize) -> Vec<u8> {
    run_pieces(input.chunks(piece))
}

/// The same for these pieces, of which there may be no end.
fn run_pieces<'a>(pieces: impl Iterator<Item = &'a [u8]>) -> Vec<u8> {
    let program = top().join("crates/lister/out/lister");
    let mut child = Command::new(&program)
        .stdin(Stdio::piped())
        .stdout(Stdio::piped())
        .stderr(Stdio::piped())
        .spawn()
        .unwrap_or_else(|error| panic!("{}: {error} (`rt ci` makes it)", program.display()));
    let mut pipe = child.stdin.take().expect("standard input is a pipe");
    for bytes in pieces {
        match pipe.write_all(bytes) {
            Ok(()) => std::thread::sleep(Duration::from_micros(20)),
            Err(error) => {
                assert_eq!(
                    error.kind(),
                    ErrorKind::BrokenPipe,
                    "it may stop reading past the longest input"
                );
                break;
            }
        }
    }
    drop(pipe);
    let output = child.wait_with_output().expect("the program ends");
    assert!(output.status.success());
    assert!(output.stderr.is_empty());
    output.stdout
}

fn agree(input: &[u8], piece: usize) {
    let text = run(input, piece);
    assert_eq!(
        String::from_utf8_lossy(&text),
        String::from_utf8_lossy(&lister::list(input)),
        "{} bytes in pieces of {piece}",
        input.len()
    );
}

/// Every prefix of a sheet that is short, the sheet, and the sheet with a byte more.
#[test]
fn lengths() {
    let sheet = std::fs::read(top().join("examples/cruise/scratched.sheet")).expect("the example is there");
    for length in (0..8).chain([sheet.len() - 1]) {
        agree(&sheet[..length], 1);
    }
    let longer = [&sheet[..], &[0]].concat();
    for piece in [1, 3, 64, longer.len()] {
        agree(&sheet, piece);
        agree(&longer, piece);
    }
}

/// The example sheets, and the inputs whose texts were written by hand.
#[test]
fn worked_inputs() {
    for name in ["written", "torn", "tied", "thin", "mould"] {
        let sheet = std::fs::read(top().join("examples/cruise").join(name).with_extension("sheet"));
        agree(&sheet.expect("the example is there"), 5);
    }
    for (input, text) in cases::lists() {
        assert_eq!(String::from_utf8_lossy(&run(&input, 7)), text);
    }
}

/// The input of the longest sheet, n=255 and D=16: a record of 40 lines for each of 32 plots.
fn longest_input() -> Vec<u8> {
    let numbers = [255, 2, 0, 1, 16];
    let lines: Vec<u8> = (1..=40).flat_map(|class| [99, class, 255]).collect();
    let mut payload: Vec<u8> = (0..32).flat_map(|plot| record(65_000 + plot, &lines)).collect();
    payload.resize(16 * 253, 0);
    let mut sheet = vec![0; 16 * 255];
    sheet::write(&Profile::from(numbers.map(usize::from)), &payload, &mut sheet).expect("the profile is in range");
    [&numbers[..], &sheet].concat()
}

/// The longest input is listed whole; one byte more, and it is refused for its length.
#[test]
fn longest_inputs() {
    let input = longest_input();
    assert_eq!(input.len(), 4_085);
    let rows = (0..32).flat_map(|plot| (1..=40).map(move |class| format!("{},99,{class},255\n", 65_000 + plot)));
    let text = format!("plot,species,class,count\n{}mended,0\n", rows.collect::<String>());
    let longer = [&input[..], &[0]].concat();
    for piece in [1, 2_046, 4_096] {
        assert_eq!(String::from_utf8_lossy(&run(&input, piece)), text);
        assert_eq!(String::from_utf8_lossy(&run(&longer, piece)), "refused,2,0\n");
    }
    agree(&input, 4_085);
}

/// What the program writes when zeros without end follow these bytes.
fn endless(start: &[u8]) -> String {
    let zeros = (0..).map(|pieces| {
        assert!(pieces < 1_000, "it reads on and on");
        &[0; 4_096][..]
    });
    String::from_utf8_lossy(&run_pieces(start.chunks(1).chain(zeros))).into()
}

/// An input that never ends: the program answers after it has read enough, and the pipe breaks.
#[test]
fn endless_input() {
    assert_eq!(endless(&longest_input()), "refused,2,0\n");
    assert_eq!(endless(&[255, 64, 1, 32, 16]), "refused,2,0\n");
    assert_eq!(endless(&[]), "refused,1,0\n");
}

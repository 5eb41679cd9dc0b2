//! Runs of a program for its tests: each in a folder of its own, with what it printed and how it ended, and what every program here is held to: its help, wrong
//! arguments, and output that nobody takes.

use std::fs::{self, File};
use std::path::{Path, PathBuf};
use std::process::{Command, Output, Stdio};

/// Status, standard output and standard error.
#[derive(Debug, PartialEq)]
pub struct Ended {
    pub status: i32,
    pub out: String,
    pub err: String,
}

/// A program: its name, its file, and where its tests make folders.
pub struct Program {
    pub name: &'static str,
    pub file: &'static str,
    pub folders: &'static str,
}

/// The project's top folder.
pub fn top() -> PathBuf {
    Path::new(env!("CARGO_MANIFEST_DIR")).join("../..")
}

/// The bytes of a file of the project.
pub fn stored(name: &str) -> Vec<u8> {
    let path = top().join(name);
    fs::read(&path).unwrap_or_else(|error| panic!("{}: {error}", path.display()))
}

fn ended(output: std::io::Result<Output>) -> Ended {
    let output = output.expect("the program is there");
    let text = |bytes| String::from_utf8(bytes).expect("UTF-8");
    Ended {
        status: output.status.code().expect("it ends by itself"),
        out: text(output.stdout),
        err: text(output.stderr),
    }
}

impl Program {
    /// A folder with these files and no others.
    pub fn folder(&self, name: &str, files: &[(String, Vec<u8>)]) -> PathBuf {
        let folder = Path::new(self.folders).join(self.name).join(name);
        let _ = fs::remove_dir_all(&folder);
        fs::create_dir_all(&folder).expect("a folder for the test");
        for (file, bytes) in files {
            fs::write(folder.join(file), bytes).expect("a file for the test");
        }
        folder
    }

    fn command(&self, folder: &Path, arguments: &[&str]) -> Command {
        let mut command = Command::new(self.file);
        command.current_dir(folder).args(arguments);
        command
    }

    /// The program, run in this folder.
    pub fn run(&self, folder: &Path, arguments: &[&str]) -> Ended {
        ended(self.command(folder, arguments).output())
    }

    /// What `--help` prints, and `-h` too: the usage first, with status 0 and no message.
    pub fn help(&self, usage: &str) -> String {
        let folder = self.folder("help", &[]);
        let Ended { status, out, err } = self.run(&folder, &["--help"]);
        assert_eq!((status, err.as_str()), (0, ""));
        assert!(out.starts_with(usage), "{out}");
        assert_eq!(self.run(&folder, &["-h"]).out, out);
        out
    }

    /// Arguments that are wrong end it with status 2, their message and the usage. It prints nothing else, and makes no file.
    pub fn wrong_arguments(&self, usage: &str, cases: &[(&[&str], &str)]) {
        let folder = self.folder("arguments", &[]);
        for (arguments, message) in cases {
            let due = Ended {
                status: 2,
                out: String::new(),
                err: format!("{}: {message}\n{usage}", self.name),
            };
            assert_eq!(self.run(&folder, arguments), due);
        }
        assert_eq!(fs::read_dir(folder).expect("the folder is there").count(), 0);
    }

    /// A pipe that is closed at its other end ends it with status 0 and no message, a device with no space with status 1 and one line.
    pub fn output_that_nobody_takes(&self, sheet: Vec<u8>) {
        let folder = self.folder("pipe", &[("a.sheet".into(), sheet)]);
        let (reader, writer) = std::io::pipe().expect("a pipe");
        drop(reader);
        let mut closed = self.command(&folder, &["a.sheet"]);
        let due = Ended {
            status: 0,
            out: String::new(),
            err: String::new(),
        };
        assert_eq!(ended(closed.stdout(writer).stderr(Stdio::piped()).output()), due);
        if let Ok(full) = File::options().write(true).open("/dev/full") {
            let Ended { status, err, .. } = ended(self.command(&folder, &["a.sheet"]).stdout(full).output());
            assert_eq!(status, 1);
            let begins = format!("{}: standard output: ", self.name);
            assert!(err.starts_with(&begins) && err.lines().count() == 1, "{err}");
        }
    }
}

//! The program, run on the example sheets, on sheets whose verdicts the second decoder gives, and on what is no sheet. Each part of its output has a file of
//! its own here.

mod candidates;
mod drawings;
mod expected;
mod failures;
mod listed;
mod pages;
mod run;
mod tables;
mod tallied;
mod xml;

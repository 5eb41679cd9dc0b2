//! The program, run on the example sheets, on sheets whose tables the second decoder gives, and on what is no sheet.

mod expected;
mod failures;
mod layout;
mod pages;
mod run;
mod sheets;
mod tables;

//! A simulation of damage beyond the promise, read in scratch mode: how many blocks are refused, repaired rightly and repaired wrongly, with the rule
//! of document 02's Note 7 and without it. The rule refuses a run of more than r/2 cells of which at most half are changed: a sparse, or thin, burst.
//! Every verdict is the proved library's, and what a block was before the damage tells right from wrong.

pub mod counting;
pub mod damage;
pub mod draws;
pub mod plot;
pub mod simulation;
pub mod table;
pub mod verdict;

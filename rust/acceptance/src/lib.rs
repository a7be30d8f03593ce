//! The acceptance tooling of the crate list engine.
//!
//! A wrong engine is an edit that the prover must refuse, and for a fact: not because a
//! proof file no longer fits the text. `crates/NAME/must-fail` has those that the papers name
//! and some of each crate, which `rt ci` tries; `acceptance/code` has the others,
//! of one crate each, tried over what is proved. `acceptance/definitions` has those of the
//! definitions that the theorems of the crates `worst_count`, `scalers` and `demands` are
//! about; they are tried where there is no code, so that only these, and the laws that they
//! cite, can refuse them. The program `mutations` makes small changes of its own in every
//! function.
//!
//! The documents are held to the tree: the names that they cite (`reading`), the words that
//! they and the definitions quote (`quotations`), the tables that are printed into them
//! (`printed`, of `tables` and `sizes`).

#![forbid(unsafe_code)]

pub mod changes;
pub mod code;
pub mod definitions;
pub mod edit;
pub mod files;
pub mod further;
pub mod jobs;
pub mod must_fail;
pub mod mutations;
pub mod needs;
pub mod pages;
pub mod printed;
pub mod quotations;
pub mod reading;
pub mod refit;
pub mod repository;
pub mod sizes;
pub mod tables;
pub mod trial;
pub mod types;
pub mod verdict;

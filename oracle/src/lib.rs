//! A second implementation of the ledger command, written from the paper alone:
//! naive rules, each computed afresh from the set of stored updates.

pub mod bundle;
pub mod command;
pub mod generator;
pub mod ledger;
pub mod lookup;
pub mod program;
pub mod script;
pub mod sha256;
pub mod update;
pub mod writer;

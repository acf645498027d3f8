//! Tests of the oracle. Those of a numbered finding begin with its letter and
//! number, or with the request of document 02 and its number.

mod common;
mod edits;
mod files;
mod generator;
mod lists;
mod load;
mod pairs;
mod passes;
mod pointers;
mod reader;
mod shelf;
mod utf8;
mod values;
mod verdicts;

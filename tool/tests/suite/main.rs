//! The tests of the tool, against the examples, random tables and wrong input.
mod command;
mod dot;
mod errors;
mod examples;
mod pictures;
mod plain;
mod random;
mod refusals;
mod round_trip;
mod samples;
mod stories;
mod streams;
mod usage;
mod warnings;

//! Tables for people: a text form, its way to a table file and back, and a picture; and the way of a table to a proved program and back. The rules
//! are those of docs/RULES.md, "The table file".
pub mod answer;
pub mod content;
pub mod ending;
pub mod given;
pub mod picture;
pub mod program;
pub mod read_file;
pub mod read_text;
pub mod recognise;
pub mod refusal;
pub mod rules;
pub mod save;
pub mod streams;
pub mod warnings;
pub mod write_file;
pub mod write_text;

mod closed;
mod lines;
mod rows;
mod sets_line;
mod state_line;
mod words;

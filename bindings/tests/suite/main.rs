//! The tests of the wrappers and the header: the two against each other, and their constants against the library.
mod answers;
mod boards;
mod constants;
mod header;
mod layout;
mod limits;
mod list;
mod tables;
mod threads;
mod words;

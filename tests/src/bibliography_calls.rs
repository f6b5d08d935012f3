//! Calls of bibliographies and of the program that no row says: the first example of docs/LIBRARY.md, a long run of changes against a
//! plain list, long and generated files, sinks that refuse, copies of values; inputs that fail, outputs that refuse, and
//! arguments that can't be had.

mod checks;
mod copies;
mod first_example;
mod long;
mod plain;
mod sinks;
mod streams;

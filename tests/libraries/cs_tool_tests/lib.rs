//! The tests of the crates of whole tools, one module for each, and those of calls with failing
//! allocations, whose files are in the crate of this name that is proved. They call only public
//! functions. `cs_tests` says what a test is for.
#![tactic(auto)]

#[cfg(test)]
mod allocations;
#[cfg(test)]
mod desk;
#[cfg(test)]
mod failing;
#[cfg(test)]
mod fixtures;
#[cfg(test)]
mod fuses;
#[cfg(test)]
mod indexing;
#[cfg(test)]
mod out_of_memory;
#[cfg(test)]
mod rooms;
#[cfg(test)]
mod searching;

//! The tests of the libraries up to `cs_index`, except for those of patterns, and of `cs_storage`,
//! in one module for each: what no clause says, and examples whose results are known independently.
//! They call only public functions, and are not proved. `cs_pattern_tests` has the tests of
//! patterns, `cs_merge_tests` and `cs_tool_tests` those of the crates above, and `tests/` runs the
//! program. A test asserts the answer of one function.
#![tactic(auto)]

#[cfg(test)]
mod fixtures;
#[cfg(test)]
mod index;
#[cfg(test)]
mod storing;
#[cfg(test)]
mod trees;
#[cfg(test)]
mod trigrams;

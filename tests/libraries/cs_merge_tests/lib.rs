//! The tests of `cs_merge`: merged indexes. They call only public functions. `cs_tests` has the
//! tests of the libraries below, and says what a test is for.
#![tactic(auto)]

#[cfg(test)]
mod merging;

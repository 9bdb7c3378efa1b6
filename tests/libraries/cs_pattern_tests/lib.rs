//! The tests of `cs_syntax`, `cs_match` and `cs_listing`: the tree of a pattern, the states of a
//! matcher, which lines a prefilter skips, and which files of a project a walk gives. They call
//! only public functions. `cs_tests` has the tests of the other libraries below `cs_merge`, and
//! says what a test is for.
#![tactic(auto)]

#[cfg(test)]
mod matching;
#[cfg(test)]
mod syntax;
#[cfg(test)]
mod walks;

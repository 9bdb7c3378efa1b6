//! The test of `cs_known`: a state that is written, opened, and asked for the files of a walk.
#![tactic(auto)]

#[cfg(test)]
mod states;

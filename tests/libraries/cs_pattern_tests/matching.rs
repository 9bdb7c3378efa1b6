// Character sets, the states of a matcher, and skipped lines.
mod characters;
mod skipping;
mod states;

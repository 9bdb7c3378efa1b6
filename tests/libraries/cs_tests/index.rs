// The index: written, read, and queried.
mod building;
mod candidates;
mod lists;
mod names;
mod pieces;
mod reading;
mod sections;

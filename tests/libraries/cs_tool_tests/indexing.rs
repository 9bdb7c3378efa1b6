// Jobs of cindex.
mod jobs;
mod rows;
mod stored;

// Searches: what no clause says, and examples whose results are known independently.
mod indexed;
pub mod reports;
mod stored;
mod tools;

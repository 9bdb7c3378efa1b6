// Scans of files.
mod scanning;

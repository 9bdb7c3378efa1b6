// Trees, sources and sinks.
mod buffered;
mod files;
mod walking;

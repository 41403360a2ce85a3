//! Nothing private is reached here; the build expects the file.

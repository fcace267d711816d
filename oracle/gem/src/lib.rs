//! The published files, a module each. A crate of its own: the driver's changes don't compile them anew.
include!(concat!(env!("OUT_DIR"), "/published.rs"));

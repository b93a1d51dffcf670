//! A program written for the crate `is` 0.12.0, which gets this one by a patch: tests/drop_in.rs.

//! The tests of what is computed here and not by the library: tests/pictures runs them.

#[allow(dead_code)]
mod chance;
#[allow(dead_code)]
mod uncoded;

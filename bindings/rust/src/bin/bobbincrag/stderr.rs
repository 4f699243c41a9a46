//! Lines on standard error. One that can't be written is lost, and changes nothing else.
use std::io::Write;

pub fn say(line: impl std::fmt::Display) {
    let _ = writeln!(std::io::stderr().lock(), "{line}");
}

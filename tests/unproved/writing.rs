//! Modules written in their one spelling (standard, section 5), and read again.

use crate::modules::{EACH_SECTION, module};
use crate::showing::shown;
use std::test::Fail;
use wasm_encode::encode;

/// Custom sections before, between and behind known ones.
const CUSTOMS: &[u8] = b"\0asm\x01\0\0\0\
    \x00\x03\x01a\x01\
    \x01\x04\x01\x60\x00\x00\
    \x00\x05\x02bb\x02\x03\
    \x00\x02\x01b\
    \x03\x02\x01\x00\
    \x00\x02\x01c\
    \x0a\x04\x01\x02\x00\x0b\
    \x00\x02\x01d";

/// Runs of one i32, no i64, two i32 and one i64.
const RUNS: &[u8] = b"\0asm\x01\0\0\0\x01\x04\x01\x60\x00\x00\x03\x02\x01\x00\
    \x0a\x0c\x01\x0a\x04\x01\x7f\x00\x7e\x02\x7f\x01\x7e\x0b";

/// Runs of three i32 and one i64.
const MERGED: &[u8] = b"\0asm\x01\0\0\0\x01\x04\x01\x60\x00\x00\x03\x02\x01\x00\
    \x0a\x08\x01\x06\x02\x03\x7f\x01\x7e\x0b";

/// An `if` whose else arm is spelled, and empty.
const EMPTY_ARM: &[u8] = b"\0asm\x01\0\0\0\x01\x04\x01\x60\x00\x00\x03\x02\x01\x00\
    \x0a\x0a\x01\x08\x00\x41\x00\x04\x40\x05\x0b\x0b";

/// An `if` with one arm.
const ONE_ARM: &[u8] = b"\0asm\x01\0\0\0\x01\x04\x01\x60\x00\x00\x03\x02\x01\x00\
    \x0a\x09\x01\x07\x00\x41\x00\x04\x40\x0b\x0b";

/// A section's size in five bytes.
const PADDED: &[u8] = b"\0asm\x01\0\0\0\x01\x84\x80\x80\x80\x00\x01\x60\x00\x00";

/// The same in one.
const SHORT: &[u8] = b"\0asm\x01\0\0\0\x01\x04\x01\x60\x00\x00";

/// An arm with a constant of two bytes, and the least constant.
const ARMS: &[u8] = b"\0asm\x01\0\0\0\x01\x05\x01\x60\x00\x01\x7f\x03\x02\x01\x00\
    \x0a\x0f\x01\x0d\x00\x41\x00\x04\x7f\x41\x7f\x05\x41\xc0\x00\x0b\x0b";

/// A table of two elements, and a memory of one page at least and 200 at most.
const LIMITS: &[u8] = b"\0asm\x01\0\0\0\
    \x00\x02\x01a\
    \x04\x04\x01\x70\x00\x02\
    \x00\x02\x01b\
    \x05\x05\x01\x01\x01\xc8\x01\
    \x00\x02\x01c\
    \x00\x02\x01d";

/// A section of each kind in the shortest spelling.
const EACH_SECTION_SHORT: &[u8] = b"\0asm\x01\0\0\0\
    \x00\x03\x01a\x01\
    \x01\x0a\x02\x60\x00\x00\x60\x02\x7f\x7e\x01\x7e\
    \x00\x05\x02bb\x02\x03\
    \x02\x1e\x04\x01m\x01f\x00\x01\x01m\x01t\x01\x70\x01\x01\x05\x01m\x01y\x02\x00\x02\x01m\x01g\x03\x7f\x01\
    \x03\x03\x02\x00\x01\
    \x04\x04\x01\x70\x00\x03\
    \x05\x04\x01\x01\x01\x02\
    \x06\x06\x01\x7e\x00\x42\x7f\x0b\
    \x07\x11\x04\x01f\x00\x00\x01t\x01\x00\x01y\x02\x00\x01g\x03\x01\
    \x08\x01\x02\
    \x09\x08\x01\x00\x41\x00\x0b\x02\x00\x01\
    \x0a\x0c\x02\x02\x00\x0b\x07\x02\x01\x7f\x02\x7e\x01\x0b\
    \x0b\x09\x01\x00\x41\x08\x0b\x03xyz\
    \x00\x02\x01c";

#[test]
fn modules_are_written_in_their_one_spelling(rt: HostRuntime) -> Result<(), Fail> {
    let alloc = rt.alloc();
    let rows = [
        (CUSTOMS, CUSTOMS),
        (RUNS, MERGED),
        (EMPTY_ARM, ONE_ARM),
        (ARMS, ARMS),
        (LIMITS, LIMITS),
        (PADDED, SHORT),
        (EACH_SECTION, EACH_SECTION_SHORT),
    ];
    for (bytes, wanted) in rows {
        let read = module(alloc, bytes)?;
        let written = encode(alloc, &read)?;
        assert_eq!(rt; written.as_slice(), wanted);
        // what is written is read again, and written the same
        let again = module(alloc, &written)?;
        assert_eq!(rt; encode(alloc, &again)?.as_slice(), wanted);
    }
    Ok(())
}

#[test]
fn what_is_written_is_the_same_module(rt: HostRuntime) -> Result<(), Fail> {
    let alloc = rt.alloc();
    let read = module(alloc, EACH_SECTION)?;
    let again = module(alloc, &encode(alloc, &read)?)?;
    let text = shown(alloc, &read)?;
    assert_eq!(rt; shown(alloc, &again)?.as_str(), text.as_str());
    Ok(())
}

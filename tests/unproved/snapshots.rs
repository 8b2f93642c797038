//! Snapshots as bytes: a text that was put together by hand, read and written again, and texts that are none.

use snapshot_store::{ProgramRecord, SnapFault, Snapshot, read, write};
use std::alloc::Global;
use std::test::Fail;
use wa_types::Value;

/// One event, and one program, which waits until tick 4 for import 2: 22 steps, entry 0, two answers, the globals `i32:7` and
/// `i64:2^63`, and one page, whose bytes follow.
const PAUSED: &[u8] = b"ASYNCS01\x01\0\0\0\0\0\0\0\x01\0\0\0\
    \x01\x04\0\0\0\0\0\0\0\x16\0\0\0\0\0\0\0\0\0\0\0\x02\0\0\0\x02\0\0\0\
    \x02\0\0\0\x7f\x07\0\0\0\x7e\0\0\0\0\0\0\0\x80\x01\0\0\0";

/// 258 events and two programs: one that has ended, and one that hasn't begun.
const OTHERS: &[u8] = b"ASYNCS01\x02\x01\0\0\0\0\0\0\x02\0\0\0\x02\0";

/// That text, its page zeros but for byte 16.
fn paused(alloc: Global) -> Result<Vec<u8>, Fail> {
    let mut text = Vec::from_slice(alloc, PAUSED)?;
    text.resize(PAUSED.len() + 65_536, 0)?;
    text[PAUSED.len() + 16] = 10;
    Ok(text)
}

/// Whether bytes are refused.
fn is_refused(alloc: Global, bytes: &[u8]) -> bool {
    matches!(&read(alloc, bytes), Err(SnapFault::Refused))
}

#[test]
fn a_text_is_read_and_written_again(rt: HostRuntime) -> Result<(), Fail> {
    let alloc = rt.alloc();
    let text = paused(alloc)?;
    let snap = read(alloc, &text)?;
    assert_eq!(rt; snap.events, 1);
    assert_eq!(rt; snap.programs.len(), 1);
    match &snap.programs[0] {
        ProgramRecord::Paused { due, parts, memory } => {
            assert_eq!(rt; (*due, parts.steps_used), (4, 22));
            assert_eq!(rt; (parts.entry, parts.answers, parts.import), (0, 2, 2));
            assert_eq!(rt; parts.globals.as_slice(), [Value::I32(7), Value::I64(1 << 63)].as_slice());
            assert_eq!(rt; (parts.pages, memory.len()), (1, 65_536));
            assert_eq!(rt; memory[16], 10);
        }
        _ => assert!(rt; false, "no paused program"),
    }
    let again = write(alloc, &snap)?;
    assert_eq!(rt; again.as_slice(), text.as_slice());
    Ok(())
}

#[test]
fn programs_that_hold_nothing(rt: HostRuntime) -> Result<(), Fail> {
    let alloc = rt.alloc();
    let snap = read(alloc, OTHERS)?;
    assert_eq!(rt; (snap.events, snap.programs.len()), (258, 2));
    assert!(rt; matches!(&snap.programs[0], ProgramRecord::Over));
    assert!(rt; matches!(&snap.programs[1], ProgramRecord::Fresh));
    let none = Snapshot {
        events: 0,
        programs: Vec::new(alloc),
    };
    let text = write(alloc, &none)?;
    assert_eq!(rt; text.as_slice(), b"ASYNCS01\0\0\0\0\0\0\0\0\0\0\0\0".as_slice());
    Ok(())
}

#[test]
fn texts_that_are_none(rt: HostRuntime) -> Result<(), Fail> {
    let alloc = rt.alloc();
    let mut text = paused(alloc)?;
    for end in [0, 7, 8, 19, 20, 21, 52, 53, 57, 66, 70, text.len() - 1] {
        assert!(rt; is_refused(alloc, &text[..end]), "cut off at {end}");
    }
    text.push(0)?;
    assert!(rt; is_refused(alloc, &text), "a byte more");
    for (at, byte) in [(7, b'2'), (20, 3), (53, 0x7d), (50, 3), (67, 2)] {
        let mut other = paused(alloc)?;
        other[at] = byte;
        assert!(rt; is_refused(alloc, &other), "byte {at} changed");
    }
    Ok(())
}

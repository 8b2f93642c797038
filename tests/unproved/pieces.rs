//! Files that come in pieces.

use crate::modules::EACH_SECTION;
use crate::worked::WORKED;
use bytes::BytesMut;
use std::alloc::Global;
use std::test::Fail;
use wa_types::{Bounds, LimitKind, Module};
use wasm_encode::encode;
use wasm_reader::{ReadFault, Reader, read};

/// A module whose function calls an import, `env.sleep`.
const SLEEPER: &[u8] = b"\0asm\x01\0\0\0\
    \x01\x06\x01\x60\x01\x7f\x01\x7f\
    \x02\x0d\x01\x03env\x05sleep\x00\x00\
    \x03\x02\x01\x00\
    \x07\x07\x01\x03run\x00\x01\
    \x0a\x08\x01\x06\x00\x20\x00\x10\x00\x0b";

/// The bytes that a module is written in, where there is one.
fn written(alloc: Global, module: &Module) -> Option<BytesMut> {
    encode(alloc, module).ok()
}

/// What is read of a file that comes in pieces of so many bytes.
pub fn in_pieces(alloc: Global, file: &[u8], size: usize) -> Result<Module, ReadFault> {
    let mut reader = Reader::new(alloc, Bounds::source());
    for piece in file.chunks(size) {
        reader.feed(piece)?;
    }
    reader.finish()
}

/// Whether both were read and are written alike, or both have one fault.
pub fn alike(alloc: Global, one: Result<Module, ReadFault>, other: Result<Module, ReadFault>) -> bool {
    match (one, other) {
        (Ok(one), Ok(other)) => match (written(alloc, &one), written(alloc, &other)) {
            (Some(one), Some(other)) => one[..] == other[..],
            _ => false,
        },
        (Err(one), Err(other)) => one == other,
        _ => false,
    }
}

#[test]
fn files_come_byte_by_byte_or_in_any_two_pieces(rt: HostRuntime) -> Result<(), Fail> {
    let alloc = rt.alloc();
    for file in [EACH_SECTION, SLEEPER] {
        for size in 1..file.len() + 1 {
            let whole = read(alloc, file, &Bounds::source());
            assert!(rt; whole.is_ok());
            assert!(rt; alike(alloc, in_pieces(alloc, file, size), whole));
        }
    }
    Ok(())
}

#[test]
fn worked_files_come_byte_by_byte(rt: HostRuntime) -> Result<(), Fail> {
    let alloc = rt.alloc();
    for (name, file) in WORKED {
        let whole = read(alloc, file, &Bounds::source());
        assert!(rt; whole.is_ok(), "{name}");
        assert!(rt; alike(alloc, in_pieces(alloc, file, 1), whole), "{name}");
    }
    Ok(())
}

/// What is read of a file that comes in two pieces, the first of so many bytes.
fn cut_at(alloc: Global, file: &[u8], place: usize) -> Result<Module, ReadFault> {
    let mut reader = Reader::new(alloc, Bounds::source());
    reader.feed(&file[..place])?;
    reader.feed(&file[place..])?;
    reader.finish()
}

#[test]
fn worked_files_come_in_two_pieces_cut_anywhere(rt: HostRuntime) -> Result<(), Fail> {
    let alloc = rt.alloc();
    for (name, file) in WORKED {
        for place in 0..file.len() + 1 {
            let whole = read(alloc, file, &Bounds::source());
            assert!(rt; alike(alloc, cut_at(alloc, file, place), whole), "{name} at {place}");
        }
    }
    Ok(())
}

#[test]
fn cut_files_fail_where_they_end(rt: HostRuntime) -> Result<(), Fail> {
    let alloc = rt.alloc();
    for end in 0..SLEEPER.len() {
        let mut reader = Reader::new(alloc, Bounds::source());
        assert_eq!(rt; reader.feed(&SLEEPER[..end]), Ok(()));
        let fault = reader.finish().err();
        let whole = end == 8 || end == 16 || end == 31;
        let wanted = if whole {
            None
        } else {
            Some(ReadFault::Malformed { at: end as u64 })
        };
        assert_eq!(rt; fault, wanted);
    }
    Ok(())
}

#[test]
fn a_fault_comes_with_its_piece_and_again(rt: HostRuntime) -> Result<(), Fail> {
    let alloc = rt.alloc();
    let mut reader = Reader::new(alloc, Bounds::source());
    assert_eq!(rt; reader.feed(b"\0as"), Ok(()));
    let fault = ReadFault::Malformed { at: 4 };
    assert_eq!(rt; reader.feed(b"M\x01"), Err(fault));
    assert_eq!(rt; reader.feed(b""), Err(fault));
    assert_eq!(rt; reader.finish().err(), Some(fault));
    Ok(())
}

#[test]
fn too_many_bytes_pass_the_limit_before_they_are_looked_at(rt: HostRuntime) -> Result<(), Fail> {
    let alloc = rt.alloc();
    let zeros = vec![in alloc; 0u8; 8_388_609]?;
    let mut reader = Reader::new(alloc, Bounds::source());
    let fault = ReadFault::Limit {
        what: LimitKind::File,
        found: 8_388_609,
    };
    assert_eq!(rt; reader.feed(&zeros), Err(fault));
    assert_eq!(rt; reader.finish().err(), Some(fault));
    Ok(())
}

/// The greatest number of bytes that is held of a file that comes byte by byte.
fn most_held(alloc: Global, file: &[u8]) -> Result<usize, ReadFault> {
    let mut reader = Reader::new(alloc, Bounds::source());
    let mut most = 0;
    for piece in file.chunks(1) {
        reader.feed(piece)?;
        most = most.max(reader.held());
    }
    Ok(most)
}

#[test]
fn of_a_data_section_one_segment_is_held(rt: HostRuntime) -> Result<(), Fail> {
    let alloc = rt.alloc();
    let mut file = Vec::from_slice(alloc, b"\0asm\x01\0\0\0\x0b\x8e\x04\x05")?;
    for _segment in 0..5 {
        file.extend_from_slice(b"\x00\x41\x00\x0b\x64")?;
        file.extend_from_slice(&[7; 100])?;
    }
    assert_eq!(rt; most_held(alloc, &file), Ok(104));
    let whole = read(alloc, &file, &Bounds::source());
    assert!(rt; alike(alloc, in_pieces(alloc, &file, 1), whole));
    Ok(())
}

#[test]
fn of_long_elements_at_most_as_much_again_is_held(rt: HostRuntime) -> Result<(), Fail> {
    let alloc = rt.alloc();
    let mut file = Vec::from_slice(alloc, b"\0asm\x01\0\0\0\x09\xdd\x0f\x02")?;
    for _segment in 0..2 {
        file.extend_from_slice(b"\x00\x41\x00\x0b\xe8\x07")?;
        file.extend_from_slice(&[7; 1_000])?;
    }
    let most = most_held(alloc, &file);
    assert!(rt; most.is_ok_and(|most| most < 2_012), "{most:?}");
    let whole = read(alloc, &file, &Bounds::source());
    assert!(rt; alike(alloc, in_pieces(alloc, &file, 1), whole));
    Ok(())
}

//! Numbers in LEB128 (standard, section 5.2.2).

use std::test::Fail;
use wa_types::{LebFault, read_s32, read_s64, read_u32, write_s32, write_s64, write_u32};

#[test]
fn numbers_are_spelled_as_in_the_standard(rt: HostRuntime) -> Result<(), Fail> {
    let alloc = rt.alloc();
    let wide = [
        (-1i64, b"\x7f".as_slice()),
        (-2, b"\x7e".as_slice()),
        (-64, b"\x40".as_slice()),
        (-65, b"\xbf\x7f".as_slice()),
        (63, b"\x3f".as_slice()),
        (64, b"\xc0\x00".as_slice()),
        (
            i64::MIN,
            b"\x80\x80\x80\x80\x80\x80\x80\x80\x80\x7f".as_slice(),
        ),
        (
            i64::MAX,
            b"\xff\xff\xff\xff\xff\xff\xff\xff\xff\x00".as_slice(),
        ),
    ];
    for (n, spelling) in wide {
        let mut out = Vec::new(alloc);
        write_s64(alloc, &mut out, n)?;
        assert_eq!(rt; out.as_slice(), spelling, "{n}");
        assert_eq!(rt; read_s64(spelling, &mut 0)?, n);
    }
    Ok(())
}

#[test]
fn numbers_follow_one_another(rt: HostRuntime) -> Result<(), Fail> {
    let alloc = rt.alloc();
    let mut out = Vec::new(alloc);
    write_s32(alloc, &mut out, i32::MIN)?;
    write_u32(alloc, &mut out, 624_485)?;
    write_u32(alloc, &mut out, 3)?;
    assert_eq!(rt;
        out.as_slice(),
        b"\x80\x80\x80\x80\x78\xe5\x8e\x26\x03".as_slice()
    );
    let mut at = 0;
    assert_eq!(rt; read_s32(&out, &mut at)?, i32::MIN);
    assert_eq!(rt; read_u32(&out, &mut at)?, 624_485);
    assert_eq!(rt; read_u32(&out, &mut at)?, 3);
    assert_eq!(rt; at, 9);
    Ok(())
}

// The standard's own examples: 3 and -2, and both padded.
#[test]
fn padded_numbers_are_read(rt: HostRuntime) -> Result<(), Fail> {
    for spelling in [b"\x03".as_slice(), b"\x83\x00".as_slice()] {
        let mut at = 0;
        assert_eq!(rt; read_u32(spelling, &mut at)?, 3);
        assert_eq!(rt; at, spelling.len());
    }
    for spelling in [
        b"\x7e".as_slice(),
        b"\xfe\x7f".as_slice(),
        b"\xfe\xff\x7f".as_slice(),
    ] {
        let mut at = 0;
        assert_eq!(rt; read_s32(spelling, &mut at)?, -2);
        assert_eq!(rt; at, spelling.len());
        assert_eq!(rt; read_s64(spelling, &mut 0)?, -2);
    }
    Ok(())
}

#[test]
fn wrong_unsigned_numbers_are_refused(rt: HostRuntime) -> Result<(), Fail> {
    for (bytes, fault, end) in [
        (b"\xe5\x8e".as_slice(), LebFault::Short, 2),
        (b"\x83\x80\x80\x80\x80\x00".as_slice(), LebFault::Long, 5),
        (b"\x83\x80\x80\x80\x10\x00".as_slice(), LebFault::Bits, 5),
    ] {
        let mut at = 0;
        assert_eq!(rt; read_u32(bytes, &mut at), Err(fault));
        assert_eq!(rt; at, end);
    }
    Ok(())
}

#[test]
fn wrong_signed_numbers_are_refused(rt: HostRuntime) -> Result<(), Fail> {
    for (bytes, fault, end) in [
        (b"\xfe\xff".as_slice(), LebFault::Short, 2),
        (b"\xfe\xff\xff\xff\xff\x7f".as_slice(), LebFault::Long, 5),
        (b"\xfe\xff\xff\xff\x4f\x00".as_slice(), LebFault::Bits, 5),
    ] {
        let mut at = 0;
        assert_eq!(rt; read_s32(bytes, &mut at), Err(fault));
        assert_eq!(rt; at, end);
    }
    for (bytes, fault, end) in [
        (b"\xfe\xff\xff".as_slice(), LebFault::Short, 3),
        (
            b"\xfe\xff\xff\xff\xff\xff\xff\xff\xff\xff\x7f".as_slice(),
            LebFault::Long,
            10,
        ),
        (
            b"\xfe\xff\xff\xff\xff\xff\xff\xff\xff\x01".as_slice(),
            LebFault::Bits,
            10,
        ),
    ] {
        let mut at = 0;
        assert_eq!(rt; read_s64(bytes, &mut at), Err(fault));
        assert_eq!(rt; at, end);
    }
    Ok(())
}

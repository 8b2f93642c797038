//! Commands over files, output and devices that fail at chosen calls.

use asyncify_app::asyncify;
use device_port::{Device, FaultAt};
use memory_vaults::{MemSink, MemVault, NamedFile, SureSink, SureVault};
use std::alloc::{AllocError, Global};
use std::test::Fail;
use wa_types::Name;

/// The preamble alone.
const EMPTY: &[u8] = b"\0asm\x01\0\0\0";

fn words(alloc: Global, text: &[&str]) -> Result<Vec<String>, AllocError> {
    let mut words = Vec::new(alloc);
    for word in text {
        words.push(String::from_str(alloc, word)?)?;
    }
    Ok(words)
}

/// The one file `in`.
fn input(alloc: Global) -> Result<Vec<NamedFile>, AllocError> {
    let mut files = Vec::new(alloc);
    files.push(NamedFile {
        name: Name::new(alloc, "in")?,
        bytes: Vec::from_slice(alloc, EMPTY)?,
    })?;
    Ok(files)
}

#[test]
fn each_failing_call_has_its_status(rt: HostRuntime) -> Result<(), Fail> {
    let alloc = rt.alloc();
    let words = words(alloc, &["transform", "in", "out"])?;
    // the file is fetched by two calls and saved by the third
    let rows = [
        (1, 10, b"read fault in\n".as_slice(), None),
        (2, 10, b"read fault in\n".as_slice(), None),
        (3, 11, b"write fault out\n".as_slice(), None),
        (
            4,
            0,
            b"ok functions 0 instrumented 0 bytes 271\n".as_slice(),
            Some(271),
        ),
    ];
    for (number, status, line, size) in rows {
        let mut vault = MemVault::new(alloc, input(alloc)?, vec![in alloc; number]?);
        let mut out = SureSink::new(alloc);
        let mut none: Vec<Box<dyn Device>> = Vec::new(alloc);
        assert_eq!(rt;
            asyncify(alloc, &words, &mut vault, &mut out, &mut none),
            status,
            "{number}"
        );
        assert_eq!(rt; out.bytes(), line, "{number}");
        assert_eq!(rt; vault.file("in"), Some(EMPTY));
        assert_eq!(rt;
            vault.file("out").map(|bytes| bytes.len()),
            size,
            "{number}"
        );
    }
    Ok(())
}

#[test]
fn a_failing_sink_has_its_status(rt: HostRuntime) -> Result<(), Fail> {
    let alloc = rt.alloc();
    let whole = words(alloc, &["transform", "in", "out"])?;
    let mut vault = SureVault::new(alloc, input(alloc)?);
    let mut out = MemSink::new(alloc, vec![in alloc; 1]?);
    let mut none: Vec<Box<dyn Device>> = Vec::new(alloc);
    assert_eq!(rt; asyncify(alloc, &whole, &mut vault, &mut out, &mut none), 12);
    assert_eq!(rt; out.bytes(), b"".as_slice());
    assert_eq!(rt; vault.file("out").map(|bytes| bytes.len()), Some(271));
    let cut = words(alloc, &["transform", "in"])?;
    let mut out = MemSink::new(alloc, vec![in alloc; 1]?);
    assert_eq!(rt; asyncify(alloc, &cut, &mut vault, &mut out, &mut none), 2);
    assert_eq!(rt; out.bytes(), b"".as_slice());
    Ok(())
}

/// Imports `env.sleep`, which `run` calls with its argument.
const SLEEPER: &[u8] = b"\
    \x00\x61\x73\x6d\x01\x00\x00\x00\x01\x06\x01\x60\x01\x7f\x01\x7f\x02\x0d\x01\x03\x65\x6e\x76\x05\x73\
    \x6c\x65\x65\x70\x00\x00\x03\x02\x01\x00\x07\x07\x01\x03\x72\x75\x6e\x00\x01\x0a\x08\x01\x06\x00\x20\x00\
    \x10\x00\x0b";

/// Two programs that ask one device.
const SCRIPT: &[u8] = b"\
program sleeper
area 1024 64
device env.sleep flaky
enter run i32:7
program sleeper
area 1024 64
device env.sleep flaky
enter run i32:8
";

/// What is printed where the device fails at its second call.
const TOLD: &[u8] = b"\
0 0 call env.sleep i32:7
0 0 pause until 3 area 20 of 64
0 1 call env.sleep i32:8
0 1 end device fault env.sleep
3 0 answer i32:0
3 0 return run i32:0
3 0 end done
programs 2 events 3
";

fn script_and_module(alloc: Global) -> Result<Vec<NamedFile>, AllocError> {
    let mut files = Vec::new(alloc);
    for (name, bytes) in [("script", SCRIPT), ("sleeper", SLEEPER)] {
        files.push(NamedFile {
            name: Name::new(alloc, name)?,
            bytes: Vec::from_slice(alloc, bytes)?,
        })?;
    }
    Ok(files)
}

fn flaky(alloc: Global) -> Result<Vec<Box<dyn Device>>, AllocError> {
    let device = FaultAt::new(alloc, Name::new(alloc, "flaky")?, 3, vec![in alloc; 2]?);
    let mut devices: Vec<Box<dyn Device>> = Vec::new(alloc);
    devices.push(Box::new(alloc, device)?)?;
    Ok(devices)
}

#[test]
fn a_failing_device_ends_its_program(rt: HostRuntime) -> Result<(), Fail> {
    let alloc = rt.alloc();
    let words = words(alloc, &["run", "script"])?;
    let mut vault = SureVault::new(alloc, script_and_module(alloc)?);
    let mut out = SureSink::new(alloc);
    let mut devices = flaky(alloc)?;
    assert_eq!(rt; asyncify(alloc, &words, &mut vault, &mut out, &mut devices), 0);
    assert_eq!(rt; out.bytes(), TOLD);
    assert_eq!(rt; devices.len(), 1);
    Ok(())
}

#[test]
fn a_transcript_that_cannot_be_printed_has_its_status(rt: HostRuntime) -> Result<(), Fail> {
    let alloc = rt.alloc();
    let words = words(alloc, &["run", "script"])?;
    let mut vault = SureVault::new(alloc, script_and_module(alloc)?);
    let mut out = MemSink::new(alloc, vec![in alloc; 2]?);
    let mut devices = flaky(alloc)?;
    assert_eq!(rt; asyncify(alloc, &words, &mut vault, &mut out, &mut devices), 12);
    assert_eq!(rt; out.bytes(), b"0 0 call env.sleep i32:7\n".as_slice());
    Ok(())
}

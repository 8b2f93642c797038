//! Files and output, in memory and real.

use memory_vaults::{MemSink, MemVault, NamedFile, SureDisk, SureOut, SureSink, SureVault};
use std::alloc::{AllocError, Global};
use std::fmt::Display;
use std::test::Fail;
use std::{env, fs, io, process};
use system_vaults::{Disk, FileVault, Out, OutSink, SystemDisk};
use vault_port::*;
use wa_types::Name;

fn named(alloc: Global, name: &str, bytes: &[u8]) -> Result<NamedFile, AllocError> {
    Ok(NamedFile {
        name: Name::new(alloc, name)?,
        bytes: Vec::from_slice(alloc, bytes)?,
    })
}

/// Reads a file, writes it under another name and prints it, through the bounds alone.
fn copy_and_print<V: Vault, S: Sink>(
    alloc: Global,
    vault: &mut V,
    out: &mut S,
) -> Result<usize, Fail> {
    let bytes = fetch_whole(alloc, vault, "in", 100)?;
    save_whole(vault, "out", &bytes)?;
    put_whole(out, &bytes)?;
    Ok(bytes.len())
}

#[test]
fn a_file_in_memory_is_copied_and_printed(rt: HostRuntime) -> Result<(), Fail> {
    let alloc = rt.alloc();
    let files = vec![in alloc;
        named(alloc, "out", b"longer than in")?,
        named(alloc, "in", b"seven b")?,
    ]?;
    let mut vault = SureVault::new(alloc, files);
    let mut out = SureSink::new(alloc);
    assert_eq!(rt; copy_and_print(alloc, &mut vault, &mut out)?, 7);
    assert!(rt; vault.file("out") == Some(b"seven b".as_slice()));
    assert!(rt; vault.file("on") == None);
    assert!(rt; out.bytes() == b"seven b".as_slice());
    assert_eq!(rt;
        fetch_whole(alloc, &mut vault, "in", 5)?.as_slice(),
        b"seven".as_slice()
    );
    assert!(rt;
        matches!(
            fetch_whole(alloc, &mut vault, "IN", 5),
            Err(FetchFault::Read)
        )
    );
    Ok(())
}

#[test]
fn calls_fail_by_their_number(rt: HostRuntime) -> Result<(), Fail> {
    let alloc = rt.alloc();
    let files = vec![in alloc; named(alloc, "in", b"abc")?]?;
    let mut vault = MemVault::new(alloc, files, vec![in alloc; 1, 2, 4]?);
    let mut buf = [0u8; 2];
    assert!(rt; matches!(vault.fetch("no", 0, &mut buf), Err(VaultFail::Absent)));
    assert!(rt; matches!(vault.fetch("in", 0, &mut buf), Err(VaultFail::Failed)));
    assert_eq!(rt; vault.fetch("in", 1, &mut buf)?, 2);
    assert_eq!(rt; buf, [b'b', b'c']);
    assert!(rt; matches!(vault.save("in", 0, b"d"), Err(VaultFail::Failed)));
    assert_eq!(rt; vault.save("in", 0, b"d")?, 1);
    assert!(rt; vault.file("in") == Some(b"d".as_slice()));
    let mut out = MemSink::new(alloc, vec![in alloc; 2]?);
    assert_eq!(rt; out.put(b"x")?, 1);
    assert!(rt; matches!(out.put(b"y"), Err(SinkFail::Failed)));
    assert_eq!(rt; out.put(b"z")?, 1);
    assert!(rt; out.bytes() == b"xz".as_slice());
    Ok(())
}

#[test]
fn a_file_is_written_and_read_back(rt: HostRuntime) -> Result<(), Fail> {
    let alloc = rt.alloc();
    let folder = env::temp_dir(&rt)?;
    let id = process::id(rt.process());
    let path = format!(in alloc; "{}/vault_port_{id}", folder.display())?;
    let mut long = Vec::new(alloc);
    long.resize(200_000, 7u8)?;
    let mut vault = FileVault::new(&rt);
    assert!(rt;
        matches!(
            fetch_whole(alloc, &mut vault, path.as_str(), 9),
            Err(FetchFault::Read)
        )
    );
    save_whole(&mut vault, path.as_str(), &long)?;
    let back = fetch_whole(alloc, &mut vault, path.as_str(), 200_001)?;
    assert!(rt; back.as_slice() == long.as_slice());
    save_whole(&mut vault, path.as_str(), b"short")?;
    assert_eq!(rt; vault.save(path.as_str(), 2, b"ip")?, 2);
    let back = fetch_whole(alloc, &mut vault, path.as_str(), 9)?;
    assert!(rt; back.as_slice() == b"ship".as_slice());
    fs::remove_file(&rt, path.as_str())?;
    let inside = format!(in alloc; "{path}/inside")?;
    assert!(rt;
        matches!(
            save_whole(&mut vault, inside.as_str(), b"x"),
            Err(SaveFault::Write)
        )
    );
    Ok(())
}

/// A disk in memory of whose pieces at most so many bytes are taken.
#[derive(Drop)]
struct Short(SureDisk, usize);

impl Disk for Short {
    ghost use Rattle.std.specs.Prelude.{None};

    ghost files = { λ _. None };

    ghost read_faults = { λ _. 0 };

    ghost write_faults = { λ _. 0 };

    fn read(&mut self, name: &str, from: u64, buf: &mut [u8]) -> io::Result<usize> {
        self.0.read(name, from, buf)
    }

    fn cut(&mut self, name: &str, at: u64) -> io::Result<()> {
        self.0.cut(name, at)
    }

    fn write(&mut self, name: &str, from: u64, piece: &[u8]) -> io::Result<usize> {
        self.0.write(name, from, &piece[..piece.len().min(self.1)])
    }
}

#[test]
fn a_vault_over_a_disk_has_its_files(rt: HostRuntime) -> Result<(), Fail> {
    let alloc = rt.alloc();
    let files = vec![in alloc;
        named(alloc, "out", b"longer than in")?,
        named(alloc, "in", b"seven b")?,
    ]?;
    let mut vault = FileVault::over(SureDisk::new(SureVault::new(alloc, files)));
    let mut out = OutSink::over(SureOut::new(SureSink::new(alloc)));
    assert_eq!(rt; copy_and_print(alloc, &mut vault, &mut out)?, 7);
    assert_eq!(rt; vault.save("out", 5, b"!")?, 1);
    let mut buf = [b'.'; 4];
    assert_eq!(rt; vault.fetch("out", 4, &mut buf)?, 2);
    assert_eq!(rt; buf, [b'n', b'!', b'.', b'.']);
    assert_eq!(rt; vault.fetch("out", 6, &mut buf)?, 0);
    assert!(rt; vault.cause().is_none());
    assert!(rt; matches!(vault.fetch("no", 0, &mut buf), Err(VaultFail::Absent)));
    assert!(rt; vault.cause().map(|cause| cause.kind()) == Some(io::ErrorKind::NotFound));
    let mut printed = SureOut::new(SureSink::new(alloc));
    assert_eq!(rt; printed.write(b"ab")?, 2);
    assert_eq!(rt; printed.write(b"c")?, 1);
    assert!(rt; printed.bytes() == b"abc".as_slice());
    Ok(())
}

#[test]
fn a_save_tells_what_was_taken(rt: HostRuntime) -> Result<(), Fail> {
    let alloc = rt.alloc();
    let mut vault = FileVault::over(Short(SureDisk::new(SureVault::new(alloc, Vec::new(alloc))), 3));
    assert_eq!(rt; vault.save("out", 0, b"seven b")?, 3);
    assert_eq!(rt; vault.save("out", 2, b"ts")?, 2);
    let bytes = fetch_whole(alloc, &mut vault, "out", 9)?;
    assert!(rt; bytes.as_slice() == b"sets".as_slice());
    save_whole(&mut vault, "out", b"seven bytes")?;
    let bytes = fetch_whole(alloc, &mut vault, "out", 99)?;
    assert!(rt; bytes.as_slice() == b"seven bytes".as_slice());
    let mut stuck = FileVault::over(Short(SureDisk::new(SureVault::new(alloc, Vec::new(alloc))), 0));
    assert!(rt; matches!(stuck.save("out", 0, b"x"), Err(VaultFail::Failed)));
    assert!(rt; stuck.cause().map(|cause| cause.kind()) == Some(io::ErrorKind::WriteZero));
    assert_eq!(rt; stuck.save("out", 0, b"")?, 0);
    Ok(())
}

#[test]
fn the_system_writes_only_what_was_cut(rt: HostRuntime) -> Result<(), Fail> {
    let alloc = rt.alloc();
    let folder = env::temp_dir(&rt)?;
    let id = process::id(rt.process());
    let path = format!(in alloc; "{}/system_disk_{id}", folder.display())?;
    let other = format!(in alloc; "{path}_other")?;
    let mut disk = SystemDisk::new(&rt);
    assert!(rt; disk.write(path.as_str(), 0, b"x").is_err());
    disk.cut(path.as_str(), 0)?;
    assert_eq!(rt; disk.write(path.as_str(), 0, b"abc")?, 3);
    assert!(rt; disk.write(path.as_str(), 3, b"x").is_err());
    disk.cut(other.as_str(), 0)?;
    assert!(rt; disk.write(path.as_str(), 0, b"x").is_err());
    disk.cut(path.as_str(), 2)?;
    assert!(rt; disk.write(path.as_str(), 3, b"x").is_err());
    let mut buf = [b'.'; 3];
    assert_eq!(rt; disk.read(path.as_str(), 1, &mut buf)?, 1);
    assert_eq!(rt; buf, [b'b', b'.', b'.']);
    fs::remove_file(&rt, path.as_str())?;
    fs::remove_file(&rt, other.as_str())?;
    Ok(())
}

/// Standard output that takes at most so many bytes a call.
#[derive(Drop)]
struct Slow(usize);

impl Print for Slow {
    fn print<D: Display + Drop>(&self, _value: D) -> io::Result<()> {
        Ok(())
    }

    fn println<D: Display + Drop>(&self, _value: D) -> io::Result<()> {
        Ok(())
    }

    fn write_all(&self, _bytes: &[u8]) -> io::Result<()> {
        Ok(())
    }

    fn write_some(&self, bytes: &[u8]) -> io::Result<usize> {
        Ok(bytes.len().min(self.0))
    }
}

#[test]
fn a_put_tells_what_was_taken(rt: HostRuntime) -> Result<(), Fail> {
    put_whole(&mut OutSink::new(&rt), b"printed\n")?;
    let slow = Slow(3);
    let mut out = OutSink::new(&slow);
    assert_eq!(rt; out.put(b"printed")?, 3);
    assert_eq!(rt; out.put(b"pr")?, 2);
    put_whole(&mut out, b"printed in three")?;
    let stuck = Slow(0);
    let mut out = OutSink::new(&stuck);
    assert!(rt; matches!(put_whole(&mut out, b"x"), Err(PutFault::Fault)));
    assert_eq!(rt; out.put(b"")?, 0);
    Ok(())
}

/// A vault of one file of so many bytes, of which each call moves at most three.
#[derive(Drop)]
struct Narrow(Vec<u8>);

impl Vault for Narrow {
    ghost use Rattle.std.specs.Prelude.{None};

    ghost files = { λ _. None };

    ghost fetch_faults = { λ _. 0 };

    ghost save_faults = { λ _. 0 };

    fn fetch(&mut self, _name: &str, from: u64, buf: &mut [u8]) -> Result<usize, VaultFail> {
        let from = (from as usize).min(self.0.len());
        let count = (self.0.len() - from).min(buf.len()).min(3);
        buf[..count].copy_from_slice(&self.0[from..from + count]);
        Ok(count)
    }

    fn save(&mut self, _name: &str, from: u64, piece: &[u8]) -> Result<usize, VaultFail> {
        let count = piece.len().min(3);
        self.0.truncate(from as usize);
        match self.0.extend_from_slice(&piece[..count]) {
            Ok(()) => Ok(count),
            Err(_) => Err(VaultFail::Memory),
        }
    }
}

#[test]
fn short_calls_are_gone_on_with(rt: HostRuntime) -> Result<(), Fail> {
    let alloc = rt.alloc();
    let mut vault = Narrow(Vec::from_slice(alloc, b"eleven byte")?);
    let bytes = fetch_whole(alloc, &mut vault, "in", 100)?;
    assert_eq!(rt; bytes.as_slice(), b"eleven byte".as_slice());
    assert_eq!(rt; fetch_whole(alloc, &mut vault, "in", 7)?.len(), 7);
    save_whole(&mut vault, "in", b"four and more")?;
    assert_eq!(rt; vault.0.as_slice(), b"four and more".as_slice());
    save_whole(&mut vault, "in", b"")?;
    assert!(rt; vault.0.is_empty());
    Ok(())
}

#[test]
fn what_fails_in_the_middle_leaves_a_beginning(rt: HostRuntime) -> Result<(), Fail> {
    let alloc = rt.alloc();
    // 150,000 bytes come in three pieces: 64 KiB, as many more, and the rest
    let mut long = Vec::new(alloc);
    for index in 0..150_000u32 {
        long.push((index % 251) as u8)?;
    }
    for number in 1..=3 {
        let files = vec![in alloc; named(alloc, "in", &long)?]?;
        let mut vault = MemVault::new(alloc, files, vec![in alloc; number]?);
        let fetched = fetch_whole(alloc, &mut vault, "in", 200_000);
        assert!(rt; matches!(fetched, Err(FetchFault::Read)), "{number}");
        assert!(rt; vault.file("in") == Some(long.as_slice()));
    }
    let files = vec![in alloc; named(alloc, "in", &long)?]?;
    let mut vault = MemVault::new(alloc, files, vec![in alloc; 9]?);
    let bytes = fetch_whole(alloc, &mut vault, "in", 200_000)?;
    assert!(rt; bytes.as_slice() == long.as_slice());
    Ok(())
}

#[test]
fn errors_have_texts(rt: HostRuntime) -> Result<(), Fail> {
    let alloc = rt.alloc();
    let texts = format!(in alloc;
        "{}, {}, {}",
        VaultFail::Absent,
        SinkFail::Failed,
        FetchFault::Memory
    )?;
    assert_eq!(rt;
        texts.as_str(),
        "no such file, the output could not be written, out of memory"
    );
    Ok(())
}

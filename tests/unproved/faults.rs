//! Each call of files, output and devices failing in turn, under every command: the status, what is printed, and what files, devices
//! and journals are then. Modules are longer than one piece, and a save takes 1,000 bytes at most.

use crate::worked::WORKED;
use asyncify_app::asyncify;
use device_port::{Device, DeviceFail, FaultAt, Reply};
use memory_vaults::{MemSink, NamedFile, SureVault};
use std::alloc::{AllocError, Global};
use std::cell::RefCell;
use std::process::Abort;
use std::rc::Rc;
use std::test::Fail;
use vault_port::{Vault, VaultFail};
use wa_types::{Name, Value};

/// The bytes that a save takes at most.
const PIECE: usize = 1_000;

/// The size of a custom section that makes a module longer than one piece, 65,536 bytes.
const SECTION: usize = 70_000;

/// What is called: a fetch, a save or a put.
#[derive(Clone, Copy)]
enum Kind {
    Fetch,
    Save,
    Put,
}

/// The numbers of the calls that fail, from 1; 0 where none does.
#[derive(Clone, Copy)]
struct Failing {
    fetch: u64,
    save: u64,
    put: u64,
    device: u64,
}

/// No call fails.
const NONE: Failing = Failing {
    fetch: 0,
    save: 0,
    put: 0,
    device: 0,
};

impl Failing {
    /// The one call of this kind and number fails.
    fn one(kind: Kind, number: u64) -> Failing {
        let mut failing = NONE;
        match kind {
            Kind::Fetch => failing.fetch = number,
            Kind::Save => failing.save = number,
            Kind::Put => failing.put = number,
        }
        failing
    }
}

/// Files in memory, whose fetches and saves are counted. A call that fails changes nothing.
#[derive(Drop)]
struct Counted {
    files: SureVault,
    failing: Failing,
    fetches: u64,
    saves: u64,
}

impl Vault for Counted {
    ghost use Rattle.std.specs.Prelude.{None};

    ghost files = { λ _. None };

    ghost fetch_faults = { λ _. 0 };

    ghost save_faults = { λ _. 0 };

    fn fetch(&mut self, name: &str, from: u64, buf: &mut [u8]) -> Result<usize, VaultFail> {
        self.fetches += 1;
        if self.fetches == self.failing.fetch {
            return Err(VaultFail::Failed);
        }
        self.files.fetch(name, from, buf)
    }

    fn save(&mut self, name: &str, from: u64, piece: &[u8]) -> Result<usize, VaultFail> {
        self.saves += 1;
        if self.saves == self.failing.save {
            return Err(VaultFail::Failed);
        }
        self.files
            .save(name, from, &piece[..piece.len().min(PIECE)])
    }
}

/// A device that hands each call on to one that the test keeps, whose journal can be read then.
#[derive(Drop)]
struct Lent {
    name: Name,
    kept: Rc<RefCell<FaultAt>>,
}

impl Device for Lent {
    ghost use Rattle.std.specs.Prelude.{[]};

    ghost seen = { λ _. record { name = []; journal = [] } };

    ghost faults = { λ _. 0 };

    fn name(&self) -> &str {
        self.name.as_str()
    }

    fn call(&mut self, base: &str, args: &[Value]) -> Result<Reply, DeviceFail> {
        match self.kept.try_borrow_mut() {
            Ok(mut device) => device.call(base, args),
            Err(_) => Err(DeviceFail::Memory),
        }
    }
}

/// A command, and the files that lie there before.
#[derive(Clone, Copy)]
struct Case<'a> {
    words: &'a [&'a str],
    files: &'a [(&'a str, &'a [u8])],
}

/// What a command led to: its status, what it printed, what `out` holds, whether all other files are as before, how many
/// devices are left, and the journal of the one that was lent.
#[derive(Drop)]
struct Told {
    status: u8,
    printed: Vec<u8>,
    out: Option<Vec<u8>>,
    kept: bool,
    devices: usize,
    journal: String,
}

impl Told {
    /// Whether it is this, with one device and all other files as before.
    fn is(&self, status: u8, printed: &[u8], out: Option<&[u8]>, journal: &str) -> bool {
        self.status == status
            && self.printed.as_slice() == printed
            && self.out.as_ref().map(|out| out.as_slice()) == out
            && self.journal.as_str() == journal
            && self.kept
            && self.devices == 1
    }
}

fn words(alloc: Global, case: Case<'_>) -> Result<Vec<String>, AllocError> {
    let mut words = Vec::new(alloc);
    for word in case.words.iter() {
        words.push(String::from_str(alloc, word)?)?;
    }
    Ok(words)
}

fn files(alloc: Global, case: Case<'_>) -> Result<SureVault, AllocError> {
    let mut files = Vec::new(alloc);
    for (name, bytes) in case.files.iter() {
        files.push(NamedFile {
            name: Name::new(alloc, name)?,
            bytes: Vec::from_slice(alloc, bytes)?,
        })?;
    }
    Ok(SureVault::new(alloc, files))
}

/// The device `counter`, which answers after 2 ticks.
fn counter(alloc: Global, failing: Failing) -> Result<Rc<RefCell<FaultAt>>, AllocError> {
    let name = Name::new(alloc, "counter")?;
    let device = FaultAt::new(alloc, name, 2, vec![in alloc; failing.device]?);
    Ok(Rc::new(alloc, RefCell::new(device))?)
}

/// A list of one device, which hands its calls on to this one.
fn lend(alloc: Global, kept: Rc<RefCell<FaultAt>>) -> Result<Vec<Box<dyn Device>>, AllocError> {
    let name = Name::new(alloc, "counter")?;
    let mut devices: Vec<Box<dyn Device>> = Vec::new(alloc);
    devices.push(Box::new(alloc, Lent { name, kept })?)?;
    Ok(devices)
}

/// The calls that a device has answered, one a line: import, arguments, answer, ticks.
fn journal_of(alloc: Global, device: &Rc<RefCell<FaultAt>>) -> Result<String, AllocError> {
    let mut text = String::new(alloc);
    if let Ok(device) = device.try_borrow() {
        for call in device.journal() {
            text.push_str(call.base.as_str())?;
            for value in call.args.iter().chain(call.reply.value.iter()) {
                let number = match value {
                    Value::I32(number) => *number as u64,
                    Value::I64(number) => *number,
                };
                text.push_str(format!(in alloc; " {number}")?.as_str())?;
            }
            text.push_str(format!(in alloc; " ticks {}\n", call.reply.ticks)?.as_str())?;
        }
    }
    Ok(text)
}

/// What a command leads to where these calls fail.
fn tell(alloc: Global, case: Case<'_>, failing: Failing) -> Result<Told, AllocError> {
    let words = words(alloc, case)?;
    let mut vault = Counted {
        files: files(alloc, case)?,
        failing,
        fetches: 0,
        saves: 0,
    };
    let mut sink = MemSink::new(alloc, vec![in alloc; failing.put]?);
    let counter = counter(alloc, failing)?;
    let mut devices = lend(alloc, counter.clone()?)?;
    let status = asyncify(alloc, &words, &mut vault, &mut sink, &mut devices);
    let out = match vault.files.file("out") {
        Some(bytes) => Some(Vec::from_slice(alloc, bytes)?),
        None => None,
    };
    let mut given = case.files.iter();
    Ok(Told {
        status,
        printed: Vec::from_slice(alloc, sink.bytes())?,
        out,
        kept: given.all(|(name, bytes)| *name == "out" || vault.files.file(name) == Some(*bytes)),
        devices: devices.len(),
        journal: journal_of(alloc, &counter)?,
    })
}

/// What a command leads to with its first call of a kind failing, with its second and so on, up to the first number at which
/// nothing fails. That is asked to come within 200.
fn each_failing(
    rt: &impl Abort,
    alloc: Global,
    case: Case<'_>,
    kind: Kind,
) -> Result<Vec<Told>, Fail> {
    let mut all = Vec::new(alloc);
    for number in 1..201 {
        let told = tell(alloc, case, Failing::one(kind, number))?;
        let whole = told.status == 0;
        all.push(told)?;
        if whole {
            return Ok(all);
        }
    }
    assert!(rt; false, "200 calls fail");
    Ok(all)
}

/// The worked module `countdown`, with a custom section that makes it longer than one piece.
fn long_countdown(alloc: Global) -> Result<Vec<u8>, AllocError> {
    let mut bytes = Vec::from_slice(alloc, WORKED[1].1)?;
    let size = bytes.len() + 4 + SECTION;
    // the section's number, its size in LEB128, and the name `a`
    bytes.extend_from_slice(b"\0\xf0\xa2\x04\x01a")?;
    bytes.resize(size, 7u8)?;
    Ok(bytes)
}

/// A script over that module, whose import a device answers.
const SCRIPT: &[u8] = b"\
program module
area 0 64
device env.pause counter
enter run i32:3
";

/// What it prints under `run`, and over the rewritten module under `host`.
const LINES: [&str; 12] = [
    "0 0 call env.pause i32:3\n",
    "0 0 pause until 2 area 28 of 64\n",
    "2 0 answer i32:0\n",
    "2 0 call env.pause i32:2\n",
    "2 0 pause until 4 area 28 of 64\n",
    "4 0 answer i32:1\n",
    "4 0 call env.pause i32:1\n",
    "4 0 pause until 6 area 28 of 64\n",
    "6 0 answer i32:2\n",
    "6 0 return run i32:3\n",
    "6 0 end done\n",
    "programs 1 events 4\n",
];

/// The journal's entries of the three calls.
const ENTRIES: [&str; 3] = [
    "pause 3 0 ticks 2\n",
    "pause 2 1 ticks 2\n",
    "pause 1 2 ticks 2\n",
];

fn joined(alloc: Global, texts: &[&str]) -> Result<String, AllocError> {
    let mut whole = String::new(alloc);
    for text in texts.iter() {
        whole.push_str(text)?;
    }
    Ok(whole)
}

/// Both commands that play the script, each with the module that it takes.
fn ways(alloc: Global) -> Result<[(&'static str, Vec<u8>); 2], AllocError> {
    let original = long_countdown(alloc)?;
    let case = Case {
        words: &["transform", "in", "out"],
        files: &[("in", &original)],
    };
    let written = match tell(alloc, case, NONE)?.out {
        Some(bytes) => bytes,
        None => Vec::new(alloc),
    };
    Ok([("run", original), ("host", written)])
}

#[test]
fn each_fetch_of_a_script_may_fail(rt: HostRuntime) -> Result<(), Fail> {
    let alloc = rt.alloc();
    let whole = joined(alloc, &LINES)?;
    let journal = joined(alloc, &ENTRIES)?;
    for (command, module) in ways(alloc)? {
        let case = Case {
            words: &[command, "script"],
            files: &[("script", SCRIPT), ("module", &module)],
        };
        let all = each_failing(&rt, alloc, case, Kind::Fetch)?;
        // the script and its end, then two pieces of the module and its end
        assert_eq!(rt; all.len(), 6, "{command}");
        for (place, told) in all.iter().enumerate() {
            let (status, printed, journal) = match place {
                0 | 1 => (10, "read fault script\n", ""),
                2 | 3 | 4 => (10, "read fault module\n", ""),
                _ => (0, whole.as_str(), journal.as_str()),
            };
            assert!(rt;
                told.is(status, printed.as_bytes(), None, journal),
                "{command}, {place}"
            );
        }
        assert_eq!(rt;
            each_failing(&rt, alloc, case, Kind::Save)?.len(),
            1,
            "{command}"
        );
    }
    Ok(())
}

#[test]
fn each_put_of_a_script_may_fail(rt: HostRuntime) -> Result<(), Fail> {
    let alloc = rt.alloc();
    for (command, module) in ways(alloc)? {
        let case = Case {
            words: &[command, "script"],
            files: &[("script", SCRIPT), ("module", &module)],
        };
        let all = each_failing(&rt, alloc, case, Kind::Put)?;
        assert_eq!(rt; all.len(), LINES.len() + 1, "{command}");
        for (place, told) in all.iter().enumerate() {
            let status = if place < LINES.len() { 12 } else { 0 };
            let printed = joined(alloc, &LINES[..place])?;
            // the line that couldn't be printed was told too, and its call asked
            let lines = LINES.iter().take(place + 1);
            let calls = lines.filter(|line| line.contains(" call ")).count();
            let journal = joined(alloc, &ENTRIES[..calls])?;
            assert!(rt;
                told.is(status, printed.as_bytes(), None, journal.as_str()),
                "{command}, {place}"
            );
        }
    }
    Ok(())
}

#[test]
fn each_call_of_a_device_may_fail(rt: HostRuntime) -> Result<(), Fail> {
    let alloc = rt.alloc();
    let original = long_countdown(alloc)?;
    let case = Case {
        words: &["run", "script"],
        files: &[("script", SCRIPT), ("module", &original)],
    };
    // how many lines are printed before, and those on the end; behind the last call nothing fails
    let rows: [(usize, &[&str]); 4] = [
        (
            1,
            &["0 0 end device fault env.pause\n", "programs 1 events 1\n"],
        ),
        (
            4,
            &["2 0 end device fault env.pause\n", "programs 1 events 2\n"],
        ),
        (
            7,
            &["4 0 end device fault env.pause\n", "programs 1 events 3\n"],
        ),
        (12, &[]),
    ];
    for (place, (before, end)) in rows.iter().enumerate() {
        let device = place as u64 + 1;
        let told = tell(alloc, case, Failing { device, ..NONE })?;
        let mut printed = joined(alloc, &LINES[..*before])?;
        printed.push_str(joined(alloc, end)?.as_str())?;
        let journal = joined(alloc, &ENTRIES[..place])?;
        assert!(rt;
            told.is(0, printed.as_bytes(), None, journal.as_str()),
            "{place}"
        );
    }
    Ok(())
}

/// Asks that a command which writes `out` ends with 11 where a save fails, and has then written the pieces before it; and
/// with 12 where a put fails, and has then written all. Answers how many saves there are.
fn writes_in_pieces(
    rt: &impl Abort,
    alloc: Global,
    case: Case<'_>,
    before: Option<&[u8]>,
) -> Result<usize, Fail> {
    let whole = tell(alloc, case, NONE)?;
    let printed = whole.printed.as_slice();
    let Some(bytes) = whole.out.as_ref().map(|out| out.as_slice()) else {
        assert!(rt; false, "nothing is written");
        return Ok(0);
    };
    let all = each_failing(rt, alloc, case, Kind::Save)?;
    let saves = bytes.len().div_ceil(PIECE);
    assert_eq!(rt; all.len(), saves + 1);
    for (place, told) in all.iter().enumerate() {
        let out = match place {
            0 => before,
            _ => Some(&bytes[..(place * PIECE).min(bytes.len())]),
        };
        let (status, line) = match place < saves {
            true => (11, b"write fault out\n".as_slice()),
            false => (0, printed),
        };
        assert!(rt; told.is(status, line, out, ""), "{place}");
    }
    let all = each_failing(rt, alloc, case, Kind::Put)?;
    assert_eq!(rt; all.len(), 2);
    assert!(rt; all[0].is(12, b"", Some(bytes), ""));
    assert!(rt; all[1].is(0, printed, Some(bytes), ""));
    Ok(saves)
}

#[test]
fn each_call_of_transform_may_fail(rt: HostRuntime) -> Result<(), Fail> {
    let alloc = rt.alloc();
    let original = long_countdown(alloc)?;
    let case = Case {
        words: &["transform", "in", "out"],
        files: &[("in", &original), ("out", b"before")],
    };
    assert!(rt; writes_in_pieces(&rt, alloc, case, Some(b"before"))? > 70);
    let all = each_failing(&rt, alloc, case, Kind::Fetch)?;
    // two pieces and the end
    assert_eq!(rt; all.len(), 4);
    for (place, told) in all.iter().enumerate().take(3) {
        assert!(rt;
            told.is(10, b"read fault in\n", Some(b"before"), ""),
            "{place}"
        );
    }
    Ok(())
}

#[test]
fn each_call_of_gen_may_fail(rt: HostRuntime) -> Result<(), Fail> {
    let alloc = rt.alloc();
    // four functions are written by one save, and a hundred by two
    for (number, saves) in [("4", 1), ("100", 2)] {
        let case = Case {
            words: &["gen", number, "out"],
            files: &[],
        };
        assert!(rt;
            writes_in_pieces(&rt, alloc, case, None)? == saves,
            "{number}"
        );
        assert_eq!(rt;
            each_failing(&rt, alloc, case, Kind::Fetch)?.len(),
            1,
            "{number}"
        );
    }
    Ok(())
}

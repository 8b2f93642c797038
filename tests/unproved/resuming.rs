//! A program that is stopped at a pause, written as bytes, read, put back in another host, and gone on with: the worked loop
//! from its first pause on, byte by byte as one host tells it.

use crate::modules::valid;
use crate::worked::WORKED;
use call_graph::{Choice, Policy, Settings};
use device_port::Devices;
use many_host::Host;
use module_rewrite::rewrite_module;
use pause_host::{Entry, Plan, Program, ThawFault};
use snapshot_store::{ProgramRecord, Snapshot, read, write};
use std::alloc::{AllocError, Global};
use std::process::Abort;
use std::test::Fail;
use transcript::{Names, line};
use wa_model::{Answer, AnswerLine, Area, Said};
use wa_types::{Name, Value};
use wasm_validate::Valid;

/// What is told up to the first pause, and behind it.
const FIRST: &str = "0 0 call env.pause i32:3\n0 0 answer i32:10\n0 0 call env.pause i32:2\n0 0 pause until 4 area 28 of 64\n";
const REST: &str = "4 0 answer i32:20\n4 0 call env.pause i32:1\n4 0 answer i32:30\n4 0 return run i32:60\n4 0 end done\n";

/// The worked loop, rewritten.
fn rewritten(alloc: Global) -> Result<Valid, Fail> {
    let (_, bytes) = WORKED[1];
    let settings = Settings {
        choice: Choice::Every,
        ignore_indirect: false,
        policy: Policy::All,
        asserts: false,
    };
    Ok(rewrite_module(alloc, &valid(alloc, bytes)?, &settings)?.module)
}

fn answer(alloc: Global, value: u32, ticks: u32) -> Result<AnswerLine, AllocError> {
    Ok(AnswerLine {
        import: Name::new(alloc, "env.pause")?,
        answer: Answer {
            said: Said::Value(Some(Value::I32(value))),
            pokes: Vec::new(alloc),
            ticks,
        },
    })
}

/// Its script: `run` of 3, with three answers, the second after four ticks.
fn plan<'m>(alloc: Global, module: &'m Valid, steps: u64) -> Result<Plan<'m>, AllocError> {
    let run = Entry {
        name: Name::new(alloc, "run")?,
        args: vec![in alloc; Value::I32(3)]?,
    };
    Ok(Plan {
        module,
        listed: Some(vec![in alloc; true]?),
        binds: vec![in alloc; None]?,
        area: Area { at: 0, len: 64 },
        steps,
        globals: Vec::new(alloc),
        entries: vec![in alloc; run]?,
        answers: vec![in alloc; answer(alloc, 10, 0)?, answer(alloc, 20, 4)?, answer(alloc, 30, 0)?]?,
    })
}

/// The lines that a host tells, up to a pause or the last one.
fn told(alloc: Global, host: &mut Host<'_>) -> Result<String, Fail> {
    let names = Names {
        imports: vec![in alloc; Name::new(alloc, "env.pause")?]?,
        entries: vec![in alloc; Name::new(alloc, "run")?]?,
        len: 64,
    };
    let mut text = Vec::new(alloc);
    let mut boxes = Vec::new(alloc);
    let mut devices = Devices::new(&mut boxes);
    for _ in 0..20 {
        let Some(next) = host.next_without_mail(&mut devices)? else {
            break;
        };
        text.extend_from_slice(&line(alloc, &next, &names)?)?;
        if matches!(&next.event, wa_model::Event::Paused { .. }) {
            break;
        }
    }
    Ok(String::from_utf8(text)?)
}

/// The bytes of the snapshot of a host of one paused program.
fn saved(alloc: Global, host: &Host<'_>) -> Result<Option<Vec<u8>>, AllocError> {
    let program = host.program(0);
    let Some(parts) = program.parts(alloc)? else {
        return Ok(None);
    };
    let memory = match program.memory() {
        Some(memory) => Vec::from_slice(alloc, memory)?,
        None => Vec::new(alloc),
    };
    let record = ProgramRecord::Paused {
        due: host.due(0),
        parts,
        memory,
    };
    let snap = Snapshot {
        events: host.events(),
        programs: vec![in alloc; record]?,
    };
    Ok(Some(write(alloc, &snap)?))
}

/// The snapshot of the loop at its first pause, once its lines were told as they must be.
fn first_pause(rt: &impl Abort, alloc: Global, module: &Valid) -> Result<Vec<u8>, Fail> {
    let program = Program::new(alloc, plan(alloc, module, 1_000)?)?;
    let mut host = Host::new(alloc, vec![in alloc; program]?, Vec::new(alloc), Vec::new(alloc))?;
    let text = told(alloc, &mut host)?;
    assert_eq!(rt; text.as_str(), FIRST);
    let bytes = saved(alloc, &host)?.unwrap_or(Vec::new(alloc));
    assert_eq!(rt; bytes.len(), 65_603);
    Ok(bytes)
}

/// What a host tells that goes on from these bytes, and how many events it then has.
fn gone_on(alloc: Global, module: &Valid, bytes: &[u8]) -> Result<(String, u64), Fail> {
    let snap = read(alloc, bytes)?;
    let mut programs = Vec::new(alloc);
    let mut dues = Vec::new(alloc);
    for record in &snap.programs {
        if let ProgramRecord::Paused { due, parts, memory } = record {
            programs.push(Program::thaw(alloc, plan(alloc, module, 1_000)?, parts, memory)?)?;
            dues.push(*due)?;
        }
    }
    let ended = vec![in alloc; false]?;
    let mut host = Host::resumed(
        alloc,
        programs,
        dues,
        ended,
        snap.events,
        Vec::new(alloc),
        Vec::new(alloc),
    )?;
    let text = told(alloc, &mut host)?;
    Ok((text, host.events()))
}

#[test]
fn a_paused_program_goes_on_in_another_host(rt: HostRuntime) -> Result<(), Fail> {
    let alloc = rt.alloc();
    let module = rewritten(alloc)?;
    let bytes = first_pause(&rt, alloc, &module)?;
    let (text, events) = gone_on(alloc, &module, &bytes)?;
    assert_eq!(rt; text.as_str(), REST);
    assert_eq!(rt; events, 2);
    Ok(())
}

#[test]
fn an_operand_changed_in_the_frame_comes_back_changed(rt: HostRuntime) -> Result<(), Fail> {
    let alloc = rt.alloc();
    let module = rewritten(alloc)?;
    let mut bytes = first_pause(&rt, alloc, &module)?;
    assert_eq!(rt; bytes[83], 10);
    bytes[83] = 20;
    let (text, _) = gone_on(alloc, &module, &bytes)?;
    assert!(rt; text.contains("4 0 return run i32:70\n"), "{text}");
    Ok(())
}

#[test]
fn parts_that_fit_no_plan_are_refused(rt: HostRuntime) -> Result<(), Fail> {
    let alloc = rt.alloc();
    let module = rewritten(alloc)?;
    let snap = read(alloc, &first_pause(&rt, alloc, &module)?)?;
    for record in &snap.programs {
        if let ProgramRecord::Paused { parts, memory, .. } = record {
            let few = plan(alloc, &module, 5)?;
            let fault = Program::thaw(alloc, few, parts, memory).err();
            assert_eq!(rt; fault, Some(ThawFault::Unfit));
        }
    }
    Ok(())
}

#[test]
fn a_host_whose_programs_have_ended_tells_nothing(rt: HostRuntime) -> Result<(), Fail> {
    let alloc = rt.alloc();
    let module = rewritten(alloc)?;
    let program = Program::new(alloc, plan(alloc, &module, 1_000)?)?;
    let mut host = Host::resumed(
        alloc,
        vec![in alloc; program]?,
        vec![in alloc; 0]?,
        vec![in alloc; true]?,
        7,
        Vec::new(alloc),
        Vec::new(alloc),
    )?;
    let text = told(alloc, &mut host)?;
    assert_eq!(rt; text.as_str(), "");
    assert_eq!(rt; host.events(), 7);
    Ok(())
}

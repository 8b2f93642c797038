//! Programs with strands: entry calls of one instance that are suspended side by side, each in an area of its own.

use crate::modules::valid;
use call_graph::{Choice, Policy, Settings};
use device_port::Devices;
use module_rewrite::rewrite_module;
use pause_host::{Entry, Plan};
use std::alloc::{AllocError, Global};
use std::test::Fail;
use strand_host::{Look, StrandFault, StrandHost, StrandPart, StrandPlan, StrandProgram};
use transcript::{Names, StrandLineParts, strand_line};
use wa_model::{Answer, AnswerLine, Area, Line, Poke, Said};
use wa_types::{Name, Value};
use wasm_validate::Valid;

/// `run` asks `env.pause` and adds the answer to a global, which it returns.
const SUMMING: &[u8] = b"\0asm\x01\0\0\0\
    \x01\x06\x01\x60\x01\x7f\x01\x7f\
    \x02\x0d\x01\x03env\x05pause\x00\x00\
    \x03\x02\x01\x00\
    \x05\x03\x01\x00\x01\
    \x06\x06\x01\x7f\x01\x41\x00\x0b\
    \x07\x07\x01\x03run\x00\x01\
    \x0a\x0f\x01\x0d\x00\x20\x00\x10\x00\x23\x00\x6a\x24\x00\x23\x00\x0b";

fn rewritten(alloc: Global, policy: Policy) -> Result<Valid, Fail> {
    let settings = Settings {
        choice: Choice::Every,
        ignore_indirect: false,
        policy,
        asserts: false,
    };
    Ok(rewrite_module(alloc, &valid(alloc, SUMMING)?, &settings)?.module)
}

/// An answer of this value after these ticks, which writes a byte at each of these places.
fn answer(alloc: Global, value: u32, ticks: u32, pokes: &[u32]) -> Result<AnswerLine, AllocError> {
    let mut written = Vec::new(alloc);
    for at in pokes {
        let bytes = vec![in alloc; 7]?;
        written.push(Poke { at: *at, bytes })?;
    }
    Ok(AnswerLine {
        import: Name::new(alloc, "env.pause")?,
        answer: Answer {
            said: Said::Value(Some(Value::I32(value))),
            pokes: written,
            ticks,
        },
    })
}

/// A call of `run`.
fn run(alloc: Global, value: u32) -> Result<Entry, AllocError> {
    Ok(Entry {
        name: Name::new(alloc, "run")?,
        args: vec![in alloc; Value::I32(value)]?,
    })
}

/// Two strands that call `run` with 1 and 2, the second in an area of 64 bytes at this place; each has one answer.
fn plan<'m>(
    alloc: Global,
    module: &'m Valid,
    at: u32,
    first: AnswerLine,
    second: AnswerLine,
) -> Result<StrandPlan<'m>, AllocError> {
    let plan = Plan {
        module,
        listed: Some(vec![in alloc; true]?),
        binds: vec![in alloc; None]?,
        area: Area { at: 0, len: 64 },
        steps: 1_000_000,
        globals: Vec::new(alloc),
        entries: vec![in alloc; run(alloc, 1)?]?,
        answers: vec![in alloc; first]?,
    };
    let part = StrandPart {
        area: Area { at, len: 64 },
        entries: vec![in alloc; run(alloc, 2)?]?,
        answers: vec![in alloc; second]?,
    };
    Ok(StrandPlan {
        plan,
        strands: vec![in alloc; part]?,
    })
}

/// All that a host tells of this program, with its memory at 64 behind the end, and the number of events.
fn told(alloc: Global, program: StrandProgram<'_>) -> Result<String, Fail> {
    let names = Names {
        imports: vec![in alloc; Name::new(alloc, "env.pause")?]?,
        entries: vec![in alloc; Name::new(alloc, "run")?]?,
        len: 64,
    };
    let look = Look {
        program: 0,
        at: 64,
        len: 2,
    };
    let shows = vec![in alloc; look]?;
    let mut host = StrandHost::new(alloc, vec![in alloc; program]?, Vec::new(alloc), shows)?;
    let mut boxes = Vec::new(alloc);
    let mut devices = Devices::new(&mut boxes);
    let mut text = Vec::new(alloc);
    for _ in 0..20 {
        let Some(next) = host.next(&mut devices)? else {
            break;
        };
        let line = Line {
            tick: next.tick,
            program: next.program,
            event: next.event,
        };
        let strand = next.strand;
        text.extend_from_slice(&strand_line(alloc, &StrandLineParts { line, strand }, &names)?)?;
    }
    let last = format!(in alloc; "events {}\n", host.events())?;
    text.extend_from_slice(last.as_bytes())?;
    Ok(String::from_utf8(text)?)
}

/// The second strand is answered first, and the first one goes on over the global that it left.
const SUMMED: &str = "0 0 call env.pause i32:1\n0 0 pause until 2 area 24 of 64\n0 0.1 call env.pause i32:2\n0 0.1 pause until 1 area 24 of 64\n1 0.1 answer i32:100\n1 0.1 return run i32:100\n1 0.1 end done\n2 0 answer i32:10\n2 0 return run i32:110\n2 0 end done\n2 0 memory 64 4800\nevents 4\n";

#[test]
fn two_strands_share_a_global(rt: HostRuntime) -> Result<(), Fail> {
    let alloc = rt.alloc();
    let module = rewritten(alloc, Policy::All)?;
    let first = answer(alloc, 10, 2, &[])?;
    let second = answer(alloc, 100, 1, &[])?;
    let program = StrandProgram::new(alloc, plan(alloc, &module, 64, first, second)?)?;
    let text = told(alloc, program)?;
    assert_eq!(rt; text.as_str(), SUMMED);
    Ok(())
}

/// An answer that would write into the other strand's area ends the program at its call.
const POKED: &str =
    "0 0 call env.pause i32:1\n0 0 end bad poke 70 1\n0 0 memory 64 0000\nevents 1\n";

#[test]
fn no_answer_writes_into_the_area_of_another_strand(rt: HostRuntime) -> Result<(), Fail> {
    let alloc = rt.alloc();
    let module = rewritten(alloc, Policy::Live)?;
    let first = answer(alloc, 10, 2, &[200, 70])?;
    let second = answer(alloc, 100, 1, &[])?;
    let program = StrandProgram::new(alloc, plan(alloc, &module, 64, first, second)?)?;
    let text = told(alloc, program)?;
    assert_eq!(rt; text.as_str(), POKED);
    Ok(())
}

#[test]
fn areas_of_strands_share_no_byte(rt: HostRuntime) -> Result<(), Fail> {
    let alloc = rt.alloc();
    let module = rewritten(alloc, Policy::All)?;
    let first = answer(alloc, 10, 2, &[])?;
    let second = answer(alloc, 100, 1, &[])?;
    match StrandProgram::new(alloc, plan(alloc, &module, 60, first, second)?) {
        Ok(_) => assert!(rt; false),
        Err(fault) => assert_eq!(rt; fault, StrandFault::Overlap { strand: 1 }),
    }
    Ok(())
}

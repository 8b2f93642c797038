//! Mailboxes: values and programs first come first served, and many of both through one; and two programs of which one waits for the
//! other.

use crate::modules::valid;
use call_graph::{Choice, Policy, Settings};
use device_port::{Devices, Reply};
use mailbox_device::Mailboxes;
use module_rewrite::rewrite_module;
use pause_host::{Entry, Plan, Program};
use std::alloc::Global;
use std::test::Fail;
use wa_model::{Area, End, Event, Said};
use wa_types::{Name, Value};
use wasm_validate::Valid;

/// How many values, and programs, go through one mailbox in a row.
const MANY: u32 = 100_000;

/// Empty mailboxes of these names.
fn mailboxes(alloc: Global, names: &[&str]) -> Result<Mailboxes, Fail> {
    let mut all = Vec::new(alloc);
    for name in names {
        all.push(Name::new(alloc, name)?)?;
    }
    Ok(Mailboxes::new(alloc, all)?)
}

/// The i32 that is answered at once; None where nothing is, or not so.
fn at_once(reply: Option<Reply>) -> Option<u32> {
    let reply = reply?;
    match reply.value {
        Some(Value::I32(value)) if reply.ticks == 0 => Some(value),
        _ => None,
    }
}

#[test]
fn a_name_is_found_at_its_first_mailbox(rt: HostRuntime) -> Result<(), Fail> {
    let mail = mailboxes(rt.alloc(), &["box", "", "other", "box"])?;
    assert_eq!(rt; mail.find("box"), Some(0));
    assert_eq!(rt; mail.find(""), Some(1));
    assert_eq!(rt; mail.find("other"), Some(2));
    assert_eq!(rt; mail.find("bo"), None);
    assert_eq!(rt; mail.find("boxes"), None);
    assert_eq!(rt; mailboxes(rt.alloc(), &[])?.find("box"), None);
    Ok(())
}

#[test]
fn values_are_received_in_order(rt: HostRuntime) -> Result<(), Fail> {
    let mut mail = mailboxes(rt.alloc(), &["box", "other"])?;
    assert!(rt; mail.receive(0).is_none(), "nothing was sent");
    mail.send(0, 5)?;
    mail.send(1, 7)?;
    mail.send(0, u32::MAX)?;
    assert_eq!(rt; at_once(mail.receive(0)), Some(5));
    assert_eq!(rt; at_once(mail.receive(0)), Some(u32::MAX));
    assert!(rt; mail.receive(0).is_none(), "all is received");
    assert_eq!(rt; at_once(mail.receive(1)), Some(7));
    assert_eq!(rt; mail.take_settled(), None);
    Ok(())
}

#[test]
fn programs_are_settled_in_order(rt: HostRuntime) -> Result<(), Fail> {
    let mut mail = mailboxes(rt.alloc(), &["box", "other"])?;
    mail.wait(0, 4)?;
    mail.wait(1, 2)?;
    mail.wait(0, 3)?;
    mail.send(0, 10)?;
    mail.send(1, 20)?;
    mail.send(0, 30)?;
    mail.send(0, 40)?;
    assert_eq!(rt; mail.take_settled(), Some((4, 10)));
    assert_eq!(rt; mail.take_settled(), Some((2, 20)));
    assert_eq!(rt; mail.take_settled(), Some((3, 30)));
    assert_eq!(rt; mail.take_settled(), None);
    assert_eq!(rt; at_once(mail.receive(0)), Some(40));
    mail.wait(0, 4)?;
    mail.send(0, 50)?;
    assert!(rt; mail.receive(0).is_none(), "it went to the program");
    assert_eq!(rt; mail.take_settled(), Some((4, 50)));
    Ok(())
}

#[test]
fn many_values_go_through_one_mailbox(rt: HostRuntime) -> Result<(), Fail> {
    let mut mail = mailboxes(rt.alloc(), &["box"])?;
    for value in 0..MANY {
        mail.send(0, value)?;
    }
    for value in 0..MANY {
        assert_eq!(rt; at_once(mail.receive(0)), Some(value));
        mail.send(0, MANY + value)?;
    }
    for value in 0..MANY {
        assert_eq!(rt; at_once(mail.receive(0)), Some(MANY + value));
    }
    assert!(rt; mail.receive(0).is_none(), "all is received");
    Ok(())
}

#[test]
fn many_programs_wait_at_one_mailbox(rt: HostRuntime) -> Result<(), Fail> {
    let mut mail = mailboxes(rt.alloc(), &["box"])?;
    for program in 0..MANY {
        mail.wait(0, program)?;
    }
    for program in 0..MANY {
        mail.send(0, MANY - program)?;
    }
    for program in 0..MANY {
        assert_eq!(rt; mail.take_settled(), Some((program, MANY - program)));
    }
    assert_eq!(rt; mail.take_settled(), None);
    Ok(())
}

/// A module whose `run` receives twice and adds.
const RECEIVER: &[u8] = b"\x00asm\x01\x00\x00\x00\x01\x05\x01`\x00\x01\x7f\x02\x0c\x01\x03env\x04recv\x00\x00\x03\x02\x01\x00\
    \x07\x07\x01\x03run\x00\x01\x0a\x09\x01\x07\x00\x10\x00\x10\x00j\x0b";

/// A module whose `run` sends 5 and 6.
const SENDER: &[u8] = b"\x00asm\x01\x00\x00\x00\x01\x08\x02`\x01\x7f\x00`\x00\x00\x02\x0c\x01\x03env\x04send\x00\x00\x03\x02\x01\x01\
    \x07\x07\x01\x03run\x00\x01\x0a\x0c\x01\x0a\x00A\x05\x10\x00A\x06\x10\x00\x0b";

/// The module, rewritten.
fn rewritten(alloc: Global, bytes: &[u8]) -> Result<Valid, Fail> {
    let settings = Settings {
        choice: Choice::Every,
        ignore_indirect: false,
        policy: Policy::All,
        asserts: false,
    };
    Ok(rewrite_module(alloc, &valid(alloc, bytes)?, &settings)?.module)
}

/// A program that calls `run`, whose import is bound to `box`.
fn program(alloc: Global, module: &Valid) -> Result<Program<'_>, Fail> {
    let run = Entry {
        name: Name::new(alloc, "run")?,
        args: Vec::new(alloc),
    };
    let plan = Plan {
        module,
        listed: None,
        binds: vec![in alloc; Some(Name::new(alloc, "box")?)]?,
        area: Area { at: 0, len: 64 },
        steps: 1_000,
        globals: Vec::new(alloc),
        entries: vec![in alloc; run]?,
        answers: Vec::new(alloc),
    };
    Ok(Program::new(alloc, plan)?)
}

/// The next event of a program, without devices.
fn next(alloc: Global, program: &mut Program<'_>, mail: &mut Mailboxes) -> Result<Event, Fail> {
    let mut none = Vec::new(alloc);
    Ok(program.advance(&mut Devices::new(&mut none), mail)?)
}

/// Whether the event tells a new call of the import with as many arguments.
fn is_call(event: &Event, args: usize) -> bool {
    matches!(event, Event::Called(call) if call.import == 0 && call.args.len() == args)
}

/// Whether the event answers this value, or none.
fn is_answer(event: &Event, value: Option<u32>) -> bool {
    matches!(event, Event::Answered(Said::Value(said)) if *said == value.map(Value::I32))
}

#[test]
fn a_program_waits_for_another(rt: HostRuntime) -> Result<(), Fail> {
    let alloc = rt.alloc();
    let (receiving, sending) = (rewritten(alloc, RECEIVER)?, rewritten(alloc, SENDER)?);
    let (mut receiver, mut sender) = (program(alloc, &receiving)?, program(alloc, &sending)?);
    let mut mail = mailboxes(alloc, &["box"])?;

    let event = next(alloc, &mut receiver, &mut mail)?;
    assert!(rt; is_call(&event, 0));
    assert_eq!(rt; receiver.parked_at(), None);
    let event = next(alloc, &mut receiver, &mut mail)?;
    assert!(rt; matches!(&event, Event::Parked { .. }));
    assert_eq!(rt; receiver.parked_at(), Some("box"));
    mail.wait(0, 0)?;

    for _ in 0..2 {
        let event = next(alloc, &mut sender, &mut mail)?;
        assert!(rt; is_call(&event, 1));
        let event = next(alloc, &mut sender, &mut mail)?;
        assert!(rt; is_answer(&event, None));
    }
    assert_eq!(rt; mail.take_settled(), Some((0, 5)));
    assert_eq!(rt; mail.take_settled(), None);
    receiver.settle(5);
    assert_eq!(rt; receiver.parked_at(), None);

    let event = next(alloc, &mut receiver, &mut mail)?;
    assert!(rt; is_answer(&event, Some(5)));
    let event = next(alloc, &mut receiver, &mut mail)?;
    assert!(rt; is_call(&event, 0));
    let event = next(alloc, &mut receiver, &mut mail)?;
    assert!(rt; is_answer(&event, Some(6)));
    let event = next(alloc, &mut receiver, &mut mail)?;
    assert!(rt; matches!(&event, Event::Returned { value: Some(Value::I32(11)), .. }));
    let event = next(alloc, &mut receiver, &mut mail)?;
    assert!(rt; matches!(&event, Event::Ended(End::Done)));
    Ok(())
}

#[test]
fn a_program_stalls_where_nobody_sends(rt: HostRuntime) -> Result<(), Fail> {
    let alloc = rt.alloc();
    let receiving = rewritten(alloc, RECEIVER)?;
    let mut receiver = program(alloc, &receiving)?;
    let mut mail = mailboxes(alloc, &["box"])?;
    let _called = next(alloc, &mut receiver, &mut mail)?;
    let event = next(alloc, &mut receiver, &mut mail)?;
    assert!(rt; matches!(&event, Event::Parked { .. }));
    receiver.stall();
    assert_eq!(rt; receiver.parked_at(), None);
    for _ in 0..2 {
        let event = next(alloc, &mut receiver, &mut mail)?;
        assert!(rt; matches!(&event, Event::Ended(End::Stalled(0))));
    }
    Ok(())
}

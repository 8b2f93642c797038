//! Lists of imports, and which functions may pause.

use crate::modules::valid;
use call_graph::{Choice, ImportList, ListFault, Policy, Settings, listed_imports, may_pause};
use std::alloc::Global;
use std::test::Fail;

/// Why a text is no list.
fn fault(alloc: Global, text: &str) -> Option<ListFault> {
    ImportList::parse(alloc, text).err()
}

#[test]
fn lists_name_imports(rt: HostRuntime) -> Result<(), Fail> {
    let list = ImportList::parse(rt.alloc(), "env.sl*,host.read,*")?;
    assert!(rt; list.listed("clock", "now"));
    let list = ImportList::parse(rt.alloc(), "env.sl*,host.read,a.b.c*")?;
    assert!(rt; list.listed("env", "sleep"));
    assert!(rt; list.listed("env", "sl"));
    assert!(rt; !list.listed("env", "s"));
    assert!(rt; !list.listed("env", "log"));
    assert!(rt; list.listed("host", "read"));
    assert!(rt; !list.listed("host", "reads"));
    assert!(rt; !list.listed("host", "rea"));
    assert!(rt; list.listed("a", "b.cd"));
    assert!(rt; list.listed("a.b", "c"));
    Ok(())
}

#[test]
fn other_texts_are_refused(rt: HostRuntime) -> Result<(), Fail> {
    let alloc = rt.alloc();
    assert_eq!(rt; fault(alloc, "env.a,,env.b"), Some(ListFault::EmptyEntry));
    assert_eq!(rt; fault(alloc, ""), Some(ListFault::EmptyEntry));
    assert_eq!(rt; fault(alloc, "env.*x"), Some(ListFault::StarInside));
    assert_eq!(rt; fault(alloc, "e**"), Some(ListFault::StarInside));
    assert_eq!(rt; fault(alloc, "env"), Some(ListFault::NoDot));
    assert_eq!(rt; fault(alloc, "env,a*b,"), Some(ListFault::NoDot));
    Ok(())
}

/// Imports `env.sleep` and `env.log`; function 2 calls the second, function 3 the first.
const SLEEPS_AND_LOGS: &[u8] = b"\
    \x00\x61\x73\x6d\x01\x00\x00\x00\x01\x06\x01\x60\x01\x7f\x01\x7f\x02\x17\x02\x03\x65\x6e\x76\x05\x73\
    \x6c\x65\x65\x70\x00\x00\x03\x65\x6e\x76\x03\x6c\x6f\x67\x00\x00\x03\x03\x02\x00\x00\x07\x07\x01\x03\
    \x72\x75\x6e\x00\x03\x0a\x0f\x02\x06\x00\x20\x00\x10\x01\x0b\x06\x00\x20\x00\x10\x00\x0b";

#[test]
fn functions_that_call_a_listed_import_may_pause(rt: HostRuntime) -> Result<(), Fail> {
    let alloc = rt.alloc();
    let module = valid(alloc, SLEEPS_AND_LOGS)?;
    let rows = [
        (
            Choice::Listed(ImportList::parse(alloc, "env.sl*,host.read")?),
            [true, false],
            [false, false, false, true],
        ),
        (
            Choice::Listed(ImportList::parse(alloc, "env.lo,env.log")?),
            [false, true],
            [false, false, true, false],
        ),
        (Choice::Every, [true, true], [false, false, true, true]),
    ];
    for (choice, imports, funcs) in rows {
        let settings = Settings {
            choice,
            ignore_indirect: false,
            policy: Policy::All,
            asserts: false,
        };
        let listed = listed_imports(alloc, &module, &settings)?;
        assert_eq!(rt; listed.as_slice(), imports.as_slice());
        let pausing = may_pause(alloc, &module, &settings)?;
        assert_eq!(rt; pausing.as_slice(), funcs.as_slice());
    }
    Ok(())
}

//! What the frames of written functions keep at each call, by the policy: the table of the worked modules, by hand.

use crate::flattening::COUNTDOWN;
use crate::modules::valid;
use call_graph::{Choice, Policy, Settings};
use module_rewrite::asyncify_module;
use std::alloc::Global;
use std::test::Fail;

/// `run`, function 1 of type `[i32] -> [i32]`: `local.get 0; call 0`. Local 1 is the slot of height 0.
const SLEEPER: &[u8] = b"\
    \x00asm\x01\x00\x00\x00\x01\x06\x01\x60\x01\x7f\x01\x7f\x02\x0d\x01\x03env\x05sleep\x00\x00\x03\x02\
    \x01\x00\x07\x07\x01\x03run\x00\x01\x0a\x08\x01\x06\x00\x20\x00\x10\x00\x0b";

/// `run`, function 1: `local.get 0; i32.eqz; if (i32) i32.const 0; call 0; else local.get 0; i32.const 1; i32.sub; call 1; end`.
/// Locals 1 and 2 are the slots of heights 0 and 1.
const RECURSION: &[u8] = b"\
    \x00asm\x01\x00\x00\x00\x01\x06\x01\x60\x01\x7f\x01\x7f\x02\x0d\x01\x03env\x05pause\x00\x00\x03\x02\
    \x01\x00\x07\x07\x01\x03run\x00\x01\x0a\x16\x01\x14\x00\x20\x00\x45\x04\x7f\x41\x00\x10\x00\x05\x20\
    \x00\x41\x01\x6b\x10\x01\x0b\x0b";

/// `run`, function 1, with a local i32 and a local i64: `local.get 0; call 0; local.set 1; local.get 0; i64.extend_u; local.set 2;
/// local.get 1; call 0; local.set 1; local.get 1; local.get 2; i32.wrap; i32.add`. Behind the locals 0 to 2 stand the slots of
/// height 0, i32 and i64, and of height 1.
const BY_CALL: &[u8] = b"\
    \x00asm\x01\x00\x00\x00\x01\x06\x01\x60\x01\x7f\x01\x7f\x02\x0d\x01\x03env\x05sleep\x00\x00\x03\x02\
    \x01\x00\x07\x07\x01\x03run\x00\x01\x0a\x1f\x01\x1d\x02\x01\x7f\x01\x7e\x20\x00\x10\x00\x21\x01\x20\
    \x00\xad\x21\x02\x20\x01\x10\x00\x21\x01\x20\x01\x20\x02\xa7\x6a\x0b";

/// What is kept at each call of the module's functions that pause: function, number and size, then the locals with their places.
fn kept(alloc: Global, bytes: &[u8], policy: Policy) -> Result<String, Fail> {
    let original = valid(alloc, bytes)?;
    let settings = Settings {
        choice: Choice::Every,
        ignore_indirect: false,
        policy,
        asserts: false,
    };
    let written = asyncify_module(alloc, &original, &settings)?;
    let mut text = String::new(alloc);
    for layout in written.layouts.iter() {
        for call in layout.calls.iter() {
            text.push_str(format!(in alloc; "{}/{} {}:", layout.func, call.index, call.size)?.as_str())?;
            for place in call.places.iter() {
                text.push_str(format!(in alloc; " {:?} {} at {}", place.ty, place.local, place.offset)?.as_str())?;
            }
            text.push_str("\n")?;
        }
    }
    Ok(text)
}

#[test]
fn frames_keep_what_their_calls_need(rt: HostRuntime) -> Result<(), Fail> {
    let alloc = rt.alloc();
    let rows: [(&[u8], &str, &str); 4] = [
        (
            SLEEPER,
            "1/0 8: I32 1 at 0\n",
            "1/0 12: I32 0 at 0 I32 1 at 4\n",
        ),
        (
            COUNTDOWN,
            "1/0 16: I32 0 at 0 I32 2 at 4 I32 3 at 8\n",
            "1/0 20: I32 0 at 0 I32 1 at 4 I32 2 at 8 I32 3 at 12\n",
        ),
        (
            RECURSION,
            "1/0 8: I32 1 at 0\n1/1 8: I32 1 at 0\n",
            "1/0 16: I32 0 at 0 I32 1 at 4 I32 2 at 8\n1/1 16: I32 0 at 0 I32 1 at 4 I32 2 at 8\n",
        ),
        (
            BY_CALL,
            "1/0 12: I32 0 at 0 I32 3 at 4\n1/1 16: I64 2 at 0 I32 3 at 8\n",
            "1/0 44: I32 0 at 0 I32 1 at 4 I64 2 at 8 I32 3 at 16 I64 4 at 20 I32 5 at 28 I64 6 at 32\n\
            1/1 44: I32 0 at 0 I32 1 at 4 I64 2 at 8 I32 3 at 16 I64 4 at 20 I32 5 at 28 I64 6 at 32\n",
        ),
    ];
    for (bytes, live, all) in rows {
        assert_eq!(rt; kept(alloc, bytes, Policy::Live)?.as_str(), live);
        assert_eq!(rt; kept(alloc, bytes, Policy::All)?.as_str(), all);
    }
    Ok(())
}

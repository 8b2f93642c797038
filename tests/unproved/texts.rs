//! The texts of faults, and the lines of strands.

use local_spill::RuntimeFault;
use std::alloc::{AllocError, Global};
use std::test::Fail;
use transcript::{Names, StrandLineParts, strand_line};
use wa_model::{End, Event, Line};
use wa_types::LimitKind;
use wasm_encode::EncodeFault;
use wasm_reader::ReadFault;
use wasm_validate::ValidateFault;

#[test]
fn faults_of_reading_have_texts(rt: HostRuntime) -> Result<(), Fail> {
    let alloc = rt.alloc();
    let texts = format!(in alloc;
        "{}, {}, {}, {}, {}",
        ReadFault::Memory,
        ReadFault::Malformed { at: 7 },
        ReadFault::Float { at: 24 },
        ReadFault::Deep { at: 2025 },
        ReadFault::Limit {
            what: LimitKind::File,
            found: 8_388_609
        }
    )?;
    assert_eq!(rt;
        texts.as_str(),
        "out of memory, malformed at 7, float at 24, limit nesting at 2025, limit File passed with 8388609"
    );
    Ok(())
}

#[test]
fn faults_of_modules_have_texts(rt: HostRuntime) -> Result<(), Fail> {
    let alloc = rt.alloc();
    let texts = format!(in alloc;
        "{}, {}, {}, {}",
        ValidateFault::Memory,
        ValidateFault::Invalid {
            func: None,
            rule: 16,
            at: 0
        },
        EncodeFault::TooLong { len: 67_108_865 },
        RuntimeFault::Memory
    )?;
    assert_eq!(rt;
        texts.as_str(),
        "out of memory, invalid rule 16, the module has 67108865 bytes, out of memory"
    );
    Ok(())
}

// The line of a strand's end; the first strand's has the program's number alone.
fn end_line(alloc: Global, strand: u32) -> Result<Vec<u8>, AllocError> {
    let names = Names {
        imports: Vec::new(alloc),
        entries: Vec::new(alloc),
        len: 64,
    };
    let line = Line {
        tick: 5,
        program: 3,
        event: Event::Ended(End::Done),
    };
    strand_line(alloc, &StrandLineParts { line, strand }, &names)
}

#[test]
fn strands_are_printed_behind_a_dot(rt: HostRuntime) -> Result<(), Fail> {
    let alloc = rt.alloc();
    assert_eq!(rt; end_line(alloc, 0)?.as_slice(), "5 3 end done\n".as_bytes());
    assert_eq!(rt; end_line(alloc, 12)?.as_slice(), "5 3.12 end done\n".as_bytes());
    Ok(())
}

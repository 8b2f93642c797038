//! The parts that are appended to a module, and the numbers that they get.

use crate::modules::{EACH_SECTION, module};
use crate::showing::shown;
use local_spill::{ReservedAt, RuntimeFault, add_runtime, reserved};
use std::alloc::{AllocError, Global};
use std::test::Fail;
use wa_types::{Export, Module, Name, Space};

/// The same module with an export of its function 0 under this name.
fn exporting(alloc: Global, mut module: Module, name: &str) -> Result<Module, AllocError> {
    module.exports.push(Export {
        name: Name::new(alloc, name)?,
        space: Space::Func,
        index: 0,
    })?;
    Ok(module)
}

#[test]
fn parts_stand_behind_those_of_the_module(rt: HostRuntime) -> Result<(), Fail> {
    let alloc = rt.alloc();
    // one imported global and one of its own; one imported function and two of its own; two memories
    let own = module(alloc, EACH_SECTION)?;
    let with = add_runtime(alloc, own)?;
    assert_eq!(rt;
        (with.ids.state, with.ids.address, with.ids.first),
        (2, 3, 3)
    );
    assert_eq!(rt; with.module.memories.len(), 1);
    assert_eq!(rt; with.module.types.len(), 5);
    assert_eq!(rt; with.module.funcs.len(), 7);
    assert_eq!(rt; with.module.globals.len(), 3);
    let mut names = String::new(alloc);
    for export in with.module.exports.iter().skip(4) {
        names.push_str(format!(in alloc;
            "{}={:?}{} ",
            export.name.as_str(),
            export.space,
            export.index
        )?
        .as_str())?;
    }
    assert_eq!(rt;
        names.as_str(),
        "asyncify_start_unwind=Func3 asyncify_stop_unwind=Func4 asyncify_start_rewind=Func5 \
         asyncify_stop_rewind=Func6 asyncify_get_state=Func7 "
    );
    let body = shown(alloc, &with.module.funcs[2].body)?;
    assert_eq!(rt;
        body.as_str(),
        "[Const(I32(1)), GlobalSet(2), LocalGet(0), GlobalSet(3), GlobalGet(3), \
         Load { op: 40, align: 2, offset: 0 }, GlobalGet(3), Load { op: 40, align: 2, offset: 4 }, \
         Num(I32GtU), If { result: None, then_arm: [Unreachable], else_arm: [] }]"
    );
    Ok(())
}

#[test]
fn the_first_reserved_name_is_told(rt: HostRuntime) -> Result<(), Fail> {
    let alloc = rt.alloc();
    let plain = module(alloc, EACH_SECTION)?;
    assert!(rt; reserved(&plain).is_none());
    let other = exporting(alloc, plain, "asyncify_get_states")?;
    let named = exporting(alloc, other, "asyncify_stop_rewind")?;
    let twice = exporting(alloc, named, "asyncify_get_state")?;
    assert!(rt; matches!(reserved(&twice), Some(ReservedAt::Export(5))));
    assert!(rt;
        matches!(
            add_runtime(alloc, twice),
            Err(RuntimeFault::Reserved(ReservedAt::Export(5)))
        )
    );
    Ok(())
}

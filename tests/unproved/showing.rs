//! Modules, instructions and flat functions as texts, in the form of a derived `Debug`: tests alone print these types, so
//! none is derived for them.

use slim_rewrite::GuardedFunc;
use std::alloc::{AllocError, Global};
use std::fmt::Write;
use wa_model::{FlatFunc, Operand, Stmt};
use wa_types::{
    Custom, Elem, Export, Func, FuncType, GlobalDef, Import, ImportKind, Instr, Limits, Module,
    NumOp, Run, Segment, ValType,
};

/// What is shown in the form of a derived `Debug`.
pub trait Show {
    /// Writes the text behind what is there.
    fn show(&self, out: &mut String) -> Result<(), AllocError>;
}

/// The text of a value.
pub fn shown<T: Show>(alloc: Global, value: &T) -> Result<String, AllocError> {
    let mut out = String::new(alloc);
    value.show(&mut out)?;
    Ok(out)
}

impl<T: Show> Show for Vec<T> {
    fn show(&self, out: &mut String) -> Result<(), AllocError> {
        out.push_str("[")?;
        for (index, item) in self.iter().enumerate() {
            if index > 0 {
                out.push_str(", ")?;
            }
            item.show(out)?;
        }
        out.push_str("]")
    }
}

impl Show for Instr {
    fn show(&self, out: &mut String) -> Result<(), AllocError> {
        match self {
            Instr::Block { result, body } => show_construct(out, "Block", *result, body),
            Instr::Loop { result, body } => show_construct(out, "Loop", *result, body),
            Instr::If {
                result,
                then_arm,
                else_arm,
            } => {
                write!(out, "If {{ result: {result:?}, then_arm: ")?;
                then_arm.show(out)?;
                out.push_str(", else_arm: ")?;
                else_arm.show(out)?;
                out.push_str(" }")
            }
            leaf => show_leaf(out, leaf),
        }
    }
}

fn show_construct(
    out: &mut String,
    name: &str,
    ty: Option<ValType>,
    body: &Vec<Instr>,
) -> Result<(), AllocError> {
    write!(out, "{name} {{ result: {ty:?}, body: ")?;
    body.show(out)?;
    out.push_str(" }")
}

/// An instruction that holds no other.
fn show_leaf(out: &mut String, leaf: &Instr) -> Result<(), AllocError> {
    match leaf {
        Instr::Unreachable => out.push_str("Unreachable"),
        Instr::Nop => out.push_str("Nop"),
        Instr::Drop => out.push_str("Drop"),
        Instr::Select => out.push_str("Select"),
        Instr::Return => out.push_str("Return"),
        Instr::MemorySize => out.push_str("MemorySize"),
        Instr::MemoryGrow => out.push_str("MemoryGrow"),
        Instr::MemoryCopy => out.push_str("MemoryCopy"),
        Instr::MemoryFill => out.push_str("MemoryFill"),
        Instr::Const(value) => write!(out, "Const({value:?})"),
        Instr::Num(op) => write!(out, "Num({})", name_of(*op)),
        Instr::Br(label) => write!(out, "Br({label})"),
        Instr::BrIf(label) => write!(out, "BrIf({label})"),
        Instr::BrTable { labels, last } => {
            write!(out, "BrTable {{ labels: {labels:?}, last: {last} }}")
        }
        Instr::Call(func) => write!(out, "Call({func})"),
        Instr::CallIndirect(sort) => write!(out, "CallIndirect({sort})"),
        Instr::LocalGet(x) => write!(out, "LocalGet({x})"),
        Instr::LocalSet(x) => write!(out, "LocalSet({x})"),
        Instr::LocalTee(x) => write!(out, "LocalTee({x})"),
        Instr::GlobalGet(x) => write!(out, "GlobalGet({x})"),
        Instr::GlobalSet(x) => write!(out, "GlobalSet({x})"),
        Instr::Load { op, align, offset } => {
            write!(out, "Load {{ op: {op}, align: {align}, offset: {offset} }}")
        }
        Instr::Store { op, align, offset } => {
            write!(out, "Store {{ op: {op}, align: {align}, offset: {offset} }}")
        }
        Instr::Block { .. } | Instr::Loop { .. } | Instr::If { .. } => Ok(()),
    }
}

/// The tests and comparisons, from opcode 0x45 on.
const COMPARISONS: [&str; 22] = [
    "I32Eqz", "I32Eq", "I32Ne", "I32LtS", "I32LtU", "I32GtS", "I32GtU", "I32LeS", "I32LeU", "I32GeS", "I32GeU",
    "I64Eqz", "I64Eq", "I64Ne", "I64LtS", "I64LtU", "I64GtS", "I64GtU", "I64LeS", "I64LeU", "I64GeS", "I64GeU",
];

/// The arithmetic, from opcode 0x67 on.
const ARITHMETIC: [&str; 36] = [
    "I32Clz", "I32Ctz", "I32Popcnt", "I32Add", "I32Sub", "I32Mul", "I32DivS", "I32DivU", "I32RemS",
    "I32RemU", "I32And", "I32Or", "I32Xor", "I32Shl", "I32ShrS", "I32ShrU", "I32Rotl", "I32Rotr",
    "I64Clz", "I64Ctz", "I64Popcnt", "I64Add", "I64Sub", "I64Mul", "I64DivS", "I64DivU", "I64RemS",
    "I64RemU", "I64And", "I64Or", "I64Xor", "I64Shl", "I64ShrS", "I64ShrU", "I64Rotl", "I64Rotr",
];

/// An operator's name.
pub fn name_of(op: NumOp) -> &'static str {
    let code = op.opcode() as usize;
    match code {
        0x45..=0x5A => COMPARISONS[code - 0x45],
        0x67..=0x8A => ARITHMETIC[code - 0x67],
        0xA7 => "I32WrapI64",
        0xAC => "I64ExtendI32S",
        0xAD => "I64ExtendI32U",
        0xC0 => "I32Extend8S",
        0xC1 => "I32Extend16S",
        0xC2 => "I64Extend8S",
        0xC3 => "I64Extend16S",
        _ => "I64Extend32S",
    }
}

impl Show for Operand {
    fn show(&self, out: &mut String) -> Result<(), AllocError> {
        match self {
            Operand::Local(x) => write!(out, "Local({x})"),
            Operand::Const(value) => write!(out, "Const({value:?})"),
        }
    }
}

impl Show for Stmt {
    fn show(&self, out: &mut String) -> Result<(), AllocError> {
        match self {
            Stmt::Plain { op, args, to } => {
                out.push_str("Plain { op: ")?;
                op.show(out)?;
                out.push_str(", args: ")?;
                args.show(out)?;
                write!(out, ", to: {to:?} }}")
            }
            Stmt::Move { to, from } => {
                write!(out, "Move {{ to: {to}, from: ")?;
                from.show(out)?;
                out.push_str(" }")
            }
            Stmt::Call {
                op,
                stack,
                args,
                to,
            } => {
                out.push_str("Call { op: ")?;
                op.show(out)?;
                write!(out, ", stack: {stack:?}, args: {args}, to: {to:?} }}")
            }
            Stmt::Unreachable => out.push_str("Unreachable"),
            other => show_control(out, other),
        }
    }
}

/// A branch or a construct.
fn show_control(out: &mut String, stmt: &Stmt) -> Result<(), AllocError> {
    match stmt {
        Stmt::Br(label) => write!(out, "Br({label})"),
        Stmt::BrIf { cond, label } => {
            out.push_str("BrIf { cond: ")?;
            cond.show(out)?;
            write!(out, ", label: {label} }}")
        }
        Stmt::BrTable {
            index,
            labels,
            last,
        } => {
            out.push_str("BrTable { index: ")?;
            index.show(out)?;
            write!(out, ", labels: {labels:?}, last: {last} }}")
        }
        Stmt::Block(body) => show_body(out, "Block", body),
        Stmt::Loop(body) => show_body(out, "Loop", body),
        Stmt::If {
            cond,
            then_arm,
            else_arm,
        } => {
            out.push_str("If { cond: ")?;
            cond.show(out)?;
            out.push_str(", then_arm: ")?;
            then_arm.show(out)?;
            out.push_str(", else_arm: ")?;
            else_arm.show(out)?;
            out.push_str(" }")
        }
        Stmt::Plain { .. } | Stmt::Move { .. } | Stmt::Call { .. } | Stmt::Unreachable => Ok(()),
    }
}

fn show_body(out: &mut String, name: &str, body: &Vec<Stmt>) -> Result<(), AllocError> {
    write!(out, "{name}(")?;
    body.show(out)?;
    out.push_str(")")
}

impl Show for FlatFunc {
    fn show(&self, out: &mut String) -> Result<(), AllocError> {
        let (func, sort, locals, result) = (self.func, self.sort, &self.locals, self.result);
        write!(out,
            "FlatFunc {{ func: {func}, sort: {sort}, locals: {locals:?}, result: {result:?}, body: "
        )?;
        self.body.show(out)?;
        out.push_str(" }")
    }
}

impl Show for GuardedFunc {
    fn show(&self, out: &mut String) -> Result<(), AllocError> {
        let (func, sort, locals, result) = (self.func, self.sort, &self.locals, self.result);
        write!(out,
            "GuardedFunc {{ func: {func}, sort: {sort}, locals: {locals:?}, result: {result:?}, body: "
        )?;
        self.body.show(out)?;
        out.push_str(" }")
    }
}

impl Show for Module {
    fn show(&self, out: &mut String) -> Result<(), AllocError> {
        out.push_str("Module { types: ")?;
        self.types.show(out)?;
        out.push_str(", imports: ")?;
        self.imports.show(out)?;
        out.push_str(", funcs: ")?;
        self.funcs.show(out)?;
        out.push_str(", tables: ")?;
        self.tables.show(out)?;
        out.push_str(", memories: ")?;
        self.memories.show(out)?;
        out.push_str(", globals: ")?;
        self.globals.show(out)?;
        out.push_str(", exports: ")?;
        self.exports.show(out)?;
        write!(out, ", start: {:?}, elems: ", self.start)?;
        self.elems.show(out)?;
        out.push_str(", segments: ")?;
        self.segments.show(out)?;
        out.push_str(", customs: ")?;
        self.customs.show(out)?;
        out.push_str(" }")
    }
}

impl Show for FuncType {
    fn show(&self, out: &mut String) -> Result<(), AllocError> {
        let (params, results) = (&self.params, &self.results);
        write!(out, "FuncType {{ params: {params:?}, results: {results:?} }}")
    }
}

impl Show for Import {
    fn show(&self, out: &mut String) -> Result<(), AllocError> {
        let (module, base) = (&self.module, &self.base);
        write!(out, "Import {{ module: {module:?}, base: {base:?}, kind: ")?;
        self.kind.show(out)?;
        out.push_str(" }")
    }
}

impl Show for ImportKind {
    fn show(&self, out: &mut String) -> Result<(), AllocError> {
        match self {
            ImportKind::Func(sort) => write!(out, "Func({sort})"),
            ImportKind::Table(limits) => show_limited(out, "Table", limits),
            ImportKind::Memory(limits) => show_limited(out, "Memory", limits),
            ImportKind::Global(ty, mutable) => write!(out, "Global({ty:?}, {mutable})"),
        }
    }
}

fn show_limited(out: &mut String, name: &str, limits: &Limits) -> Result<(), AllocError> {
    write!(out, "{name}(")?;
    limits.show(out)?;
    out.push_str(")")
}

impl Show for Func {
    fn show(&self, out: &mut String) -> Result<(), AllocError> {
        write!(out, "Func {{ sort: {}, locals: ", self.sort)?;
        self.locals.show(out)?;
        out.push_str(", body: ")?;
        self.body.show(out)?;
        out.push_str(" }")
    }
}

impl Show for Run {
    fn show(&self, out: &mut String) -> Result<(), AllocError> {
        write!(out, "Run {{ count: {}, ty: {:?} }}", self.count, self.ty)
    }
}

impl Show for Limits {
    fn show(&self, out: &mut String) -> Result<(), AllocError> {
        write!(out, "Limits {{ min: {}, max: {:?} }}", self.min, self.max)
    }
}

impl Show for GlobalDef {
    fn show(&self, out: &mut String) -> Result<(), AllocError> {
        let (ty, mutable) = (self.ty, self.mutable);
        write!(out, "GlobalDef {{ ty: {ty:?}, mutable: {mutable}, init: ")?;
        self.init.show(out)?;
        out.push_str(" }")
    }
}

impl Show for Export {
    fn show(&self, out: &mut String) -> Result<(), AllocError> {
        let (name, space, index) = (&self.name, self.space, self.index);
        write!(out, "Export {{ name: {name:?}, space: {space:?}, index: {index} }}")
    }
}

impl Show for Elem {
    fn show(&self, out: &mut String) -> Result<(), AllocError> {
        write!(out, "Elem {{ table: {}, offset: ", self.table)?;
        self.offset.show(out)?;
        write!(out, ", funcs: {:?} }}", self.funcs)
    }
}

impl Show for Segment {
    fn show(&self, out: &mut String) -> Result<(), AllocError> {
        write!(out, "Segment {{ memory: {}, offset: ", self.memory)?;
        self.offset.show(out)?;
        write!(out, ", bytes: {:?} }}", self.bytes)
    }
}

impl Show for Custom {
    fn show(&self, out: &mut String) -> Result<(), AllocError> {
        let (after, name, bytes) = (self.after, &self.name, &self.bytes);
        write!(out, "Custom {{ after: {after}, name: {name:?}, bytes: {bytes:?} }}")
    }
}

"""The program whose instructions `bench/counts` counts: loops of the machine, and segments made and freed, over the crates alone.

They are run by a crew, as jobs are: how many tasks it has, their schedule, how many steps are made at most and whether events are kept is known to
no compiler. So LLVM makes of the quick loop what it makes of it in the program itself, to the register.
"""

CRATES = "ms_tasks ms_machine ms_outside ms_task ms_operate ms_linear ms_module ms_segment ms_tagged ms_live ms_event ms_handle ms_types".split()
# Those of the quick loop, and who calls it: they are taken without their contracts.
STRIPPED = ("ms_linear", "ms_operate", "ms_task", "ms_machine", "ms_tasks")

NAME = "counted"
# What is run, by its number, and how many turns it makes.
WHICH, TURNS = "COUNTED_WHICH", "COUNTED_TURNS"

C_SOURCE = f"""#include <stdlib.h>
static unsigned number(const char *name) {{ const char *text = getenv(name); return text ? atoi(text) : 0; }}
unsigned counted_begin(void) {{ return 1; }}
unsigned counted_which(void) {{ return number("{WHICH}"); }}
unsigned counted_turns(void) {{ return number("{TURNS}"); }}
"""

# Instructions by the names that loops have below: `n` is the number of turns.
WORDS = {
    "get": "LocalGet({})",
    "set": "LocalSet({})",
    "tee": "LocalTee({})",
    "const": "I32Const({})",
    "turns": "I32Const(turns as i32)",
    "add": "Numeric(Numeric::Binary(Width::W32, BinOp::Add))",
    "extend": "Numeric(Numeric::ExtendS)",
    "less": "Numeric(Numeric::Compare(Width::W32, RelOp::LtS))",
    "br_if": "BrIf({})",
    "call": "Call({})",
    "drop": "Drop",
    "load": "Linear(Linear::Load(LoadOp::I32Load, MemArg {{ align: 2, offset: 0 }}))",
    "store": "Linear(Linear::Store(StoreOp::I32Store, MemArg {{ align: 2, offset: 0 }}))",
    "new": "Segment(Segment::New(Kind::Frame))",
    "move": "Segment(Segment::Add({}))",
    "slice": "Segment(Segment::Slice)",
    "segload": "Segment(Segment::Load(LoadOp::I32Load))",
    "segstore": "Segment(Segment::Store(StoreOp::I32Store))",
    "segstore8": "Segment(Segment::Store(StoreOp::I32Store8))",
}

# Local 0 counts the turns, local 1 has a handle, local 2 is spare. Function 1 adds one to its argument; function 2 does so, too, and
# declares an i32, an i64 and two handles, as each function of C does.
COUNT = "get 0, const 1, add, tee 0, turns, less, br_if 0"
LOOPS = {
    "counting": ("", COUNT),
    "a call": ("", f"get 0, call 1, drop, {COUNT}"),
    "a call, four locals": ("", f"get 0, call 2, drop, {COUNT}"),
    "a load and a store": ("", f"const 16, const 16, load, const 1, add, store, {COUNT}"),
    "through a handle": ("const 32, new, set 1", f"get 1, get 1, segload, const 1, add, segstore, {COUNT}"),
    "a sieve's loop": ("const 1048000, new, set 1", f"get 1, get 0, extend, move 1, const 1, segstore8, {COUNT}"),
    "a slice": ("const 32, new, set 1", f"get 1, const 4, const 8, slice, drop, {COUNT}"),
}
# A segment of 16 bytes made and freed while up to a thousand are live, the latest first: a turn is a thousand of each.
PAIRS = len(LOOPS)
DEEP = 1000


def instructions(text, codes):
    """A list of instructions by their numbers, which stand for what `codes` keeps."""
    words = [it.split() for it in text.split(",") if it.strip()]
    made = [WORDS[name].format(*given) for name, *given in words]
    return f"&[{', '.join(str(codes.setdefault(it, len(codes))) for it in made)}]"


def source():
    codes = {}
    loops = [(instructions(before, codes), instructions(body, codes)) for before, body in LOOPS.values()]
    add_one = instructions("get 0, const 1, add", codes)
    arms = "\n".join(f"        {n} => Instr::{it}," for it, n in codes.items())
    chosen = "\n".join(f"        {n} => looped(alloc, {before}, {body}, turns)," for n, (before, body) in enumerate(loops))
    text = TEMPLATE
    for mark, value in {"ARMS": arms, "CHOSEN": chosen, "ADD_ONE": add_one, "PAIRS": str(PAIRS), "DEEP": str(DEEP)}.items():
        text = text.replace(f"@{mark}@", value)
    return text


TEMPLATE = """//! Loops of the machine, to be counted.
#![tactic(auto)]

use ms_handle::Kind;
use ms_linear::Linear as Memory;
use ms_live::{Gaps, Live, TreeGaps};
use ms_machine::{Instance, Store};
use ms_outside::{MemSink, MemSource};
use ms_module::{
    BinOp, Builder, Code, Export, ExportDesc, Instr, Linear, LoadOp, Locals, MemArg, Name, Numeric, Opening, RelOp, Segment,
    StoreOp, Width,
};
use ms_segment::Segments;
use ms_tagged::Granules;
use ms_task::{FuncInst, SharedLocals};
use ms_tasks::{Crew, Entries, Log, Ran, Schedule};
use ms_types::{FuncType, Limits, SharedType, ValType, Vector};
use std::alloc::{AllocError, Global};
use std::process::ExitCode;

unsafe extern "C" {
    safe fn counted_begin() -> u32
        ensures { ⊥ };
    safe fn counted_which() -> u32;
    safe fn counted_turns() -> u32;
}

fn word(code: u32, turns: u32) -> Instr
    requires { ⊥ }
{
    match code {
@ARMS@
        _ => Instr::Nop,
    }
}

fn fill(body: &mut Builder, codes: &[u32], turns: u32) -> Result<(), AllocError>
    requires { ⊥ }
{
    for code in codes {
        body.add(word(*code, turns))?;
    }
    Ok(())
}

fn looped(alloc: Global, before: &[u32], codes: &[u32], turns: u32) -> Result<Code, AllocError>
    requires { ⊥ }
{
    let mut body = Builder::new(alloc)?;
    fill(&mut body, before, turns)?;
    body.open(Opening::Loop, None)?;
    fill(&mut body, codes, turns)?;
    body.close()?;
    Ok(body.finish())
}

fn chosen(alloc: Global, which: u32, turns: u32) -> Result<Code, AllocError>
    requires { ⊥ }
{
    match which {
@CHOSEN@
        _ => straight(alloc),
    }
}

fn straight(alloc: Global) -> Result<Code, AllocError>
    requires { ⊥ }
{
    let mut body = Builder::new(alloc)?;
    fill(&mut body, @ADD_ONE@, 0)?;
    Ok(body.finish())
}

fn func(alloc: Global, ty: SharedType, locals: Locals, body: Code) -> Result<FuncInst, AllocError>
    requires { ⊥ }
{
    Ok(FuncInst {
        instance: 0,
        ty,
        host: None,
        locals: SharedLocals::new(alloc, locals)?,
        body,
    })
}

fn type_of(alloc: Global, arguments: u32) -> Result<SharedType, AllocError>
    requires { ⊥ }
{
    let mut params = Vec::new(alloc);
    let mut results = Vec::new(alloc);
    for _ in 0..arguments {
        params.push(ValType::I32)?;
        results.push(ValType::I32)?;
    }
    let ty = FuncType {
        params: Vector::from_vec(params),
        results: Vector::from_vec(results),
    };
    SharedType::new(alloc, ty)
}

fn locals_of(alloc: Global, function: u32) -> Result<Locals, AllocError>
    requires { ⊥ }
{
    let mut locals = Locals::new(alloc);
    if function == 0 {
        locals.push(1, ValType::I32)?;
        locals.push(1, ValType::Handle)?;
        locals.push(1, ValType::I32)?;
    }
    if function == 2 {
        locals.push(1, ValType::I32)?;
        locals.push(1, ValType::I64)?;
        locals.push(2, ValType::Handle)?;
    }
    Ok(locals)
}

fn add_func(
    alloc: Global,
    funcs: &mut Vec<FuncInst>,
    function: u32,
    body: Code,
) -> Result<(), AllocError>
    requires { ⊥ }
{
    let ty = type_of(alloc, function.min(1))?;
    let locals = locals_of(alloc, function)?;
    let made = func(alloc, ty, locals, body)?;
    match funcs.push(made) {
        Ok(()) => Ok(()),
        Err(_) => Err(AllocError),
    }
}

fn funcs_of(alloc: Global, which: u32, turns: u32) -> Result<Vec<FuncInst>, AllocError>
    requires { ⊥ }
{
    let mut funcs = Vec::new(alloc);
    add_func(alloc, &mut funcs, 0, chosen(alloc, which, turns)?)?;
    add_func(alloc, &mut funcs, 1, straight(alloc)?)?;
    add_func(alloc, &mut funcs, 2, straight(alloc)?)?;
    Ok(funcs)
}

fn exports_of(alloc: Global) -> Result<Vector<Export>, AllocError>
    requires { ⊥ }
{
    let mut exports = Vec::new(alloc);
    let export = Export {
        name: Name::new(alloc, "main")?,
        desc: ExportDesc::Func(0),
    };
    match exports.push(export) {
        Ok(()) => Ok(Vector::from_vec(exports)),
        Err(_) => Err(AllocError),
    }
}

fn instance_of(alloc: Global) -> Result<Instance, AllocError>
    requires { ⊥ }
{
    let mut funcs = Vec::new(alloc);
    for address in 0..3 {
        funcs.push(address)?;
    }
    Ok(Instance {
        types: Vector::new(alloc),
        funcs: Vector::from_vec(funcs),
        table: None,
        memory: Some(0),
        globals: Vector::new(alloc),
        exports: exports_of(alloc)?,
        start: None,
    })
}

fn instances_of(alloc: Global) -> Result<Vec<Instance>, AllocError>
    requires { ⊥ }
{
    let mut instances = Vec::new(alloc);
    match instances.push(instance_of(alloc)?) {
        Ok(()) => Ok(instances),
        Err(_) => Err(AllocError),
    }
}

fn memories_of(alloc: Global) -> Result<Vec<Memory>, AllocError>
    requires { ⊥ }
{
    let mut memories = Vec::new(alloc);
    match memories.push(Memory::new(alloc, Limits { min: 1, max: None })?) {
        Ok(()) => Ok(memories),
        Err(_) => Err(AllocError),
    }
}

type SegmentMemory = Segments<TreeGaps, Granules>;

fn store_of(alloc: Global, which: u32, turns: u32) -> Result<Store<SegmentMemory>, AllocError>
    requires { ⊥ }
{
    let funcs = funcs_of(alloc, which, turns)?;
    let instances = instances_of(alloc)?;
    let memories = memories_of(alloc)?;
    let segments = SegmentMemory::new(alloc, 1_048_576)?;
    Ok(Store::of(
        funcs,
        instances,
        Vec::new(alloc),
        memories,
        Vec::new(alloc),
        segments,
    ))
}

/// A task, and more of them for numbers that are never given.
fn tasks_of(alloc: Global, which: u32) -> Result<Vec<(u32, Name)>, AllocError>
    requires { ⊥ }
{
    let mut tasks = Vec::new(alloc);
    for _ in 0..1 + which / 100 {
        match tasks.push((0, Name::new(alloc, "main")?)) {
            Ok(()) => {}
            Err(_) => return Err(AllocError),
        }
    }
    Ok(tasks)
}

/// Turns of 1, and a list for numbers that are never given.
fn schedule_of(alloc: Global, which: u32) -> Schedule
    requires { ⊥ }
{
    if which > 1000 {
        return Schedule {
            entries: Entries::Listed(Vec::new(alloc)),
            only: None,
        };
    }
    Schedule {
        entries: Entries::Turns(1),
        only: None,
    }
}

/// Goes through a loop. It gives 0 where the loop came to its end.
fn execute(alloc: Global, which: u32, turns: u32) -> Result<u8, AllocError>
    requires { ⊥ }
{
    let store = store_of(alloc, which, turns)?;
    let tasks = tasks_of(alloc, which)?;
    let Ok(mut crew) = Crew::new(alloc, store, tasks) else {
        return Err(AllocError);
    };
    let schedule = schedule_of(alloc, which);
    let mut input = MemSource::new(alloc, Vec::new(alloc));
    let mut out = MemSink::new(alloc, 16)?;
    let mut log = Log::new(alloc, which > @PAIRS@);
    let most = 1_000_000 * (u64::from(turns) + 1);
    match crew.run(&schedule, most, &mut input, &mut out, &mut log) {
        Ran::Results => Ok(0),
        _ => Ok(1),
    }
}

#[inline(never)]
fn make_and_free(gaps: &mut TreeGaps, turns: u32)
    requires { ⊥ }
{
    let mut id = 0;
    for _ in 0..turns {
        for _ in 0..@DEEP@ {
            id += 1;
            let base = gaps.place(16).unwrap_or(0);
            gaps.enter(Live {
                id,
                base,
                size: 16,
                kind: Kind::Heap,
            });
        }
        for i in 0..@DEEP@ {
            gaps.leave(id - i);
        }
    }
}

fn count(alloc: Global, which: u32, turns: u32) -> Result<u8, AllocError>
    requires { ⊥ }
{
    if which != @PAIRS@ {
        return execute(alloc, which, turns);
    }
    let mut gaps = TreeGaps::new(alloc, 1_048_576)?;
    make_and_free(&mut gaps, turns);
    Ok(0)
}

fn main(rt: HostRuntime) -> ExitCode {
    let _ = counted_begin();
    ExitCode::from(count(rt.alloc(), counted_which(), counted_turns()).unwrap_or(7))
}
"""

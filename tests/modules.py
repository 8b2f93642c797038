"""Modules for the rows, and what `transform` writes for small ones: an encoder apart from the program's own."""

import os
import sys

sys.path.insert(0, os.path.join(os.path.dirname(os.path.abspath(__file__)), "..", "bench"))
from wasm_bytes import module, section, signed, sized, unsigned  # noqa: E402

I32 = b"\x7f"

# The test that the location word isn't past the end word, where the state is global 0 and the address global 1.
TEST = "23 {address} 28 02 00 23 {address} 28 02 04 4b 04 40 00 0b"

# The bodies of the five functions of the runtime.
BODIES = [
    "41 01 24 {state} 20 00 24 {address} " + TEST,
    "41 00 24 {state} " + TEST,
    "41 02 24 {state} 20 00 24 {address} " + TEST,
    "41 00 24 {state} " + TEST,
    "23 {state}",
]

# Their names, with the type of each behind those of the source.
NAMES = [("start_unwind", 0), ("stop_unwind", 1), ("start_rewind", 0), ("stop_rewind", 1), ("get_state", 2)]


def of_type(params, results):
    """The bytes of a function type."""
    return b"\x60" + sized(params) + sized(results)


def body(code, locals=()):
    """A body without its end, with runs of locals (count, type)."""
    runs = unsigned(len(locals)) + b"".join(unsigned(count) + ty for count, ty in locals)
    return sized(runs + code + b"\x0b")


def exported(name, space, index):
    """An export."""
    return sized(name.encode()) + bytes([space]) + unsigned(index)


# The parts of a module, in the order of their sections 1 to 11. Of the start, the function's index.
PARTS = ["types", "imports", "sorts", "tables", "memories", "globals", "exports", "start", "elements", "bodies", "data"]


def whole(customs=(), **parts):
    """A module of these parts. A custom section stands, as (id, bytes), behind the section of this id."""
    sections = [custom for at, custom in customs if at == 0]
    for id, name in enumerate(PARTS, 1):
        if name == "start" and name in parts:
            sections.append(bytes([8]) + sized(unsigned(parts[name])))
        elif parts.get(name):
            sections.append(section(id, parts[name]))
        sections += [custom for at, custom in customs if at == id]
    return module(*sections)


def rewritten(customs=(), functions=0, globals_before=0, memory=False, **parts):
    """The same with the runtime's parts behind its own: so many functions and globals are imported, and maybe a memory."""
    sorts, state = parts.get("sorts", []), globals_before + len(parts.get("globals", []))
    types = [*parts.get("types", []), of_type(I32, b""), of_type(b"", b""), of_type(b"", I32)]
    own = functions + len(sorts)
    at = {"state": unsigned(state).hex(), "address": unsigned(state + 1).hex()}
    exports = [exported(f"asyncify_{name}", 0, own + place) for place, (name, _) in enumerate(NAMES)]
    parts |= {
        "types": types,
        "sorts": [*sorts, *(unsigned(len(types) - 3 + sort) for _, sort in NAMES)],
        "memories": parts.get("memories") or ([] if memory else [b"\x01\x01\x01"]),
        "globals": [*parts.get("globals", []), *[b"\x7f\x01\x41\x00\x0b"] * 2],
        "exports": [*parts.get("exports", []), *exports],
        "bodies": [*parts.get("bodies", []), *(body(bytes.fromhex(it.format(**at))) for it in BODIES)],
    }
    return whole(customs, **parts)


def small(types, sorts, exports, bodies):
    """A module of functions alone."""
    return whole(types=types, sorts=[unsigned(sort) for sort in sorts], exports=exports, bodies=bodies)


def written(types, sorts, exports, bodies):
    """The same with the runtime's parts behind its own."""
    return rewritten(types=types, sorts=[unsigned(sort) for sort in sorts], exports=exports, bodies=bodies)


def put(name, content):
    """Writes a file, whose folder is made where it isn't there."""
    os.makedirs(os.path.dirname(name) or ".", exist_ok=True)
    with open(name, "wb") as file:
        file.write(content)

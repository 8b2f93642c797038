#!/usr/bin/env bash
# How large written modules are and what a run of them costs, beside `wasm-opt --asyncify` (Debian's binaryen), plain and with -O2 before and
# behind: of the modules of tests/ and examples/ in which something may pause, and of programs/*.c by clang and lld (with libstb-dev and
# libxxhash-dev), of which picture.c has some 90 KB. Costs are the steps that `asyncify host` takes for a run in which nothing pauses. Fails
# where one of ours isn't smaller than plain, or where ours have more bytes than with -O2 in the mean, or with asserts more than 1.02 of without
# in the mean, nothing ignored or calls through a table. The module made for the limit on locals
# stands apart, since the policy `all` saves each of its 49,996 locals, which nothing reads.
. "$(dirname "$0")/common.sh"
build_asyncify
has_peer wasm-opt && has_peer clang && has_peer wasm-ld || exit 1

# The programs of programs/, compiled, with what a freestanding compiler lacks of headers.
compile_programs() {
    local header program
    python3 - >"$temp/headers/bytes.h" <<'PY'
import struct, zlib
side = 48
rows = b"".join(b"\0" + bytes(it & 255 for x in range(side) for it in (x * y + x * 7, (x ^ y) * 5, x + y * 3)) for y in range(side))
def chunk(kind, data):
    return struct.pack(">I", len(data)) + kind + data + struct.pack(">I", zlib.crc32(kind + data))
head = chunk(b"IHDR", struct.pack(">IIBBBBB", side, side, 8, 2, 0, 0, 0))
png = b"\x89PNG\r\n\x1a\n" + head + chunk(b"IDAT", zlib.compress(rows, 9)) + chunk(b"IEND", b"")
print("static const unsigned char picture[] = {%s};" % ",".join(map(str, png)))
PY
    for header in stdlib string math assert stdio; do : >"$temp/headers/$header.h"; done
    cat >"$temp/headers/stdint.h" <<'C'
typedef signed char int8_t; typedef unsigned char uint8_t; typedef short int16_t; typedef unsigned short uint16_t; typedef int int32_t;
typedef unsigned uint32_t; typedef long long int64_t; typedef unsigned long long uint64_t; typedef unsigned long uintptr_t; typedef long intptr_t;
C
    cp /usr/include/xxhash.h "$temp/headers"
    for program in "$bench"/programs/*.c; do
        clang --target=wasm32 -mcpu=mvp -O2 -nostdlib -ffreestanding -Wl,--no-entry -w -I"$temp/headers" -I/usr/include/stb \
            "$program" -o "$temp/modules/$(basename "$program" .c).wasm"
    done
}

mkdir "$temp/modules" "$temp/headers"
if [ -f /usr/include/stb/stb_image.h ] && [ -f /usr/include/xxhash.h ]; then
    compile_programs
else
    echo "libstb-dev or libxxhash-dev is not installed: the bars of compiled programs weren't tried"
    failed=1
fi
cp "$bench"/../examples/*.wasm "$temp/modules"
for file in "$bench"/../tests/rows/*/given/*.wasm; do cp -n "$file" "$temp/modules"; done

python3 - "$asyncify" "$temp" <<'PY' || failed=1
import math, os, subprocess, sys

program, temp = sys.argv[1:]
# what is called of the compiled programs, and the import that the echo answers
RUNS = {"picture": ("env.read", "run"), "hash": ("env.read", "run i32:200"), "text": ("env.write", "run i32:200"), "ask": ("env.read", "run i32:1000"), "compiled": ("env.sleep", "run i32:1000")}

# the module made for the limit on locals
APART = "many_locals_49996"


def run(*words):
    return subprocess.run(words, cwd=temp, capture_output=True, text=True)


def written(name, options, out):
    """The written module's size and how many functions of it are instrumented, or None where it is refused."""
    told = run(program, "transform", *options, f"modules/{name}.wasm", out)
    return None if told.returncode else (os.path.getsize(f"{temp}/{out}"), int(told.stdout.split()[4]))


def by_peer(name, options, out):
    """The peer's size, or None where it refuses the module."""
    told = run("wasm-opt", *options, "-mvp", f"modules/{name}.wasm", "-o", out)
    return None if told.returncode else os.path.getsize(f"{temp}/{out}")


def cost(module, name):
    """The least number of steps within which a run of the module comes to its end."""
    called, entry = RUNS[name]
    low, high = 0, 1_000_000_000
    while high - low > 1:
        middle = (low + high) // 2
        with open(f"{temp}/script", "w") as file:
            file.write(f"program {module}\narea 0 64\nsteps {middle}\ndevice {called} echo\nenter {entry}\n")
        told = run(program, "host", "script").stdout
        if "end done" in told:
            high = middle
        elif "end steps spent" in told:
            low = middle
        else:
            sys.exit(f"{module}: {told}")
    return high


def plain_cost(name):
    """The steps of the original itself, by a written module in which nothing is instrumented."""
    run(program, "transform", "--ignore-imports", "--ignore-indirect", f"modules/{name}.wasm", "quiet.wasm")
    return cost("quiet.wasm", name)


row = "{:<28}{:>9}{:>9}{:>9}{:>9}{:>9}".format
print(row("bytes", "source", "all", "live", "peer", "peer -O2"))
sizes, asserted, failed = [], {"": [], "--ignore-indirect": []}, False


def with_asserts(name, ignored):
    """How many times the bytes of without asserts a module has with them, under both policies."""
    given = [ignored] if ignored else []
    for save in ("all", "live"):
        plain, tested = (written(name, [*given, *more, "--save", save], "asserts.wasm")[0] for more in ([], ["--asserts"]))
        yield tested / plain


for name in sorted(it[:-5] for it in os.listdir(f"{temp}/modules")):
    ours, live = written(name, [], "all.wasm"), written(name, ["--save", "live"], "live.wasm")
    if not ours or not ours[1]:
        continue
    source = os.path.getsize(f"{temp}/modules/{name}.wasm")
    plain, best = by_peer(name, ["--asyncify"], "plain.wasm"), by_peer(name, ["-O2", "--asyncify", "-O2"], "best.wasm")
    print(row(name, source, ours[0], live[0], plain or "none", best or "none"))
    if name == APART or not best:
        continue
    if ours[0] >= plain:
        print(f"{name}: {ours[0]} bytes aren't fewer than the peer's {plain}")
        failed = True
    sizes.append((ours[0], live[0], best))
    for ignored, ratios in asserted.items():
        ratios.append(tuple(with_asserts(name, ignored)))
    if name in RUNS:
        costs = [cost(it, name) for it in ("all.wasm", "live.wasm", "plain.wasm", "best.wasm")]
        print(row("  steps of a run", plain_cost(name), *costs))
ours, live, best = (sum(it) / len(sizes) for it in zip(*sizes))
each = math.exp(sum(math.log(it[0] / it[2]) for it in sizes) / len(sizes))
print(f"in the mean of {len(sizes)} modules {ours:.0f} bytes, under live {live:.0f}, the peer's with -O2 {best:.0f}; module by module {each:.3f} times the peer's")
if ours > best:
    print("larger than the peer's with -O2")
    failed = True
for ignored, ratios in asserted.items():
    mean = [math.exp(sum(map(math.log, it)) / len(it)) for it in zip(*ratios)]
    most = max(max(it) for it in ratios)
    print(f"with asserts {ignored or 'and nothing ignored'}: {mean[0]:.4f} times the bytes of without, under live {mean[1]:.4f}; {most:.3f} at most")
    if max(mean) > 1.02:
        print("asserts take more than a fiftieth")
        failed = True
sys.exit(failed)
PY
exit $failed

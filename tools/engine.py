"""Builds the engine of pages: the program ps_play as a module of WebAssembly, from the sources of the player.

The module that the toolchain's compiler for trials makes is turned to another processor, and compiled and linked by the toolchain's own
clang. Its addresses are narrowed, and Binaryen's wasm-opt lets the program be parked where it asks for keys. Nothing of that is
proved; docs/PAGES.md says what is trusted.
"""
import concurrent.futures
import lzma
import os
import pathlib
import shutil
import subprocess
import tempfile

from crates import TOP
from module_parts import cut
from unproved import TARGET, Unread, as_marked, marked_functions, module_of, toolchain, without_checks
from wasm_addresses import Unknown, narrowed

PROGRAM = "ps_play"
ENGINE = TOP / "page/out/engine.wasm"
SHIM = TOP / "page/engine"
SOURCES = ["crates/*/src/*.rt", "page/engine/*", "tools/engine.py", "tools/module_parts.py", "tools/unproved.py", "tools/wasm_addresses.py"]

PROCESSOR = "wasm64-unknown-unknown"
LAYOUT = "e-m:e-p:64:64-p10:8:8-p20:8:8-i64:64-i128:128-n32:64-S128-ni:1:10:20"
X86 = ' "target-cpu"="x86-64-v2"'
# What browsers of the last years know, and no more.
FEATURES = ["-mcpu=lime1"]
FLAGS = """-ffunction-sections -fdata-sections --no-default-config -fno-crash-diagnostics -Wno-override-module
    -mllvm -no-trap-after-noreturn -mllvm -trap-unreachable -mllvm -expand-div-rem-bits=64 -mllvm -sink-common-insts=false""".split()
C_FLAGS = ["-O2", "-ffreestanding", "-nostdinc", "-Wall", "-Wextra", "-Werror"]
# Parts that play keys are to be quick as well as small, and others small.
LEVEL_AT_PLAY, LEVEL_ELSEWHERE = "-Os", "-Oz"
# How many lines a function has at most that is copied into each part that calls it: with fewer a key costs up to twice as much.
MOST_COPIED_AT_PLAY, MOST_COPIED = 600, 5
STACK = 4 << 20
MOST_MEMORY = 1 << 32
LINK = f"""-flavor wasm -mwasm64 --no-entry --stack-first -z stack-size={STACK} --max-memory={MOST_MEMORY} --export-memory
    --gc-sections --strip-all --threads=1""".split()
# The program is parked in a call of read_keys.
OPTIMISE = """--enable-bulk-memory --enable-mutable-globals --enable-nontrapping-float-to-int --enable-sign-ext --enable-multivalue
    --asyncify --pass-arg=asyncify-imports@host.read_keys -Oz""".split()
# The literal bits and the window with which an engine packs best.
PACKING = {"id": lzma.FILTER_LZMA1, "preset": 9 | lzma.PRESET_EXTREME, "lc": 4, "lp": 0, "pb": 0, "dict_size": 1 << 21}


# The steps of which a build tells.
STEPS = ["reading the sources", "compiling", "letting the engine wait for keys"]


class Unbuilt(Exception):
    """The engine can't be built: why, in a line or more."""


def for_pages(line):
    """A line of the module for the processor of pages."""
    if line.startswith("target datalayout"):
        return f'target datalayout = "{LAYOUT}"\n'
    if line.startswith("target triple"):
        return f'target triple = "{PROCESSOR}"\n'
    return line.replace(X86, "") if line.startswith("attributes #") else line


def lines_of_program(kit, room):
    """The lines of the program's module, for the processor of pages."""
    module, text = module_of(kit, TOP, PROGRAM, [TOP / f"crates/{PROGRAM}/src/main.rt"], room), room / "module.ll"
    words = [f"--target={TARGET}", "-x", "ir", module, "-S", "-emit-llvm", "-O0", "-Xclang", "-disable-llvm-passes", "-o", text]
    run([kit / "toolchain/bin/clang", *words])
    with open(text) as lines:
        yield from map(for_pages, as_marked(without_checks(lines, False), marked_functions(TOP)))


def run(words):
    """Runs a program of the build."""
    done = subprocess.run(words, capture_output=True, text=True)
    if done.returncode != 0:
        raise Unbuilt(f"{pathlib.Path(words[0]).name} ended with status {done.returncode}:\n{done.stderr.strip()}")


def compiled(kit, room, parts):
    """The object files of the parts and of what stands in for C, compiled side by side."""
    clang = [kit / "toolchain/bin/clang", f"--target={PROCESSOR}", *FEATURES, "-c"]
    jobs = []
    for number, part in enumerate(parts):
        file = room / f"part-{number}.ll"
        file.write_text("".join(part.lines))
        jobs.append((file, ["-x", "ir", LEVEL_AT_PLAY if part.plays else LEVEL_ELSEWHERE, *FLAGS]))
    jobs += [(file, C_FLAGS) for file in sorted(SHIM.glob("*.c"))]

    def compile_one(job):
        file, flags = job
        made = room / f"{file.stem}.o"
        run([*clang, *flags, file, "-o", made])
        return made

    with concurrent.futures.ThreadPoolExecutor(len(os.sched_getaffinity(0))) as pool:
        return list(pool.map(compile_one, jobs))


def build(out, tell):
    """Builds the engine into a file, and calls `tell` as each of its steps begins. Raises Unbuilt."""
    kit = toolchain()
    with tempfile.TemporaryDirectory() as folder:
        room = pathlib.Path(folder)
        linked, narrow, made = room / "linked.wasm", room / "narrow.wasm", room / "engine.wasm"
        try:
            tell()
            parts = cut(list(lines_of_program(kit, room)), MOST_COPIED_AT_PLAY, MOST_COPIED)
            tell()
            run([kit / "toolchain/bin/ld.lld", *LINK, *compiled(kit, room, parts), "-o", linked])
            narrow.write_bytes(narrowed(linked.read_bytes()))
        except Unread as said:
            raise Unbuilt(f"the sources can't be read:\n{said}") from said
        except Unknown as what:
            raise Unbuilt(f"the linker wrote something that isn't known here: {what}") from what
        tell()
        run(["wasm-opt", *OPTIMISE, narrow, "-o", made])
        shutil.move(made, out)


def lacking():
    """What is to be installed before an engine can be built, in a line; nothing where all is there."""
    if shutil.which("rt") is None:
        return "the toolchain's command rt isn't there, which builds the engine of pages"
    if shutil.which("wasm-opt") is None:
        return "wasm-opt isn't there, which lets the engine of pages wait for keys: install binaryen, version 108 or later"
    return ""


def is_current(out):
    """Whether the engine is there and no older than its sources."""
    if not out.is_file():
        return False
    newest = max(file.stat().st_mtime for pattern in SOURCES for file in TOP.glob(pattern))
    return newest <= out.stat().st_mtime


def packed(engine):
    """The engine as a file of LZMA."""
    return lzma.compress(engine, format=lzma.FORMAT_ALONE, filters=[PACKING])

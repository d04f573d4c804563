"""Builds the library for other programs WITHOUT any proof: crates/lizhakoven as an archive and as a shared library.

The compiler for trials takes programs alone. So the library's root file gets a `main` that makes each call. Its module is stripped of
what a trial puts in, the calls get the names by which C knows them, and `main` is taken out before it is compiled.
"""
import pathlib
import re
import shutil
import subprocess
import tempfile

from crates import TOP
from module_parts import cut
from steps import nothing
from unproved import compiled, lines_of, toolchain

CRATE = "lizhakoven"
FOLDER = TOP / f"crates/{CRATE}/out/library"
ARCHIVE, SHARED = "liblizhakoven.a", "liblizhakoven.so"
HEADER, MODULE = TOP / "include/lizhakoven.h", TOP / "python/lizhakoven.py"
SOURCES = ["crates/*/src/*.rt", "tools/library.py", "tools/module_parts.py", "tools/unproved.py"]
EXPORTED = re.compile(r'extern "C" fn (\w+)')
MAIN = """
fn main(rt: HostRuntime) -> std::process::ExitCode {
    let (mut major, mut minor, mut patch) = (0u32, 0u32, 0u32);
    lzk_version(&mut major, &mut minor, &mut patch);
    let (size, fault) = (GameSize::none(), TextFault::none());
    let mut finding = Finding { size, fault };
    let mut outcome = Outcome { length: 0, ending: 0, fault };
    let mut output = [0u8; 1];
    let checked = lzk_check(rt.alloc(), b"", &mut finding);
    let ran = lzk_run(rt.alloc(), b"", b"", &mut output, &mut outcome);
    let (mut game, mut session, mut copy) = (GameHandle::closed(), SessionHandle::closed(), SessionHandle::closed());
    let (mut place, mut told, mut cells, mut length) = (Place::nowhere(0), fault, [0u32; 1], 0usize);
    let opened = lzk_open(rt.alloc(), b"", &mut game, &mut told);
    let named = lzk_object_name(rt.alloc(), &mut game, 0, &mut output, &mut length);
    let started = lzk_start(rt.alloc(), &mut game, 1, &mut session);
    lzk_close(rt.alloc(), &mut game);
    let copied = lzk_copy(rt.alloc(), &mut session, &mut copy);
    let keyed = lzk_keys(rt.alloc(), &mut copy, b"");
    let looked = lzk_look(rt.alloc(), &mut copy, &mut cells, &mut place);
    let written = lzk_text(rt.alloc(), &mut copy, 0, &mut output, &mut length);
    lzk_end(rt.alloc(), &mut session);
    let same = checked == ran && opened == ran && copied == keyed && looked == keyed && written == keyed && named == started;
    std::process::ExitCode::from(if same { 0 } else { 1 })
}
"""


def calls():
    """The names of the library's calls."""
    return sorted(name for file in (TOP / f"crates/{CRATE}/src").glob("*.rt") for name in EXPORTED.findall(file.read_text()))


def version():
    """The version of the library, as its source has it."""
    text = (TOP / f"crates/{CRATE}/src/version.rt").read_text()
    return tuple(int(re.search(rf"const {name}: u32 = (\d+);", text)[1]) for name in ("MAJOR", "MINOR", "PATCH"))


def name_for_programs():
    """The name by which programs find the shared library: of one version, up to its second number."""
    return f"{SHARED}.{version()[0]}.{version()[1]}"


def files(folder=FOLDER):
    """The archive, the shared library, and its name for compilers, in a folder."""
    return [folder / ARCHIVE, folder / name_for_programs(), folder / SHARED]


def is_current():
    """Whether the library is there, and no older than its sources."""
    newest = max(file.stat().st_mtime for pattern in SOURCES for file in TOP.glob(pattern))
    return all(file.is_file() and newest <= file.stat().st_mtime for file in files())


def exported(lines, names):
    """The lines of a module whose calls have the names by which C knows them."""
    own = re.compile(rf'@"{CRATE}::(?:[^"]*::)?({"|".join(names)})"')
    for line in lines:
        line = own.sub(r"@\1", line)
        yield re.sub(r"^define internal (.*@(?:%s)\()" % "|".join(names), r"define \1", line)


def without_main(lines):
    """The lines of a part without the function `main`."""
    inside = False
    for line in lines:
        inside = inside or line.startswith("define ") and "@main(" in line
        if not inside:
            yield line
        inside = inside and not line.startswith("}")


def parts_of_library(kit, room):
    """The parts of the library's module."""
    source = room / "src"
    shutil.copytree(TOP / f"crates/{CRATE}/src", source)
    with open((source / "lib.rt").rename(source / "main.rt"), "a") as root:
        root.write(MAIN)
    parts = cut(list(exported(lines_of(kit, TOP, CRATE, [source / "main.rt"], room, False), calls())))
    for part in parts:
        part.lines = list(without_main(part.lines))
    return parts


def link(kit, room, objects):
    """Puts object files into the archive, and into a shared library that shows its calls alone."""
    tools = kit / "toolchain/bin"
    subprocess.run([tools / "llvm-ar", "x", kit / "c/liblibc_c.a"], cwd=room, check=True)
    objects = [*objects, room / "heap.pic.o"]
    subprocess.run([tools / "llvm-ar", "rcs", room / ARCHIVE, *objects], check=True)
    shown = room / "calls.map"
    shown.write_text("{ global: %s local: *; };\n" % " ".join(f"{name};" for name in calls()))
    words = ["-shared", "--gc-sections", "-z", "defs", "-z", "relro", "-z", "now", "--version-script", shown, "-soname", name_for_programs()]
    below = [kit / "toolchain/lib/libgcc.a", kit / "toolchain/lib/libc.so.6"]
    subprocess.run([tools / "ld.lld", *words, "-o", room / name_for_programs(), *objects, *below], check=True)


def build(folder, tell=nothing):
    """Builds the library into a folder, and calls `tell` as each step of a build begins. Raises Unread where the sources can't be read."""
    kit = toolchain()
    with tempfile.TemporaryDirectory() as made:
        room = pathlib.Path(made)
        tell()
        parts = parts_of_library(kit, room)
        tell()
        link(kit, room, compiled(kit, room, parts, "-O3", "-fPIC"))
        folder.mkdir(parents=True, exist_ok=True)
        for name in (ARCHIVE, name_for_programs()):
            shutil.move(room / name, folder / name)
        # No link: the toolchain refuses to write beside one.
        shutil.copyfile(folder / name_for_programs(), folder / SHARED)

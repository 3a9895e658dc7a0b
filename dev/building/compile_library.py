"""Compiles the static library of a crate with exports from its sources without a proof, as `compile_program` does a
program.

The front end of a try takes what a `main` reaches. So it gets a copy of the crate in which the root has one that calls
each export, and what it makes of them keeps the names by which a linker finds them, where `main` goes. The library has
no functions for the heap: they are its caller's, or the kit's."""
import re
import shutil
from collections.abc import Iterator, Sequence
from pathlib import Path

from dev.building.compile_program import Failed, Kit, KitDiffers, as_text, call, lowered, objects_of, refused

EXPORT = re.compile(r'^#\[unsafe\(no_mangle\)\]\npub extern "C" fn (\w+)\(([^)]*)\)', re.M)
# What `main` passes for the first parameter of a type, and for the second one. The calls are compiled, and never run.
PASSED = {"Global": ["rt.alloc()"], "&mut Slot": ["&mut slot"], "&[u8]": ['b""'], "&mut [u8]": ["&mut room"],
          "&mut usize": ["&mut first", "&mut second"],
          "&mut SeatSlot": ["&mut seats[0]"], "&mut [SeatSlot]": ["&mut seats"], "usize": ["0"]}
MAIN = """
fn main(rt: HostRuntime) {{
    let mut slot = Slot::closed(rt.alloc());
    let mut seats: [SeatSlot; 1] = [SeatSlot::closed(rt.alloc())];
    let mut first = 0;
    let mut second = 0;
    let mut room: [u8; 1] = [0];
{calls}
}}
"""
IS_MAIN = re.compile(r"^define i32 @main\(.*\n(?:.*\n)*?\}\n", re.M)


def exports(root: str) -> Iterator[tuple[str, list[str]]]:
    """The names of a root's exports, each with the types of its parameters."""
    for name, parameters in EXPORT.findall(root):
        yield name, [text.partition(":")[2].strip() for text in parameters.split(",") if text.strip()]


def call_of(name: str, types: Sequence[str]) -> str:
    passed = [PASSED.get(of, [])[types[:at].count(of):][:1] for at, of in enumerate(types)]
    if [] in passed:
        raise Failed(f"its export {name} has parameters for which dev/building/compile_library.py has no call")
    return f"    {name}({', '.join(argument for [argument] in passed)});"


def with_main(root: str) -> str:
    """The root of the crate with a `main` that calls each export."""
    calls = [call_of(*export) for export in exports(root)]
    if not calls:
        raise Failed("its root has no exports for a library")
    return root + MAIN.format(calls="\n".join(calls))


def exported(text: str, crate: str, names: Sequence[str]) -> str:
    """The module's text, in which each export has its own name for all to call, and `main` is gone."""
    text, count = IS_MAIN.subn("", text)
    for name in names:
        text, defined = re.subn(rf'^define internal (.*)@"{crate}::{name}"\(', rf"define \1@{name}(", text, flags=re.M)
        count = count and defined
        text = text.replace(f'@"{crate}::{name}"', f"@{name}")
    if not count:
        raise KitDiffers("its front end names what is exported in another way")
    return text


def compiled(kit: Kit, top: Path, name: str, folder: Path, is_checked: bool) -> Path:
    crate, sources = kit.crate(top, name)
    copy, library = folder / name, folder / f"lib{name}.a"
    shutil.copytree(crate, copy, ignore=shutil.ignore_patterns("out"))
    root = (copy / "src" / "lib.rt").rename(copy / "src" / "main.rt")
    text = root.read_text(encoding="utf-8")
    names = tuple(found for found, _ in exports(text))
    root.write_text(with_main(text), encoding="utf-8")
    module, words = lowered(kit, copy, sources, folder)
    # a library is linked into what may be loaded anywhere
    words = ["-fPIC" if word == "-fPIE" else word for word in words]
    text = exported(as_text(kit, module, words, is_checked), name, names)
    objects = objects_of(kit, text, words, folder, is_checked, names)
    status, output = call([kit.toolchain / "bin" / "llvm-ar", "rcsD", library, *objects])
    if status:
        raise refused("its archiver does not pack the library", output)
    return library

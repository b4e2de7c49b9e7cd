"""The archive of crates/phaser_c as `rt try` compiles it, unproved and with checks at run time.

`rt try` compiles programs alone, and of these what `main` comes to. So it gets a copy of the crates in which phaser_c is a
program. Its `main` calls each export in a branch that it doesn't take. What `rt try` hands to its compiler is caught. There
each export is a function of its own that takes what C gives it, but that no other file can call. These get their names in C,
and the toolchain's compiler makes an object of that. A check that fails in it ends the process by SIGILL.
"""
import os
import re
import shutil
import subprocess
from pathlib import Path

from processes import TOP
from tries import TOOLS, Failed, Kept, caught

KEPT = Kept("phaser_c", "libphaser_c.a", "archive", "tools/build_program phaser_c")
EXPORT = re.compile(r'#\[unsafe\(no_mangle\)\]\npub extern "C" fn (\w+)\(([^)]*)\)')
# Of a function that C can call, for each parameter is a number or a pointer: its result, its name, and its parameters.
CALLED = r'^define internal (void|noundef i32) @"(%s)"\(((?:(?:ptr|i\d+) noundef %%a\d+(?:, )?)*)\)'
MAIN = """
fn any<T>() -> T {
    unreachable!()
}

fn main() {
    let is_called = false;
    if is_called {
%s    }
}
"""
BITCODE = b"BC\xc0\xde"
READ = ["-x", "ir", "-S", "-emit-llvm", "-Xclang", "-disable-llvm-passes"]
COMPILE = ["-x", "ir", "-O2", "-fPIC", "-march=x86-64-v2", "-ffunction-sections", "-fdata-sections", "-c"]


def exports_of(crate):
    """Of each export its path in the crate, its name, and how many parameters it has."""
    for file in sorted((crate / "src").glob("*.rt")):
        for name, given in EXPORT.findall(file.read_text()):
            yield "%s::%s" % (file.stem, name), name, len(list(filter(str.strip, given.split(","))))


def put_crates(top):
    """Copies the crates that the archive is built from into a new folder, and gives that of phaser_c."""
    asked = [str(TOOLS / "build_program"), "--crates", KEPT.crate]
    names = subprocess.run(asked, stdout=subprocess.PIPE, text=True, check=True).stdout.split()
    for name in names:
        shutil.copytree(str(TOP / "crates" / name), str(top / "crates" / name), ignore=shutil.ignore_patterns("out"))
    lines = (TOP / "crates.txt").read_text().replace(KEPT.crate + " staticlib:", KEPT.crate + ":").splitlines(keepends=True)
    (top / "crates.txt").write_text("".join(it for it in lines if re.split("[ :]", it)[0] in names))
    shutil.copyfile(str(TOP / "HANDLES"), str(top / "HANDLES"))
    return top / "crates" / KEPT.crate


def put_main(crate, exports):
    """Makes the library a program that has each of its exports."""
    calls = ["        %s(%s);\n" % (path, ", ".join(["any()"] * count)) for path, _, count in exports]
    library = crate / "src/lib.rt"
    library.with_name("main.rt").write_text(library.read_text() + MAIN % "".join(calls))
    library.unlink()


def is_module(file):
    """Whether it is the program, and not what else `rt try` has compiled."""
    with open(str(file), "rb") as module:
        return module.read(len(BITCODE)) == BITCODE


def named(module, exports):
    """The text of the module with its exports by the names that C calls, and no `main`."""
    for path, name, _ in exports:
        inner = "%s::%s" % (KEPT.crate, path)
        module, found = re.subn(CALLED % inner, r'define \1 @"\2"(\3)', module, flags=re.M)
        if found != 1:
            raise Failed("rt try compiles %s in another way than this expects" % name)
        module = module.replace('@"%s"' % inner, "@" + name)
    return re.sub(r"^define i32 @main\(\)", "define internal i32 @main()", module, flags=re.M)


def told(tool, *words):
    """What a command of the toolchain prints."""
    program = Path(os.path.realpath(shutil.which("rt"))).parent.parent / "toolchain/bin" / tool
    how = {"stdin": subprocess.DEVNULL, "stdout": subprocess.PIPE, "stderr": subprocess.PIPE, "text": True}
    ran = subprocess.run([str(program), *map(str, words)], **how)
    if ran.returncode:
        raise Failed("%s of the toolchain failed: %s" % (tool, (ran.stderr.strip().splitlines() or ["it says nothing"])[0]))
    return ran.stdout


def build_in(folder):
    """The archive, made in the folder."""
    crate = put_crates(Path(folder) / "tree")
    exports = list(exports_of(crate))
    put_main(crate, exports)
    module = caught(KEPT, crate, [], folder, "module.bc", is_module)
    text, compiled, made = module.with_suffix(".ll"), Path(folder) / "phaser_c.o", Path(folder) / KEPT.file.name
    text.write_text(named(told("clang", *READ, "-o", "-", module), exports))
    told("clang", *COMPILE, "-o", compiled, text)
    told("llvm-ar", "rcsD", made, compiled)
    return made

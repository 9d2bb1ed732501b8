"""What is compiled here: the C and C++ programs of the tests, the header in each standard, the Rust declarations."""
import os
import pathlib
import shutil
import subprocess
import sys

HERE = pathlib.Path(__file__).resolve().parent
ROOT = HERE.parent.parent
LIBRARY = pathlib.Path(os.environ.get("STATION_LIB_DIR", ROOT / "target/staticlib")).resolve() / "libstation.a"
WARNINGS = ["-Wall", "-Wextra", "-pedantic", "-Werror"]
STANDARDS = {
    ("gcc", "clang"): ("c99", "c11", "c17"),
    ("g++", "clang++"): ("c++98", "c++11", "c++14", "c++17"),
}
EDITIONS = ("2015", "2018", "2021", "2024")


def missing():
    """What to say where the library, a program or a compiler is not there, or nothing."""
    if not LIBRARY.exists():
        return f"there is no {LIBRARY}: make it by `tools/build station`"
    for name in ("reply", "answer"):
        if not (ROOT / "target/bin" / name).exists():
            return f"there is no target/bin/{name}: make it by `tools/build {name}`"
    tools = [name for name in ("gcc", "g++", "nm", "rustc") if not shutil.which(name)]
    return f"not installed: {', '.join(tools)}" if tools else ""


def run(words, **more):
    return subprocess.run([str(word) for word in words], capture_output=True, text=True, timeout=600, **more)


def program(folder, name, *sources, compiler="gcc", standard="c99"):
    """A program of some sources with the library; ends the test where it cannot be compiled."""
    target = pathlib.Path(folder) / name
    options = [f"-std={standard}", "-O1", *WARNINGS, "-I", ROOT / "include"]
    done = run([compiler, *options, "-o", target, *sources, LIBRARY])
    if done.returncode:
        sys.exit(f"station: {name} does not compile:\n{done.stderr}")
    return target


def compilers():
    """Each compiler that is there with the standards it is asked for."""
    for names, standards in STANDARDS.items():
        for name in names:
            if shutil.which(name):
                yield from ((name, standard) for standard in standards)


def header_errors(compiler, standard):
    """What a compiler says of the header alone in a standard: nothing, where it passes."""
    language = "c++" if "++" in standard else "c"
    options = [f"-std={standard}", *WARNINGS, "-I", ROOT / "include", "-x", language, "-fsyntax-only", "-"]
    return run([compiler, *options], input='#include "station.h"\n').stderr


def rust_errors(folder, edition):
    """What rustc says of the declarations in an edition."""
    words = ["rustc", "--edition", edition, "--crate-type", "lib", "--crate-name", "station", "--emit", "metadata",
             "-D", "warnings", "--out-dir", folder, ROOT / "include/station.rs"]
    return run(words).stderr

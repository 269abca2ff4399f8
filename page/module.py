"""Compiles the program for WebAssembly: the kit builds it, and what it gives its compiler is compiled once more."""
import hashlib
import importlib.machinery
import importlib.util
import os
import re
import shutil
import signal
import subprocess
import tempfile
from typing import NamedTuple

HERE = os.path.dirname(os.path.realpath(__file__))
TOP = os.path.dirname(HERE)
PROGRAM = "nomos_cli"
# The parts of a crate that its build reads, and what is run on what to see that it stands.
PARTS = ("src", "specs", "proofs", "data")
CALL = ("--", "check", "data/bit.nomos")
# The most memory that a call may take, in bytes, and its stack.
MEMORY, STACK = 2 << 30, 8 << 20
# How long the kit may take for a build, in seconds.
SECONDS = 3600
TARGET = ("--target=wasm64-unknown-unknown", "-mcpu=lime1")
# Divisions and conversions of 128 bits are made of smaller ones, and sections let the linker leave out what is not
# called.
FROM_PROGRAM = (
    "-Wno-override-module", "-mllvm", "-expand-div-rem-bits=64", "-mllvm", "-expand-fp-convert-bits=64",
    "-ffunction-sections", "-fdata-sections", "-fno-vectorize", "-fno-slp-vectorize", "-O1", "-c", "-x", "ir",
)
# A hint of the kit's processor to itself where it waits in a loop: WebAssembly has none, and the program means the same
# without it.
PAUSE = b"@llvm.x86.sse2.pause()"
FROM_C = ("-ffreestanding", "-fno-builtin", "-O2", "-c")
LINKED = ("-mwasm64", "--no-entry", "--export=main", "--export-memory", "--stack-first", "--gc-sections")


class NotBuilt(Exception):
    """Something was not built; the words say what."""


class Module(NamedTuple):
    """The module, whether it is of the proved program, and the sum of the sources that it is built from."""

    bytes: bytes
    is_proved: bool
    sum: str


def crates():
    """Gives the module of .ci/build, which knows the crates that the program stands on."""
    loader = importlib.machinery.SourceFileLoader("build_crates", f"{TOP}/.ci/build")
    found = importlib.util.module_from_spec(importlib.util.spec_from_loader("build_crates", loader))
    loader.exec_module(found)
    return found


def kit():
    """Gives the folder of the kit, or nothing where it is not in the path."""
    found = shutil.which("rt")
    return os.path.dirname(os.path.dirname(os.path.realpath(found))) if found else None


def missing(is_proved):
    """Says what is missing for a build, if something is."""
    if kit() is None:
        return "the kit's rt is not found"
    below = [it for it in crates().listed(TOP, PROGRAM) if it != PROGRAM]
    unproved = [it for it in below if not os.path.isfile(f"{TOP}/crates/{it}/out/rlib/stamp")]
    if is_proved and unproved:
        count = f"{len(unproved)} of {len(below)} libraries"
        return f"{count} are not proved here: call ./nomos first, or page/build --unproved"
    return ""


def sources():
    """Gives the files that the module is built from, the shim and this one among them."""
    found = [f"{TOP}/crates.txt", f"{HERE}/shim.c", f"{HERE}/module.py"]
    for crate in crates().listed(TOP, PROGRAM):
        for part in PARTS:
            for at, _, names in os.walk(f"{TOP}/crates/{crate}/{part}"):
                found += [f"{at}/{name}" for name in names]
    return sorted(found)


def sum_of(files):
    found = hashlib.sha256()
    for file in files:
        with open(file, "rb") as source:
            found.update(os.path.relpath(file, TOP).encode() + b"\0" + source.read() + b"\0")
    return found.hexdigest()


def stand_in(folder):
    """Makes a folder that stands for the kit: its compiler keeps what it is given before it is called. A build hands no
    variables to it, so its text has the path. Gives its rt, and where what is kept will stand."""
    real, kept = kit(), f"{folder}/module.bc"
    os.makedirs(f"{folder}/kit/bin")
    os.makedirs(f"{folder}/kit/toolchain/bin")
    for part in ("", "bin/", "toolchain/", "toolchain/bin/"):
        for name in os.listdir(f"{real}/{part}"):
            to = f"{folder}/kit/{part}{name}"
            if part == "bin/" and name in ("rt", "rtlib.py"):
                shutil.copy2(f"{real}/bin/{name}", to)
            elif not os.path.lexists(to):
                os.symlink(f"{real}/{part}{name}", to)
    compiler = f"{folder}/kit/toolchain/bin/clang"
    os.unlink(compiler)
    with open(compiler, "w", encoding="utf-8") as script:
        script.write(f"#!/bin/sh\ncp module.bc '{kept}'\nexec '{real}/toolchain/bin/clang' \"$@\"\n")
    os.chmod(compiler, 0o755)
    return f"{folder}/kit/bin/rt", kept


def room(folder):
    """Makes a checkout of its own with the libraries that are proved here, so that this one stays as it is."""
    known = crates()
    for name in ("crates.txt", "HANDLES"):
        shutil.copy2(f"{TOP}/{name}", f"{folder}/{name}")
    for crate in os.listdir(f"{TOP}/crates"):
        for part in PARTS:
            if os.path.isdir(f"{TOP}/crates/{crate}/{part}"):
                shutil.copytree(f"{TOP}/crates/{crate}/{part}", f"{folder}/crates/{crate}/{part}")
    for crate in known.listed(TOP, PROGRAM):
        if crate != PROGRAM:
            known.take_library(crate, TOP, folder)
    return f"{folder}/crates/{PROGRAM}"


def ended(words, where, log):
    """Runs a tool to its end, or stops it and all that it started."""
    with open(log, "wb") as output:
        how = {"cwd": where, "stdin": subprocess.DEVNULL, "stdout": output, "stderr": subprocess.STDOUT}
        tool = subprocess.Popen(words, start_new_session=True, **how)
        try:
            tool.wait(SECONDS)
        except subprocess.TimeoutExpired as error:
            raise NotBuilt(f"{words[0]} took more than {SECONDS} seconds") from error
        finally:
            if tool.poll() is None:
                os.killpg(tool.pid, signal.SIGTERM)
                tool.wait()
    with open(log, encoding="latin-1") as lines:
        return tool.returncode, lines.read()


def program(folder, log, is_proved, say):
    """Has the kit build the program, and gives what it gave to its compiler."""
    rt, kept = stand_in(folder)
    if is_proved:
        say("proving and building the program over the proved libraries, which takes some minutes")
        status, said = ended([rt, "run", *CALL], room(folder), log)
        is_built = status == 0 and re.search(r"^logic=proved ", said, re.MULTILINE)
    else:
        say("building the program without its proofs, which takes a minute or more")
        status, _ = ended([rt, "try", *CALL], f"{TOP}/crates/{PROGRAM}", log)
        is_built = status == 0
    if not is_built or not os.path.isfile(kept):
        raise NotBuilt(f"the program was not built, and {log} says why")
    return kept


def called(*words):
    done = subprocess.run(words, stdout=subprocess.PIPE, stderr=subprocess.STDOUT, check=False)
    if done.returncode:
        raise NotBuilt(f"{os.path.basename(words[0])}: {done.stdout.decode('latin-1')}")


def without_pauses(clang, folder, bitcode):
    """Gives what the kit's compiler was given as text, without the hints that its processor alone has."""
    text = f"{folder}/module.ll"
    called(clang, "-S", "-emit-llvm", "-Wno-override-module", "-x", "ir", bitcode, "-o", text)
    with open(text, "rb") as file:
        lines = [line for line in file if PAUSE not in line]
    with open(text, "wb") as file:
        file.writelines(lines)
    return text


def compiled(folder, bitcode):
    """Compiles what the kit's compiler was given for a memory of 64 bits, and links it with the shim."""
    tools = f"{kit()}/toolchain/bin"
    os.symlink(f"{tools}/ld.lld", f"{folder}/wasm-ld")
    text = without_pauses(f"{tools}/clang", folder, bitcode)
    called(f"{tools}/clang", *TARGET, *FROM_PROGRAM, text, "-o", f"{folder}/module.o")
    called(f"{tools}/clang", *TARGET, *FROM_C, f"{HERE}/shim.c", "-o", f"{folder}/shim.o")
    sizes = ("-z", f"stack-size={STACK}", f"--max-memory={MEMORY}")
    objects = (f"{folder}/module.o", f"{folder}/shim.o")
    called(f"{folder}/wasm-ld", *LINKED, *sizes, "-o", f"{folder}/nomos.wasm", *objects)
    with open(f"{folder}/nomos.wasm", "rb") as file:
        return file.read()


def built(out, is_proved, say):
    """Gives the module, which is built where the one that is kept is of other sources."""
    name = f"{out}/{'proved' if is_proved else 'unproved'}"
    sources_sum = sum_of(sources())
    if os.path.isfile(f"{name}.sum") and os.path.isfile(f"{name}.wasm"):
        with open(f"{name}.sum", encoding="ascii") as kept, open(f"{name}.wasm", "rb") as file:
            if kept.read() == sources_sum:
                return Module(file.read(), is_proved, sources_sum)
    with tempfile.TemporaryDirectory(prefix="page-") as folder:
        bitcode = program(folder, f"{name}.log", is_proved, say)
        say("compiling it for WebAssembly, which takes a minute or more")
        data = compiled(folder, bitcode)
    with open(f"{name}.wasm", "wb") as file:
        file.write(data)
    with open(f"{name}.sum", "w", encoding="ascii") as kept:
        kept.write(sources_sum)
    return Module(data, is_proved, sources_sum)

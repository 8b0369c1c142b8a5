#!/usr/bin/env python3
"""Counts the instructions of an edit and of a line, by callgrind: counts.py PROGRAM, or counts.py --try FILE

PROGRAM answers `try` and `drill`. With --try the sources as they stand are compiled without a proof into FILE first, which takes some three
minutes. The kit compiles such a program with a check before each step that a proof would allow, and stops there. Here these checks are
taken out, as they are in a program that is proved. So a change can be counted before it is proved. Never use FILE for anything else: where
the sources are wrong it does anything.

Of each job are printed the instructions of one edit or line:
- drill: all of `drill 20000`, by its 26,666 edits;
- precise: 20,000 inserts into cells that have facts, after the first 60,000 lines of the million of engine.py;
- imprecise: lines 4,097 to 8,192 of its covers;
- under: 4,096 precise inserts below 8,192 imprecise facts of that;
- mixed, view: its two mixed jobs, by their edits, the second with a view and 2,000 `terms`;
- refused: 20,000 of its lines that are refused.
"""
import os
import re
import shutil
import subprocess
import sys
import tempfile
from pathlib import Path

sys.dont_write_bytecode = True

import engine
from calls import want_words

TOP = Path(__file__).resolve().parent.parent
KIT = Path(shutil.which("rt") or "rt").resolve().parent.parent
TARGET = "x86_64-unknown-linux-gnu"
# As the kit compiles a program, but for warnings.
FLAGS = ["-ffunction-sections", "-fdata-sections", "-fPIE", "-march=x86-64-v2"]
FLAGS += [it for flag in ("-no-trap-after-noreturn", "-trap-unreachable", "-no-x86-call-frame-opt", "-disable-machine-licm",
                          "-disable-postra-machine-licm", "-sink-common-insts=false") for it in ("-mllvm", flag)]
# Stands in for the compiler of the kit: keeps the module of the program, which is no small one, and fails.
KEEPS = """#!/bin/sh
for word in "$@"; do
    case $word in *.bc) [ "$(wc -c < "$word")" -lt 1000000 ] || {{ cp "$word" "{module}"; exit 1; }} ;; esac
done
exec "{clang}" "$@"
"""


def kit_that_keeps(folder):
    """A copy of the kit, by links, whose compiler keeps the module of a program."""
    module, copy = folder / "module.bc", folder / "kit"
    for part in ("bin", "toolchain/bin"):
        (copy / part).mkdir(parents=True)
        for file in (KIT / part).iterdir():
            (copy / part / file.name).symlink_to(file)
    for file in [*KIT.iterdir(), *(KIT / "toolchain").iterdir()]:
        place = copy / file.relative_to(KIT)
        if not place.exists():
            place.symlink_to(file)
    for name in ("rt", "rtlib.py"):  # they find the kit by where they stand
        (copy / "bin" / name).unlink()
        shutil.copy2(KIT / "bin" / name, copy / "bin" / name)
    clang = copy / "toolchain/bin/clang"
    clang.unlink()
    clang.write_text(KEEPS.format(module=module, clang=KIT / "toolchain/bin/clang"))
    clang.chmod(0o755)
    return copy, module


def compile_unproved(program):
    """Compiles the program without stores as it stands, without the checks of an unproved one."""
    clang = KIT / "toolchain/bin/clang"
    with tempfile.TemporaryDirectory() as name:
        folder = Path(name)
        kit, module = kit_that_keeps(folder)
        tried = subprocess.run([kit / "bin/rt", "try", "--", "drill", "1"], cwd=TOP / "crates/trial", stdin=subprocess.DEVNULL,
                               stdout=subprocess.DEVNULL, stderr=subprocess.PIPE, text=True)
        if not module.exists():
            sys.exit(f"the sources do not compile:\n{tried.stderr}")
        text, object_file = folder / "module.ll", folder / "module.o"
        quiet = [f"--target={TARGET}", "-Wno-override-module", "-x", "ir"]
        subprocess.run([clang, *quiet, "-S", "-emit-llvm", "-O0", "-Xclang", "-disable-llvm-passes", module, "-o", text], check=True)
        text.write_text(re.sub(r"^  call void @llvm\.trap\(\)$", "", text.read_text(), flags=re.M))
        subprocess.run([clang, *quiet, *FLAGS, "-O3", "-c", text, "-o", object_file], check=True)
        words = ["--target", TARGET, "--toolchain", KIT / "toolchain", "-o", program, object_file]
        subprocess.run([KIT / "bin/rattle-link", *words, KIT / "c/libos_c.a", KIT / "c/liblibc_c.a"], check=True, stdout=subprocess.DEVNULL)


def instructions(folder, program, words, script=""):
    """How many instructions a run executes."""
    given = folder / "script"
    given.write_text(script)
    with open(given) as source:
        words = ["valgrind", "--tool=callgrind", "--callgrind-out-file=/dev/null", program, *words]
        ran = subprocess.run(words, stdin=source, stdout=subprocess.DEVNULL, stderr=subprocess.PIPE, text=True)
    told = re.search(r"refs:\s+([\d,]+)", ran.stderr)
    if not told:
        sys.exit(f"callgrind tells nothing of {program}: {ran.stderr[-300:]}")
    return int(told[1].replace(",", ""))


class Script:
    """A job of engine.py: the lines of its schema, and those after it."""

    def __init__(self, texts):
        lines = "".join(texts).splitlines(keepends=True)
        end = lines.index("end\n") + 1
        self.schema, self.lines = "".join(lines[:end]), lines[end:]

    def of(self, lines):
        return self.schema + "".join(lines)


def renumbered(line, number):
    """An insert under another id."""
    word, _, rest = line.split("\t", 2)
    return engine.line(word, number, rest.removesuffix("\n"))


def jobs():
    """Each job's name, the words and the script of a run, those of the run that it goes on from, and by what the difference is divided."""
    yield "drill", (["drill", "20000"], ""), None, 26_666
    million = Script(engine.million())
    first = million.lines[:60_000]
    again = [renumbered(line, 1_000_001 + i) for i, line in enumerate(first[:20_000])]
    yield "precise", (["try"], million.of(first + again)), (["try"], million.of(first)), len(again)
    covers = Script(engine.covers())
    yield "imprecise", (["try"], covers.of(covers.lines[:8192])), (["try"], covers.of(covers.lines[:4096])), 4096
    above, below = covers.lines[:8192], [it for it in covers.lines if it.startswith("insert\t") and "." in it][:4096]
    yield "under", (["try"], covers.of(above + below)), (["try"], covers.of(above)), len(below)
    for name, job in (("mixed", engine.mixed([], 0, ())), ("view", engine.mixed([(1, 1, 1)], 2_000, (1, 1, 0)))):
        script = Script(job())
        edits = sum(line.split("\t", 1)[0] in ("insert", "change", "withdraw") for line in script.lines)
        yield name, (["try"], script.of(script.lines)), None, edits
    refused = Script(engine.refused())
    yield "refused", (["try"], refused.of(refused.lines[:20_000])), (["try"], refused.schema), 20_000


def main():
    want_words(1, __doc__)
    program = sys.argv[-1]
    if sys.argv[1] == "--try":
        want_words(2, __doc__)
        compile_unproved(Path(program).absolute())
    with tempfile.TemporaryDirectory() as name:
        folder = Path(name)
        for job, (words, script), before, edits in jobs():
            count = instructions(folder, os.path.abspath(program), words, script)
            if before:
                count -= instructions(folder, os.path.abspath(program), *before)
            print(f"{job:10} {count / edits:8.0f}", flush=True)


if __name__ == "__main__":
    main()

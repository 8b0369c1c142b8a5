#!/usr/bin/env python3
"""What `tools/tidy_csv --check` tells of damaged files, against what the built program refuses: tidy.py PROGRAM CASES SEED

Each case is a store over a random schema and a random file of facts, damaged in some way. The first record that the tool tells must be the
one that `import` refuses, with the same code, and a file of which it tells none must be taken. Then the refused record is left out, so that
`import` comes to the next one, until all that the tool told were met. In one case of five `tools/changes` leads from one file to another too:
the script that it writes, run over a store of the first, must leave the facts of the second. Where PROGRAM is `-` the plain model answers,
in a tenth of a second for a case. The status is 1 at the first difference.
"""
import contextlib
import importlib.machinery
import importlib.util
import io
import sys
import tempfile
from collections import Counter
from pathlib import Path
from random import Random

sys.dont_write_bytecode = True

TOOLS = Path(__file__).resolve().parent.parent / "tools"
sys.path.insert(0, str(TOOLS))

import differential
import facts
import files
import plain_model
from calls import want_words
from stores import Wrong, call, must


def tool(name):
    loader = importlib.machinery.SourceFileLoader(name, str(TOOLS / name))
    made = importlib.util.module_from_spec(importlib.util.spec_from_loader(name, loader))
    loader.exec_module(made)
    return made


tidy_csv, changes = tool("tidy_csv"), tool("changes")


def without(path, left_out):
    """The file without the records of these indices."""
    return facts.bytes_of("".join(facts.csv_line(record.fields) for record in facts.records_of(path) if record.index not in left_out))


class Model:
    """The plain model in the place of the program. A store is a file of its schema alone, whose facts are held here."""

    def __init__(self, schema, store, head):
        self.schema, self.facts = schema, []
        Path(store).write_bytes(head)

    def given(self):
        return facts.Given(self.schema, [fact.id for fact in self.facts], True)

    def imports(self, text):
        """The end of an import, as it is said, or nothing where all is well."""
        (_, _, said), self.facts, _ = files.wanted_import(self.schema, self.facts, text)
        return said

    def runs(self, script):
        replies, refusals, self.schema, self.facts = plain_model.do_lines(self.schema, self.facts, plain_model.lines_of(script))
        must(refusals, 0, f"refusals of {script!r} with {replies!r}")

    def exports(self):
        return plain_model.export_file(self.schema, self.facts)


class Built:
    """The built program."""

    def __init__(self, program, store, head):
        self.program, self.store = program, store
        self.done("init", head)

    def done(self, word, text=b""):
        written, status, said = call(self.program, [word, self.store], text)
        must((status, said), (0, b""), f"end of {word} of {text!r}")
        return written

    def given(self):
        return facts.given_by(self.store)

    def imports(self, text):
        written, status, said = call(self.program, ["import", self.store], text)
        must((status, written == b""), (11, True) if said else (0, False), f"end of import of {text!r}")
        return said

    def runs(self, script):
        self.done("run", script)

    def exports(self):
        return self.done("export")


def compare_check(engine, path, came):
    """Every record that the tool tells, against the first that is refused once those before it are left out."""
    told = list(tidy_csv.refused_in(path, facts.Judge(engine.given()), Counter()))
    came[told[0].fault.code if told else "none"] += 1
    text, left_out = Path(path).read_bytes(), []
    for _, index, fault in told:
        must(engine.imports(text), f"cube: record {index - len(left_out)}: {fault.code}\n".encode(), f"import without {left_out} of {text!r}")
        left_out.append(index)
        came["records"] += 1
        text = without(path, left_out)
    if left_out != [0]:
        must(engine.imports(text), b"", f"import without {left_out} of {text!r}")


def clean_file(random, made, schema):
    """A file of the right ones of some records."""
    judge = facts.Judge(facts.Given(schema, [], False))
    header, *records = [[facts.text_of(field) for field in row] for head, rest in [files.made_records(random, made)] for row in [head, *rest]]
    return facts.bytes_of("".join(map(facts.csv_line, [header, *(row for row in records if not judge.faults(row, 1))])))


def compare_changes(start, folder, old, new, came):
    paths = [f"{folder}/old.csv", f"{folder}/new.csv"]
    for path, text in zip(paths, (old, new)):
        Path(path).write_bytes(text)
    script = io.StringIO()
    with contextlib.redirect_stdout(script):
        must(changes.write_changes(*paths), 0, "status of tools/changes")
    changed, whole = start(f"{folder}/changed"), start(f"{folder}/whole")
    must(changed.imports(old), b"", "import of the first file")
    changed.runs(facts.bytes_of(script.getvalue()))
    must(whole.imports(new), b"", "import of the second file")
    must(changed.exports(), whole.exports(), "facts behind the changes")
    came["changes"] += 1


def compare_case(program, folder, seed, number, came):
    random = Random(f"tidy {seed} {number}")
    made = differential.Made(random)
    head = b"\n".join(made.schema) + b"\n"
    try:
        schema, _ = plain_model.read_schema(made.schema)
    except plain_model.SchemaFault:
        return False
    start = lambda store: Model(schema, store, head) if program == "-" else Built(program, store, head)
    engine, path = start(f"{folder}/store"), f"{folder}/file.csv"
    old = clean_file(random, made, schema)
    if random.random() < 0.5:
        must(engine.imports(old), b"", "import of a clean file")
    Path(path).write_bytes(files.made_file(random, made, 1))
    compare_check(engine, path, came)
    if number % 5 == 0:
        compare_changes(start, folder, old, clean_file(random, made, schema), came)
    return True


def main():
    want_words(3, __doc__)
    program, cases, seed = sys.argv[1], int(sys.argv[2]), int(sys.argv[3])
    came, number, done = Counter(), 0, 0
    while done < cases:
        with tempfile.TemporaryDirectory() as folder:
            try:
                done += compare_case(program, folder, seed, number, came)
            except Wrong as wrong:
                print(f"case {number}: {wrong}")
                return 1
        number += 1
    print(f"{cases} damaged files alike:", ", ".join(f"{code} {count}" for code, count in came.most_common()))
    return 0


if __name__ == "__main__":
    sys.exit(main())

"""Schemas, stores and files of facts, as `import` reads and judges them: what the scripts of this folder share.

The rules of schemas and values are those of bench/plain_model.py, which shares nothing with the program. Here they are asked quickly,
and each fault is told with its column, its value, what is wrong and what to do.
"""
import csv
import difflib
import fcntl
import os
import re
import shutil
import sqlite3
import sys
import tempfile
import unicodedata
from collections import Counter
from math import prod
from pathlib import Path
from typing import NamedTuple

sys.dont_write_bytecode = True
sys.path.insert(0, str(Path(__file__).resolve().parent.parent / "bench"))

import plain_model

STORE_MAGIC = b"SQLite format 3\0"
SHARED_LOCK = 510, 0x40000002  # the bytes that SQLite locks in a file for its readers: how many, from where
NEAREST = 3
CLOSER = 100  # names with the most pairs of letters of another, which are compared whole
COUNTED = 20_000  # names in which pairs of letters are counted for another, the rarest pairs first
LOOKED_FOR = 20_000  # names in all for which near ones are sought
NUL = "\udc00"  # stands for a byte 0, which the csv module of an older Python refuses


class Misuse(Exception):
    """Why nothing can be done."""


class Fault(NamedTuple):
    code: str  # as `import` has it
    column: str
    value: str
    what: str  # is wrong
    to_do: str


# Schemas and stores.


class Given(NamedTuple):
    """What a schema's file or a store says."""

    schema: plain_model.Schema
    ids: list  # of the facts in the store
    is_store: bool


def text_of(field):
    return field.decode("utf-8", "surrogateescape")


def bytes_of(text):
    return text.encode("utf-8", "surrogateescape")


def given_by(path):
    try:
        with open(path, "rb") as file:
            front = file.read(len(STORE_MAGIC))  # which a pipe gives once
            is_store = front == STORE_MAGIC
            text, ids = read_store(path) if is_store else (front + file.read(), [])
        schema, _ = plain_model.read_schema(plain_model.lines_of(text))
    except OSError as fault:
        raise Misuse(f"{path}: {fault.strerror}") from None
    except plain_model.SchemaFault as fault:
        raise Misuse(f"{path}:{fault.line}: {fault.code}: this line of the schema is refused, and cube init tells the same") from None
    return Given(schema, ids, is_store)


def read_store(path):
    """The schema's text and the ids. A copy is read, since SQLite leaves a file beside what it reads."""
    with open(path, "rb") as store, tempfile.TemporaryDirectory() as folder:
        try:
            fcntl.lockf(store, fcntl.LOCK_SH | fcntl.LOCK_NB, *SHARED_LOCK)
        except OSError:
            raise Misuse(f"{path}: another program has the store open: wait until it has ended") from None
        copy = Path(folder) / "store"
        shutil.copyfile(path, copy)
        if os.path.exists(f"{path}-wal"):
            shutil.copyfile(f"{path}-wal", f"{copy}-wal")
        base = sqlite3.connect(copy)
        try:
            texts = base.execute("SELECT body FROM cube WHERE k = 1").fetchall()
            ids = [id for (id,) in base.execute("SELECT id FROM fact ORDER BY id")]
        except sqlite3.Error as fault:
            raise Misuse(f"{path}: {fault}: no store can be read there; cube check tells more") from None
        finally:
            base.close()
    if not texts:
        raise Misuse(f"{path}: the store has no schema: cube init makes one")
    return texts[0][0], ids


# Files.


class Record(NamedTuple):
    line: int  # of the file, where it begins, counted from 1
    index: int  # among the records, the header being 0
    fields: list


def records_of(path, encoding="utf-8", delimiter=","):
    """The records of a file behind one byte order mark. An empty line is none. A byte that is no text stands as a lone surrogate."""
    csv.field_size_limit(sys.maxsize)
    name = "utf-8-sig" if encoding == "utf-8" else encoding
    try:
        with open(path, encoding=name, errors="surrogateescape", newline="") as file:
            rows = csv.reader((line.replace("\0", NUL) for line in file), delimiter=delimiter)
            line, index = 1, 0
            for row in rows:
                if row:
                    yield Record(line, index, [field.replace(NUL, "\0") for field in row])
                    index += 1
                line = rows.line_num + 1
    except OSError as fault:
        raise Misuse(f"{path}: {fault.strerror}") from None
    except (LookupError, UnicodeError) as fault:
        raise Misuse(f"{path}: it is not {encoding}: {fault}: name another --encoding") from None


def csv_line(fields, delimiter=","):
    """A record as a line of a file. Python's own writer leaves a CR without quotes."""
    special = ('"', "\r", "\n", delimiter)
    quoted = ['"' + field.replace('"', '""') + '"' if any(sign in field for sign in special) or fields == [""] else field for field in fields]
    return delimiter.join(quoted) + "\n"


def is_text(field):
    try:
        field.encode("utf-8")
    except UnicodeEncodeError:
        return False
    return True


def on_one_line(text):
    """The text with what cannot be printed, as a line end or a byte that is no text, spelled out."""
    return "".join(map(printable, text))


def printable(letter):
    if letter.isprintable():
        return letter
    return f"\\x{ord(letter) - 0xDC00:02x}" if "\udc80" <= letter <= "\udcff" else letter.encode("unicode_escape").decode()


def shown(text):
    return f'"{on_one_line(text)}"'


# Names.


def squeezed(text):
    """The text without spaces at its ends, and with one for each run of spaces and line ends within."""
    return " ".join(text.split())


def folded(text):
    """What is alike of names that differ in case, in spaces or in the form of their letters."""
    return squeezed(unicodedata.normalize("NFKC", text)).casefold()


def pairs_of(key):
    """The pairs of letters in a text."""
    return {key[at : at + 2] for at in range(max(len(key) - 1, 1))}


class Names:
    """The names of a dimension's nodes: which cells each has, and which are near to another name."""

    looked_for = 0

    def __init__(self, dim):
        self.leaves = {name: len(leaves) for name, leaves in zip(dim.names, dim.leaves_under)}
        self.texts = [text_of(name) for name in dim.names]
        self.by_fold, self.known, self.by_pair = {}, {}, {}
        for text in self.texts:
            self.by_fold.setdefault(folded(text), []).append(text)

    def only(self, text):
        """The one name that is alike but for case, spaces and form of letters, if there is one."""
        alike = self.by_fold.get(folded(text), [])
        return alike[0] if len(alike) == 1 else None

    def near(self, text):
        if text not in self.known:
            self.known[text] = self.look_for(folded(text))
        return self.known[text]

    def look_for(self, key):
        if key in self.by_fold:
            return self.by_fold[key][:NEAREST]
        Names.looked_for += 1
        near = difflib.get_close_matches(key, self.closer(key), NEAREST, 0.5) if key and Names.looked_for <= LOOKED_FOR else []
        return [name for fold in near for name in self.by_fold[fold]][:NEAREST]

    def closer(self, key):
        """The names that have the most pairs of letters with another: few of all, since to compare two names takes long."""
        if not self.by_pair:
            for fold in self.by_fold:
                for pair in pairs_of(fold):
                    self.by_pair.setdefault(pair, []).append(fold)
        shared = Counter()
        for names in sorted((self.by_pair.get(pair, []) for pair in pairs_of(key)), key=len):
            if shared and sum(shared.values()) + len(names) > COUNTED:
                break
            shared.update(names)
        most = max(shared.values(), default=0)
        return sorted((fold for fold in shared if shared[fold] >= most - 1), key=lambda fold: (-shared[fold], abs(len(fold) - len(key))))[:CLOSER]


# What refuses a record.


DATE = re.compile(r"\d{4}[-/.]\d{1,2}([-/.]\d{1,2})?([ T]\d\d:.*)?|\d{1,2}[-/.]\d{1,2}[-/.](\d\d){1,2}", re.A)
DECIMAL = re.compile(r"-?\d+\.\d+", re.A)
GROUPED = re.compile(r"\D{0,4}-?\d{1,3}([ ,.'\u00a0\u202f]\d{3})+([.,]\d+)?\D{0,4}|\D{1,4}\d+([.,]\d+)?|\d+([.,]\d+)?\D{1,4}|[+0]\d+|\d+,\d+", re.A)


def amiss_with_value(text, column, is_weight):
    """What is wrong with what is no value of a number measure, and what to do."""
    if text == "":
        return "a value is missing", f"--missing '{column}=VALUE'"
    if text != squeezed(text):
        return "spaces stand in it", "--trim"
    if DECIMAL.fullmatch(text):
        return "decimals, and values are whole numbers", f"--scale '{column}=100', where the schema's unit is a hundredth"
    if is_weight and text.startswith("-"):
        return "it is below 0, and cells weigh by it", f"--replace '{column}: {text}=VALUE'"
    if re.fullmatch(r"-?[1-9]\d{12,}", text, re.A):
        return "it is beyond 10^12", f"--replace '{column}: {text}=VALUE'"
    if GROUPED.fullmatch(text):
        return "a number is digits alone", f"--money '{column}'"
    return "no whole number", f"--replace '{column}: {text}=VALUE'"


class Judge:
    """Judges records one after another as `import` does: each over the facts of the store and those before it that are right."""

    def __init__(self, given):
        schema = given.schema
        self.schema, self.stored, self.lines = schema, set(given.ids), {}
        self.names = [Names(dim) for dim in schema.dimensions]
        self.header = [text_of(name) for name in plain_model.header_of(schema)]
        self.count = len(self.stored)

    def dimension_columns(self):
        return self.header[1 : 1 + len(self.names)]

    def header_fault(self, fields):
        """The fault of the first record, if it has one."""
        if fields == self.header:
            return None
        pairs = zip([*fields, *[None] * len(self.header)], [*self.header, *[None] * len(fields)])
        place, (found, wanted) = next((k, pair) for k, pair in enumerate(pairs, 1) if pair[0] != pair[1])
        what = f"column {place} is missing" if found is None else f"column {place} is one too many" if wanted is None else f"column {place} is not {shown(wanted)}"
        return Fault("header", wanted or "", found or "", what, f"the header must be {','.join(self.header)}")

    def faults(self, fields, line):
        """The faults of a record, in the order in which `import` looks for them. One without any is then taken as a fact."""
        if len(fields) != len(self.header):
            to_do = "put a field with a comma or a line end in double quotes"
            return [Fault("fields", "", ",".join(fields), f"{len(fields)} fields, and the header has {len(self.header)}", to_do)]
        found = list(self.text_faults(fields)) or self.field_faults(fields)
        return found or list(self.fact_faults(fields, line))

    def text_faults(self, fields):
        for name, field in zip(self.header, fields):
            if not is_text(field):
                yield Fault("text", name, field, "it is not UTF-8", "--encoding latin-1, or that of the file")

    def field_faults(self, fields):
        return [*self.id_faults(fields[0]), *self.node_faults(fields), *self.value_faults(fields)]

    def id_faults(self, text):
        if plain_model.number_in(1, plain_model.MAX_ID, bytes_of(text)) is None:
            yield Fault("id", self.header[0], text, "no number from 1 to 2^63 - 1, without 0 in front", "--number-ids")

    def node_faults(self, fields):
        for column, names, text in zip(self.dimension_columns(), self.names, fields[1:]):
            if bytes_of(text) not in names.leaves:
                yield self.node_fault(column, names, text)

    def node_fault(self, column, names, text):
        if text == "":
            return Fault("node", column, text, f"a node of {column} is missing", f"--missing '{column}=NAME'")
        if DATE.fullmatch(text.strip()):
            return Fault("node", column, text, f"no node of {column}, and it looks like a date", f"--date '{column}=FORMAT in YEAR to NODE'")
        near = names.near(text)
        what = f"no node of {column}" + (f"; nearest: {', '.join(near)}" if near else "")
        if names.only(text) is not None:
            return Fault("node", column, text, what, "--fold")
        return Fault("node", column, text, what, f"--replace '{column}: {text}={near[0] if near else 'NAME'}'")

    def value_faults(self, fields):
        """Those of number measures first, then those of distributions."""
        behind = [], []
        for k, (measure, text) in enumerate(zip(self.schema.measures, fields[1 + len(self.names) :])):
            is_weight, column = k == self.schema.weight_measure, text_of(measure.name)
            if plain_model.read_values(measure, bytes_of(text), is_weight) is not None:
                continue
            if measure.scale is None:
                behind[0].append(Fault("value", column, text, *amiss_with_value(text, column, is_weight)))
            else:
                what = f"no {measure.columns} numbers, joined by :, that add up to {measure.scale}"
                behind[1].append(Fault("parts", column, text, what, f"--replace '{column}: {text}=PARTS'"))
        return behind[0] + behind[1]

    def exists_faults(self, text):
        if int(text) in self.stored:
            to_do = "--number-ids, or tools/changes for an extract that goes over the last one"
            yield Fault("exists", self.header[0], text, "the store has a fact of this id", to_do)
        elif int(text) in self.lines:
            yield Fault("exists", self.header[0], text, f"the id stands in line {self.lines[int(text)]} too", "--number-ids, or drop one of the two")

    def fact_faults(self, fields, line):
        yield from (found := list(self.exists_faults(fields[0])))
        cells = prod(names.leaves[bytes_of(text)] for names, text in zip(self.names, fields[1:]))
        if found:
            return
        if cells > plain_model.MAX_CELLS:
            yield Fault("region", "", ",".join(fields[1 : 1 + len(self.names)]), f"{cells} cells, more than 2^20", "name a deeper node of a dimension")
        elif self.count >= plain_model.MAX_FACTS:
            yield Fault("facts", self.header[0], fields[0], "there are 2^20 facts before it", "put it into another store")
        else:
            self.lines[int(fields[0])] = line
            self.count += 1

    def all_faults(self, fields, line):
        """The faults of a record that has as many fields as the header, where all are to be told in one go. Its id then counts, whatever else is wrong."""
        no_text = list(self.text_faults(fields))
        wrong = self.field_faults(fields)
        if not wrong:
            return self.faults(fields, line)
        if wrong[0].code != "id":
            wrong += self.exists_faults(fields[0])
            self.lines.setdefault(int(fields[0]), line)
        return no_text + [fault for fault in wrong if fault.column not in {fault.column for fault in no_text}]

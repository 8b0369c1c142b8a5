#!/usr/bin/env python3
"""The plain model as a program: plain_program.py WORD.. <INPUT

It takes the words of `cube`, over stores in files, and answers as the program is to answer. So it can stand in the place of the program in
`tools/check_tutorial`, say. It is slow, holds its whole input, and knows nothing of faults of the outside: files that are no stores, say.
"""
import os
import sys

sys.dont_write_bytecode = True

import plain_drill
import plain_feed
import plain_model
import plain_store
from plain_model import FINISHED, FINISHED_WITH_REFUSALS, SCHEMA_REFUSED
from plain_store import Unsound, content_of, read_content, read_facts, read_store, write_content

NO_STORE, UNSOUND = 4, 5
BAD_RECORD, TOO_MANY_ROWS = 11, 12


class Ended(Exception):
    """The program ends with this status, and says this."""

    def __init__(self, status, said):
        super().__init__(status, said)
        self.status = status
        self.said = said


def opened(path, read=read_store):
    """What is read of the content of a store that is there."""
    content = read_content(path)
    if content is None:
        raise Ended(NO_STORE, "no cube")
    try:
        return read(content)
    except Unsound as unsound:
        raise Ended(UNSOUND, f"bad store: {unsound}") from None


def put(path, store, schema, facts):
    """Keeps what a store holds after edits and growths. Its text stays unless the schema is another one."""
    is_same = plain_model.schema_text(store.schema) == plain_model.schema_text(schema)
    write_content(path, content_of(schema, facts, store.text if is_same else None))


def init(path, text):
    if read_content(path) is not None:
        raise Ended(NO_STORE, "cube exists")
    try:
        schema = plain_store.read_text(text)
    except plain_model.SchemaFault as fault:
        raise Ended(SCHEMA_REFUSED, f"schema line {fault.line}: {fault.code}") from None
    write_content(path, content_of(schema, []))
    return b"ok\t0\n", FINISHED


def done(path, lines):
    """What is written for lines of a script over a store, and the status."""
    store = opened(path)
    replies, refusals, schema, facts = plain_model.do_lines(store.schema, store.facts, lines)
    put(path, store, schema, facts)
    return replies, FINISHED_WITH_REFUSALS if refusals else FINISHED


def import_file(path, file):
    store = opened(path)
    try:
        reply, facts = plain_model.import_file(store.schema, store.facts, file)
    except plain_model.BadRecord as bad:
        raise Ended(BAD_RECORD, f"record {bad.index}: {bad.code}") from None
    except plain_model.TooManyRows as many:
        raise Ended(TOO_MANY_ROWS, f"import would make {many.would} rows") from None
    put(path, store, store.schema, facts)
    return reply, FINISHED


def check(path):
    store = opened(path)
    rows = sum(len(lies.rows) for _, lies in plain_model.extended(store.schema, store.facts))
    return plain_model.reply_line(b"sound", len(store.facts), rows), FINISHED


def rebuild(path):
    """Puts the rows of a store right. An entry that is not as it is to be is one that is put, or dropped where no fact has its id."""
    content = read_content(path)
    schema, facts = opened(path, read_facts)
    wanted = content_of(schema, facts, content.text)
    ids = [id for id, *_ in wanted.rows]
    changed = sum(entry not in content.rows for entry in wanted.rows) + sum(id not in ids for id, *_ in content.rows)
    write_content(path, wanted)
    return plain_model.reply_line(b"rebuilt", len(facts), sum(len(body) for *_, body in wanted.rows), changed), FINISHED


def lead(path, lines):
    store = opened(path)
    feed, refusals, schema, facts = plain_feed.lead(store.schema, store.facts, lines)
    put(path, store, schema, facts)
    return plain_feed.text_of(feed), FINISHED_WITH_REFUSALS if refusals else FINISHED


def follow(path, feed):
    store = None if read_content(path) is None else opened(path)
    written, status, said, after = plain_feed.follow(store, feed)
    if after is not None:
        write_content(path, content_of(after.schema, after.facts, after.text))
    return written, status, said


def drill(text):
    line, refusals = plain_drill.drill(int(text))
    return line, FINISHED_WITH_REFUSALS if refusals else FINISHED


READING = {
    "init": init,
    "run": lambda path, text: done(path, plain_model.lines_of(text)),
    "import": import_file,
    "lead": lambda path, text: lead(path, plain_model.lines_of(text)),
    "follow": lambda path, text: follow(path, plain_model.lines_of(text)),
}
WRITING = {
    "check": check,
    "rebuild": rebuild,
    "export": lambda path: (plain_model.export_file(*opened(path)[1:]), FINISHED),
    "schema": lambda path: (plain_model.schema_text(opened(path).schema), FINISHED),
    "rows": lambda path: (plain_model.rows_file(*opened(path)[1:]), FINISHED),
}


def is_drill(words):
    return words[:1] == ["drill"] and len(words) == 2 and plain_model.number_in(1, plain_drill.MAX_DRILL, os.fsencode(words[1])) is not None


def reads(words):
    """Whether these words are those of a command that takes an input."""
    return words == ["try"] or (len(words) == 2 and words[0] in READING and words[1] != "")


def answer(words, text):
    """What is written, the status, and perhaps what is said."""
    if is_drill(words):
        return drill(words[1])
    if len(words) > 2 and words[0] == "ask" and words[1] != "":
        return done(words[1], [b"\t".join(map(os.fsencode, words[2:]))])
    if len(words) == 2 and words[0] in WRITING and words[1] != "":
        return WRITING[words[0]](words[1])
    return READING[words[0]](words[1], text) if len(words) == 2 and reads(words) else plain_model.run(words, text)


def run(words, text=b""):
    """What the program writes for the words of its command line and its input, its status, and its standard error."""
    try:
        written, status, *said = answer(words, text)
    except Ended as ended:
        return b"", ended.status, f"cube: {ended.said}\n".encode()
    return written, status, b"".join(said)


def main():
    words = sys.argv[1:]
    written, status, said = run(words, sys.stdin.buffer.read() if reads(words) else b"")
    sys.stdout.buffer.write(written)
    sys.stderr.buffer.write(said)
    return status


if __name__ == "__main__":
    sys.exit(main())

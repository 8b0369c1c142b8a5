"""Examples of feeds, and of what follows them, worked out by hand: plain_model_rows.py runs them"""
import plain_feed
import plain_model
from plain_row_schemas import BY_REPAIRS, CARS, ONE_CITY, QUALITY, REPAIRS, encoded, lines_in
from plain_table_rows import cube_of, is_same

# A base of cars with three precise facts has 27 lines: the head, the schema on lines 2 to 23, the facts, and the end.
FACTS = ["fact|1|Austin|Camry|100", "fact|2|Austin|Camry|300", "fact|3|Dallas|Camry|50"]
BASE = ["feed|1", *CARS, *FACTS, "based"]
# Fact 4 has two thirds in Austin and one in Dallas.
BATCH = lines_in("""
batch|1|insert|4|TX|Camry|600
rows|4|3|2
row|Austin|Camry|2
row|Dallas|Camry|1
done
""")
FEED = [*BASE, *BATCH]
FIRST = [line for line, _ in REPAIRS[:3]]  # the script that leads to the base

# A fact alone in its city, which is spread over two parts of it, and then goes where the first fact of them is. One growth moves
# cells: Accord comes between Civic and F150, so Dallas has other cells.
HOUSTON = ["insert|4|Houston|Camry|5", "grow|Place|Houston|East", "grow|Place|Houston|West", "insert|5|West|Camry|7"]
HOUSTON_BATCHES = lines_in("""
batch|1|insert|4|Houston|Camry|5
rows|4|1|1
row|Houston|Camry|1
done
batch|2|grow|Place|Houston|East
done
batch|3|grow|Place|Houston|West
rows|4|2|2
row|East|Camry|1
row|West|Camry|1
done
batch|4|insert|5|West|Camry|7
rows|4|1|1
row|West|Camry|1
rows|5|1|1
row|West|Camry|1
done
""")
ACCORD_BATCH = lines_in("""
batch|1|grow|Auto|Sedan|Accord
rows|3|1|1
row|Dallas|Camry|1
done
""")

# What `lead` writes: a schema, the script before, the script that is led, the feed behind the schema, and how many lines are refused.
LED = [
    ("one insert", CARS, FIRST, ["insert|4|TX|Camry|600"], [*FACTS, "based", *BATCH], 0),
    ("no line", CARS, FIRST, [], [*FACTS, "based"], 0),
    ("no fact and no line", CARS, [], [], ["based"], 0),
    ("what has no batch", CARS, FIRST, [
        *("", "# insert|4|TX|Camry|600", "count|TX|Camry", "avg|Repair|CA|All", "insert|4|Waco|Camry|1", "withdraw|4", "Insert", "grow|Place|TX|LA"),
        "insert|4|TX|Camry|600\r",
        "rows|4",
    ], [*FACTS, "based", *BATCH], 5),
    ("growths and what they move", CARS, FIRST, HOUSTON, [*FACTS, "based", *HOUSTON_BATCHES], 0),
    ("a growth that moves a cell alone", CARS, FIRST, ["grow|Auto|Sedan|Accord"], [*FACTS, "based", *ACCORD_BATCH], 0),
    ("edits that refresh nothing", CARS, FIRST, ["withdraw|3", "change|2|Austin|Camry|300"], [
        *FACTS,
        *("based", "batch|1|withdraw|3", "done", "batch|2|change|2|Austin|Camry|300", "done"),
    ], 0),
    ("distributions", QUALITY, ["insert|7|Austin|80:20"], ["insert|2|TX|50:50", "change|7|Dallas|0:100"], lines_in("""
fact|7|Austin|80:20
based
batch|1|insert|2|TX|50:50
rows|2|2|2
row|Austin|1
row|Dallas|1
done
batch|2|change|7|Dallas|0:100
rows|7|1|1
row|Dallas|1
done
"""), 0),
    ("weights by a measure", BY_REPAIRS, FIRST, ["insert|4|TX|Camry|600", "change|1|Austin|Camry|0"], [*FACTS, "based", *lines_in("""
batch|1|insert|4|TX|Camry|600
rows|4|450|2
row|Austin|Camry|400
row|Dallas|Camry|50
done
batch|2|change|1|Austin|Camry|0
rows|4|350|2
row|Austin|Camry|300
row|Dallas|Camry|50
done
""")], 0),
]


def with_line(number, *lines):
    """The feed with others in the place of a line."""
    return [*FEED[: number - 1], *lines, *FEED[number:]]


def with_batch(*lines):
    return [*BASE, *lines]


def with_facts(*lines):
    return ["feed|1", *CARS, *lines, "based", *BATCH]


# Ends: how many batches are applied, or None where not even the base is taken, then the status and what is said.
WHOLE = (1, 0, "")
BASED = (0, 0, "")


def bad(line, code, applied=0):
    return applied, 13, f"feed line {line}: {code}"


def bad_base(line, code):
    return bad(line, code, None)


def differs(number, line, applied=0):
    return applied, 16, f"batch {number} differs at line {line}"


# Feeds that are followed over nothing: a name, the lines, and the end.
FOLLOWED = [
    ("whole", FEED, WHOLE),
    ("the base alone", BASE, BASED),
    ("batch 2 for 1", with_line(28, "batch|2|insert|4|TX|Camry|600"), (0, 14, "batch 2 where 1 is next")),
    ("batch 0 for 1", with_line(28, "batch|0|insert|4|TX|Camry|600"), (0, 14, "batch 0 where 1 is next")),
    ("the greatest number", with_line(28, "batch|18446744073709551615|x"), (0, 14, "batch 18446744073709551615 where 1 is next")),
    ("a number above the greatest", with_line(28, "batch|18446744073709551616|x"), bad(28, "number")),
    ("another weight", with_line(30, "row|Austin|Camry|3"), differs(1, 30)),
    ("cut before done", FEED[:31], bad(32, "cut")),
    ("cut behind the line of the batch", FEED[:28], bad(29, "cut")),
    ("cut before based", FEED[:26], bad_base(27, "cut")),
    ("a remark before the schema", with_line(1, "feed|1", "# of today"), WHOLE),
    ("a final CR in the schema", with_line(2, "cube|1\r"), WHOLE),
    ("an empty line in the schema", with_line(3, "policy|count", "", "\r"), WHOLE),
    ("a remark for the rest", with_line(28, "batch|1|#x"), bad(28, "command")),
    ("nothing for the rest", with_line(28, "batch|1|"), bad(28, "command")),
    ("a question", with_line(28, "batch|1|count|TX|All"), bad(28, "command")),
    ("a word in capitals", with_line(28, "batch|1|Insert|4|TX|Camry|600"), bad(28, "command")),
    ("no rest", with_line(28, "batch|1"), bad(28, "fields")),
    ("a batch in the base", with_line(27, "batch|1"), bad_base(27, "order")),
    ("order before fields", with_line(27, "batch"), bad_base(27, "order")),
    ("number before order", with_line(28, "batch|01|insert"), bad(28, "number")),
    ("no number", with_line(28, "batch||insert"), bad(28, "number")),
    ("order before command", with_line(28, "batch|2|x"), (0, 14, "batch 2 where 1 is next")),
    ("a rest too short", with_line(28, "batch|1|insert"), bad(28, "fields")),
    ("an id that is there", with_line(28, "batch|1|insert|3|TX|Camry|600"), bad(28, "exists")),
    ("no such fact", with_line(28, "batch|1|withdraw|4"), bad(28, "missing")),
    ("no such node", with_line(28, "batch|1|insert|4|Waco|Camry|600"), bad(28, "node")),
    ("no such value", with_line(28, "batch|1|insert|4|TX|Camry|+5"), bad(28, "value")),
    ("a leaf that is there", with_line(28, "batch|1|grow|Place|TX|Austin"), bad(28, "name")),
    ("a descent in the base", with_facts(FACTS[1], FACTS[0]), bad_base(25, "exists")),
    ("an id twice in the base", with_facts(FACTS[1], FACTS[1]), bad_base(25, "exists")),
    ("a fact of no node", with_facts("fact|1|Waco|Camry|1"), bad_base(24, "node")),
    ("a fact of id 0", with_facts("fact|0|Austin|Camry|1"), bad_base(24, "id")),
    ("a fact of too few fields", with_facts("fact|1|Austin|Camry"), bad_base(24, "fields")),
    ("based with a field more", with_line(27, "based|"), bad_base(27, "fields")),
    ("junk in the schema", with_line(2, "cube|1", "junk"), bad_base(3, "order")),
    ("junk and no end", ["feed|1", "cube|1", "junk"], bad_base(3, "order")),
    ("no end", FEED[:22], bad_base(23, "cut")),
    ("no end before the facts", FEED[:22] + FEED[23:], bad_base(23, "order")),
    ("no input", [], bad_base(1, "cut")),
    ("another version", with_line(1, "feed|2"), bad_base(1, "number")),
    ("no version", with_line(1, "feed"), bad_base(1, "fields")),
    ("no head", FEED[1:], bad_base(1, "order")),
    ("a remark before the head", ["# of today", *FEED], bad_base(1, "order")),
    ("the head with CR", with_line(1, "feed|1\r"), bad_base(1, "text")),
    ("an empty line among facts", with_facts("", *FACTS), bad_base(24, "order")),
    ("a remark among facts", with_facts(FACTS[0], "# more", *FACTS[1:]), bad_base(25, "order")),
    ("a CR among facts", with_facts(FACTS[0] + "\r"), bad_base(24, "text")),
    ("a long line among facts", with_facts("#" + "x" * 4096), bad_base(24, "long")),
    ("long before text", with_facts("\udcff" * 4097), bad_base(24, "long")),
    ("an empty line behind the base", with_line(28, "", BATCH[0]), bad(28, "order")),
    ("done behind the base", with_line(28, "done"), bad(28, "order")),
    ("an empty line behind a batch", [*FEED, ""], bad(33, "order", 1)),
    ("the same batch again", [*FEED, *BATCH], (1, 14, "batch 1 where 2 is next")),
    ("a batch behind one is refused", [*FEED, "batch|2|insert|4|TX|Camry|600"], bad(33, "exists", 1)),
    ("a row more", with_line(32, "row|Houston|Camry|1", "done"), differs(1, 32)),
    ("a row fewer", FEED[:30] + FEED[31:], differs(1, 31)),
    ("no row", FEED[:28] + FEED[31:], differs(1, 29)),
    ("rows in another order", FEED[:29] + [FEED[30], FEED[29], FEED[31]], differs(1, 30)),
    ("a batch before done", with_line(32, "batch|2|withdraw|4", "done"), differs(1, 32)),
    ("a remark within a batch", with_line(30, "# more"), differs(1, 30)),
    ("a CR within a batch", with_line(32, "done\r"), bad(32, "text")),
    ("a long line within a batch", with_line(32, "x" * 4097), bad(32, "long")),
    ("done with a field more", with_line(32, "done|"), differs(1, 32)),
    ("edits that refresh nothing", with_batch("batch|1|withdraw|3", "done", "batch|2|change|2|Austin|Camry|300", "done"), (2, 0, "")),
    ("a growth that moves a cell alone", with_batch(*ACCORD_BATCH), WHOLE),
    ("its row is left out", with_batch(ACCORD_BATCH[0], "done"), differs(1, 29)),
    ("growths", with_batch(*HOUSTON_BATCHES), (4, 0, "")),
    ("growths cut at the third", with_batch(*HOUSTON_BATCHES[:8]), bad(36, "cut", 2)),
]

# The same, with small limits.
LIMITED = [
    ("too many rows in the base", with_facts("fact|1|TX|Camry|1", "fact|2|TX|Camry|1", "fact|3|Austin|Sedan|1"), bad_base(27, "rows")),
    ("a region too large in the base", with_facts("fact|1|All|Sedan|1"), bad_base(24, "region")),
    ("too many facts in the base", with_facts(*FACTS, "fact|4|Dallas|Camry|0"), bad_base(27, "facts")),
    ("too many facts", FEED, bad(28, "facts")),
    ("too many rows", ["feed|1", *CARS, "fact|1|TX|Camry|1", "fact|2|TX|Camry|1", "based", "batch|1|insert|3|Austin|Sedan|1"], bad(27, "rows")),
]

OTHER_BASE = (None, 15, "base differs")
# Feeds over a store: a name, its schema and script, the feed, and the end. None applied: the store stays as it was.
OVER_STORES = [
    ("the leader's start", CARS, FIRST, FEED, WHOLE),
    ("the base alone", CARS, FIRST, BASE, BASED),
    ("another value", CARS, ["insert|1|Austin|Camry|100", "insert|2|Austin|Camry|301", FIRST[2]], FEED, OTHER_BASE),
    ("a fact fewer", CARS, FIRST[:2], FEED, OTHER_BASE),
    ("a fact more", CARS, [*FIRST, "insert|9|LA|F150|0"], FEED, OTHER_BASE),
    ("what the feed left", CARS, [*FIRST, "insert|4|TX|Camry|600"], FEED, OTHER_BASE),
    ("another schema", ONE_CITY, [], FEED, OTHER_BASE),
    ("another policy", BY_REPAIRS, FIRST, FEED, OTHER_BASE),
    ("a leaf more", CARS, [*FIRST, "grow|Place|TX|Waco"], FEED, OTHER_BASE),
    ("a bad base of another schema", ONE_CITY, [], with_line(27, "based|"), bad_base(27, "fields")),
    ("a bad batch behind another base", CARS, [], with_line(28, "batch|2|x"), OTHER_BASE),
    ("a script that leads to the same facts", CARS, [*FIRST, "insert|4|LA|F150|0", "withdraw|4"], FEED, WHOLE),
]


def store_of(schema, script):
    later, facts = cube_of(schema, script)
    return plain_feed.Store(plain_model.schema_text(later), later, facts)


def lead_holds(name, schema, before, script, wanted, refused):
    later, facts = cube_of(schema, before)
    feed, refusals, *_ = plain_feed.lead(later, facts, plain_model.lines_of(encoded(script)))
    return is_same(name, (plain_feed.text_of(feed), refusals), (encoded(["feed|1", *schema, *wanted]), refused))


def kept(store):
    """What a store holds, as the base of a feed tells it."""
    return None if store is None else plain_feed.base_lines(store.schema, store.facts)


def script_of(feed, applied):
    """The lines that lead to the store after so many batches of a feed of cars: an insert for each fact of the base, then the edits."""
    batches = [line for line in feed if line.startswith("batch|")][:applied]
    return [line.replace("fact|", "insert|") for line in feed if line.startswith("fact|")] + [line.split("|", 2)[2] for line in batches]


def follow_holds(name, store, feed, end):
    applied, status, said = end
    *found, after = plain_feed.follow(store, plain_model.lines_of(encoded(feed)))
    wanted = store if applied is None else store_of(CARS, script_of(feed, applied))
    written = encoded([f"applied|{number}" for number in range(1, (applied or 0) + 1)])
    said = encoded([f"cube: {said}"] if said else [])
    return is_same(name, (*found, kept(after)), (written, status, said, kept(wanted)))


def without_last_end():
    """No LF stands behind the last line."""
    feed = plain_model.lines_of(encoded(FEED).removesuffix(b"\n"))
    return is_same("no last LF", plain_feed.follow(None, feed)[:3], (b"applied\t1\n", 0, b""))


def own_text_stays():
    """A store keeps its text, where it is not as it would be written, until it grows. Bus gives Dallas another cell."""
    store = store_of(CARS, FIRST)._replace(text=b"# by hand\n" + encoded(CARS))
    grown = with_batch("batch|1|grow|Auto|Truck|Bus", "rows|3|1|1", "row|Dallas|Camry|1", "done")
    texts = [plain_feed.follow(store, plain_model.lines_of(encoded(feed)))[3].text for feed in (FEED, grown)]
    return is_same("the text of a store", texts, [store.text, encoded([*CARS[:-2], "node|2|Bus", *CARS[-2:]])])


def held():
    """For each example of a feed whether it holds."""
    led = [lead_holds(*row) for row in LED]
    followed = [follow_holds(name, None, *row) for name, *row in FOLLOWED]
    over = [follow_holds(name, store_of(schema, script), *row) for name, schema, script, *row in OVER_STORES]
    return led + followed + over + [without_last_end(), own_text_stays()]


def limited():
    """The same of feeds that meet limits, which are to be small ones."""
    return [follow_holds(name, None, *row) for name, *row in LIMITED]

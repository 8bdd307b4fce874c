"""What each program of the gate must print, made by the model. A generator gives the whole text; its inputs are those that the
program's source names, or the crate's stdin or data."""
from functools import cache
from pathlib import Path

import fips
import mastdock as md
from mastdock import sha

ROOT = Path(__file__).resolve().parents[2]
BIG = 2**64 - 1
tree = cache(md.Tree)


def crate(name):
    return ROOT / "crates" / name


def fields(path):
    """The lines of a file that are no comment, as fields."""
    return [line.split(" ") for line in path.read_text().split("\n") if line and not line.startswith("#")]


def lines(name, file="stdin"):
    """Those of a crate's standard input, or of another file of it."""
    return fields(crate(name) / file)


def shared(name):
    """Those of a file of shared vectors."""
    return fields(ROOT / "rust/tests/vectors" / name)


def report(field):
    return b"" if field == "-" else bytes.fromhex(field)


def flag(same):
    return " same" if same else " changed"


def places_digest(places):
    return sha(b"".join(place.to_bytes(8, "big") for place in places)).hex()


# unit_vectors


def digests():
    named = [
        ("the empty message", b""),
        ("abc", b"abc"),
        ("448 bits", b"abcdbcdecdefdefgefghfghighijhijkijkljklmklmnlmnomnopnopq"),
        ("896 bits", b"".join(bytes(range(c, c + 8)) for c in range(97, 111))),
        ("one million letters a", b"a" * 1000000),
    ]
    for length in [*range(131), 183, 184, 185, 247, 248, 249, 1321]:
        named.append((str(length), bytes((7 * i + length) % 256 for i in range(length))))
    text = ""
    for name, message in named:
        end = f"{sha(message).hex()} blocks {md.blocks(len(message))}"
        text += f"{name}\n one portion {end}\n cut {end}\n one call {end}\n"
    limit = fips.LIMIT
    for taken, part in [(limit - 3, b"abc"), (limit - 2, b"abc"), (limit, b""), (limit, b"a"), (limit + 1, b""), (BIG, b"abc")]:
        state = fips.State(taken=taken)
        refusal = state.update(part)
        end, cost, digest = state.finish()
        text += f"{taken} portion {refusal} taken {state.taken} end {end} {digest.hex()} blocks {cost}\n"
    return text


RUNS = """1 0 0|2 1 0|3 3 3|4 3 3|5 1 0|6 3 0|7 6 6|8 0 7|9 4 3|10 9 1|11 5 0|12 0 0|13 10 8|14 0 14|15 12 6|16 13 0"""


# W-206: those of edition 2, at the memory levels of its shared roots
RUNS_2 = """1 1 1|2 2 0|3 0 3|4 2 3|5 3 5|6 1 0|7 7 5|8 7 8|9 5 5|10 5 8|11 1 3|12 0 5|13 10 8|14 2 11"""


def run_lines(edition, statement, n, m):
    labels = tree(edition, statement, n)
    held = labels.root + bytes(1280)
    end = f" made {2 ** (n + 1) - 1} root {labels.root.hex()} held {sha(held).hex()} store {sha(labels.store(m)).hex()} behind 90\n"
    return f"edition {edition} depth {n} memory {m}\n" + "".join(f"budget {budget}{end}" for budget in (1000000, 1000, 1))


def runs():
    text = ""
    for edition, entry in [(1, entry) for entry in RUNS.split("|")] + [(2, entry) for entry in RUNS_2.split("|")]:
        n, *levels = map(int, entry.split())
        for words, m in zip((b"", b"hull %d" % n), levels):
            text += "".join(run_lines(edition, sha(words), n, level) for level in (m, 0, min(n, md.MAX_MEMORY)))
    return text


# W-209: depths and levels about 14, with a store for every level, one a byte short of it, and one a byte short of level 13's
LEVELS = [(n, m, size) for n in (13, 14, 15, 40) for m in (13, 14, 15, 20, 21) for size in (1048544, 1048543, 524255)]

# W-206: editions that exist or not
EDITIONS = [0, 1, 2, 3, 2**32 + 2, BIG]


def with_editions(edges, edition_edges):
    """Edges of edition 2, and then some of every edition."""
    return [(2, *edge) for edge in edges] + [(edition, *edge) for edition in EDITIONS for edge in edition_edges]


RUN_EDGES = [
    (0, 0, 0, 32), (1, 0, 0, 32), (40, 0, 0, 32), (41, 0, 0, 32), (BIG, 0, 0, 32), (3, 3, 0, 480), (3, 4, 0, 992), (3, 1, 0, 96),
    (3, 1, 0, 95), (3, 1, 14, 96), (3, 1, 15, 96), (3, 1, 15, 95), (3, 1, 16, 96), (3, 1, 16, 95), (3, 1, BIG, 96), (41, 42, BIG, 0),
] + [(n, m, 0, size) for n, m, size in LEVELS]
RUN_EDITION_EDGES = [(3, 1, 14, 96), (3, 1, 14, 95), (3, 1, 16, 95)]


def run_edges():
    text = ""
    for edition, n, m, made, size in with_editions(RUN_EDGES, RUN_EDITION_EDGES):
        store = bytearray([90] * size)
        before = sha(store)
        refusal, run = md.start_run(bytes([7] * 32), n, m, size)
        text += f"edition {edition} n {n} m {m} made {made} store {size}: start {refusal} run {sha(run.bytes()).hex()} store {before.hex()} same"
        run = md.Run(edition, bytes([7] * 32), n, m, made, bytes([9] * 1312))
        old = run.bytes()
        refusal, labels, cost = run.advance(1, store)
        text += f" continue {refusal} labels {labels} blocks {cost} run {sha(run.bytes()).hex()}{flag(run.bytes() == old)}"
        text += f" store {sha(store).hex()}{flag(sha(store) == before)}\n"
    return text


def opened(labels, m, leaf, size):
    """An opening over bytes that held something else: by the machine, which must give the definition's."""
    out = bytearray([90] * size)
    store = bytearray(labels.store(m))
    refusal, opening = md.start_opening(labels.edition, labels.statement, labels.n, m, leaf, store, out)
    refusal, made, _ = opening.advance(BIG, store, out)
    assert out[: md.opening_size(labels.n)] == labels.opening(leaf) and made == md.nodes_anew(labels.n, m)
    return bytes(out), made


OPENING_EDGES = [
    (0, 0, 0, 0, 32, 64), (41, 0, 0, 0, 32, 1313), (40, 0, 2**40 - 1, 0, 32, 1312), (40, 0, 2**40, 0, 32, 1312),
    (40, 0, 0, 0, 32, 1311), (3, 3, 7, 0, 480, 128), (3, 4, 7, 0, 992, 128), (3, 3, 7, 1, 480, 128), (3, 1, 7, 0, 95, 128),
    (3, 1, 8, 0, 96, 128), (3, 1, 8, 0, 96, 127), (3, 1, 7, 0, 96, 127), (3, 1, 7, 5, 96, 128), (3, 1, 7, 6, 96, 128),
    (3, 1, 7, 7, 96, 128), (3, 1, 7, 7, 95, 127), (BIG, BIG, BIG, BIG, 0, 0),
] + [(n, m, 0, 0, size, 1312) for n, m, size in LEVELS]
OPENING_EDITION_EDGES = [(3, 1, 7, 0, 96, 128), (3, 1, 7, 0, 95, 127), (41, 42, 8, 7, 0, 0)]


def openings():
    text = ""
    for edition in md.EDITIONS:
        for n in range(1, 7):
            labels = tree(edition, sha(b"openings"), n)
            for m in range(n + 1):
                made = [opened(labels, m, leaf, 1313) for leaf in range(2**n)]
                digest = sha(b"".join(out + count.to_bytes(8, "big") for out, count in made)).hex()
                text += f"edition {edition} depth {n} memory {m} {digest} {digest} {digest}\n"
    for edition, n, m, leaf, made, store_len, out_len in with_editions(OPENING_EDGES, OPENING_EDITION_EDGES):
        store, out = bytearray([1] * store_len), bytearray([2] * out_len)
        refusal, _ = md.start_opening(edition, bytes([7] * 32), n, m, leaf, store, out)
        text += f"{edition} {n} {m} {leaf} {made} {store_len} {out_len}: start {refusal}{flag(out == bytes([2] * out_len))}"
        out = bytearray([2] * out_len)
        opening = md.Opening(edition, bytes([7] * 32), n, m, leaf, made, bytes([9] * 1312))
        refusal, labels, cost = opening.advance(1, store, out)
        text += f" continue {refusal} labels {labels} blocks {cost}{flag(out == bytes([2] * out_len))}\n"
    return text


def flipped(data, at, mask):
    return data[:at] + bytes([data[at] ^ mask]) + data[at + 1 :]


def leaf_checked(labels, m, leaf):
    """A leaf's opening as it is, a byte short, a byte more, for another leaf, with another root, by the other edition, by none, and changed."""
    edition, statement, n, root, size = labels.edition, labels.statement, labels.n, labels.root, md.opening_size(labels.n)
    out, _ = opened(labels, m, leaf, 1313)
    tries = [(edition, leaf, root, out[:length]) for length in (size, size - 1, size + 1)]
    tries += [(edition, leaf ^ 1, root, out[:size]), (edition, leaf, statement, out[:size])]
    tries += [(other, leaf, root, out[:size]) for other in (3 - edition, 3)]
    answers = [md.check_opening(e, statement, n, l, r, o) for e, l, r, o in tries]
    changed = [md.check_opening(edition, statement, n, leaf, root, flipped(out, at, 4)[:size]) for at in range(5, size, 33)]
    return f"leaf {leaf} {' '.join(map(str, answers))} changed {' '.join(map(str, changed))}\n"


def openings_checked():
    text = ""
    for edition in md.EDITIONS:
        for n in range(1, 7):
            labels = tree(edition, sha(b"openings"), n)
            for m in range(n + 1):
                text += f"edition {edition} depth {n} memory {m}\n" + "".join(leaf_checked(labels, m, leaf) for leaf in range(2**n))
    return text


# W-207: how many numbers of a line of blocks.txt are given; the others are answered
GIVEN = {"m": 1, "r": 3, "o": 5}


def block_numbers(kind, *given):
    """W-207: the blocks of a message; or the labels and blocks of a call on a run or an opening that was brought to some labels made."""
    if kind == "m":
        refusal, cost, _ = fips.State(taken=given[0]).finish()
        assert refusal == 0 and cost == md.blocks(given[0])
        return (cost,)
    *state, made, budget = given
    if kind == "r":
        lent, called = [bytearray(32)], md.Run(md.NEW_EDITION, bytes([9] * 32), *state, 0)
    else:
        n, m, leaf = state
        lent = [bytearray(md.store_size(m)), bytearray(md.opening_size(n))]
        _, called = md.start_opening(md.NEW_EDITION, bytes([9] * 32), n, m, leaf, *lent)
    called.advance(made, *lent)
    refusal, labels, cost = called.advance(budget, *lent)
    assert refusal == 0 and called.made == made + labels
    return labels, cost


def blocks():
    """Of blocks.txt all but the message that no memory holds, whose end is among those of `digests`."""
    text = ""
    for kind, *numbers in shared("blocks.txt"):
        given = list(map(int, numbers[: GIVEN[kind]]))
        if given != [fips.LIMIT]:
            text += " ".join(map(str, (kind, *given, *block_numbers(kind, *given)))) + "\n"
    return text


def unit_vectors():
    return digests() + runs() + run_edges() + openings() + openings_checked() + blocks()


# record_vectors


def wrote(run, size):
    """The line of a record written over so many bytes that held something else, the record's size and the bytes afterwards."""
    out = bytearray([90] * size)
    refusal, count = md.write_record(run, out)
    return f"{run.edition} {run.n} {run.m} {run.made} {size} {refusal} {count} {sha(out).hex()}", count, out


def record_line(run):
    """A run's record, and the run that it gives."""
    text, size, out = wrote(run, 1353)
    refusal, back = md.read_record(out[:size])
    return f"{text} {refusal} {back.edition} {back.n} {back.m} {back.made} {sha(back.statement).hex()} {sha(back.held).hex()}\n"


def by_hand(edition, n, m, made):
    return md.Run(edition, bytes([201] * 32), n, m, made, bytes(i % 251 for i in range(1312)))


RECORD_EDGES = [
    (0, 0, 0, 36), (41, 0, 0, 36), (BIG, 0, 0, 36), (3, 3, 0, 36), (3, 4, 0, 36), (13, 14, 0, 36), (14, 14, 0, 36), (40, 15, 0, 36),
    (40, 20, 0, 36), (3, 1, 14, 100), (3, 1, 15, 68), (3, 1, 16, 68), (3, 1, BIG, 68), (40, 14, 2**41 - 41, 1353),
    (40, 14, 2**41 - 1, 73), (40, 14, 2**41, 73),
]


def record_edge(run, enough):
    """No room, one byte less than the record takes, just enough, and more."""
    return "".join(wrote(run, size)[0] + "\n" for size in (0, enough - 1, enough, 1353))


def records_written(edition):
    text = ""
    for n in range(1, 5):
        run, store = md.Run(edition, sha(b"hull"), n, min(n, 2)), bytearray(224)
        for _ in range(2 ** (n + 1)):
            text += record_line(run)
            run.advance(1, store)
    for made in (0, 1, 2**41 - 41, 2**41 - 2, 2**41 - 1):
        text += record_line(by_hand(edition, 40, 14, made))
    return text + "".join(record_edge(by_hand(edition, n, m, made), enough) for n, m, made, enough in RECORD_EDGES)


def no_edition():
    return "".join(record_edge(by_hand(edition, 3, 1, 14), 101 if edition == 128 else 100) for edition in (0, 3, 128, 2**32 + 2, BIG))


def pauses(edition):
    """By the definition: what a run that was never paused has at its end."""
    text = ""
    for n, level in enumerate((0, 1, 3, 3, 1, 3, 6, 0), 1):
        labels = tree(edition, sha(b""), n)
        for m in (level, 0 if level == n else n):
            text += f"{edition} {n} {m} {2 ** (n + 1) - 1} {labels.root.hex()} {sha(labels.store(m)).hex()}\n"
    return text


def in_groups(x, count):
    """A number in so many groups, whether it needs them or not."""
    return bytes(x // 128**i % 128 + (128 if i + 1 < count else 0) for i in range(count))


def numbers_line(form, *numbers):
    """A digit of the form is the number of groups more than one of a number; the answers are for several lengths of the rest."""
    data = b"".join(in_groups(x, 1 + int(digit)) for digit, x in zip(f"{form:04}", numbers))
    answers = [md.read_record(data + bytes([90] * rest))[0] for rest in (0, 31, 32, 33, 64, 96)]
    return " ".join(map(str, (form, *numbers, *answers))) + "\n"


# W-206: a form with numbers of which the first is the edition
EDITION_NUMBERS = [
    (0, 0, 40, 14, 0), (0, 1, 40, 14, 0), (0, 2, 40, 14, 0), (0, 3, 40, 14, 0), (0, 3, 41, 99, 99), (0, 127, 40, 14, 0),
    (1000, 1, 40, 14, 0), (1000, 2, 40, 14, 0), (1000, 128, 40, 14, 0), (1000, 130, 40, 14, 0), (1000, 200, 0, 99, 99),
    (1003, 200, 0, 99, 0),
]
# the same without the edition, which is each that exists
NUMBERS = [
    (0, 0, 0, 0), (0, 41, 0, 0), (0, 127, 0, 0), (100, 128, 0, 0), (1, 0, 0, 0), (0, 40, 13, 0), (0, 40, 14, 0),
    (0, 40, 15, 0), (0, 40, 20, 0), (0, 40, 21, 0), (0, 13, 14, 0), (10, 40, 128, 0),
    (0, 3, 1, 1), (0, 3, 1, 2), (0, 3, 1, 14), (0, 3, 1, 15), (0, 3, 1, 16), (1, 3, 1, 128), (1, 40, 14, 128),
    (4, 40, 14, 2**35 - 1), (5, 40, 14, 2**35 - 1), (5, 40, 14, 2**41 - 2), (5, 40, 14, 2**41 - 1), (5, 40, 14, 2**41),
    (5, 40, 14, 2**42 - 1), (6, 40, 14, 2**41 - 1), (6, 40, 14, 2**42), (9, 40, 14, 0),
]


def records_read(edition):
    text = ""
    for n, m, made in ((1, 0, 0), (3, 2, 9), (40, 14, 2**41 - 1)):
        data = md.record(by_hand(edition, n, m, made))
        longer = data + bytes([90] * 140)
        answers = [md.read_record(longer[:size])[0] for size in range(140)]
        text += " ".join(map(str, (len(data), *answers))) + "\n"
    for numbers in ((edition, 3, 1, 15), (edition, 41, 99, 99)):
        text += "".join(numbers_line(place * more, *numbers) for more in (1, 2, 3) for place in (1000, 100, 10, 1))
    return text + "".join(numbers_line(form, edition, *numbers) for form, *numbers in NUMBERS)


def record_vectors():
    written, paused, read = ("".join(map(part, md.EDITIONS)) for part in (records_written, pauses, records_read))
    return written + no_edition() + paused + read + "".join(numbers_line(*line) for line in EDITION_NUMBERS)


# turn_vectors


def numbers_of(field):
    """A field of units.txt and units-refused.txt: `:` parts the numbers of one thing, `,` the things; `-` if there are none."""
    return [] if field == "-" else [tuple(map(int, part.split(":"))) for part in field.split(",")]


def given_unit(numbers):
    """Of a line of the program's input: the unit, the bytes lent and the budgets. A run that has made labels has something in every place."""
    count, last, size, calls, *rest = numbers
    budgets, rest = rest[:calls], rest[calls:] + [0] * (4 * md.MAX_RUNS)
    runs = []
    for place in range(1, md.MAX_RUNS + 1):
        edition, n, m, made = rest[4 * place - 4 : 4 * place]
        held = bytes([9 if made else 0] * 1312)
        runs.append(md.Run(edition, sha(place.to_bytes(8, "big")), n, m, made, held))
    return md.Unit(count, last, runs), size, budgets


def alone(unit, size, after, store):
    """W-208: 'Each run's root and store are those it would have alone', 'one refusal changes nothing in any', and no other byte changes."""
    refused, at = unit.row(size), 0
    for name, (run, now) in enumerate(zip(unit.runs, after.runs), 1):
        if not refused and name <= unit.count:
            own = bytearray([90] * md.store_size(run.m))
            run.advance(now.made - run.made, own)
            assert store[at : at + len(own)] == own
            at += len(own)
        assert run.bytes() == now.bytes()
    assert store[at:] == bytes([90] * (size - at)) and after.count == unit.count
    assert not refused or after.last == unit.last


def turn_line(numbers):
    unit, size, budgets = given_unit(numbers)
    text, store = f"unit {unit.count} {unit.last} {size}\n", bytearray([90] * size)
    for budget in budgets:
        refusal, labels, cost = unit.advance(budget, store)
        answer = (budget, refusal, labels, cost, unit.last, *(run.made for run in unit.runs))
        text += "budget " + " ".join(map(str, answer)) + "\n"
    alone(*given_unit(numbers)[:2], unit, store)
    places = [place for name in [*range(10), 2**32 + 1, BIG] for place in unit.store_place(name, size)]
    return text + f"places {' '.join(map(str, places))} {sha(unit.bytes()).hex()} {sha(store).hex()}\n"


def has_shared(given):
    """Whether all lines of units.txt and units-refused.txt are among the program's, in editions of its own choice; of nine runs eight."""
    mine = [(unit.count, unit.last, budgets, size, [(r.n, r.m, r.made) for r in unit.runs]) for unit, size, budgets in map(given_unit, given)]
    none = [(0, 0, 0)] * md.MAX_RUNS
    for runs, last, calls, _ in shared("units.txt"):
        runs, budgets = [(n, m, 0) for n, m in numbers_of(runs)], [call[0] for call in numbers_of(calls)]
        size = sum(md.store_size(m) for _, m, _ in runs)
        if (len(runs), int(last), budgets, size + 5, (runs + none)[: md.MAX_RUNS]) not in mine:
            return False
    for runs, last, size, _ in shared("units-refused.txt"):
        runs = numbers_of(runs)
        if (len(runs), int(last), [5], int(size), (runs + none)[: md.MAX_RUNS]) not in mine:
            return False
    return True


def turn_vectors():
    given = [list(map(int, line)) for line in lines("turn_vectors")]
    assert has_shared(given)
    return "".join(map(turn_line, given))


# file_vectors


def written(labels, m, t, budget):
    """A file written by budgets over bytes that held something else: calls, labels, their blocks, and bytes."""
    file, store, calls, made, cost = bytearray([90] * 1024), bytearray(labels.store(m)), 0, 0, 0
    refusal, writing = md.start_writing(labels.edition, labels.statement, labels.root, labels.n, m, t, store, file)
    while (step := writing.advance(budget, store, file))[1]:
        calls, made, cost = calls + 1, made + step[1], cost + step[2]
    assert file[: md.file_size(labels.n, t)] == labels.file(t)
    return refusal, calls, made, cost, bytes(file)


def shared_files(edition):
    """Those of edition 1 are the program's standard input, those of edition 2 its data."""
    return lines("file_vectors", "stdin" if edition == 1 else "data/files-2")


def files(edition):
    text = ""
    for field, depth, count, file in shared_files(edition):
        labels, n, t, file = tree(edition, sha(report(field)), int(depth)), int(depth), int(count), bytes.fromhex(file)
        for m in (0, n // 2, n):
            text += f"file {edition} {n} {t} {m}"
            for budget in (1, 7, BIG):
                refusal, calls, made, cost, out = written(labels, m, t, budget)
                code = md.check_code(out[: len(file)], labels.statement, n, t)
                text += f" start {refusal} {calls} {made} {cost} {sha(out).hex()} {code}"
            text += "\n"
        for i in [0, BIG, *range(t, 0, -1), t + 1]:
            part = md.opening_part(file, i)
            text += f"part {i} {len(part)} {sha(part).hex()}\n"
    return text


FILE_EDGES = [
    (0, 0, 1, 1, 0, 0, 32, 131), (41, 0, 1, 1, 0, 0, 32, 1024), (BIG, BIG, 0, 0, 0, 0, 0, 0), (3, 4, 1, 1, 0, 0, 992, 1024),
    (3, 3, 1, 1, 7, 0, 479, 1024), (3, 3, 1, 1, 7, 0, 480, 194), (3, 3, 1, 1, 7, 0, 480, 195), (3, 3, 0, 1, 7, 0, 480, 1024),
    (3, 3, 201, 1, 7, 0, 480, 1024), (3, 3, 0, 1, 7, 0, 479, 0), (3, 3, 0, 1, 7, 0, 480, 0), (40, 0, 1, 1, 0, 0, 32, 1024),
    (1, 0, 1, 1, 0, 0, 32, 131), (1, 0, 1, 1, 0, 0, 32, 130), (1, 0, 1, 1, 0, 0, 31, 130), (3, 1, 2, 1, 7, 0, 96, 323),
    (3, 1, 2, 2, 7, 0, 96, 323), (3, 1, 2, 3, 7, 0, 96, 323), (3, 1, 2, 0, 7, 0, 96, 323), (3, 1, 2, 2, 8, 0, 96, 323),
    (3, 1, 2, 2, 7, 6, 96, 323), (3, 1, 2, 2, 7, 7, 96, 323), (3, 1, 2, 2, 7, 7, 95, 322), (3, 1, 2, 2, 7, 6, 95, 322),
    (3, 1, 2, 2, 7, 6, 96, 322), (3, 1, 2, BIG, 7, 0, 96, 323), (3, 1, BIG, 1, 7, 0, 96, 323), (3, 1, 2, 1, BIG, 0, 96, 323),
    (3, 1, 2, 1, 7, BIG, 96, 323),
] + [(n, m, 1, 1, 0, 0, size, 1379) for n, m, size in LEVELS]
FILE_EDITION_EDGES = [(3, 1, 2, 2, 7, 0, 96, 323), (3, 1, 2, 2, 7, 0, 95, 322), (41, 42, 0, 0, 8, 7, 0, 0)]


def file_edges():
    text = ""
    for edition, n, m, t, number, leaf, made, store_len, file_len in with_editions(FILE_EDGES, FILE_EDITION_EDGES):
        store, file = bytearray([1] * store_len), bytearray([2] * file_len)
        refusal, _ = md.start_writing(edition, bytes([7] * 32), bytes([8] * 32), n, m, t, store, file)
        text += f"edge {edition} {n} {m} {t} {number} {leaf} {made} {store_len} {file_len}: start {refusal}"
        text += flag(file == bytes([2] * file_len))
        file = bytearray([2] * file_len)
        opening = md.Opening(edition, bytes([7] * 32), n, m, leaf, made, bytes([9] * 1312))
        writing = md.Writing(bytes([8] * 32), t, number, opening)
        refusal, labels, cost = writing.advance(1, store, file)
        o = writing.opening
        text += f" continue {refusal} labels {labels} blocks {cost}{flag(file == bytes([2] * file_len))}"
        text += f" {writing.count} {writing.number} {o.edition} {o.n} {o.m} {o.leaf} {o.made}"
        text += "".join(" " + sha(part).hex() for part in (writing.root, o.statement, o.held)) + "\n"
    return text


def challenged(edition):
    text = ""
    for field, n, t, _ in shared_files(edition):
        labels = tree(edition, sha(report(field)), int(n))
        digest = sha(labels.file(int(t))[md.head_size(int(n), int(t)) :]).hex()
        for m in range(int(n) + 1):
            text += f"file edition {edition} depth {n} count {t} memory {m} {digest} {digest} {digest}\n"
    return text


def checks(name):
    text = ""
    for file, statement, n, t, *_ in lines("file_vectors", "data/" + name):
        text += f"vector {n} {t} {md.check_code(report(file), bytes.fromhex(statement), int(n), int(t))}\n"
    return text


def bits(name):
    """The first of them whole, empty, a byte short, a byte longer, and with every bit changed."""
    field, statement, *_ = lines("file_vectors", "data/" + name)[0]
    file, statement = report(field)[:131], bytes.fromhex(statement)
    code = lambda data: md.check_code(data, statement, 1, 1)
    text = "lengths " + " ".join(str(code(data)) for data in (file, b"", file[:130], file + b"\0")) + "\n"
    for at in range(131):
        text += "flipped " + " ".join(str(code(flipped(file, at, 1 << bit))) for bit in range(8)) + "\n"
    return text


def other_editions(edges):
    """Edges of every edition but 2."""
    return [(edition, *edge) for edition in EDITIONS if edition != 2 for edge in edges]


def challenge_rows():
    text = ""
    depths = [(2, n) for n in (0, 1, 2, 39, 40, 41, BIG)] + other_editions([(40,), (41,)])
    for edition, n in depths:
        for i in (0, 1, 2, 199, 200, 201, 2**32 + 1, BIG):
            refusal = md.challenge_row(edition, n, i)
            leaf = 0 if refusal else md.challenge_leaf(n, sha(b"challenged"), sha(b"root"), i)
            text += f"challenge {edition} {n} {i} {refusal} {leaf}\n"
    return text


def head_rows():
    text = ""
    heads = [(0, 1, 262469), (0, 0, 0), (41, 1, 262469), (1, 0, 131), (1, 0, 0), (1, 201, 262469), (BIG, BIG, 0), (40, BIG, 262469)]
    heads += [(1, 1, 131), (1, 1, 130), (1, 1, 132), (40, 200, 262468), (40, 200, 262467), (40, 200, 262469)]
    heads += [(1, 127, 8195), (1, 127, 8194), (1, 128, 8260), (1, 128, 8259)]
    of_editions = other_editions([(1, 1, 131), (1, 1, 130), (40, 200, 262468), (41, 201, 0)])
    for edition, n, t, size in [(2, *head) for head in heads] + of_editions:
        out = bytearray([90] * size)
        refusal = md.head_row(edition, n, t, size)
        if not refusal:
            front = md.head(edition, sha(b"headed"), sha(b"root"), n, t)
            out[: len(front)] = front
        text += f"head {edition} {n} {t} {size} {refusal} {sha(out).hex()}\n"
    return text


def drawn(name, file, statement, n, t, places):
    """A line of the drawing's answer: inputs are all zero where there is no clash."""
    first = second = bytes(105)
    try:
        kind, found, after = md.draw(file, statement, n, t, places)
        answer = f"chain {found}" if kind == "chain" else f"clash {found[0]} {found[1]} {found[2]}"
        if kind == "clash":
            first, second = found[3:]
    except md.Refused as refused:
        answer, after = f"refused {refused.number} {refused.opening}", places
    return f"{name} {answer} {sha(first).hex()} {sha(second).hex()} {places_digest(after)}\n"


def chain_line(edition, field, n, t):
    """A line of chains by the model: the report, depth, challenges, size and digest of the file, length and digest of the chain."""
    labels = tree(edition, sha(report(field)), n)
    file, nodes = labels.file(t), md.chain(n, md.challenge_leaves(n, labels.statement, labels.root, t))
    return [field, *map(str, (n, t, len(file))), sha(file).hex(), str(len(nodes)), places_digest(nodes)]


def chains(edition, name):
    text = ""
    for field, n, t, size, digest, count, nodes in lines("file_vectors", "data/" + name):
        assert [field, n, t, size, digest, count, nodes] == chain_line(edition, field, int(n), int(t)), field
        labels, n, t, size, count = tree(edition, sha(report(field)), int(n)), int(n), int(t), int(size), int(count)
        file, statement = labels.file(t), labels.statement
        leaves = md.challenge_leaves(n, statement, labels.root, t)
        level = f"vector {edition} 90\nfile {size} {sha(file).hex()} {md.check_code(file, statement, n, t)}\n"
        for name, places in [("just enough", count), ("more", 1108), ("one short", count - 1), ("none", 0)]:
            level += drawn(name, file, statement, n, t, [9] * places)
        level += drawn("not wanted", file, statement, n, 1, [9] * 1108)
        if size > 5000:
            level += drawn("changed", flipped(file, 5000, 16), statement, n, t, [9] * 1108)
        refusal, planned, after = md.plan(n, leaves, [9] * count)
        text += 2 * (level + f"planned {refusal} {planned} {places_digest(after)}\n")
    return text


def compared(name, edition, n, leaves, data):
    refusal, clash = md.compare(edition, sha(b"compared"), n, leaves, data)
    pair = "agree" if clash is None else "clash {} {} {}".format(*clash[:3])
    first, second = (bytes(105), bytes(105)) if clash is None else clash[3:]
    return f"{name} {refusal} {pair} {sha(first).hex()} {sha(second).hex()}\n"


COMPARED = [
    ("one opening", [5], []), ("one opening, changed", [5], [40, 100]), ("two leaves", [0, 4], []),
    ("a leaf repeated", [5, 5, 5], []), ("all leaves", [7, 2, 1, 0, 6, 3, 4, 5], []), ("at the root", [0, 4], [230]),
    ("in the middle", [0, 2], [200]), ("above the leaf", [0, 1], [165]), ("a leaf's label", [0, 1], [128]),
    ("in the first", [6, 3], [0]), ("in both", [6, 3], [10, 150]), ("in both alike", [6, 6], [10, 138]),
    ("the third", [0, 1, 4, 5], [300]), ("the fourth", [0, 1, 4, 5], [511]), ("second and fourth", [0, 1, 4, 5], [140, 400]),
    ("the first of all", [7, 2, 1, 0, 6, 3, 4, 5], [5]), ("the last of all", [7, 2, 1, 0, 6, 3, 4, 5], [1023]),
    ("the last two", [7, 2, 1, 0, 6, 3, 4, 5], [1023, 780]), ("repeated, root", [5, 5], [255]), ("repeated, middle", [5, 5], [223]),
    ("repeated, above the leaf", [5, 5], [160]), ("repeated, leaf", [5, 5], [128]), ("repeated, apart", [5, 2, 7, 5], [420]),
]
COMPARE_EDGES = [
    (3, 8, 0, 1024), (3, 8, 0, 1023), (3, 7, 0, 1024), (3, 8, 8, 1023), (3, 0, 8, 0), (3, 0, 8, 1024), (0, 0, 8, 1024),
    (41, 1, 0, 1024), (2, 3, 3, 288), (2, 4, 3, 384), (2, 5, 3, 480), (1, 2, 0, 128), (BIG, 8, BIG, 1024),
    (40, 1, 2**40 - 1, 1024), (40, 1, 2**40, 1024),
]


def comparisons(edition):
    labels, text = tree(edition, sha(b"compared"), 3), f"edition {edition}\n"
    for name, leaves, changes in COMPARED:
        data = b"".join(map(labels.opening, leaves))
        for at in changes:
            data = flipped(data, at, 1)
        text += compared(name, edition, 3, leaves, data)
    pattern = bytes((7 + 31 * i) % 256 for i in range(2624))
    for leaves in [(0, 2**40 - 1), (733007751850, 733007751851), (733007751850, 733007751850)]:
        text += compared("deep", edition, 40, list(leaves), pattern)
    return text


def compare_edges():
    eight, text = b"".join(map(tree(2, sha(b"compared"), 3).opening, range(8))), ""
    for edition, n, count, leaf, size in with_editions(COMPARE_EDGES, [(3, 8, 0, 1024), (41, 0, 8, 1)]):
        text += compared(f"edge {edition} {n} {count} {leaf} {size}", edition, n, [leaf, *range(1, 8)][:count], eight[:size])
    return text + compared("201 leaves", 2, 3, [0] * 201, b"") + compared("200 leaves", 2, 3, [0] * 200, b"")


def file_vectors():
    written = "".join(files(edition) + challenged(edition) for edition in md.EDITIONS) + file_edges()
    checked = "".join(checks(name) + bits(name) for name in ("checks", "checks-2")) + checks("checks-number")
    drawn_from = chains(1, "chains") + chains(2, "chains-2")
    return written + checked + challenge_rows() + head_rows() + drawn_from + comparisons(1) + comparisons(2) + compare_edges()


# plan, and the plans of program_scenarios


def plan(name="plan"):
    """The planning program's answer to a crate's standard input."""
    return md.planning((crate(name) / "stdin").read_bytes())


def plans():
    inputs = [b"2 3 0 3", b"2 0", b"4 0 1 2 3 8 9 13 14 15", b"1 0 1\n", b"3\n7\n\n7 0", b"40 0 1099511627775", b"", b" \n", b"x", b"2"]
    inputs += [b"0 0", b"41 0", b"2 4", b"2 18446744073709551615", b"2 18446744073709551616", b"2\t1"]
    inputs += [b"002 003 0000000000000000000000003", b"2 " + b"1 " * 200, b"2 " + b"1 " * 201, b"41 " + b"1 " * 201]
    inputs += [b"2 " + b"1 " * 200 + b"9"]
    inputs += [b"1", b"40\n", b"0", b"41", b"2 ", b"3 8", b"2\n", b" 2 ", b"2"]
    inputs += [b" " * 65533 + b"1 0", b" " * 65533 + b"1 0 "]
    inputs += [b"2 0".ljust(65536), b"2 0".ljust(65536) + b"x"]
    return "".join(map(md.planning, inputs))


# examples/seal_and_check


def seal_and_check():
    labels = tree(md.NEW_EDITION, sha(b"big 14 21"), 14)
    statement, n, t = labels.statement, 14, 21
    file = labels.file(t)
    leaves = md.challenge_leaves(n, statement, labels.root, t)
    nodes = md.chain(n, leaves)
    at = md.head_size(n, t) + 4 * md.opening_size(n)
    damaged = flipped(file, at, 1)
    code = md.check_code(damaged, statement, n, t)
    alone = md.check_opening(md.NEW_EDITION, statement, n, leaves[4], labels.root, md.opening_part(damaged, 5))
    edition, depth, count, _ = md.read_head(file)
    return (
        f"statement {statement.hex()}\nroot {labels.root.hex()}\nfile {sha(file).hex()}\nhead edition {edition} depth {depth} count {count}\n"
        f"check {md.check_code(file, statement, n, t)}\nchain {len(nodes)} nodes, last {nodes[-1]}\n"
        f"damaged: check {code}, opening {alone}\n"
    )

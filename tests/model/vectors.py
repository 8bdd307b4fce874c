"""The model against the shared vectors, which another model made: those that the Rust crate's tests have."""
import mastdock as md
from mastdock import sha
from outputs import GIVEN, block_numbers, numbers_of, places_digest, report, tree
from outputs import shared as lines


def read_back(data, refusal):
    """Whether the bytes are refused so, or read as a run whose record they are."""
    number, run = md.read_record(data)
    return number == refusal and (refusal or md.record(run) == data)


def after(edition, statement, n, m, made):
    """A run that has made so many labels."""
    run = md.Run(edition, statement, n, m)
    run.advance(made, bytearray(md.store_size(m)))
    return run


def served(runs, last, calls, made):
    """W-208: whether the calls of a line share the labels so, in runs of both editions."""
    unit = md.Unit(len(runs), last, [md.Run(1 + i % 2, bytes([i] * 32), n, m) for i, (n, m) in enumerate(runs)])
    store = bytearray(sum(md.store_size(m) for _, m in runs))
    for budget, labels, name in calls:
        assert unit.advance(budget, store)[:2] == (0, labels) and unit.last == name, (runs, calls)
    return [(run.made,) for run in unit.runs] == made


def unit_refused(runs, last, size):
    """W-208: the refusal of a call with budget 5."""
    unit = md.Unit(len(runs), last, [md.Run(1 + i % 2, bytes(32), *numbers) for i, numbers in enumerate(runs)])
    return unit.advance(5, bytearray(size))[0]


def of_editions(name):
    """The vectors of both editions: of edition 1 those that stood before W-206."""
    return [(edition, *fields) for edition, file in ((1, f"{name}.txt"), (2, f"{name}-2.txt")) for fields in lines(file)]


def agree():
    """How many vectors agree; fails at the first that does not."""
    for length, digest in lines("sha256.txt"):
        assert sha(bytes((7 * i + int(length)) % 256 for i in range(int(length)))).hex() == digest, length
    for edition, field, n, root, m, store in of_editions("roots"):
        labels = tree(edition, sha(report(field)), int(n))
        assert (labels.root.hex(), sha(labels.store(int(m))).hex()) == (root, store), (field, n)
    for edition, statement, n, m, made, refusal, data in of_editions("records"):
        assert read_back(report(data), int(refusal)), data
        assert int(refusal) or md.record(after(edition, bytes.fromhex(statement), int(n), int(m), int(made))) == report(data), data
    for statement, n, m, made, count, held, data in lines("records-deep.txt"):
        refusal, run = md.read_record(report(data))
        assert (run.edition, run.statement.hex(), run.n, run.m, run.made) == (1, statement, int(n), int(m), int(made)), data
        assert (md.held_size(run), sha(run.held).hex()) == (32 * int(count), held) and read_back(report(data), 0), data
    for kind, *numbers in lines("blocks.txt"):
        given, answered = numbers[: GIVEN[kind]], numbers[GIVEN[kind] :]
        assert list(map(str, block_numbers(kind, *map(int, given)))) == answered, (kind, *numbers)
    for runs, last, calls, made in lines("units.txt"):
        assert served(numbers_of(runs), int(last), numbers_of(calls), numbers_of(made)), (runs, last)
    for runs, last, size, refusal in lines("units-refused.txt"):
        assert unit_refused(numbers_of(runs), int(last), int(size)) == int(refusal), (runs, last)
    for edition, field, n, t, file in of_editions("files"):
        assert tree(edition, sha(report(field)), int(n)).file(int(t)).hex() == file, (field, n, t)
    for file, statement, n, t, code in lines("checks.txt") + lines("checks-2.txt") + lines("checks-number.txt"):
        assert md.check_code(report(file), bytes.fromhex(statement), int(n), int(t)) == int(code), file
    for data, printed in lines("plans.txt") + lines("plans-none.txt"):
        assert md.planning(report(data)).encode().hex() == printed, data
    for field, n, t, size, digest, count, nodes in lines("chains.txt"):
        labels = tree(1, sha(report(field)), int(n))
        file = labels.file(int(t))
        found = md.chain(int(n), md.challenge_leaves(int(n), labels.statement, labels.root, int(t)))
        assert (len(file), sha(file).hex(), len(found), places_digest(found)) == (int(size), digest, int(count), nodes), field
    names = ("sha256", "roots", "records", "records-deep", "blocks", "files", "checks", "checks-number", "plans", "plans-none", "chains")
    units = ("units", "units-refused")
    of_edition_2 = ("roots-2", "records-2", "files-2", "checks-2")
    return sum(len(lines(f"{name}.txt")) for name in names + units + of_edition_2)

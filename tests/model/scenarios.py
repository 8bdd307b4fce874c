"""What the programs tell, as far as document 01, docs/FORMAT.md and README.md decide it: plans, and of `mastdock` below its scenario's heading
the status, the facts of a sealed proof, labels made, from where a seal goes on, verdicts and what differs, chains, a clash, what a proof
says of itself, and files before and after. How such a line is worded the program's sources say. The files are those of the crate's data/
and those that its scenarios and its sources make."""
import re
from posixpath import normpath

import mastdock as md
from outputs import BIG, crate, plans, tree
from mastdock import sha

FACTS = "statement|root|depth|challenges|blocks|hashes|edition|size|accepted|refused|clash|first|second|status|file|mastdock: memory level"
DIFFERS = r"the proof is not of|the proof's depth is \d+, not|the proof has \d+ challenges"
DECIDED = re.compile(rf"> |out: |(err: )?labels |({FACTS}) |{DIFFERS}|mastdock: \S+\.run: (?!the report is)|\d+ \d+$")
UNDECIDED = "usage, complaints, plain words, reasons of the operating system, and files beside a proof that is kept by hand"
LARGEST = md.file_size(md.MAX_DEPTH, md.MAX_COUNT)
DONE, REFUSED, UNTRIED = 0, 1, 2
NOTHING = "", "", UNTRIED
BESIDE = ".part", ".run", ".new", ".lock", ".kept"


def kept(stored):
    return [line for line in stored if DECIDED.match(line)]


def number(word, low, high):
    """Digits alone, without leading zeros."""
    return int(word) if re.fullmatch("0|[1-9][0-9]*", word) and low <= int(word) <= high else None


class Folder:
    """The folder that the scenarios run in: contents by name, None of a file that may not be read; and the folders in it."""

    def __init__(self, files):
        self.files, self.folders = files, {"", "."}

    def read(self, name):
        """Standard input can be read once."""
        data = self.files.get(normpath(name))
        if name == "-":
            self.files[name] = b""
        return data

    def may_make(self, name):
        return name.rpartition("/")[0] in self.folders and name not in self.files and name not in self.folders

    def is_foreign(self, name, head, most=BIG):
        """A file that is there, is longer than it may be, or has something else than zeros and does not begin so."""
        data = self.files.get(name, b"")
        return len(data) > most or (any(data) and data[: len(head)] != head)


# seal

FAULTS = {
    "foreign": "no checkpoint of this program; it is left as it is",
    "damaged": "damaged or cut off; it is left as it is",
    "impossible": "of no run that can be; it is left as it is",
}


def share(made, total):
    return f"labels {made} of {total}, {100 * made // total} %\n"


def other_order(run, t, statement, n, count, m):
    """What a checkpoint's order has that is not so ordered."""
    differ = ["of another report"] if run.statement != statement else []
    pairs = ("of depth {}", run.n, n), ("with {} challenges", t, count), ("of memory level {}", run.m, m)
    return differ + [f"{name.format(found)}, not {wanted}" for name, found, wanted in pairs if found != wanted]


def place(run, done, t):
    """From where a seal goes on."""
    tree_size = 2 ** (run.n + 1) - 1
    if run.made < tree_size:
        return f"going on from label {run.made} of {tree_size}"
    return f"going on with opening {done + 1} of {t}" if done < t else "all openings are made"


def carried(run, t, store, openings):
    """The file that a checkpoint's run, store and openings lead to."""
    run.advance(BIG, store)
    root, file = run.held[:32], bytearray(md.file_size(run.n, t))
    _, writing = md.start_writing(run.edition, run.statement, root, run.n, run.m, t, store, file)
    writing.advance(BIG, store, file)
    at, taken = md.head_size(run.n, t), b"".join(openings)
    file[at : at + len(taken)] = taken
    return bytes(file)


def taken_up(folder, proof, statement, n, t, m):
    """Of the checkpoint, if there is one: the lines on it, the labels made, and the file; no file where it is refused."""
    name = proof + ".run"
    if name not in folder.files:
        return "", 0, tree(md.NEW_EDITION, statement, n).file(t)
    fault, *found = md.read_checkpoint(folder.files[name])
    if fault != "whole":
        return f"mastdock: {name}: {FAULTS[fault]}\n", 0, None
    count, run, store, openings = found
    differ = other_order(run, count, statement, n, t, m)
    if differ:
        return "".join(f"mastdock: {name}: {line}\n" for line in differ), 0, None
    made = run.made + len(openings) * md.nodes_anew(n, m)
    return f"mastdock: {name}: {place(run, len(openings), t)}\n", made, carried(run, t, store, openings)


def blocks_of_nodes(n, nodes):
    """W-207: the blocks of some nodes' inputs. A node's has 41 bytes, and 32 for each parent."""
    return sum(md.blocks(41 + 32 * len(md.parents(n, *node))) for node in nodes)


def facts(statement, root, n, t, m):
    """What is told of a seal. Its labels are those of the tree and, for each opening, those below its leaf's node of level m."""
    nodes = list(md.labelling_order(n))
    for leaf in md.challenge_leaves(n, statement, root, t):
        nodes += list(md.labelling_order(n, m, leaf >> (n - m)))[:-1]
    order = f"statement {statement.hex()}\nroot {root.hex()}\ndepth {n}\nchallenges {t}\n"
    return order + f"blocks {blocks_of_nodes(n, nodes)}\nhashes {len(nodes)}\n"


def seal_text(folder, statement, proof, n, t, m):
    labels, anew = 2 ** (n + 1) - 1, t * md.nodes_anew(n, m)
    err = f"mastdock: memory level {m} makes {anew} labels anew for the openings, more than the {labels} of the tree\n" if anew > labels else ""
    if set(folder.files.get(proof + ".lock", b"")) - set(b"\0 \n0123456789") or folder.is_foreign(proof + ".new", md.MARK):
        return "", err, UNTRIED
    lines, made, file = taken_up(folder, proof, statement, n, t, m)
    err += lines
    if file is None:
        return "", err, REFUSED
    if folder.is_foreign(proof + ".part", md.head(file[0], statement, md.ZERO, n, t)[:35], len(file)):
        return "", err, UNTRIED
    err += share(made, labels + anew) + share(labels + anew, labels + anew)
    if md.check_code(file, statement, n, t):
        return "", err + f"mastdock: {proof}.run: its labels are not the report's; remove it to begin anew\n", REFUSED
    for ending in BESIDE[:4]:
        folder.files.pop(proof + ending, None)
    folder.files[proof] = file
    root = file[md.head_size(n, t) - 32 :][:32]
    return facts(statement, root, n, t, m), err, DONE


def seal(folder, option, report, proof, depth, challenges="150", memory=None):
    n, t = number(depth, 1, md.MAX_DEPTH), number(challenges, 1, md.MAX_COUNT)
    m = n and (min(n, md.MAX_MEMORY) if memory is None else number(memory, 0, min(n, md.MAX_MEMORY)))
    if None in (n, t, m) or (option and number(option[0], 0, 3600) is None) or not folder.may_make(proof):
        return NOTHING
    text = folder.read(report)
    if text is None or normpath(report) in [proof + ending for ending in BESIDE]:
        return NOTHING
    return seal_text(folder, sha(text), proof, n, t, m)


# verify, chain and info


def checked(folder, report, proof):
    """The statement and the file; None if one of them cannot be read."""
    text, file = folder.read(report), folder.read(proof)
    if text is None or file is None or len(file) > LARGEST:
        return None
    return sha(text), file


def refused(why):
    return f"refused {why.number} {why.opening}\n"


def differing(file, statement, n, t):
    """What of a file is not as wanted."""
    _, depth, count, at = md.read_head(file)
    text = "the proof is not of this report\n" if file[at : at + 32] != statement else ""
    text += f"the proof's depth is {depth}, not {n}\n" if depth != n else ""
    return text + (f"the proof has {count} challenges, not {t}\n" if count != t else "")


def head_numbers(file):
    try:
        return md.read_head(file)[1:3]
    except md.Refused:
        return 0, 0


def verify(folder, least, report, proof, *wanted):
    asked = wanted or least
    n, t = (number(asked[0], 1, md.MAX_DEPTH), number(asked[1], 1, md.MAX_COUNT)) if asked else (0, 0)
    found = None if None in (n, t) else checked(folder, report, proof)
    if found is None:
        return NOTHING
    statement, file = found
    if not wanted:
        n, t = map(max, (n, t), head_numbers(file))
    said = f"depth {n}\nchallenges {t}\n" if n else ""
    try:
        kind, count, _ = md.draw(file, statement, n, t, [0] * 6855)
        assert kind == "chain"
    except md.Refused as why:
        return said + (differing(file, statement, n, t) if why.number == 9 else "") + refused(why), "", REFUSED
    edition = md.read_head(file)[0]
    return f"edition {edition}\n{said}accepted depth {n} challenges {t} chain {count}\n", "", DONE


def chain(folder, _, report, proof):
    found = checked(folder, report, proof)
    if found is None:
        return NOTHING
    statement, file = found
    n, t = head_numbers(file)
    try:
        leaves, _ = md.check_file(file, statement, n, t)
    except md.Refused as why:
        return (differing(file, statement, n, t) if why.number == 9 else "") + refused(why), "", REFUSED
    return md.chain_text(n, leaves), "", DONE


def info(folder, _, proof):
    file = folder.read(proof)
    if file is None or len(file) > LARGEST:
        return NOTHING
    text = ""
    try:
        edition, n, t, at = md.read_head(file)
        size = md.file_size(n, t)
        text = f"edition {edition}\ndepth {n}\nchallenges {t}\n"
        if len(file) == size:
            text += f"statement {file[at : at + 32].hex()}\nroot {file[at + 32 : at + 64].hex()}\n"
        text += f"size {len(file)}\n"
        if len(file) != size:
            raise md.Refused(10 if len(file) < size else 13)
    except md.Refused as why:
        return text + refused(why), "", REFUSED
    return text, "", DONE


def clash(i, j, level, first, second):
    return f"clash openings {i} and {j} level {level}\nfirst {first.hex()}\nsecond {second.hex()}\n"


# the words of each command: how many of them are names, how many operands it has without and with its option, and the option with its values
COMMANDS = {
    "seal": (seal, 2, (3, 4, 5), (3, 4, 5), "--every", 2),
    "verify": (verify, 2, (2, 4), (2,), "--at-least", 3),
    "chain": (chain, 2, (2,), (), "", 0),
    "info": (info, 1, (1,), (), "", 0),
}


def parted(words, name, size):
    """The operands, and the values of an option that stands first or last."""
    if name and len(words) >= size:
        if words[0] == name:
            return words[size:], words[1:size]
        if words[-size] == name:
            return words[:-size], words[1 - size :]
    return words, ()


def told(folder, first="", *words):
    """What the program tells of its words on standard output, what the model makes of standard error, and the status."""
    if first in ("help", "--help", "--version") or (first in COMMANDS and words[:1] == ("--help",)):
        return "", "", DONE
    if first not in COMMANDS:
        return NOTHING
    command, names, plain, optional, name, size = COMMANDS[first]
    operands, values = parted(words, name, size)
    if len(operands) not in (optional if values else plain) or not all(operands[:names]):
        return NOTHING
    return command(folder, values, *operands)


# what a scenario does to the files


def make(folder, name, *text):
    folder.files[name] = " ".join(text).encode() + b"\n"


def zeros(folder, name, size):
    folder.files[name] = bytes(int(size))


def copy(folder, source, start, end, name):
    folder.files[name] = folder.files.get(name, b"") + folder.files[source][int(start) : int(end)]


def flip(folder, name, at):
    data = folder.files[name]
    folder.files[name] = data[: int(at)] + bytes([data[int(at)] ^ 1]) + data[int(at) + 1 :]


def stamp(folder, name):
    data = folder.files[name][:-32]
    folder.files[name] = data + sha(data)


def remove(folder, name):
    del folder.files[name]


def pause(folder, report, proof, n, t, m, labels):
    run, store = md.Run(md.NEW_EDITION, sha(folder.read(report)), int(n), int(m)), bytearray(md.store_size(int(m)))
    run.advance(int(labels), store)
    folder.files[proof + ".run"] = md.checkpoint(run, int(t), store)


def tell(folder, name):
    data = folder.files.get(name)
    return f"file {name} not there\n" if data is None else f"file {name} bytes {len(data)} sha256 {sha(data).hex()}\n"


ACTS = {act.__name__: act for act in (make, zeros, copy, flip, stamp, remove, pause, tell)} | {"#": lambda *words: None}


# the scenarios


def data(name):
    """The files that a crate's program is run among."""
    return {path.name: path.read_bytes() for path in (crate(name) / "data").glob("*")}


def args(name):
    """The words that a crate's program is run with, one to a line."""
    return (crate(name) / "args").read_text().splitlines()


def called(folder, words):
    """Both descriptors the same: what standard error has comes before the facts."""
    out, err, status = told(folder, *words)
    return f"{err}{out}status {status}\n"


def run(folder, line):
    return f"> mastdock {line}\n" + called(folder, line.split(" "))


def run_apart(folder, line):
    """The same with two files, shown one after the other."""
    out, err, status = told(folder, *line.split(" "))
    return f"> mastdock {line}\nstatus {status}\nout: " + (out or "\n") + (err and "err: " + err)


def run_line(folder, line):
    first, *words = line.split(" ")
    return f"> {line}\n" + (called(folder, words) if first == "mastdock" else ACTS[first](folder, *words) or "")


def large(byte):
    return b"h" * 150000 + byte + b"h" * 50000


APART = """seal long long.proof 3 2
verify long long.proof
verify long long.proof 3 2
verify changed long.proof
seal changed changed.proof 3 2
chain long long.proof
seal none x.proof 3
weigh"""
UNSAID = """verify report report.proof
chain report report.proof
info report.proof
help
--version
seal report unsaid.proof 3 2"""
MEANWHILE = """> the room of a proof of three bytes, and the proof
> the name is taken meanwhile
> the temporary file is replaced meanwhile
> the same by a file of the same bytes
> the proof cannot be renamed
> a disk with no room
> a disk that cannot be synced
"""
PATHS = """> a path of 256 bytes, and one of 4091
status 2
status 2
> control characters and a backslash in a path
status 2
> a clash
"""


def not_written(folder):
    """Answers to a descriptor that can only be read: the labels told, and the proof that stands all the same."""
    text = "> standard output cannot be written\n"
    for line in UNSAID.splitlines():
        text += f"> mastdock {line}\n{told(folder, *line.split(' '))[1]}status {UNTRIED}\n"
    return text + run(folder, "verify report unsaid.proof")


def closed(folder):
    """Standard error closed: nothing of it is seen."""
    line = "seal report closed.proof 3 2"
    out, _, status = told(folder, *line.split(" "))
    return f"> standard error is closed\n> mastdock {line}\n{out}status {status}\n" + run(folder, "verify report closed.proof")


def scenarios():
    files = data("program_scenarios")
    given = (crate("program_scenarios") / "stdin").read_bytes()
    folder = Folder({**files, "locked": None, "large.proof": bytes(LARGEST + 1), "-": given})
    words = args("program_scenarios")
    text = plans() + f"> this program's arguments: {' '.join(words)}\n" + called(folder, words)
    text += "".join(run_line(folder, line) for line in files["scenarios"].decode().splitlines())
    text += PATHS + clash(2, 5, 1, bytes([10] * 105), bytes([171] * 105))
    folder.files.update({"long": large(b"h"), "changed": large(b"H")})
    text += "".join(run_apart(folder, line) for line in APART.splitlines()) + not_written(folder) + MEANWHILE
    folder.folders.add("dark")
    text += run(folder, "seal report dark/x.proof 3 2") + run(folder, "verify report dark/x.proof")
    return text + closed(folder) + "> standard input and standard error are closed\n"

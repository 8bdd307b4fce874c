"""The worked example of docs/FORMAT.md: the proof of a report of four bytes at depth 2 with two challenges, in edition 2, and records of its
run; and what of it is another in edition 1."""
import mastdock as md
from mastdock import sha
from outputs import tree

FENCE = "```"


def kept(page):
    """The example's lines of the page: the block that begins with its first line."""
    lines = list(page)
    start = next(i for i, line in enumerate(lines) if line.startswith("report "))
    end = next(i for i in range(start, len(lines)) if lines[i].startswith(FENCE))
    return lines[start:end]


def of_edition_1(report, n, t):
    """The two inputs that hash two labels, the root and the file, which stand in the other order or follow from it."""
    labels = tree(1, sha(report), n)
    text, file = "", labels.file(t)
    for level, position in ((2, 3), (1, 1)):
        above = [labels.labels[node] for node in md.parents(n, level, position)]
        text += f"edition 1 input {level} {position} {md.hash_input(1, labels.statement, level, position, above).hex()}\n"
    text += f"edition 1 root {labels.root.hex()}\nedition 1 file {len(file)} bytes {sha(file).hex()}\n"
    return text + f"edition 1 numbers {file[:3].hex()}\nedition 1 check {md.check_code(file, labels.statement, n, t)}\n"


def example():
    n, t, report, edition = 2, 2, b"hull", md.NEW_EDITION
    labels = tree(edition, sha(report), n)
    statement, root = labels.statement, labels.root
    text = f"report {report.hex()}\nstatement {statement.hex()}\n"
    for level, position in md.labelling_order(n):
        text += f"label {level} {position} {labels.labels[level, position].hex()}\n"
    for level, position in ((2, 0), (2, 3), (1, 1)):
        above = [labels.labels[node] for node in md.parents(n, level, position)]
        text += f"input {level} {position} {md.hash_input(edition, statement, level, position, above).hex()}\n"
    leaves = md.challenge_leaves(n, statement, root, t)
    for i, leaf in enumerate(leaves, 1):
        text += f"challenge {i} {sha(statement + b'challenge' + root + i.to_bytes(4, 'big')).hex()} leaf {leaf}\n"
    file = labels.file(t)
    text += f"file {len(file)} bytes {sha(file).hex()}\nnumbers {file[:3].hex()}\n"
    for i, leaf in enumerate(leaves, 1):
        part = md.opening_part(file, i)
        for at, what in enumerate(["leaf", *(f"sibling on level {level}" for level in range(n, 0, -1))]):
            text += f"opening {i} {what} {part[32 * at : 32 * at + 32].hex()}\n"
    text += f"check {md.check_code(file, statement, n, t)}\n"
    for other in (67, 99):
        changed = file[:other] + bytes([file[other] ^ 1]) + file[other + 1 :]
        text += f"byte {other} changed, check {md.check_code(changed, statement, n, t)}\n"
    text += f"chain {' '.join(map(str, md.chain(n, leaves)))}\n"
    text += f"store of memory level 1 {labels.store(1).hex()}\n"
    run, store = md.Run(edition, statement, n, 1), bytearray(md.store_size(1))
    for labels_more in (0, 5, 2):
        run.advance(labels_more, store)
        text += f"record of memory level 1 after {run.made} labels {md.record(run).hex()}\n"
    return text + of_edition_1(report, n, t)

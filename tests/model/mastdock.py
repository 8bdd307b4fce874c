"""A model of documents 01 and 02 in plain Python, written from their text (docs/FORMAT.md says the same in our words). SHA-256 is
hashlib's. Nothing of it comes from the proved code; it is slow and simple."""
import hashlib

EDITIONS, NEW_EDITION = (1, 2), 2  # W-206
MAX_DEPTH, MAX_MEMORY, MAX_COUNT, PLACES, MAX_RUNS = 40, 14, 200, 41, 8
ZERO = bytes(32)


def sha(data):
    return hashlib.sha256(data).digest()


# The tree


def left_siblings(n, leaf):
    """Left siblings of nodes on a leaf's way to the root, itself included, smallest level first."""
    way = [(level, leaf >> (n - level)) for level in range(1, n + 1)]
    return [(level, position - 1) for level, position in way if position % 2 == 1]


def parents(n, level, position):
    if level == n:
        return left_siblings(n, position)
    return [(level + 1, 2 * position), (level + 1, 2 * position + 1)]


def hash_input(edition, statement, level, position, labels):
    """Of the parents' labels in the order made. W-206: in edition 2 'the label made last comes first after the position'."""
    hashed = labels if edition == 1 else labels[::-1]
    return statement + bytes([level]) + position.to_bytes(8, "big") + b"".join(hashed)


def blocks(length):
    """W-207: the 64-byte blocks compressed for a message of so many bytes, '(L + 8) divided by 64, rounded down, plus 1'."""
    return (length + 8) // 64 + 1


def labelling_order(n, level=0, position=0):
    """A left subtree, then the right, then the node above."""
    if level < n:
        yield from labelling_order(n, level + 1, 2 * position)
        yield from labelling_order(n, level + 1, 2 * position + 1)
    yield level, position


def node_at(height, level, position, k):
    """The k-th node, from 0, in the labelling order of the subtree of this height."""
    while True:
        half = (1 << height) - 1  # nodes of the left subtree
        if k == 2 * half:
            return level, position
        height, level, position = height - 1, level + 1, 2 * position
        if k >= half:
            position, k = position + 1, k - half


def held_before(height, k):
    """How many of the first k labels of a subtree are held: each whose parent node in the tree is not yet labelled."""
    held = 0
    while k and height >= 0:
        half = (1 << height) - 1
        if k == 2 * half + 1:
            return held + 1
        if k == 2 * half:
            return held + 2
        if k >= half:
            held, k = held + 1, k - half
        height -= 1
    return held


class Tree:
    """All labels of a tree in an edition, by the definition."""

    def __init__(self, edition, statement, n):
        self.edition, self.statement, self.n, self.labels = edition, statement, n, {}
        for level, position in labelling_order(n):
            above = [self.labels[node] for node in parents(n, level, position)]
            self.labels[level, position] = sha(hash_input(edition, statement, level, position, above))
        self.root = self.labels[0, 0]

    def store(self, m):
        return b"".join(self.labels[level, p] for level in range(m + 1) for p in range(1 << level))

    def opening(self, leaf):
        siblings = [self.labels[level, (leaf >> (self.n - level)) ^ 1] for level in range(self.n, 0, -1)]
        return self.labels[self.n, leaf] + b"".join(siblings)

    def file(self, t):
        leaves = challenge_leaves(self.n, self.statement, self.root, t)
        return head(self.edition, self.statement, self.root, self.n, t) + b"".join(map(self.opening, leaves))


# Sizes


def store_size(m):
    return 32 * (2 ** (m + 1) - 1)


def opening_size(n):
    return 32 * (n + 1)


def nodes_anew(n, m):
    return 2 ** (n - m + 1) - 2


def file_size(n, t):
    return head_size(n, t) + t * opening_size(n)


# The checks, by place: each row gives the first number whose condition holds, or 0


def row(*checks):
    for number, condition in checks:
        if condition():
            return number
    return 0


def bad_edition(edition):
    """W-206: 'neither 1 nor 2'."""
    return edition not in EDITIONS


def bad_depth(n):
    return not 1 <= n <= MAX_DEPTH


def bad_memory(n, m):
    return m > min(n, MAX_MEMORY)


def bad_count(t):
    return not 1 <= t <= MAX_COUNT


def start_row(n, m, store):
    return row((1, lambda: bad_depth(n)), (2, lambda: bad_memory(n, m)), (3, lambda: store < store_size(m)))


def edition_row(edition):
    """W-206: 12 'comes first where an opening, a head or a challenge is given its edition'."""
    return row((12, lambda: bad_edition(edition)))


def open_row(edition, n, m, leaf, store, out):
    return edition_row(edition) or start_row(n, m, store) or row((6, lambda: leaf >= 2**n), (7, lambda: out < opening_size(n)))


def write_row(edition, n, m, t, store, file):
    return edition_row(edition) or start_row(n, m, store) or row((8, lambda: bad_count(t)), (7, lambda: file < file_size(n, t)))


def head_row(edition, n, t, file):
    return edition_row(edition) or row((1, lambda: bad_depth(n)), (8, lambda: bad_count(t)), (7, lambda: file < file_size(n, t)))


def challenge_row(edition, n, i):
    return edition_row(edition) or row((1, lambda: bad_depth(n)), (8, lambda: bad_count(i)))


# Runs, openings and writings in lent memory; store, output and file are bytearrays


def slot(level, position):
    return 32 * (2**level - 1 + position)


class Subtree:
    """Labels made in order within a subtree, with the held ones: what runs and openings share."""

    def label(self, top, height, above):
        """The label of the next node below or at the top, whose left siblings above the subtree have these labels, and the blocks of
        its hash input."""
        level, position = node_at(height, *top, self.made)
        h = held_before(height, self.made)
        places = [self.held[32 * i : 32 * i + 32] for i in range(PLACES)]
        taken = above + places[:h] if level == self.n else places[h - 2 : h]
        data = hash_input(self.edition, self.statement, level, position, taken)
        label = sha(data)
        if level < self.n:
            places[h - 2 : h] = [label, ZERO]
        else:
            places[h] = label
        self.held = b"".join(places)
        self.made += 1
        return level, position, label, blocks(len(data))


class Run(Subtree):
    def __init__(self, edition=0, statement=ZERO, n=0, m=0, made=0, held=bytes(32 * PLACES)):
        self.edition, self.statement, self.n, self.m, self.made, self.held = edition, statement, n, m, made, held

    def bytes(self):
        numbers = self.edition, self.n, self.m, self.made
        return self.statement + b"".join(x.to_bytes(8, "big") for x in numbers) + self.held

    def impossible(self):
        return bad_edition(self.edition) or bad_depth(self.n) or bad_memory(self.n, self.m) or self.made > 2 ** (self.n + 1) - 1

    def continue_row(self, store):
        return row((4, self.impossible), (3, lambda: store < store_size(self.m)))

    def remaining(self):
        return 2 ** (self.n + 1) - 1 - self.made

    def advance(self, budget, store):
        """The refusal, the labels made, and the blocks of these."""
        refusal = self.continue_row(len(store))
        if refusal:
            return refusal, 0, 0
        labels, cost = min(budget, self.remaining()), 0
        for _ in range(labels):
            level, position, label, more = self.label((0, 0), self.n, [])
            cost += more
            if level <= self.m:
                store[slot(level, position) : slot(level, position) + 32] = label
        return 0, labels, cost


def start_run(statement, n, m, store):
    """W-206: 'New runs write 2'."""
    refusal = start_row(n, m, store)
    return refusal, Run() if refusal else Run(NEW_EDITION, statement, n, m)


class Unit:
    """W-208: 'A unit may carry 1 to 8 runs', of which one is 'named as served last'; 'runs are named by number from 1'. Those of the list
    beyond the count are not the unit's."""

    def __init__(self, count, last, runs):
        self.count, self.last, self.runs = count, last, list(runs)

    def bytes(self):
        return b"".join(x.to_bytes(8, "big") for x in (self.count, self.last)) + b"".join(run.bytes() for run in self.runs)

    def bad_number(self):
        """'not 1 to 8 runs'."""
        return not 1 <= self.count <= MAX_RUNS

    def bad_name(self, name):
        return not 1 <= name <= self.count

    def offset(self, name):
        """'their stores end to end in one lent slice'."""
        return sum(store_size(run.m) for run in self.runs[: name - 1])

    def runs_row(self, count, store):
        """'then each run in order as when continued', over what is left of the slice, up to one of them."""
        for name in range(1, count + 1):
            refusal = self.runs[name - 1].continue_row(store - self.offset(name))
            if refusal:
                return refusal
        return 0

    def row(self, store):
        first = row((21, lambda: self.bad_number() or self.bad_name(self.last)))
        return first or self.runs_row(self.count, store)

    def store_place(self, name, store):
        """Where a run's store begins in the slice, and its length; 0 and 0 if there is none."""
        if self.bad_number() or self.bad_name(name) or self.runs_row(name, store):
            return 0, 0
        return self.offset(name), store_size(self.runs[name - 1].m)

    def next_run(self):
        """'in turn, beginning after the run named as served last', 'finished runs are passed over'; None if all are."""
        names = [*range(self.last + 1, self.count + 1), *range(1, self.last + 1)]
        return next((name for name in names if self.runs[name - 1].remaining()), None)

    def advance(self, budget, store):
        """The refusal, the labels made, and the blocks of these. 'A call's budget is spent one label at a time'."""
        refusal = self.row(len(store))
        if refusal:
            return refusal, 0, 0
        labels, cost = 0, 0
        while labels < budget and (name := self.next_run()):
            at, size = self.store_place(name, len(store))
            part = store[at : at + size]
            _, one, more = self.runs[name - 1].advance(1, part)
            store[at : at + size] = part
            self.last, labels, cost = name, labels + one, cost + more
        return 0, labels, cost


class Opening(Subtree):
    def __init__(self, edition=0, statement=ZERO, n=0, m=0, leaf=0, made=0, held=bytes(32 * PLACES)):
        self.edition, self.statement = edition, statement
        self.n, self.m, self.leaf, self.made, self.held = n, m, leaf, made, held

    def impossible(self):
        n, m = self.n, self.m
        bad = bad_edition(self.edition) or bad_depth(n) or bad_memory(n, m)
        return bad or self.made > nodes_anew(n, m) or self.leaf >= 2**n

    def remaining(self):
        return nodes_anew(self.n, self.m) - self.made

    def copy(self, store, out, at=0):
        """What levels 1 to m of the store hold of the opening, put in its places."""
        n = self.n
        for level in range(1, self.m + 1):
            position = self.leaf >> (n - level)
            from_store = [(n - level + 1, position ^ 1)] + ([(0, position)] if level == n else [])
            for place, p in from_store:
                out[at + 32 * place : at + 32 * place + 32] = store[slot(level, p) : slot(level, p) + 32]

    def step(self, store, out, at=0):
        """One label anew; gives its blocks."""
        n, m, ancestor = self.n, self.m, self.leaf >> (self.n - self.m)
        above = [bytes(store[slot(*node) : slot(*node) + 32]) for node in left_siblings(m, ancestor)]
        level, position, label, cost = self.label((m, ancestor), n - m, above)
        own = self.leaf >> (n - level)
        if level == n and position == own:
            out[at : at + 32] = label
        elif position == own ^ 1:
            out[at + 32 * (n - level + 1) : at + 32 * (n - level + 2)] = label
        return cost

    def advance(self, budget, store, out):
        refusal = row(
            (4, self.impossible), (3, lambda: len(store) < store_size(self.m)), (7, lambda: len(out) < opening_size(self.n))
        )
        if refusal:
            return refusal, 0, 0
        labels = min(budget, self.remaining())
        return 0, labels, sum(self.step(store, out) for _ in range(labels))


def start_opening(edition, statement, n, m, leaf, store, out):
    refusal = open_row(edition, n, m, leaf, len(store), len(out))
    if refusal:
        return refusal, Opening()
    opening = Opening(edition, statement, n, m, leaf)
    opening.copy(store, out)
    return 0, opening


class Writing:
    def __init__(self, root=ZERO, count=0, number=0, opening=None):
        self.root, self.count, self.number, self.opening = root, count, number, opening or Opening()

    def place(self):
        o = self.opening
        return head_size(o.n, self.count) + (self.number - 1) * opening_size(o.n)

    def begin(self, number, store, file):
        """Begins an opening, and the next ones where nothing is to be labelled anew."""
        o = self.opening
        while True:
            self.number = number
            leaf = challenge_leaf(o.n, o.statement, self.root, number)
            self.opening = Opening(o.edition, o.statement, o.n, o.m, leaf)
            self.opening.copy(store, file, self.place())
            if self.opening.remaining() or number == self.count:
                return
            number += 1

    def impossible(self):
        o = self.opening
        if o.impossible() or bad_count(self.count) or not 1 <= self.number <= self.count:
            return True
        return o.remaining() == 0 and self.number < self.count

    def advance(self, budget, store, file):
        o = self.opening
        refusal = row(
            (4, self.impossible), (3, lambda: len(store) < store_size(o.m)), (7, lambda: len(file) < file_size(o.n, self.count))
        )
        if refusal:
            return refusal, 0, 0
        labels, cost = 0, 0
        while labels < budget and self.opening.remaining():
            cost += self.opening.step(store, file, self.place())
            labels += 1
            if not self.opening.remaining() and self.number < self.count:
                self.begin(self.number + 1, store, file)
        return 0, labels, cost


def start_writing(edition, statement, root, n, m, t, store, file):
    refusal = write_row(edition, n, m, t, len(store), len(file))
    if refusal:
        return refusal, Writing()
    front = head(edition, statement, root, n, t)
    file[: len(front)] = front
    writing = Writing(root, t, 1, Opening(edition, statement, n, m))
    writing.begin(1, store, file)
    return 0, writing


# Challenges and the file


def challenge_leaf(n, statement, root, i):
    result = sha(statement + b"challenge" + root + i.to_bytes(4, "big"))
    return int.from_bytes(result, "big") >> (256 - n)


def challenge_leaves(n, statement, root, t):
    return [challenge_leaf(n, statement, root, i) for i in range(1, t + 1)]


def groups(x):
    """Seven-bit groups, low group first, top bit set where another follows."""
    return bytes([x]) if x < 128 else bytes([x % 128 + 128]) + groups(x // 128)


def head(edition, statement, root, n, t):
    return groups(edition) + groups(n) + groups(t) + statement + root


def head_size(n, t):
    """The same for both editions, whose numbers take one byte."""
    return len(head(NEW_EDITION, ZERO, ZERO, n, t))


class Refused(Exception):
    """A refusal with the opening it was found in, from 1, or 0 outside openings."""

    def __init__(self, number, opening=0):
        super().__init__(number, opening)
        self.number, self.opening = number, opening

    def code(self):
        return 256 * self.number + self.opening


def read_number(data, at, most=2):
    """A number in at most so many groups, and the place after it."""
    value = 0
    for i in range(most):
        if at + i >= len(data):
            raise Refused(10)
        byte = data[at + i]
        value += byte % 128 * 128**i
        if byte < 128:
            if byte == 0 and i > 0:
                raise Refused(11)
            return value, at + i + 1
    raise Refused(11)


def read_head(data):
    """Edition, depth, count and where the numbers end."""
    edition, at = read_number(data, 0)
    if bad_edition(edition):
        raise Refused(12)
    n, at = read_number(data, at)
    if bad_depth(n):
        raise Refused(1)
    t, at = read_number(data, at)
    if bad_count(t):
        raise Refused(8)
    return edition, n, t, at


def opening_part(data, i):
    """Opening i, from 1; empty if there is none."""
    try:
        _, n, t, at = read_head(data)
    except Refused:
        return b""
    if len(data) != at + 64 + t * opening_size(n) or not 1 <= i <= t:
        return b""
    start = at + 64 + (i - 1) * opening_size(n)
    return data[start : start + opening_size(n)]


def inputs(edition, statement, n, leaf, opening):
    """The hash input that an opening gives at each node on its leaf's way, by level from n to 0, in an edition's order."""
    place = lambda i: opening[32 * i : 32 * i + 32]
    given = {level: place(n - level + 1) for level in range(1, n + 1)}
    result = {n: hash_input(edition, statement, n, leaf, [given[level] for level, _ in left_siblings(n, leaf)])}
    label = place(0)
    for level in range(n - 1, -1, -1):
        right = (leaf >> (n - level - 1)) % 2 == 1
        children = [given[level + 1], label] if right else [label, given[level + 1]]
        result[level] = hash_input(edition, statement, level, leaf >> (n - level), children)
        label = sha(result[level])
    return result


def opening_right(edition, statement, n, leaf, root, opening):
    given = inputs(edition, statement, n, leaf, opening)
    return row((14, lambda: sha(given[n]) != opening[:32]), (15, lambda: sha(given[0]) != root))


def check_opening(edition, statement, n, leaf, root, opening):
    size = len(opening)
    return edition_row(edition) or row(
        (1, lambda: bad_depth(n)),
        (6, lambda: leaf >= 2**n),
        (10, lambda: size < opening_size(n)),
        (13, lambda: size > opening_size(n)),
    ) or opening_right(edition, statement, n, leaf, root, opening)


def check_file(data, statement, n, t):
    """Leaves and openings of an accepted file. W-206: 'files of edition 1 are still checked by their own order'."""
    edition, depth, count, at = read_head(data)
    size = at + 64 + count * opening_size(depth)
    refusal = row(
        (10, lambda: len(data) < size),
        (13, lambda: len(data) > size),
        (9, lambda: data[at : at + 32] != statement or depth != n or count != t),
    )
    if refusal:
        raise Refused(refusal)
    root = data[at + 32 : at + 64]
    leaves = challenge_leaves(n, statement, root, t)
    openings = [opening_part(data, i) for i in range(1, t + 1)]
    for i, (leaf, opening) in enumerate(zip(leaves, openings), 1):
        refusal = opening_right(edition, statement, n, leaf, root, opening)
        if refusal:
            raise Refused(refusal, i)
    return leaves, openings


def check_code(data, statement, n, t):
    try:
        check_file(data, statement, n, t)
    except Refused as refused:
        return refused.code()
    return 0


# The record of a run


def held_size(run):
    """The bytes of the held labels. They stand at the front of the places."""
    return 32 * held_before(run.n, run.made)


def record(run):
    return b"".join(map(groups, (run.edition, run.n, run.m, run.made))) + run.statement + run.held[: held_size(run)]


def write_record(run, out):
    """The refusal, and how many bytes were written over the front of the output."""
    refusal = row((4, run.impossible), (7, lambda: len(out) < len(record(run))))
    if refusal:
        return refusal, 0
    size = len(record(run))
    out[:size] = record(run)
    return 0, size


def resumed(data):
    """The run of a record; raises Refused."""
    edition, at = read_number(data, 0)
    if bad_edition(edition):
        raise Refused(12)
    n, at = read_number(data, at)
    m, at = read_number(data, at)
    made, at = read_number(data, at, 6)
    run = Run(edition, bytes(data[at : at + 32]), n, m, made, bytes(data[at + 32 :]).ljust(32 * PLACES, b"\0"))
    refusal = row((4, run.impossible), (18, lambda: len(data) != at + 32 + held_size(run)))
    if refusal:
        raise Refused(refusal)
    return run


def read_record(data):
    """The refusal, and the run, which is all zero beside one."""
    try:
        return 0, resumed(data)
    except Refused as refused:
        return refused.number, Run()


# The program's checkpoint (docs/FORMAT.md)


MARK = b"mastdock run 1\n"


def checkpoint(run, t, store):
    data = MARK + bytes([run.n, run.m, t]) + len(record(run)).to_bytes(2, "big") + store[: store_size(run.m)] + record(run)
    return data + sha(data)


def openings_taken(run, t, data):
    """Of a finished run the openings that are whole and right, up to the first that is not, t at most."""
    taken, size, root = [], opening_size(run.n), run.held[:32]
    while run.made == 2 ** (run.n + 1) - 1 and len(taken) < t:
        opening = data[len(taken) * size :][:size]
        leaf = challenge_leaf(run.n, run.statement, root, len(taken) + 1)
        if check_opening(run.edition, run.statement, run.n, leaf, root, opening):
            break
        taken.append(opening)
    return taken


def read_checkpoint(data):
    """'whole' with the challenges, the run, the store and the openings taken; or what it is instead."""
    if len(data) < 20 or not data.startswith(MARK):
        return ("foreign",)
    n, m, t = data[15:18]
    if bad_depth(n) or bad_memory(n, m) or bad_count(t):
        return ("damaged",)
    middle = 20 + store_size(m)
    end = middle + int.from_bytes(data[18:20], "big")
    if data[end : end + 32] != sha(data[:end]):
        return ("damaged",)
    refusal, run = read_record(data[middle:end])
    if refusal or (run.n, run.m) != (n, m):
        return ("impossible",)
    return "whole", t, run, bytearray(data[20:middle]), openings_taken(run, t, data[end + 32 :])


# Chains


def chain(n, leaves):
    """The nodes on the leaves' ways to the root, in labelling order, each once, as 2^level + position."""
    nodes = {(level, leaf >> (n - level)) for leaf in leaves for level in range(n + 1)}
    # A node comes after all below it: order by the last leaf of its subtree, then the deeper first.
    order = sorted(nodes, key=lambda node: (((node[1] + 1) << (n - node[0])) - 1, -node[0]))
    return [2**level + position for level, position in order]


def plan_row(n, leaves, places=None):
    """W-203: 'Planning refuses with 8 only above 200 leaves'."""
    refusal = row(
        (1, lambda: bad_depth(n)), (8, lambda: len(leaves) > 200), (6, lambda: any(leaf >= 2**n for leaf in leaves))
    )
    if refusal or places is None:
        return refusal
    return row((16, lambda: places < len(chain(n, leaves))))


def plan(n, leaves, places):
    """The refusal, the count and the list afterwards."""
    refusal = plan_row(n, leaves, len(places))
    if refusal:
        return refusal, 0, places
    nodes = chain(n, leaves)
    return 0, len(nodes), nodes + places[len(nodes) :]


def first_clash(edition, statement, n, leaves, openings):
    """The first pair i < j that disagrees, by i, then j, with the smallest level and both inputs; None if there is none."""
    given = [inputs(edition, statement, n, leaf, opening) for leaf, opening in zip(leaves, openings)]
    for i in range(len(leaves)):
        for j in range(i + 1, len(leaves)):
            for level in range(n):
                if leaves[i] >> (n - level) != leaves[j] >> (n - level):
                    break
                if given[i][level][41:] != given[j][level][41:]:
                    return i + 1, j + 1, level, given[i][level], given[j][level]
    return None


def compare(edition, statement, n, leaves, data):
    """The refusal, and the clash or None. Unlike planning it takes at least one leaf."""
    refusal = edition_row(edition) or plan_row(n, leaves) or row((8, lambda: not leaves))
    size = opening_size(n) if not refusal else 0
    refusal = refusal or row((10, lambda: len(data) < len(leaves) * size), (13, lambda: len(data) > len(leaves) * size))
    if refusal:
        return refusal, None
    return 0, first_clash(edition, statement, n, leaves, [data[i * size : (i + 1) * size] for i in range(len(leaves))])


def draw(data, statement, n, t, places):
    """('chain', count, list) or ('clash', clash, list), whose inputs are of the file's own edition; raises Refused."""
    leaves, openings = check_file(data, statement, n, t)
    clash = first_clash(read_head(data)[0], statement, n, leaves, openings)
    if clash:
        return "clash", clash, places
    nodes = chain(n, leaves)
    if len(places) < len(nodes):
        raise Refused(16)
    return "chain", len(nodes), nodes + places[len(nodes) :]


# The planning program


def chain_text(n, leaves):
    nodes = chain(n, leaves)
    lines = [f"depth {n} leaves {len(set(leaves))} chain {len(nodes)}"]
    for node in nodes:
        level = node.bit_length() - 1
        lines.append(f"{level} {node - 2**level}")
    return "".join(line + "\n" for line in lines)


def decimal(word):
    """A number's value; of one with more than 20 digits only that it is over 2^64 - 1."""
    digits = word.lstrip(b"0")
    return 2**64 if len(digits) > 20 else int(digits or b"0")


def planning(data):
    words = data.replace(b"\n", b" ").split(b" ")
    numbers = [decimal(word) for word in words if word.isdigit()]
    bad = len(data) > 65536 or any(byte not in b"0123456789 \n" for byte in data) or not numbers or max(numbers) >= 2**64
    refusal = 17 if bad else plan_row(numbers[0], numbers[1:])
    return f"refused {refusal}\n" if refusal else chain_text(numbers[0], numbers[1:])

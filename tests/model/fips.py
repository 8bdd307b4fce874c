"""SHA-256's compression by FIPS 180-4, for hash states that hashlib cannot be given: any count of bytes taken."""
import hashlib

LIMIT = 2**61 - 1


def primes(count):
    found = []
    x = 2
    while len(found) < count:
        if all(x % p for p in found):
            found.append(x)
        x += 1
    return found


def root_bits(x, power):
    """The first 32 bits of the fractional part of x's square or cube root."""
    scaled = x << (32 * power)
    low, high = 0, 1 << 64
    while high - low > 1:
        middle = (low + high) // 2
        low, high = (middle, high) if middle**power <= scaled else (low, middle)
    return low % 2**32


INITIAL = [root_bits(p, 2) for p in primes(8)]
CONSTANTS = [root_bits(p, 3) for p in primes(64)]


def turned(x, n):
    return (x >> n | x << (32 - n)) % 2**32


def compressed(words, block):
    w = [int.from_bytes(block[4 * i : 4 * i + 4], "big") for i in range(16)]
    for i in range(16, 64):
        s0 = turned(w[i - 15], 7) ^ turned(w[i - 15], 18) ^ w[i - 15] >> 3
        s1 = turned(w[i - 2], 17) ^ turned(w[i - 2], 19) ^ w[i - 2] >> 10
        w.append((w[i - 16] + s0 + w[i - 7] + s1) % 2**32)
    a, b, c, d, e, f, g, h = words
    for k, x in zip(CONSTANTS, w):
        big1 = turned(e, 6) ^ turned(e, 11) ^ turned(e, 25)
        t1 = h + big1 + (e & f ^ ~e & g) + k + x
        t2 = (turned(a, 2) ^ turned(a, 13) ^ turned(a, 22)) + (a & b ^ a & c ^ b & c)
        a, b, c, d, e, f, g, h = (t1 + t2) % 2**32, a, b, c, (d + t1) % 2**32, e, f, g
    return [(x + y) % 2**32 for x, y in zip(words, [a, b, c, d, e, f, g, h])]


class State:
    """Eight words, a tail of which the first taken % 64 bytes wait, and the bytes taken."""

    def __init__(self, words=None, tail=bytes(64), taken=0):
        self.words, self.tail, self.taken = words or INITIAL, tail, taken

    def push(self, data):
        for byte in data:
            at = self.taken % 64
            self.tail = self.tail[:at] + bytes([byte]) + self.tail[at + 1 :]
            self.taken += 1
            if at == 63:
                self.words, self.tail = compressed(self.words, self.tail), bytes(64)

    def update(self, data):
        """The refusal; a refused state is as it was."""
        if self.taken + len(data) > LIMIT:
            return 5
        self.push(data)
        return 0

    def finish(self):
        """The refusal, the blocks of all bytes taken with their padding, and the digest; 0 and zero if refused."""
        if self.taken > LIMIT:
            return 5, 0, bytes(32)
        end = State(self.words, self.tail, self.taken)
        zeros = (55 - self.taken) % 64
        end.push(b"\x80" + bytes(zeros) + (8 * self.taken).to_bytes(8, "big"))
        return 0, end.taken // 64, b"".join(x.to_bytes(4, "big") for x in end.words)


def agrees():
    """The compression is hashlib's, and the blocks are those of W-207, at every length of two blocks."""
    for length in range(130):
        state = State()
        state.update(bytes(range(length)))
        assert state.finish() == (0, (length + 8) // 64 + 1, hashlib.sha256(bytes(range(length))).digest())

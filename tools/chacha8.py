"""The words of ChaCha8, written from its definition and apart from the program: docs/SCENARIOS.md, "Coins" and "Noise".

A key is a number of 64 bits, its eight bytes the lowest first, and 24 zero bytes. A stream is the nonce, of 64 bits.
"""
import functools
import struct

CONSTANTS = struct.unpack("<4I", b"expand 32-byte k")
DOUBLE_ROUNDS = 4
WORD = 0xFFFF_FFFF
COIN_STREAM, NOISE_STREAM = 0, 1
ROUNDS = (
    (0, 4, 8, 12), (1, 5, 9, 13), (2, 6, 10, 14), (3, 7, 11, 15),
    (0, 5, 10, 15), (1, 6, 11, 12), (2, 7, 8, 13), (3, 4, 9, 14),
)


def turned(word, bits):
    return (word << bits | word >> 32 - bits) & WORD


def quarter(x, a, b, c, d):
    for turn, (to, by, mixed) in zip((16, 12, 8, 7), ((a, b, d), (c, d, b), (a, b, d), (c, d, b))):
        x[to] = (x[to] + x[by]) & WORD
        x[mixed] = turned(x[mixed] ^ x[to], turn)


@functools.lru_cache(maxsize=4096)
def block(key, stream, number):
    """The sixteen words of a block."""
    seed = struct.unpack("<8I", struct.pack("<Q", key) + bytes(24))
    first = [*CONSTANTS, *seed, number & WORD, number >> 32, stream & WORD, stream >> 32]
    x = list(first)
    for _ in range(DOUBLE_ROUNDS):
        for places in ROUNDS:
            quarter(x, *places)
    return tuple((a + b) & WORD for a, b in zip(x, first))


def word_at(key, stream, place):
    return block(key, stream, place // 16)[place % 16]


def coins(key, nodes, pulse):
    """The coins of a pulse, by node."""
    return [word_at(key, COIN_STREAM, (pulse - 1) * nodes + node) & 1 for node in range(nodes)]


def messages(key, nodes, modulus, pulse, sender):
    """What a node with noise sends in a pulse, by receiver: a number, or None."""
    drawn = []
    for receiver in range(nodes):
        word = word_at(key, NOISE_STREAM, ((pulse - 1) * nodes + sender) * nodes + receiver)
        number = word % (modulus + 2)
        drawn.append(None if number == modulus + 1 else number)
    return drawn

"""A reference of the permutations, the cipher SpoC, sealers, the cards and the listing.

Written from docs/ alone and meant to be read beside them. It is slow and makes
no claim to be safe against someone who watches its timing.

Buffers (outputs, tags, media, scratch) are bytearrays that a call changes in
place. A refusal is raised as `Refused`, which holds a `Fault`.
"""

from __future__ import annotations

from abc import ABC, abstractmethod
from contextlib import contextmanager
from dataclasses import dataclass, replace
from enum import IntEnum
from typing import Callable, Iterator, NoReturn, Optional, Sequence


# Faults

class Number(IntEnum):
    """What a fault is about."""

    KEY_LENGTH = 1
    NONCE_LENGTH = 2
    TOO_LONG = 3
    ROOM_SHORT = 4
    TAG_LENGTH = 5
    TAG_DISAGREES = 6
    BODY_LONG = 7
    CARD_FULL = 8
    MEDIUM_SHORT = 9
    BYTES_MISSING = 10
    MARK_WRONG = 11
    OTHER_SEALER = 12
    KIND_UNKNOWN = 13
    END_WRONG = 14
    BYTES_LEFT = 15
    NO_SUCH_SHEET = 16
    TOO_MANY_STEPS = 21


class Layer(IntEnum):
    """Who refuses."""

    CIPHER = 1
    RECORD = 2
    CARD = 3


@dataclass(frozen=True)
class Fault:
    """Why a call was refused, and where."""

    number: int
    layer: int
    record: int = 0
    place: int = 0

    def __str__(self) -> str:
        return (f"refused {self.number:d} layer {self.layer:d}"
                f" record {self.record} place {self.place}")


class Refused(Exception):
    """A call said no."""

    def __init__(self, fault: Fault):
        super().__init__(str(fault))
        self.fault = fault


def refuse(number: int, layer: int, record: int = 0, place: int = 0) -> NoReturn:
    """Raise a refusal."""
    raise Refused(Fault(number, layer, record, place))


# Permutations

def xor(a: bytes, b: bytes) -> bytes:
    """Xor byte by byte, as far as the shorter one goes."""
    return bytes(x ^ y for x, y in zip(a, b))


class Permutation(ABC):
    """A permutation of `size` bytes, made of steps counted from 0; `steps` is the full number."""

    size: int
    steps: int

    def forward_by(self, state: bytes, s: int) -> bytes:
        """Take steps 0 to s - 1."""
        self._ask_steps(s)
        for i in range(s):
            state = self._take(state, i)
        return state

    def back_by(self, state: bytes, s: int) -> bytes:
        """Undo steps s - 1 to 0."""
        self._ask_steps(s)
        for i in reversed(range(s)):
            state = self._undo(state, i)
        return state

    def forward(self, state: bytes) -> bytes:
        """Take all steps."""
        return self.forward_by(state, self.steps)

    def back(self, state: bytes) -> bytes:
        """Undo all steps."""
        return self.back_by(state, self.steps)

    def page(self, state: bytes, s: int, room: int) -> bytes:
        """The diffusion page of a state after s steps, for a buffer of `room` bytes."""
        after = int.from_bytes(self.forward_by(state, s), "big")
        if room < 33 * (self.size + 1):
            refuse(Number.ROOM_SHORT, Layer.CIPHER)
        bits = 8 * self.size
        number = int.from_bytes(state, "big")
        counts = []
        for i in range(bits):
            flipped = (number ^ 1 << bits - 1 - i).to_bytes(self.size, "big")
            changed = int.from_bytes(self.forward_by(flipped, s), "big") ^ after
            counts.append(bin(changed).count("1"))
        lines = ["".join(f"{count:4}" for count in counts[i:i + 8]) for i in range(0, bits, 8)]
        lines.append(f"sum{sum(counts):29}")
        return "".join(line + "\n" for line in lines).encode("ascii")

    def _ask_steps(self, s: int) -> None:
        if s > self.steps:
            refuse(Number.TOO_MANY_STEPS, Layer.CIPHER)

    @abstractmethod
    def _take(self, state: bytes, i: int) -> bytes: ...

    @abstractmethod
    def _undo(self, state: bytes, i: int) -> bytes: ...


class BenchPermutation(Permutation):
    """The permutation for pencil and paper: four quarters of 8 bytes, one step."""

    size = 32
    steps = 1

    def _take(self, state: bytes, i: int) -> bytes:
        q0, q1, q2, q3 = cut(state, 8)
        return xor(q3, q0) + q0 + q1 + q2

    def _undo(self, state: bytes, i: int) -> bytes:
        q0, q1, q2, q3 = cut(state, 8)
        return q1 + q2 + q3 + xor(q0, q1)


class Light(Permutation):
    """sLiSCP-light on four subblocks of two words each.

    A subblock is held as one number: its left word is the high half.
    """

    steps = 18

    def __init__(self, word_bits: int, rounds: int, table: str):
        self.word_bits = word_bits
        self.rounds = rounds
        self.size = word_bits  # four subblocks of two words: 8 * word_bits bits
        self.constants = [tuple(bytes.fromhex(row)) for row in table.split("\n")]
        self.word_ones = (1 << word_bits) - 1
        self.subblock_bytes = word_bits // 4
        self.subblock_ones = (1 << 2 * word_bits) - 1

    def _mix(self, x: int) -> int:
        """f(x): (x turned by 5, and x) xor (x turned by 1)."""
        bits = self.word_bits
        by5 = x << 5 | x >> (bits - 5)
        by1 = x << 1 | x >> (bits - 1)
        return ((by5 & x) ^ by1) & self.word_ones

    def _round_word(self, rc: int, k: int) -> int:
        """All bits 1 but the lowest, which is bit k of rc."""
        return self.word_ones ^ 1 ^ (rc >> k & 1)

    def _step_word(self, sc: int) -> int:
        """A subblock of ones with sc as its last byte."""
        return self.subblock_ones ^ 0xFF ^ sc

    def _box(self, subblock: int, rc: int) -> int:
        x, y = subblock >> self.word_bits, subblock & self.word_ones
        for k in range(self.rounds):
            x, y = self._mix(x) ^ y ^ self._round_word(rc, k), x
        return x << self.word_bits | y

    def _unbox(self, subblock: int, rc: int) -> int:
        x, y = subblock >> self.word_bits, subblock & self.word_ones
        for k in reversed(range(self.rounds)):
            x, y = y, self._mix(y) ^ x ^ self._round_word(rc, k)
        return x << self.word_bits | y

    def _split(self, state: bytes) -> list[int]:
        return [int.from_bytes(part, "big") for part in cut(state, self.subblock_bytes)]

    def _join(self, *subblocks: int) -> bytes:
        return b"".join(s.to_bytes(self.subblock_bytes, "big") for s in subblocks)

    def _take(self, state: bytes, i: int) -> bytes:
        rc0, rc1, sc0, sc1 = self.constants[i]
        s0, s1, s2, s3 = self._split(state)
        b1, b3 = self._box(s1, rc0), self._box(s3, rc1)
        return self._join(b1, s2 ^ b3 ^ self._step_word(sc1),
                          b3, s0 ^ b1 ^ self._step_word(sc0))

    def _undo(self, state: bytes, i: int) -> bytes:
        rc0, rc1, sc0, sc1 = self.constants[i]
        s0, s1, s2, s3 = self._split(state)
        return self._join(s3 ^ s0 ^ self._step_word(sc0), self._unbox(s0, rc0),
                          s1 ^ s2 ^ self._step_word(sc1), self._unbox(s2, rc1))


def cut(text: bytes, size: int) -> list[bytes]:
    """Cut into pieces of `size` bytes; the last may be short."""
    return [text[i:i + size] for i in range(0, len(text), size)]


# rc0, rc1, sc0 and sc1 of steps 0 to 17.
LIGHT192 = Light(24, 6, """\
07 27 08 29
04 34 0C 1D
06 2E 0A 33
25 19 2F 2A
17 35 38 1F
1C 0F 24 10
12 08 36 18
3B 0C 0D 14
26 0A 2B 1E
15 2F 3E 31
3F 38 01 09
20 24 21 2D
30 36 11 1B
28 0D 39 16
3C 2B 05 3D
22 3E 27 03
13 01 34 02
1A 21 2E 23""")

LIGHT256 = Light(32, 8, """\
0F 47 08 64
04 B2 86 6B
43 B5 E2 6F
F1 37 89 2C
44 96 E6 DD
73 EE CA 99
E5 4C 17 EA
0B F5 8E 0F
47 07 64 04
B2 82 6B 43
B5 A1 6F F1
37 78 2C 44
96 A2 DD 73
EE B9 99 E5
4C F2 EA 0B
F5 85 0F 47
07 23 04 B2
82 D9 43 B5""")

BENCH_PERMUTATION = BenchPermutation()

PERMUTATIONS = {"192": LIGHT192, "256": LIGHT256, "bench": BENCH_PERMUTATION}


# Suites

KEY_BYTES = 16
NONCE_BYTES = 16


@dataclass(frozen=True)
class Suite:
    """A permutation, and how SpoC stands on it."""

    name: str
    version: int
    permutation: Permutation
    rate_places: Sequence[int]
    masked_places: Sequence[int]
    start: Callable[[bytes, bytes], bytes]

    @property
    def rate(self) -> int:
        return len(self.rate_places)

    @property
    def control_place(self) -> int:
        return self.rate_places[0]


def places(*ranges: tuple[int, int]) -> tuple[int, ...]:
    """The places of some ranges, first and last of each included."""
    return tuple(i for first, last in ranges for i in range(first, last + 1))


def put_at(state: bytes, where: Sequence[int], block: bytes) -> bytes:
    """Xor a block into some places of the state."""
    new = bytearray(state)
    for place, byte in zip(where, block):
        new[place] ^= byte
    return bytes(new)


def start_64(key: bytes, nonce: bytes) -> bytes:
    """Load key and half the nonce, run forward, xor in the other half."""
    k0, k1, n0, n1 = key[:8], key[8:], nonce[:8], nonce[8:]
    loaded = n0[:4] + k0[6:] + k0[:6] + n0[4:] + k1[6:] + k1[:6]
    return put_at(LIGHT192.forward(loaded), MASKED_64, n1)


def start_128(key: bytes, nonce: bytes) -> bytes:
    """The halves of nonce and key in turn."""
    return nonce[:8] + key[:8] + nonce[8:] + key[8:]


def start_bench(key: bytes, nonce: bytes) -> bytes:
    """The key, and then the nonce."""
    return key + nonce


MASKED_64 = places((6, 9), (18, 21))

SPOC64 = Suite("SpoC-64", 1, LIGHT192, places((0, 3), (12, 15)), MASKED_64, start_64)
SPOC128 = Suite("SpoC-128", 2, LIGHT256, places((0, 7), (16, 23)),
                places((8, 15), (24, 31)), start_128)
BENCH = Suite("bench", 9, BENCH_PERMUTATION, places((16, 23)), places((0, 7)), start_bench)

SUITES = {suite.version: suite for suite in (SPOC64, SPOC128, BENCH)}


# The feed

FULL_DATA, SHORT_DATA, FULL_MESSAGE, SHORT_MESSAGE, LAST = 0x20, 0x30, 0x40, 0x50, 0x80


def padded(block: bytes, rate: int) -> bytes:
    """A short block gets 80 and zeros; a full one stays."""
    return block if len(block) == rate else (block + b"\x80").ljust(rate, b"\0")


def control_bytes(data: bytes, message: bytes, rate: int) -> list[int]:
    """The control byte of each mask of the feed, the zero mask's first."""
    controls = [0]
    controls += [FULL_DATA if len(b) == rate else SHORT_DATA for b in cut(data, rate)]
    controls += [FULL_MESSAGE if len(b) == rate else SHORT_MESSAGE for b in cut(message, rate)]
    controls[-1] ^= LAST
    return controls


def masked(suite: Suite, state: bytes, block: bytes, control: int) -> bytes:
    """The state with the mask of a block xored in."""
    state = put_at(state, suite.masked_places, padded(block, suite.rate))
    return put_at(state, [suite.control_place], bytes([control]))


def take(state: bytes, where: Sequence[int]) -> bytes:
    """The bytes at some places of the state."""
    return bytes(state[place] for place in where)


def after_data(suite: Suite, key: bytes, nonce: bytes, data: bytes,
               control: Iterator[int]) -> bytes:
    """The state that the message begins from."""
    forward = suite.permutation.forward
    state = suite.start(key, nonce)
    state = forward(masked(suite, state, bytes(suite.rate), next(control)))
    for block in cut(data, suite.rate):
        state = forward(masked(suite, state, block, next(control)))
    return state


def crypt(suite: Suite, key: bytes, nonce: bytes, data: bytes, text: bytes,
          opening: bool) -> tuple[bytes, bytes]:
    """Turn message into ciphertext, or back when opening; give it and the tag."""
    # The lengths alone fix the control bytes, so the ciphertext serves as well.
    control = iter(control_bytes(data, text, suite.rate))
    state = after_data(suite, key, nonce, data, control)
    out = bytearray()
    for block in cut(text, suite.rate):
        other = xor(block, take(state, suite.rate_places))
        out += other
        message = other if opening else block
        state = suite.permutation.forward(masked(suite, state, message, next(control)))
    return bytes(out), take(state, suite.masked_places)


# Sealers

MOST_BYTES = 65535
SCRATCH_BYTES = 16


class Sealer(ABC):
    """A cipher that cards are sealed with; its tags have `width` bytes.

    A sealer says what seal, open and test come to once the lengths are right.
    """

    version: int
    width: int

    @abstractmethod
    def sealed(self, key: bytes, nonce: bytes, data: bytes, message: bytes) -> tuple[bytes, bytes]:
        """Ciphertext and tag of a message."""

    @abstractmethod
    def opened(self, key: bytes, nonce: bytes, data: bytes, ciphertext: bytes,
               tag: bytes) -> Optional[bytes]:
        """The message, or None if the tag disagrees."""

    @abstractmethod
    def tested(self, key: bytes, nonce: bytes, data: bytes, ciphertext: bytes,
               scratch: bytearray, tag: bytes) -> bool:
        """Does the tag agree? Each block is opened over the last one, in the first 16 bytes."""

    def seal(self, key: bytes, nonce: bytes, data: bytes, message: bytes,
             out: bytearray, tag: bytearray) -> None:
        """Put the ciphertext at the head of `out`, and the tag into `tag`."""
        self._ask_lengths(key, nonce, data, message, len(message), out, tag)
        out[:len(message)], tag[:] = self.sealed(key, nonce, data, message)

    def open(self, key: bytes, nonce: bytes, data: bytes, ciphertext: bytes,
             out: bytearray, tag: bytes) -> None:
        """Put the message at the head of `out`, or zeros if the tag disagrees."""
        self._ask_lengths(key, nonce, data, ciphertext, len(ciphertext), out, tag)
        message = self.opened(key, nonce, data, ciphertext, tag)
        out[:len(ciphertext)] = bytes(len(ciphertext)) if message is None else message
        if message is None:
            refuse(Number.TAG_DISAGREES, Layer.CIPHER)

    def test(self, key: bytes, nonce: bytes, data: bytes, ciphertext: bytes,
             scratch: bytearray, tag: bytes) -> None:
        """Ask all that open asks, with no room for the message; wipe the first 16 bytes."""
        self._ask_lengths(key, nonce, data, ciphertext, SCRATCH_BYTES, scratch, tag)
        agrees = self.tested(key, nonce, data, ciphertext, scratch, tag)
        scratch[:SCRATCH_BYTES] = bytes(SCRATCH_BYTES)
        if not agrees:
            refuse(Number.TAG_DISAGREES, Layer.CIPHER)

    def _ask_lengths(self, key: bytes, nonce: bytes, data: bytes, text: bytes,
                     room: int, buffer: bytes, tag: bytes) -> None:
        """The five questions that are about lengths; `room` is what the buffer is to have."""
        if len(key) != KEY_BYTES:
            refuse(Number.KEY_LENGTH, Layer.CIPHER)
        if len(nonce) != NONCE_BYTES:
            refuse(Number.NONCE_LENGTH, Layer.CIPHER)
        if len(data) > MOST_BYTES or len(text) > MOST_BYTES:
            refuse(Number.TOO_LONG, Layer.CIPHER)
        if len(buffer) < room:
            refuse(Number.ROOM_SHORT, Layer.CIPHER)
        if len(tag) != self.width:
            refuse(Number.TAG_LENGTH, Layer.CIPHER)


class Spoc(Sealer):
    """SpoC over a suite."""

    def __init__(self, suite: Suite):
        self.suite = suite
        self.name = suite.name
        self.version = suite.version
        self.width = suite.rate

    def sealed(self, key: bytes, nonce: bytes, data: bytes, message: bytes) -> tuple[bytes, bytes]:
        return crypt(self.suite, key, nonce, data, message, opening=False)

    def opened(self, key: bytes, nonce: bytes, data: bytes, ciphertext: bytes,
               tag: bytes) -> Optional[bytes]:
        message, right_tag = crypt(self.suite, key, nonce, data, ciphertext, opening=True)
        return message if right_tag == tag else None

    def tested(self, key: bytes, nonce: bytes, data: bytes, ciphertext: bytes,
               scratch: bytearray, tag: bytes) -> bool:
        suite = self.suite
        control = iter(control_bytes(data, ciphertext, suite.rate))
        state = after_data(suite, key, nonce, data, control)
        for block in cut(ciphertext, suite.rate):
            length = len(block)
            scratch[:length] = xor(block, take(state, suite.rate_places))
            message = bytes(scratch[:length])
            state = suite.permutation.forward(masked(suite, state, message, next(control)))
        return take(state, suite.masked_places) == tag


SPOC64_SEALER, SPOC128_SEALER, BENCH_SEALER = Spoc(SPOC64), Spoc(SPOC128), Spoc(BENCH)

SEALERS = {sealer.version: sealer for sealer in (SPOC64_SEALER, SPOC128_SEALER, BENCH_SEALER)}


# The card's bytes

MARK = b"SEA"
HEADER_BYTES = 13
HEAD_BYTES = 9
SHEET, END = 1, 2
MOST_SHEETS = 512
MOST_BODY = 4096


def header_bytes(version: int, number: int) -> bytes:
    """Mark, version and card number."""
    return MARK + version.to_bytes(2, "big") + number.to_bytes(8, "big")


@dataclass(frozen=True)
class Head:
    """The first 9 bytes of a record."""

    kind: int
    cell: int
    edition: int
    length: int

    def to_bytes(self) -> bytes:
        return (self.kind.to_bytes(1, "big") + self.cell.to_bytes(4, "big")
                + self.edition.to_bytes(2, "big") + self.length.to_bytes(2, "big"))

    @classmethod
    def read(cls, text: bytes) -> Head:
        """Read a head from exactly 9 bytes."""
        kind, cell, edition, length = text[:1], text[1:5], text[5:7], text[7:9]
        return cls(*(int.from_bytes(part, "big") for part in (kind, cell, edition, length)))


def end_head(sheets: int) -> Head:
    """The head of the end record after some sheets."""
    return Head(END, sheets, 0, 0)


def record_nonce(header: bytes, record: int) -> bytes:
    """The card number, and then the record's own number."""
    return header[5:13] + record.to_bytes(8, "big")


def sealed_record(sealer: Sealer, key: bytes, header: bytes, record: int,
                  head: Head, body: bytes) -> bytes:
    """A record's bytes: head, sealed body and tag."""
    out, tag = bytearray(len(body)), bytearray(sealer.width)
    data = header + head.to_bytes()
    sealer.seal(key, record_nonce(header, record), data, body, out, tag)
    return head.to_bytes() + bytes(out) + bytes(tag)


def record_size(sealer: Sealer, body_length: int) -> int:
    """How many bytes a record has."""
    return HEAD_BYTES + body_length + sealer.width


def end_size(sealer: Sealer) -> int:
    """How many bytes the end record has."""
    return record_size(sealer, 0)


# The writer

class Writer:
    """Writes one card; the medium is handed to each call."""

    def __init__(self, sealer: Sealer, key: bytes, header: bytes):
        self.sealer = sealer
        self.key = key
        self.header = header
        self.sheets = 0
        self.place = len(header)
        self.closed = False

    @classmethod
    def start(cls, sealer: Sealer, key: bytes, number: int, medium: bytearray) -> Writer:
        """Write the header and give a writer."""
        if len(key) != KEY_BYTES:
            refuse(Number.KEY_LENGTH, Layer.CIPHER)
        if len(medium) < HEADER_BYTES + end_size(sealer):
            refuse(Number.MEDIUM_SHORT, Layer.CARD)
        header = header_bytes(sealer.version, number)
        medium[:HEADER_BYTES] = header
        return cls(sealer, key, header)

    def append(self, medium: bytearray, cell: int, edition: int, body: bytes) -> int:
        """Write a sheet record; give its number."""
        self._ask_open()
        if self.sheets >= MOST_SHEETS:
            self._refuse(Number.CARD_FULL, Layer.RECORD)
        if len(body) > MOST_BODY:
            self._refuse(Number.BODY_LONG, Layer.RECORD)
        # Room for the end record is asked for too, and left alone.
        needed = record_size(self.sealer, len(body)) + end_size(self.sealer)
        if self.place + needed > len(medium):
            self._refuse(Number.MEDIUM_SHORT, Layer.RECORD)
        self._put(medium, Head(SHEET, cell, edition, len(body)), body)
        self.sheets += 1
        return self.sheets - 1

    def close(self, medium: bytearray) -> int:
        """Write the end record; give the card's length."""
        self._ask_open()
        if self.place + end_size(self.sealer) > len(medium):
            self._refuse(Number.MEDIUM_SHORT, Layer.CARD)
        self._put(medium, end_head(self.sheets), b"")
        self.closed = True
        return self.place

    def _put(self, medium: bytearray, head: Head, body: bytes) -> None:
        record = sealed_record(self.sealer, self.key, self.header, self.sheets, head, body)
        medium[self.place:self.place + len(record)] = record
        self.place += len(record)

    def _refuse(self, number: Number, layer: Layer) -> NoReturn:
        refuse(number, layer, self.sheets, self.place)

    def _ask_open(self) -> None:
        if self.closed:
            raise ValueError("the card is closed")


# The reader

@dataclass(frozen=True)
class Card:
    """A checked card. Made with no arguments, it is the empty card."""

    data: bytes = b""
    key: bytes = bytes(KEY_BYTES)
    version: int = 0
    width: int = 0
    count: int = 0


@dataclass(frozen=True)
class Sheet:
    """What is said of a sheet; its body is in the buffer."""

    cell: int
    edition: int
    length: int


def check(sealer: Sealer, key: bytes, data: bytes, scratch: bytearray) -> Card:
    """Ask every question of a card's bytes; give the card."""
    if len(key) != KEY_BYTES:
        refuse(Number.KEY_LENGTH, Layer.CIPHER)
    if len(scratch) < SCRATCH_BYTES:
        refuse(Number.ROOM_SHORT, Layer.CIPHER)
    try:
        check_header(sealer, data)
        count = check_records(sealer, key, data, scratch)
    finally:
        scratch[:SCRATCH_BYTES] = bytes(SCRATCH_BYTES)
    return Card(data, key, sealer.version, sealer.width, count)


def check_mark(data: bytes) -> None:
    """Are 13 bytes there, and do they begin with the mark?"""
    if len(data) < HEADER_BYTES:
        refuse(Number.BYTES_MISSING, Layer.CARD)
    if data[:3] != MARK:
        refuse(Number.MARK_WRONG, Layer.CARD)


def version_of(data: bytes) -> int:
    """The version that a header has."""
    return int.from_bytes(data[3:5], "big")


def check_header(sealer: Sealer, data: bytes) -> None:
    """The questions on the first 13 bytes."""
    check_mark(data)
    if version_of(data) != sealer.version:
        refuse(Number.OTHER_SEALER, Layer.CARD, place=3)


def check_records(sealer: Sealer, key: bytes, data: bytes, scratch: bytearray) -> int:
    """The questions on all records; give how many sheets there are."""
    record, place = 0, HEADER_BYTES
    while True:
        head = check_head(data, record, place)
        check_seal(sealer, key, data, record, place, head, scratch)
        place += record_size(sealer, head.length)
        if head.kind == END:
            break
        record += 1
    if place < len(data):
        refuse(Number.BYTES_LEFT, Layer.CARD, record, place)
    return record


def check_head(data: bytes, record: int, place: int) -> Head:
    """The questions on a record's head."""
    if place + HEAD_BYTES > len(data):
        refuse(Number.BYTES_MISSING, Layer.RECORD, record, place)
    head = Head.read(data[place:place + HEAD_BYTES])
    if head.kind not in (SHEET, END):
        refuse(Number.KIND_UNKNOWN, Layer.RECORD, record, place)
    if head.kind == SHEET:
        if record >= MOST_SHEETS:
            refuse(Number.CARD_FULL, Layer.RECORD, record, place)
        if head.length > MOST_BODY:
            refuse(Number.BODY_LONG, Layer.RECORD, record, place + 7)
    elif head != end_head(record):
        refuse(Number.END_WRONG, Layer.RECORD, record, place + 1)
    return head


def check_seal(sealer: Sealer, key: bytes, data: bytes, record: int, place: int,
               head: Head, scratch: bytearray) -> None:
    """Are body and tag there, and does the tag agree?"""
    if place + record_size(sealer, head.length) > len(data):
        refuse(Number.BYTES_MISSING, Layer.RECORD, record, place + HEAD_BYTES)
    nonce, sealed_data, body, tag = sealed_parts(sealer, data, record, place, head)
    with placed(record, place + HEAD_BYTES + head.length):
        sealer.test(key, nonce, sealed_data, body, scratch, tag)


def sealed_parts(sealer: Sealer, data: bytes, record: int, place: int,
                 head: Head) -> tuple[bytes, bytes, bytes, bytes]:
    """Nonce, data, sealed body and tag of a record whose bytes are all there."""
    header, body_place = data[:HEADER_BYTES], place + HEAD_BYTES
    tag_place = body_place + head.length
    return (record_nonce(header, record), header + head.to_bytes(),
            data[body_place:tag_place], data[tag_place:tag_place + sealer.width])


@contextmanager
def placed(record: int, place: int) -> Iterator[None]:
    """Put record and place into the sealer's refusal."""
    try:
        yield
    except Refused as refused:
        raise Refused(replace(refused.fault, record=record, place=place)) from None


def sheet_heads(card: Card) -> Iterator[tuple[int, Head]]:
    """The place and the head of each sheet's record."""
    place = HEADER_BYTES
    for _ in range(card.count):
        head = Head.read(card.data[place:place + HEAD_BYTES])
        yield place, head
        place += HEAD_BYTES + head.length + card.width


def sheet(sealer: Sealer, card: Card, i: int, buffer: bytearray) -> Sheet:
    """Put sheet i's body at the head of the buffer, and say what it is."""
    if (card.version, card.width) != (sealer.version, sealer.width):
        refuse(Number.OTHER_SEALER, Layer.CARD, i)
    if i >= card.count:
        refuse(Number.NO_SUCH_SHEET, Layer.CARD, i)
    place, head = list(sheet_heads(card))[i]
    body_place = place + HEAD_BYTES
    if len(buffer) < head.length:
        refuse(Number.ROOM_SHORT, Layer.CIPHER, i, body_place)
    nonce, sealed_data, body, tag = sealed_parts(sealer, card.data, i, place, head)
    with placed(i, body_place):
        sealer.open(card.key, nonce, sealed_data, body, buffer, tag)
    return Sheet(head.cell, head.edition, head.length)


def find(card: Card, cell: int) -> Optional[int]:
    """The sheet of a cell with the highest edition, the first among equals."""
    best = None
    best_edition = -1
    for i, (_, head) in enumerate(sheet_heads(card)):
        if head.cell == cell and head.edition > best_edition:
            best, best_edition = i, head.edition
    return best


# The listing

MOST_LISTED = KEY_BYTES + 65536


def listing(text: bytes) -> str:
    """The lister's text for its input: a key, and then a card."""
    try:
        sealer, card = listed_card(text)
    except Refused as refused:
        return f"{refused.fault}\n"
    number = int.from_bytes(card.data[5:13], "big")
    lines = [f"card {number} version {sealer.version} sheets {card.count}\n"]
    for i, (_, head) in enumerate(sheet_heads(card)):
        lines.append(f"sheet {i} cell {head.cell} edition {head.edition} length {head.length}\n")
    return "".join(lines)


def listed_card(text: bytes) -> tuple[Sealer, Card]:
    """The lister's questions; give the sealer and the card."""
    if len(text) < KEY_BYTES:
        refuse(Number.KEY_LENGTH, Layer.CIPHER)
    if len(text) > MOST_LISTED:
        refuse(Number.TOO_LONG, Layer.CIPHER)
    key, data = text[:KEY_BYTES], text[KEY_BYTES:]
    check_mark(data)
    sealer = SEALERS.get(version_of(data))
    if sealer is None:
        refuse(Number.OTHER_SEALER, Layer.CARD, place=3)
    return sealer, check(sealer, key, data, bytearray(SCRATCH_BYTES))

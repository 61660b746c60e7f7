"""Make workbench scripts: make_scripts.py SEED KIND [COUNT].

A script is the same for the same seed, kind and count. COUNT multiplies the
random cases; the cases that are listed one by one stay as they are.
"""

from __future__ import annotations

import random
import sys
from copy import deepcopy
from dataclasses import dataclass, field
from itertools import combinations
from typing import Callable, Iterable, Iterator, Optional, Union

from dukkovil import (BENCH_SEALER, HEADER_BYTES, HEAD_BYTES, MARK, MOST_BODY, MOST_SHEETS,
                      PERMUTATIONS, SCRATCH_BYTES, SEALERS, SUITES, Head, Sealer, Suite, crypt,
                      end_size, record_size)

Word = Union[str, int, bytes]

HUGE = (1 << 64) - 1


class Script:
    """Lines of a script, and the random numbers that they are made from."""

    def __init__(self, seed: int, count: int):
        self.random = random.Random(seed)
        self.count = count
        self.lines: list[bytes] = []

    def raw(self, line: Union[str, bytes]) -> None:
        """Add a line as it is."""
        self.lines.append(line.encode() if isinstance(line, str) else line)

    def note(self, text: str) -> None:
        """Add a comment."""
        self.raw(f"# {text}")

    def call(self, *words: Word) -> None:
        """Add a call; bytes become hexadecimal digits, numbers decimal ones."""
        self.raw(" ".join(self._shown(word) for word in words))

    def _shown(self, word: Word) -> str:
        if isinstance(word, bytes):
            digits = word.hex() or "-"
            return digits if self.random.random() < 0.2 else digits.upper()
        return str(word)

    def text(self) -> bytes:
        return b"".join(line + b"\n" for line in self.lines)

    # Random values

    def some_bytes(self, length: int) -> bytes:
        return self.random.randbytes(length)

    def secret(self) -> bytes:
        """A key or a nonce; now and then one of a single byte."""
        if self.random.random() < 0.1:
            return bytes([self.random.choice((0, 1, 0x80, 0xFF))]) * 16
        return self.some_bytes(16)

    def wrong_secret(self) -> bytes:
        """A key or a nonce of a wrong length."""
        return self.some_bytes(self.random.choice((0, 1, 8, 15, 17, 24, 32)))

    def changed_bit(self, text: bytes) -> bytes:
        """The same bytes with one bit changed."""
        bit = self.random.randrange(8 * len(text))
        return changed(text, bit // 8, 1 << bit % 8)

    def card_number(self) -> int:
        return self.random.choice((0, 1, HUGE, *(self.random.getrandbits(64) for _ in range(5))))


def changed(text: bytes, place: int, difference: int) -> bytes:
    """The same bytes with one byte changed."""
    return text[:place] + bytes([text[place] ^ difference]) + text[place + 1:]


# Permutations

def permutations(script: Script) -> None:
    for name, permutation in PERMUTATIONS.items():
        script.note(name)
        states = edge_states(permutation.size)
        states += [script.changed_bit(bytes(permutation.size)) for _ in range(4)]
        states += [script.some_bytes(permutation.size) for _ in range(18 * script.count)]
        for state in states:
            for call in ("forward", "back", "trace"):
                script.call(call, name, state)


def edge_states(size: int) -> list[bytes]:
    """States with all bits, no bits, single bits and whole quarters."""
    states = [bytes([byte]) * size for byte in (0x00, 0xFF, 0x55, 0xAA)]
    states += [b"\x80" + bytes(size - 1), bytes(size - 1) + b"\1", bytes(range(size))]
    quarter = size // 4
    for i in range(4):
        states.append(bytes(i * quarter) + b"\xFF" * quarter + bytes((3 - i) * quarter))
    return states


# Steps by number

STEPS = ("forward-by", "back-by")


def steps(script: Script) -> None:
    for name, permutation in PERMUTATIONS.items():
        script.note(f"every number of steps of {name}, and more than there are")
        full = permutation.steps
        more = (full + 1, full + 2, 255, 256, (1 << 32) + 1, 1 << 63, HUGE)
        for s in (*range(full + 1), *more):
            for call in STEPS:
                script.call(call, name, s, script.some_bytes(permutation.size))
        for state in edge_states(permutation.size):
            for call in STEPS:
                script.call(call, name, script.random.randrange(full + 1), state)
        for _ in range(10 * script.count):
            state = script.some_bytes(permutation.size)
            s = script.random.randrange(full + 1)
            script.call("back-by", name, s, permutation.forward_by(state, s))
            script.call("forward-by", name, s, permutation.back_by(state, s))
            script.call("forward-by", name, f"00{s}", state)
    steps_unread(script)


def steps_unread(script: Script) -> None:
    """Words that are wrong, one and two of them, in reading order."""
    script.note("steps that can't be read")
    state = b"\x01" * 24
    over = 1 << 64
    for call in STEPS:
        for words in (
                (), ("193",), ("192",), ("192", ""), ("192", 5), ("192", 5, ""), ("", 5, state),
                ("193", "x", state), ("192", "x", "0"), ("192", "-", state), ("192", "+1", state),
                ("192", "0x1", state), ("192", over, state), ("192", over, "0"),
                ("192", 19, state, "00"), ("192", 19, state, ""), ("192", 19, state[1:]),
                ("192", 5, state[1:], "00"), ("192", 5, "0G"), ("192", 5, "000"), ("192", 5, b""),
                ("192", 5, state + state[:8]), ("256", 5, state), ("bench", 1, state),
                ("bench", 2, state), ("192", state, 5), ("192", "5", "5", state)):
            script.call(call, *words)
    script.note("a call that is named nearly so")
    for call in ("forwardby", "forward-", "forward_by", "Forward-by", "back-By", "back-by-", "by"):
        script.call(call, "192", 5, state)
    script.note("within a card, which stays")
    script.raw(f"write 9 {KEY} 1 60 00")
    for call in STEPS:
        script.call(call, "192", 5, state)
        script.call(call)
    script.raw("close")
    script.raw("end")


# The diffusion page

def pages(script: Script) -> None:
    for name, permutation in PERMUTATIONS.items():
        size, full = permutation.size, permutation.steps
        length = 33 * (size + 1)
        states = [bytes(size), b"\xFF" * size, bytes(range(size)), script.some_bytes(size)]
        script.note(f"pages of {name}")
        for s in sorted({0, 1, 2, full // 3, full - 1, full} & set(range(full + 1))):
            script.call("page", name, s, script.random.choice(states), length)
        for state in states:
            script.call("page", name, script.random.randrange(full + 1), state,
                        length + script.random.randrange(5))
        script.note("buffers at their edge, and more steps than there are")
        for s in (0, full, full + 1, HUGE):
            for room in (0, 1, 33, length - 1, length, length + 1):
                script.call("page", name, s, states[3], room)
    pages_unread(script)


def pages_unread(script: Script) -> None:
    """Words that are wrong, one and two of them, in reading order."""
    script.note("pages that can't be read")
    state = b"\x01" * 24
    over = 1 << 64
    for words in (
            (), ("193",), ("192",), ("192", 6), ("192", 6, state), ("192", 6, state, ""),
            ("193", "x", state, 825), ("192", "x", "0", "y"), ("192", 6, "0", "y"),
            ("192", 6, state, "y"), ("192", 6, state, "-1"), ("192", over, state, over),
            ("192", 6, state, over), ("192", 6, state, 825, ""), ("192", 6, state, 825, "00"),
            ("192", 6, state[1:], 825), ("192", 19, state[1:], 0), ("192", 6, state[1:], 825, 0),
            ("256", 6, state, 1089), ("bench", 1, state, 1089), ("192", 6, b"", 825),
            ("192", 6, state, HUGE), ("192", 19, state, HUGE), ("192", 6, 825, state)):
        script.call("page", *words)
    for call in ("pages", "Page", "page-by", "pag"):
        script.call(call, "192", 6, state, 825)
    script.note("within a card, which stays")
    script.raw(f"write 9 {KEY} 1 60 00")
    script.call("page", "192", 6, state, 825)
    script.call("page")
    script.raw("close")
    script.raw("end")


# The cipher

@dataclass(frozen=True)
class Sealed:
    """All that goes into a seal, and what comes out of it."""

    suite: Suite
    key: bytes
    nonce: bytes
    data: bytes
    message: bytes

    @classmethod
    def random(cls, script: Script, suite: Suite, data: int, message: int) -> Sealed:
        return cls(suite, script.secret(), script.secret(), script.some_bytes(data),
                   script.some_bytes(message))

    def seal(self, script: Script) -> None:
        script.call("seal", self.suite.version, self.key, self.nonce, self.data, self.message)

    def open(self, script: Script, **changes: bytes) -> None:
        """Add an open of what was sealed, with some of it changed."""
        words = {**self.opening(), **changes}
        script.call("open", self.suite.version, *words.values())

    def opening(self) -> dict[str, bytes]:
        """The bytes that open takes, by name and in order."""
        ciphertext, tag = crypt(self.suite, self.key, self.nonce, self.data, self.message,
                                opening=False)
        return {"key": self.key, "nonce": self.nonce, "data": self.data,
                "ciphertext": ciphertext, "tag": tag}


def cipher(script: Script) -> None:
    for suite in SUITES.values():
        script.note(f"{suite.name}: lengths")
        cipher_lengths(script, suite)
        script.note(f"{suite.name}: longer ones")
        cipher_longer(script, suite)
        script.note(f"{suite.name}: a bit changed")
        cipher_changes(script, suite)
        script.note(f"{suite.name}: buffers, and broken questions")
        cipher_buffers(script, suite)
        cipher_questions(script, suite)
    script.note("the greatest length and one more")
    cipher_greatest(script)


def cipher_lengths(script: Script, suite: Suite) -> None:
    """Every length up to four blocks, of data and of message."""
    r = suite.rate
    few = (0, 1, r - 1, r, r + 1, 2 * r)
    for n in range(4 * r + 1):
        for data, message in ((few[n % 6], n), (n, few[(n + 1) % 6])):
            case = Sealed.random(script, suite, data, message)
            case.seal(script)
            case.open(script)
        for data, message in ((few[(n + 3) % 6], n), (n, few[(n + 4) % 6])):
            Sealed.random(script, suite, data, message).seal(script)
    for _ in range(15 * script.count):
        data, message = (script.random.randrange(4 * r + 1) for _ in range(2))
        case = Sealed.random(script, suite, data, message)
        case.seal(script)
        case.open(script)


def cipher_longer(script: Script, suite: Suite) -> None:
    """At the edges of blocks near 1,024 and 4,096 bytes."""
    for near in (1024, 4096):
        for n in (near - 1, near, near + 1):
            Sealed.random(script, suite, 3, n).seal(script)
            Sealed.random(script, suite, n, 3).seal(script)
        case = Sealed.random(script, suite, near + 1, near - 1)
        case.open(script)


def cipher_changes(script: Script, suite: Suite) -> None:
    """Open with one bit changed in each of its arguments."""
    for _ in range(8 * script.count):
        data, message = (script.random.randrange(1, 3 * suite.rate) for _ in range(2))
        case = Sealed.random(script, suite, data, message)
        for name, value in case.opening().items():
            case.open(script, **{name: script.changed_bit(value)})
    # A tag that differs in its first or last byte alone, and one cut off a longer text.
    case = Sealed.random(script, suite, suite.rate, suite.rate)
    words = case.opening()
    for place in range(suite.rate):
        case.open(script, tag=changed(words["tag"], place, 1))
    case.open(script, ciphertext=words["ciphertext"][:-1])
    case.open(script, ciphertext=words["ciphertext"] + b"\0")
    case.open(script, data=words["data"][:-1])
    case.open(script, data=words["data"] + b"\x80")


def cipher_buffers(script: Script, suite: Suite) -> None:
    """Accepted calls with buffers of the exact length and longer."""
    for length in (0, 1, suite.rate, suite.rate + 3):
        for more in (0, 1, 20):
            case = Sealed.random(script, suite, script.random.randrange(20), length)
            seal_into(script, case, set(), room=length + more)
            open_into(script, case, set(), room=length + more)
            open_into(script, case, {6}, room=length + more)


def cipher_questions(script: Script, suite: Suite) -> None:
    """Each question broken alone, and each pair of them."""
    for _ in range(2 * script.count):
        for broken in singles_and_pairs((1, 2, 4, 5)):
            case = Sealed.random(script, suite, script.random.randrange(20),
                                 script.random.randrange(1, 20))
            seal_into(script, case, broken)
        for broken in singles_and_pairs((1, 2, 4, 5, 6)):
            case = Sealed.random(script, suite, script.random.randrange(20),
                                 script.random.randrange(1, 20))
            open_into(script, case, broken)


def singles_and_pairs(numbers: Iterable[int]) -> Iterator[set[int]]:
    numbers = tuple(numbers)
    for size in (1, 2):
        for chosen in combinations(numbers, size):
            yield set(chosen)


def seal_into(script: Script, case: Sealed, broken: set[int], room: Optional[int] = None) -> None:
    """Add a seal-into with some questions broken."""
    suite = case.suite
    key = script.wrong_secret() if 1 in broken else case.key
    nonce = script.wrong_secret() if 2 in broken else case.nonce
    if room is None:
        room = some_room(script, len(case.message), 4 in broken)
    width = wrong_width(script, suite) if 5 in broken else suite.rate
    script.call("seal-into", suite.version, key, nonce, case.data, case.message, room, width)


def open_into(script: Script, case: Sealed, broken: set[int], room: Optional[int] = None) -> None:
    """Add an open-into with some questions broken."""
    words = broken_opening(script, case, broken)
    if room is None:
        room = some_room(script, len(case.message), 4 in broken)
    script.call("open-into", case.suite.version, *words.values(), room)


def broken_opening(script: Script, case: Sealed, broken: set[int]) -> dict[str, bytes]:
    """What open takes, with some questions broken."""
    words = case.opening()
    if 1 in broken:
        words["key"] = script.wrong_secret()
    if 2 in broken:
        words["nonce"] = script.wrong_secret()
    if 6 in broken:
        words["tag"] = script.changed_bit(words["tag"])
    if 5 in broken:
        words["tag"] = (words["tag"] * 3)[:wrong_width(script, case.suite)]
    return words


def some_room(script: Script, length: int, short: bool) -> int:
    """A length for an output: too short, exact or longer."""
    if short:
        return script.random.choice((0, length - 1, script.random.randrange(length)))
    return length + script.random.choice((0, 0, 1, 5))


def wrong_width(script: Script, suite: Suite) -> int:
    """A length that the suite's tags don't have."""
    r = suite.rate
    return script.random.choice((0, 1, r - 1, r + 1, 24 - r, 2 * r))


def cipher_greatest(script: Script) -> None:
    """65,535 bytes and 65,536; these lines are long."""
    key, nonce, long = script.secret(), script.secret(), script.some_bytes(65536)
    script.call("seal", 9, key, nonce, b"", long[1:])
    script.call("seal-into", 1, key, nonce, long, b"ABC", 2, 9)
    script.call("open-into", 2, key, nonce, b"AB", long, b"short", 5)
    script.call("open-into", 9, key, nonce[1:], long, b"", bytes(8), 1)
    if script.count > 1:
        script.call("seal-into", 2, key[1:], nonce, long, b"", 0, 16)
        script.call("open-into", 1, key, nonce[1:], b"", long, bytes(8), 0)
        script.call("open", 9, key, nonce, long, b"", bytes(8))
        script.call("seal", 2, key, nonce, long[1:], long)


# Test

ROOMS = (0, 1, 15, 16, 17, 64, 4096)


def tests(script: Script) -> None:
    for suite in SUITES.values():
        script.note(f"{suite.name}: rooms, at every answer")
        test_rooms(script, suite)
        script.note(f"{suite.name}: broken questions")
        test_questions(script, suite)
        script.note(f"{suite.name}: lengths")
        test_lengths(script, suite)
        script.note(f"{suite.name}: each byte changed")
        test_bytes(script, suite)
        script.note(f"{suite.name}: the last block changed")
        test_last_block(script, suite)
        script.note(f"{suite.name}: a bit changed")
        test_changes(script, suite)
    script.note("the greatest length and one more")
    test_greatest(script)


def test(script: Script, case: Sealed, room: int = SCRATCH_BYTES, **changes: bytes) -> None:
    """Add a test of what was sealed, with some of it changed."""
    words = {**case.opening(), **changes}
    script.call("test", case.suite.version, *words.values(), room)


def test_broken(script: Script, case: Sealed, broken: set[int], room: int) -> None:
    """Add a test with some questions broken, but for 4: that is the room's."""
    test(script, case, room, **broken_opening(script, case, broken))


def some_sealed(script: Script, suite: Suite) -> Sealed:
    """A case with a little data and a message that is not empty."""
    data, message = script.random.randrange(8), script.random.randrange(1, suite.rate + 4)
    return Sealed.random(script, suite, data, message)


def test_rooms(script: Script, suite: Suite) -> None:
    """Scratches of all lengths, with nothing broken and with each question."""
    for room in ROOMS:
        for broken in (set(), {1}, {2}, {5}, {6}):
            test_broken(script, some_sealed(script, suite), broken, room)


def test_questions(script: Script, suite: Suite) -> None:
    """Each pair of broken questions, and every later one broken with the first."""
    for broken in (*singles_and_pairs((1, 2, 4, 5, 6)), {1, 2, 4, 5, 6}, {2, 4, 5, 6}, {4, 5, 6}):
        room = script.random.choice((0, 8, 15) if 4 in broken else (16, 17, 30))
        test_broken(script, some_sealed(script, suite), broken, room)
    # A scratch that is long enough for the message, and not for 16 bytes.
    for length in (0, 1, 8):
        test(script, Sealed.random(script, suite, 3, length), room=15)
    # A tag of another suite's width.
    for length in {8, 16} - {suite.rate}:
        test(script, some_sealed(script, suite), tag=script.some_bytes(length))


def test_lengths(script: Script, suite: Suite) -> None:
    """No block, one and several, short and full; and one that is long."""
    r = suite.rate
    lengths = (0, 1, r - 1, r, r + 1, 2 * r, 3 * r + 5)
    for i, length in enumerate(lengths):
        for data in (0, lengths[1:][(i + 2) % 6]):
            case = Sealed.random(script, suite, data, length)
            test(script, case, script.random.choice((16, 17, 40)))
            test(script, case, tag=script.changed_bit(case.opening()["tag"]))
    for _ in range(5 * script.count):
        data, message = (script.random.randrange(3 * r) for _ in range(2))
        test(script, Sealed.random(script, suite, data, message))
    case = Sealed.random(script, suite, 5, 4096)
    ciphertext = case.opening()["ciphertext"]
    test(script, case)
    test(script, case, ciphertext=changed(ciphertext, 4095, 0x40))
    if script.count > 1:
        for length in (4095, 4097):
            test(script, Sealed.random(script, suite, 4096, length), 4096)


def test_bytes(script: Script, suite: Suite) -> None:
    """Each byte of a ciphertext of three blocks, and each of the tag."""
    case = Sealed.random(script, suite, 2, 2 * suite.rate + 3)
    words = case.opening()
    test(script, case)
    for name in ("ciphertext", "tag"):
        for place in range(len(words[name])):
            difference = script.random.randrange(1, 256)
            test(script, case, **{name: changed(words[name], place, difference)})


def test_last_block(script: Script, suite: Suite) -> None:
    """A last block that is changed as a whole, exchanged, cut or longer."""
    r = suite.rate
    for length in (1, r, r + 1, 2 * r):
        case = Sealed.random(script, suite, 1, length)
        ciphertext = case.opening()["ciphertext"]
        last = (length - 1) // r * r
        flipped = bytes(byte ^ 0xFF for byte in ciphertext[last:])
        test(script, case, ciphertext=ciphertext[:last] + flipped)
        test(script, case, ciphertext=ciphertext[:-1])
        test(script, case, ciphertext=ciphertext + b"\0")
        test(script, case, ciphertext=ciphertext[:last])
    case = Sealed.random(script, suite, 0, 2 * r)
    ciphertext = case.opening()["ciphertext"]
    test(script, case, ciphertext=ciphertext[r:] + ciphertext[:r])
    # A full block that ends in 80 differs from the one a byte shorter in its control byte alone.
    ends = Sealed(suite, case.key, case.nonce, b"", case.message[:-1] + b"\x80")
    test(script, ends)
    test(script, ends, ciphertext=ends.opening()["ciphertext"][:-1])


def test_changes(script: Script, suite: Suite) -> None:
    """One bit changed in each of the arguments."""
    for _ in range(2 * script.count):
        data, message = (script.random.randrange(1, 2 * suite.rate) for _ in range(2))
        case = Sealed.random(script, suite, data, message)
        for name, value in case.opening().items():
            test(script, case, **{name: script.changed_bit(value)})


def test_greatest(script: Script) -> None:
    """65,535 bytes and 65,536; these lines are long."""
    long = script.some_bytes(65536)
    for suite in SUITES.values():
        case = Sealed.random(script, suite, 1, 1)
        test(script, case, data=long)
        test(script, case, 15, ciphertext=long)
        if script.count > 1:
            test(script, case, 16, ciphertext=long, tag=b"short")
            test(script, case, 16, key=case.key[1:], ciphertext=long)
            test(script, case, 16, nonce=case.nonce[1:], data=long)
            test(script, case, 16, data=long[1:])
            test(script, case, 16, ciphertext=long[1:])
    test(script, Sealed(SUITES[9], case.key, case.nonce, long[:3], long[1:]))


# Cards

@dataclass
class DraftRecord:
    """A record before it is sealed; its head need not be right."""

    kind: int
    cell: int
    edition: int
    body: bytes = b""
    length: Optional[int] = None
    wrong_tag: bool = False

    def head(self) -> bytes:
        length = len(self.body) if self.length is None else self.length
        return Head(self.kind, self.cell, self.edition, length).to_bytes()


@dataclass
class Draft:
    """A card that may be wrong in any way, sealed as its heads say."""

    sealer: Sealer
    key: bytes
    number: int
    records: list[DraftRecord]
    mark: bytes = MARK
    version: Optional[int] = None
    cut: Optional[int] = None
    more: bytes = b""

    def header(self) -> bytes:
        version = self.sealer.version if self.version is None else self.version
        return self.mark + version.to_bytes(2, "big") + self.number.to_bytes(8, "big")

    def record_bytes(self, i: int) -> bytes:
        """Record i, sealed under its own head and number."""
        record, header = self.records[i], self.header()
        nonce = header[5:] + i.to_bytes(8, "big")
        body, tag = self.sealer.sealed(self.key, nonce, header + record.head(), record.body)
        if record.wrong_tag:
            tag = changed(tag, 7 * i % len(tag), 1 << i % 8)
        return record.head() + body + tag

    def to_bytes(self) -> bytes:
        parts = [self.header(), *(self.record_bytes(i) for i in range(len(self.records)))]
        return b"".join(parts)[:self.cut] + self.more

    def place(self, i: int) -> int:
        """Where record i begins."""
        sizes = (record_size(self.sealer, len(record.body)) for record in self.records[:i])
        return HEADER_BYTES + sum(sizes)


def draft(script: Script, sealer: Sealer, lengths: Iterable[int]) -> Draft:
    """A right card with sheets of these lengths."""
    records = [DraftRecord(1, script.random.getrandbits(32), script.random.getrandbits(16),
                           script.some_bytes(length)) for length in lengths]
    records.append(DraftRecord(2, len(records), 0))
    return Draft(sealer, script.secret(), script.card_number(), records)


def check(script: Script, card: Draft, text: Optional[bytes] = None,
          key: Optional[bytes] = None, scratch: int = SCRATCH_BYTES) -> None:
    """Add a check of a draft, or of other bytes under its sealer and key."""
    text = card.to_bytes() if text is None else text
    script.call("check", card.sealer.version, card.key if key is None else key, text, scratch)


def cards(script: Script) -> None:
    for sealer in SEALERS.values():
        script.note(f"{sealer.name}: each byte, each cut")
        cards_bytes(script, sealer)
        script.note(f"{sealer.name}: keys and scratches")
        cards_lengths(script, sealer)
        script.note(f"{sealer.name}: one thing wrong")
        cards_singles(script, sealer)
        script.note(f"{sealer.name}: two things wrong")
        cards_pairs(script, sealer)
        script.note(f"{sealer.name}: records moved")
        cards_moved(script, sealer)
        script.note(f"{sealer.name}: random changes")
        cards_random(script, sealer)
        script.note(f"{sealer.name}: sheet")
        cards_sheets(script, sealer)
        script.note(f"{sealer.name}: find")
        cards_finds(script, sealer)
    script.note("long bodies")
    cards_long(script)
    script.note("512 sheets")
    cards_full(script)


def cards_bytes(script: Script, sealer: Sealer) -> None:
    """A small card with each byte changed, cut everywhere, and with bytes more."""
    card = draft(script, sealer, (3, 0, 2) if sealer.width == 8 else (3, 0))
    text = card.to_bytes()
    check(script, card)
    for place in range(len(text)):
        check(script, card, changed(text, place, script.random.randrange(1, 256)))
    for length in range(len(text)):
        check(script, card, text[:length])
    for more in (b"\0", b"\2", b"\0\0", script.some_bytes(2), b"\0\0\0", script.some_bytes(3)):
        check(script, card, text + more)


SCRATCHES = (0, 1, 7, 8, 15, 16, 17, 4095, 4096, 5000)


def cards_lengths(script: Script, sealer: Sealer) -> None:
    """Scratches of all lengths at every answer of check, and keys of all lengths."""
    card = draft(script, sealer, (1,))
    text = card.to_bytes()
    wrong_cards = [broken_card(card, break_one) for break_one in one_of_each(sealer)]
    for scratch in SCRATCHES:
        check(script, card, scratch=scratch)
        check(script, card, key=script.wrong_secret(), scratch=scratch)
        for wrong in wrong_cards:
            check(script, wrong, scratch=scratch)
    for key in (b"", card.key[:1], card.key[:15], card.key + b"\0", card.key * 2):
        for scratch in (15, 16):
            check(script, card, text, key, scratch)
            check(script, card, text[:-1], key, scratch)
    for wrong_text in (b"", b"SEA", text[:12], b"XEA" + text[3:]):
        check(script, card, wrong_text, scratch=19)
    check(script, card, text, script.some_bytes(16))
    # A bad key and a short scratch, each with everything that a card can have wrong.
    card = draft(script, sealer, BROKEN_LENGTHS)
    for break_one in paired_breaks(script, sealer)[::1 if sealer is BENCH_SEALER else 3]:
        wrong = broken_card(card, break_one)
        check(script, wrong, key=card.key[1:])
        check(script, wrong, scratch=15)


Break = Callable[[Draft], None]


def broken_card(card: Draft, *breaks: Break) -> Draft:
    """The same card with some things wrong."""
    wrong = deepcopy(card)
    for break_one in breaks:
        break_one(wrong)
    return wrong


def break_mark(mark: bytes) -> Break:
    def broken(card: Draft) -> None:
        card.mark = mark
    return broken


def break_version(version: int) -> Break:
    def broken(card: Draft) -> None:
        card.version = version
    return broken


def break_record(i: int, **fields: object) -> Break:
    def broken(card: Draft) -> None:
        for name, value in fields.items():
            setattr(card.records[i], name, value)
    return broken


def break_cut(i: int, offset: int) -> Break:
    """Cut the card some bytes past the beginning of record i."""
    def broken(card: Draft) -> None:
        card.cut = card.place(i) + offset
    return broken


def break_short(length: int) -> Break:
    def broken(card: Draft) -> None:
        card.cut = length
    return broken


def break_more(more: bytes) -> Break:
    def broken(card: Draft) -> None:
        card.more = more
    return broken


BROKEN_LENGTHS = (4, 0)  # the bodies of the card that is broken; record 2 is its end


def all_breaks(script: Script, sealer: Sealer) -> list[Break]:
    """Every single thing that can be wrong, at several places."""
    breaks = [break_mark(mark) for mark in (b"TEA", b"SAE", b"SEB", b"sea", b"\0\0\0")]
    breaks += [break_version(version) for version in (0, 1, 2, 3, 8, 9, 10, 0x0100 * sealer.version,
                                                      0x0100 + sealer.version, 0xFFFF)
               if version != sealer.version]
    for i in range(3):
        breaks += [break_record(i, kind=kind) for kind in (0, 3, 255)]
        breaks += [break_record(i, kind=2 if i < 2 else 1), break_record(i, wrong_tag=True)]
        breaks += [break_cut(i, offset) for offset in (0, 1, 8, 9)]
    for i in range(2):
        breaks += [break_record(i, length=length) for length in (1, 4095, 4096, 4097, 9999, 65535)]
        breaks += [break_record(i, kind=kind, length=length)
                   for kind in (0, 2, 3) for length in (4097, 65535)]
    breaks += [break_record(2, cell=cell) for cell in (0, 1, 3, 1 << 24, (1 << 32) - 1)]
    breaks += [break_record(2, edition=edition) for edition in (1, 256, 65535)]
    breaks += [break_record(2, length=length) for length in (1, 4096, 4097, 9999, 65535)]
    breaks += [break_record(2, cell=9, edition=9, length=9999)]
    breaks += [break_record(2, body=b"A"), break_record(2, body=b"A", length=0)]
    breaks += [break_cut(0, 11), break_cut(0, 13), break_cut(2, 8 + sealer.width)]
    breaks += [break_short(length) for length in (0, 3, 5, 12, 13)]
    breaks += [break_more(script.some_bytes(length)) for length in (1, 2, 3, 40)]
    return breaks


def one_of_each(sealer: Sealer) -> list[Break]:
    """A no to each question on a card of one sheet, but for a 513th."""
    return [break_short(12), break_mark(b"SEE"), break_version(sealer.version + 1),
            break_cut(1, 8), break_record(0, kind=3), break_record(0, length=4097),
            break_record(1, edition=1), break_cut(0, 9), break_record(0, wrong_tag=True),
            break_record(1, wrong_tag=True), break_more(b"\0")]


def cards_singles(script: Script, sealer: Sealer) -> None:
    """One thing wrong, everything else sealed as it should be."""
    card = draft(script, sealer, BROKEN_LENGTHS)
    for break_one in all_breaks(script, sealer):
        check(script, broken_card(card, break_one))


def paired_breaks(script: Script, sealer: Sealer) -> list[Break]:
    """One or two of each question, for pairs."""
    r = sealer.width
    other = script.random.choice([v for v in (0, 1, 2, 3, 9) if v != sealer.version])
    kind = script.random.choice((0, 3, 255))
    return [
        break_short(12), break_mark(b"SEE"), break_version(other),
        break_cut(0, 8), break_cut(1, 5), break_cut(2, 3),
        break_record(0, kind=kind), break_record(1, kind=kind), break_record(2, kind=kind),
        break_record(0, length=4097), break_record(1, length=65535),
        break_record(2, cell=1), break_record(2, edition=1), break_record(2, length=9999),
        break_cut(0, 9), break_cut(1, 9), break_cut(0, 14), break_cut(2, 8 + r),
        break_record(0, wrong_tag=True), break_record(1, wrong_tag=True),
        break_record(2, wrong_tag=True),
        break_more(script.some_bytes(1)), break_more(script.some_bytes(30)),
    ]


def cards_pairs(script: Script, sealer: Sealer) -> None:
    """Each pair of broken questions, in the same record or in two."""
    card = draft(script, sealer, BROKEN_LENGTHS)
    seen = set()
    for first, second in combinations(paired_breaks(script, sealer), 2):
        wrong = broken_card(card, first, second)
        text = wrong.to_bytes()
        if text not in seen:
            seen.add(text)
            check(script, wrong, text)


def cards_moved(script: Script, sealer: Sealer) -> None:
    """Records exchanged, left out, doubled, put after the end, or of another card."""
    card = draft(script, sealer, (2, 2, 1))
    other = deepcopy(card)
    other.number ^= 1
    header = card.header()
    a, b, c, end = (card.record_bytes(i) for i in range(4))
    of_other = [other.record_bytes(i) for i in range(4)]

    def made(*records: bytes) -> None:
        check(script, card, header + b"".join(records))

    made(a, b, c, end)
    for records in ((b, a, c, end), (a, c, b, end), (c, b, a, end), (end, a, b, c),
                    (a, b, end), (a, end), (end,), (b, c, end), (a, a, b, c, end),
                    (a, b, c, c, end), (a, b, c, end, end), (a, b, c, end, a), (a, b, c), ()):
        made(*records)
    for i in range(4):
        made(*[of_other[j] if i == j else record for j, record in enumerate((a, b, c, end))])
    check(script, card, other.header() + a + b + c + end)
    made(*of_other)
    check(script, card, card.to_bytes() + other.to_bytes())

    # An end in the middle, with a right cell and with the whole card's.
    for sheets in range(3):
        for cell in sorted({sheets, sheets + 1, 3}):
            middle = deepcopy(card)
            middle.records.insert(sheets, DraftRecord(2, cell, 0))
            check(script, middle)
    # A sheet after the end, sealed under its number.
    after = deepcopy(card)
    after.records.append(DraftRecord(1, 5, 5, b"AB"))
    check(script, after)


def cards_random(script: Script, sealer: Sealer) -> None:
    """Two or three bytes changed at once, and a cut beside a change."""
    for _ in range(12 * script.count):
        lengths = [script.random.randrange(6) for _ in range(script.random.randrange(4))]
        card = draft(script, sealer, lengths)
        text = card.to_bytes()
        check(script, card, text)
        for _ in range(script.random.randrange(2, 4)):
            place = script.random.randrange(len(text))
            text = changed(text, place, script.random.randrange(1, 256))
        check(script, card, text)
        check(script, card, text[:script.random.randrange(len(text))])


def cards_sheets(script: Script, sealer: Sealer) -> None:
    """Every sheet and some that are not there, with buffers of several lengths."""
    lengths = (3, 0, sealer.width + 1)
    card = draft(script, sealer, lengths)
    text = card.to_bytes()

    def sheet(i: int, length: int, data: bytes = text, key: bytes = card.key) -> None:
        script.call("sheet", sealer.version, key, i, length, data)

    for i, exact in enumerate(lengths):
        for length in sorted({0, max(exact - 1, 0), exact, exact + 1, exact + 7}):
            sheet(i, length)
    for i in (3, 4, 511, 512, 1 << 32, 1 << 63, HUGE):
        sheet(i, 0)
        sheet(i, 4)
    # The card is refused.
    for wrong in (b"", text[:12], text[:-1], text + b"\0", changed(text, 0, 1), changed(text, 4, 1),
                  script.changed_bit(text[HEADER_BYTES:])):
        sheet(0, 3, wrong)
        sheet(HUGE, 1, wrong)
    sheet(0, 3, text, card.key[:15])
    sheet(0, 0, text, b"")
    sheet(0, 2, text, script.some_bytes(16))
    empty = draft(script, sealer, ())
    sheet(0, 2, empty.to_bytes(), empty.key)


def cards_finds(script: Script, sealer: Sealer) -> None:
    """Cells that are there once, several times and not at all."""
    greatest = (1 << 32) - 1
    listed = [(7, 3), (8, 1), (7, 4), (9, 5), (8, 1), (9, 4), (0, 65535), (9, 5), (greatest, 0)]
    random_cells = [[(script.random.randrange(4), script.random.randrange(3)) for _ in range(6)]
                    for _ in range(2 * script.count)]
    for pairs in (listed, *random_cells):
        card = draft(script, sealer, [0] * len(pairs))
        for record, (cell, edition) in zip(card.records, pairs):
            record.cell, record.edition = cell, edition
        text = card.to_bytes()
        for cell in sorted({cell for cell, _ in pairs} | {1, 5, 1 << 31}):
            script.call("find", sealer.version, card.key, cell, text)
    script.call("find", sealer.version, card.key, 7, text[:-1])
    script.call("find", sealer.version, card.key[1:], 7, text)
    script.call("find", sealer.version, card.key, 7, b"")
    script.call("find", sealer.version, card.key, 0, draft(script, sealer, ()).to_bytes())
    empty = draft(script, sealer, ())
    script.call("find", sealer.version, empty.key, 0, empty.to_bytes())


def cards_long(script: Script) -> None:
    """Bodies of 4,096 bytes and of one more."""
    for sealer in SEALERS.values():
        card = draft(script, sealer, (MOST_BODY,))
        text = card.to_bytes()
        check(script, card, text)
        check(script, card, text[:HEADER_BYTES + HEAD_BYTES + MOST_BODY + sealer.width - 1])
        check(script, draft(script, sealer, (MOST_BODY + 1,)))
    for length in (MOST_BODY - 1, MOST_BODY, MOST_BODY + 1):
        script.call("sheet", sealer.version, card.key, 0, length, text)


def cards_full(script: Script) -> None:
    """512 sheets, and what may follow them, with scratches of several lengths."""
    card = draft(script, BENCH_SEALER, [0] * MOST_SHEETS)
    check(script, card)
    text = card.to_bytes()[:-end_size(BENCH_SEALER)]
    card.records[-1:] = [DraftRecord(1, 512, 0), DraftRecord(2, 513, 0)]
    for scratch in SCRATCHES if script.count > 1 else (15, 16):
        check(script, card, scratch=scratch)
    card.records[3].body = b"ABCDE"
    check(script, card, scratch=17)
    for following, scratch in ((Head(3, 512, 0, 9999).to_bytes(), 16),
                               (Head(1, 512, 0, 4097).to_bytes(), 4095),
                               (Head(1, 512, 0, 8).to_bytes() + bytes(3), 5000),
                               (Head(1, 0, 0, 0).to_bytes()[:8], 16),
                               (Head(2, 511, 0, 0).to_bytes() + bytes(8), 4096)):
        check(script, card, text + following, scratch=scratch)


# The writer

@dataclass
class WriteBlock:
    """A write block before it becomes lines."""

    sealer: Sealer
    key: bytes
    number: int
    size: int
    fill: bytes = b"\0"
    calls: list[tuple[Word, ...]] = field(default_factory=list)

    def append(self, cell: int, edition: int, body: bytes) -> None:
        self.calls.append(("append", cell, edition, body))

    def close(self) -> None:
        self.calls.append(("close",))

    def to(self, script: Script) -> None:
        """Add the block's lines."""
        script.call("write", self.sealer.version, self.key, self.number, self.size, self.fill)
        for call in self.calls:
            if script.random.random() < 0.03:
                script.raw(script.random.choice(("", "# between", "#")))
            script.call(*call)
        script.raw("end")


def card_size(sealer: Sealer, lengths: Iterable[int]) -> int:
    """The length of a card with bodies of these lengths."""
    return HEADER_BYTES + sum(record_size(sealer, n) for n in lengths) + end_size(sealer)


def writer(script: Script) -> None:
    for sealer in SEALERS.values():
        script.note(f"{sealer.name}: start")
        writer_starts(script, sealer)
        script.note(f"{sealer.name}: media near the exact lengths")
        writer_edges(script, sealer)
        script.note(f"{sealer.name}: long bodies")
        writer_long(script, sealer)
        script.note(f"{sealer.name}: closes")
        writer_closes(script, sealer)
    script.note("random runs")
    for _ in range(36 * script.count):
        writer_random(script)
    script.note("512 sheets")
    writer_full(script, BENCH_SEALER, more=0)
    if script.count > 1:
        writer_full(script, SEALERS[1], more=record_size(SEALERS[1], MOST_BODY + 1))


def new_block(script: Script, sealer: Sealer, size: int) -> WriteBlock:
    return WriteBlock(sealer, script.secret(), script.card_number(), size, script.some_bytes(1))


def writer_starts(script: Script, sealer: Sealer) -> None:
    """Media too short for a start and just long enough; keys of wrong lengths."""
    least = card_size(sealer, ())
    for size in (0, 13, 22, least - 1, least, least + 1):
        block = new_block(script, sealer, size)
        block.append(1, 2, b"")
        block.close()
        block.to(script)
    for key in (b"", script.some_bytes(15), script.some_bytes(17), script.some_bytes(32)):
        for size in (0, least - 1, least):
            block = new_block(script, sealer, size)
            block.key = key
            block.close()
            block.to(script)


def writer_edges(script: Script, sealer: Sealer) -> None:
    """Each record of a card just fits, and fits by one byte less and more."""
    lengths = (2, 0, sealer.width + 1)
    for count in range(1, 4):
        exact = card_size(sealer, lengths[:count])
        for size in (exact - 1, exact, exact + 1):
            block = new_block(script, sealer, size)
            for length in lengths:
                block.append(script.random.getrandbits(32), script.random.getrandbits(16),
                             script.some_bytes(length))
            block.close()
            block.to(script)


def writer_long(script: Script, sealer: Sealer) -> None:
    """Bodies of 4,096 and 4,097 bytes, with and without the room."""
    long = script.some_bytes(MOST_BODY + 1)
    exact = card_size(sealer, (MOST_BODY,))
    for size in (exact - 1, exact, card_size(sealer, ())):
        block = new_block(script, sealer, size)
        block.append(1, 1, long)
        if size != card_size(sealer, ()):
            block.append(1, 2, long[1:])
        block.append(1, 3, b"")
        block.close()
        block.to(script)


def writer_closes(script: Script, sealer: Sealer) -> None:
    """No close, several of them, and calls after one."""
    size = card_size(sealer, (3, 3))
    block = new_block(script, sealer, size)
    block.to(script)
    block.append(0, 0, b"ABC")
    block.to(script)
    block.close()
    block.close()
    block.append(0, 1, b"DEF")
    block.append(0, 1, bytes(50))
    block.close()
    block.to(script)


def writer_random(script: Script) -> None:
    """A jumble of calls on a medium that may be too short for some of them."""
    chance = script.random.random
    sealer = script.random.choice(list(SEALERS.values()))
    cells = (0, 1, 2, (1 << 32) - 1, script.random.getrandbits(32))
    block = new_block(script, sealer, 0)
    lengths = []
    for _ in range(script.random.randrange(1, 9)):
        if chance() < 0.12:
            block.close()
            continue
        length = script.random.randrange(41)
        if chance() < 0.02:
            length = script.random.choice((MOST_BODY, MOST_BODY + 1))
        if length <= MOST_BODY:
            lengths.append(length)
        edition = script.random.choice((0, 1, 65535, script.random.getrandbits(16)))
        block.append(script.random.choice(cells), edition, script.some_bytes(length))
    if chance() < 0.8:
        block.close()

    some = script.random.sample(lengths, script.random.randrange(len(lengths) + 1))
    block.size = max(0, card_size(sealer, lengths if chance() < 0.3 else some)
                     + script.random.choice((-1, 0, 0, 1, 1, 9, 20)))
    if chance() < 0.08:
        block.key = script.wrong_secret()
    block.to(script)


def writer_full(script: Script, sealer: Sealer, more: int) -> None:
    """512 sheets, and appends that are refused for that and for other reasons too."""
    block = new_block(script, sealer, card_size(sealer, [0] * MOST_SHEETS) + more)
    for i in range(MOST_SHEETS):
        block.append(i ^ 0x155, i % 7, b"")
    block.append(1, 1, b"")
    block.append(1, 1, bytes(MOST_BODY + 1))
    block.append(1, 1, bytes(MOST_BODY) if more else b"A")
    block.close()
    block.to(script)


# Lines that can't be read

KEY, NONCE = "01" * 8 + "02" * 8, "04" * 8 + "08" * 8
STATE = "00" * 32
EMPTY_CARD = "53454100090404040404040404020000000000000000514743020B008202"
OVER = str(1 << 64)

UNREAD_OUTSIDE = f"""
bogus
Forward 192 {STATE[:48]}
seal_into 9 {KEY} {NONCE} - - 0 8
42
-
forward\t192 {STATE[:48]}
 forward 192 {STATE[:48]}
 # no comment
 bogus
 
   
forward  192 {STATE[:48]}
forward  193 {STATE[:48]}
forward 193  {STATE[:48]}
forward 192  {STATE[:48]}
bogus  192
forward 193 {STATE[:48]}
back Bench {STATE}
trace - {STATE}
trace 0192 {STATE[:48]}
forward 193 0
forward 193
forward 193 {STATE[:48]} 00
forward
back 192
trace 256
forward 192 {STATE}
back 256 {STATE[:48]}
trace bench -
forward 192 {STATE[:47]}
forward 192 {STATE[:47]}g
forward 192 {STATE[:46]} 00
forward 192 {STATE[:47]} 00
forward 192 {STATE[:48]} 00
trace bench {STATE} -
forward 192 --
forward 192 0x{STATE[:46]}
seal
seal 9
seal 9 {KEY}
seal 9 {KEY} {NONCE} -
seal 9 {KEY} {NONCE} - - -
seal 3 {KEY} {NONCE} - -
seal 0 {KEY} {NONCE} - -
seal 10 {KEY} {NONCE} - -
seal x {KEY} {NONCE} - -
seal - {KEY} {NONCE} - -
seal {OVER} {KEY} {NONCE} - -
seal 3 0
seal 3
seal  3
seal 9 0 0G - -
seal 9 0G 0 - -
seal 9 {KEY} 0 0G x
seal 9 {KEY} {NONCE} 0G 0
seal 9 {KEY} {NONCE}  0G
open 9 {KEY} {NONCE} - -
open 9 {KEY} {NONCE} - - 09090909090909 00
open 9 {KEY} {NONCE} - 0 09090909090909zz
open 12 {KEY} {NONCE} - - 0909090909090909
seal-into 9 {KEY} {NONCE} - - 0
seal-into 9 {KEY} {NONCE} - - 0 8 8
seal-into 9 {KEY} {NONCE} - - -1 8
seal-into 9 {KEY} {NONCE} - - x {OVER}
seal-into 9 {KEY} {NONCE} - - {OVER} x
seal-into 9 {KEY} {NONCE} - - {OVER}
seal-into 9 {KEY} {NONCE} - - 0 +8
seal-into 9 {KEY} {NONCE} - - 0 8.0
seal-into 9 {KEY} {NONCE} - - {HUGE} 8
seal-into 9 {KEY} {NONCE} - - 0 {HUGE}
open-into 9 {KEY} {NONCE} - - 0909090909090909 0x10
open-into 9 {KEY} {NONCE} - - 0909090909090909
open-into 9 {KEY} {NONCE} - - 0909090909090909 0 0
open-into 9 {KEY} {NONCE} - - 0909090909090909 {HUGE}
test
test 9
test 9 {KEY}
test 9 {KEY} {NONCE} - -
test 9 {KEY} {NONCE} - - 0909090909090909
test 9 {KEY} {NONCE} - - 0909090909090909 16 0
test 9 {KEY} {NONCE} - - 0909090909090909 16 16 16
test 9 {KEY} {NONCE} - - 0909090909090909 16 
test 9 {KEY} {NONCE}  - 0909090909090909 16
test  9 {KEY} {NONCE} - - 0909090909090909 16
Test 9 {KEY} {NONCE} - - 0909090909090909 16
test-into 9 {KEY} {NONCE} - - 0909090909090909 16
tests 9 {KEY} {NONCE} - - 0909090909090909 16
tested 9 {KEY} {NONCE} - - 0909090909090909 16
test 3 {KEY} {NONCE} - - 0909090909090909 16
test 0 0 0 0 0 0 x
test 10
test 778 {KEY} {NONCE} - - 01 16
test bench {KEY} {NONCE} - - 0909090909090909 16
test {OVER} {KEY} {NONCE} - - 0909090909090909 16
test 9 0G 0 - - 0909090909090909 16
test 9 {KEY} 0 0G - 0909090909090909 16
test 9 {KEY} {NONCE} 00G - 0909090909090909 16
test 9 {KEY} {NONCE} - 0x12 0909090909090909 16
test 9 {KEY} {NONCE} - - 09090909090909z9 x
test 9 {KEY} {NONCE} - - 090909090909090 x
test 9 {KEY} {NONCE} - - 0909090909090909 -
test 9 {KEY} {NONCE} - - 0909090909090909 -16
test 9 {KEY} {NONCE} - - 0909090909090909 0x10
test 9 {KEY} {NONCE} - - 0909090909090909 1O
test 9 {KEY} {NONCE} - - 0909090909090909 {OVER}
test 9 {KEY} {NONCE} - - 0909090909090909 {HUGE}
test 9 - {NONCE} - - 0909090909090909 {HUGE}
test 9 {KEY} {NONCE} - - 0909090909090909 {HUGE} 0
test 09 {KEY} {NONCE} - - 0909090909090909 0000000000000000000000016
test 9 {KEY} {NONCE} - - 0909090909090908 16
check 9 {KEY} {EMPTY_CARD}
check 9 {KEY} {EMPTY_CARD} 16 0
check 9 {KEY} {EMPTY_CARD} -
check 9 {KEY} {EMPTY_CARD} 4,096
check 9 {KEY} {EMPTY_CARD} {"9" * 60}
check 9 {KEY} {EMPTY_CARD} {HUGE}
check 4 {KEY} {EMPTY_CARD} x
check 9 {KEY} {EMPTY_CARD[:-1]} x
sheet 9 {KEY} 0 0
sheet 9 {KEY} 0 0 {EMPTY_CARD} 0
sheet 9 {KEY} {OVER} x {EMPTY_CARD}
sheet 9 {KEY} x {OVER} {EMPTY_CARD}
sheet 9 {KEY} 0 {OVER} 0
sheet 9 {KEY} 0 1a 0
sheet 9 {KEY} {HUGE} 0 {EMPTY_CARD}
sheet 9 {KEY} 0 {HUGE} {EMPTY_CARD}
find 9 {KEY} 7
find 9 {KEY} 7 {EMPTY_CARD} 7
find 9 {KEY} 4294967296 {EMPTY_CARD}
find 9 {KEY} 4294967295 {EMPTY_CARD}
find 9 {KEY} {OVER} 0
find 9 {KEY} cell {EMPTY_CARD}
append 1 1 00
append
append x 65536 0
close
close now
end
end  end
write
write 9 {KEY} 1 30
write 9 {KEY} 1 30 00 00
write 3 0 x
write 9 0 x
write 9 {KEY} x y 00
write 9 {KEY} {OVER} x 00
write 9 {KEY} 1 x 0102
write 9 {KEY} 1 30 -
write 9 {KEY} 1 30 0102
write 9 {KEY} 1 30 0
write 9 {KEY} 1 30 0g
write 9 {KEY} 1 30 0102 00
append 1 1 00
end
"""

UNREAD_INSIDE = """
append
append 1
append 1 1
append 1 1 00 00
append x 65536 0
append 4294967296 x 0
append 4294967295 65536 0
append 1 65536 0
append 1 x 0
append 1 1 0
append 1 1 0g
append 1 1 0 z
append 1  1 00
append  1 1 00
append 1 1 00g0
append -1 1 00
append 1 -1 00
append 18446744073709551616 1 00
append 1 18446744073709551616 00
close now
end now
bogus
 close
Close
forward 192 00
forward
seal 9
test 9
test
test 3 0 x
check 3 0
find
write 9 - 1 30 00
write
"""


RIGHT = (f"forward bench {STATE}", f"seal 9 {KEY} {NONCE} 00 0102",
         f"open-into 1 {KEY} {NONCE} - 01 {KEY[:16]} 3", f"check 2 {KEY} {EMPTY_CARD} 16",
         f"sheet 9 {KEY} 0 3 {EMPTY_CARD}", f"find 9 {KEY} 3 {EMPTY_CARD}",
         f"seal-into 2 {KEY} {NONCE} 07 08 1 16",
         f"test 9 {KEY} {NONCE} - 12 1D8D0D0D0D0D0D0D 16")


def unread(script: Script) -> None:
    for line in UNREAD_OUTSIDE.split("\n")[1:-1]:
        script.raw(line)
    for line in (b"\xFF\xFE", b"forward 192 \xC3\x28" + b"0" * 46, b"\xEF\xBB\xBFforward",
                 b"seal \xFF", b"write 9 " + KEY.encode() + b" 1\x00 30 00", b"\x00"):
        script.raw(line)

    # One carriage return goes, a second stays.
    script.raw(f"forward bench {STATE}\r")
    script.raw("\r")
    script.raw("# a comment\r")
    script.raw("close\r")
    script.raw("close\r\r")
    script.raw("seal 9\r\r")

    unread_blocks(script)
    unread_random(script)


def unread_blocks(script: Script) -> None:
    """Lines that can't be read between the calls of a writer."""
    inside = UNREAD_INSIDE.split("\n")[1:-1]
    script.raw(f"write 9 {KEY} 1 60 EE")
    script.raw("append 4294967295 65535 41")
    for line in inside[:len(inside) // 2]:
        script.raw(line)
    script.raw("close\r")
    # The card is closed; lines that can't be read still say so.
    for line in inside[len(inside) // 2:]:
        script.raw(line)
    script.raw("end")
    script.raw("end")
    # The same after a start that is refused.
    script.raw(f"write 2 {KEY[2:]} 1 2 EE")
    for line in script.random.sample(inside, 8):
        script.raw(line)
    script.raw("append 1 1 00")
    script.raw("end")
    # A right line of each kind of call, between the calls of a writer.
    script.raw(f"write 9 {KEY} 289360691352306692 30 EE")
    for line in RIGHT:
        script.raw(line)
    script.raw("close")
    for line in RIGHT:
        script.raw(line)
    script.raw("end")
    for line in RIGHT:
        script.raw(line)


def unread_random(script: Script) -> None:
    """Right lines with one or two words broken, taken away or added."""
    wrong = ("0G", "--", "99999999999999999999999", "+1", "zz")
    for _ in range(10 * script.count):
        words = script.random.choice(RIGHT).split(" ")
        for _ in range(script.random.randrange(1, 3)):
            words[script.random.randrange(1, len(words))] = script.random.choice(wrong)
        if script.random.random() < 0.3:
            del words[script.random.randrange(2, len(words)):]
        elif script.random.random() < 0.3:
            words.append("00")
        script.raw(" ".join(words))


# Lines with two things wrong at one place, where docs/ says which is the reason

def edges(script: Script) -> None:
    script.note("a space at the line's end")
    script.raw(f"forward bench {STATE} ")
    script.raw("forward bench ")
    script.raw("forward ")
    script.raw("close ")
    script.note("an empty word where no word is wanted")
    script.raw(f"forward bench {STATE}  ")
    script.raw(f"forward bench {STATE}  00")
    script.note("both reasons in one word of bytes")
    for word in ("G", "0G0", "00G", "G00", "-0-", "0102030g0"):
        script.raw(f"seal 9 {KEY} {NONCE} - {word}")
    script.note("numbers with zeros before them, and versions with them")
    script.raw(f"find 9 {KEY} 007 {EMPTY_CARD}")
    script.raw(f"find 9 {KEY} {'0' * 30}7 {EMPTY_CARD}")
    script.raw(f"seal 09 {KEY} {NONCE} - -")
    script.note("a number that is too long and ends in no digit")
    script.raw(f"find 9 {KEY} 99999999999x {EMPTY_CARD}")
    script.raw(f"check 9 {KEY} {EMPTY_CARD} {'9' * 30}x")
    script.note("no memory, and a word that is wrong after it")
    script.raw(f"seal-into 9 {KEY} {NONCE} - - {HUGE} x")
    script.raw(f"sheet 9 {KEY} 0 {HUGE} 0")
    script.raw(f"test 9 {KEY} {NONCE} - - 0909090909090909 {HUGE} x")
    script.note("no memory for a medium")
    script.raw(f"write 9 {KEY} 1 {HUGE} 00")
    script.raw("append 1 1 00")
    script.raw("end")
    script.note("a write that is not ended; the last line has a carriage return and no line feed")
    script.raw(f"write 9 {KEY} 1 40 00")
    script.raw("append 1 1 0")
    script.raw("close")
    script.raw("append 1 1 0\r")


KINDS: dict[str, Callable[[Script], None]] = {
    "permutations": permutations,
    "steps": steps,
    "pages": pages,
    "cipher": cipher,
    "test": tests,
    "cards": cards,
    "writer": writer,
    "unread": unread,
    "edges": edges,
}


def make(seed: int, kind: str, count: int = 1) -> bytes:
    """The text of a script."""
    script = Script(seed, count)
    KINDS[kind](script)
    text = script.text()
    return text.removesuffix(b"\n") if kind == "edges" else text


def main() -> int:
    if len(sys.argv) not in (3, 4) or sys.argv[2] not in KINDS:
        print(f"usage: make_scripts.py SEED {'|'.join(KINDS)} [COUNT]", file=sys.stderr)
        return 2
    count = int(sys.argv[3]) if len(sys.argv) == 4 else 1
    sys.stdout.buffer.write(make(int(sys.argv[1]), sys.argv[2], count))
    return 0


if __name__ == "__main__":
    sys.exit(main())

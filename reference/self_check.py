"""Compare the reference with every example that docs/ gives."""

from __future__ import annotations

import os
import sys

from random import Random
from typing import Optional

import dukkovil
from dukkovil import (BENCH, BENCH_PERMUTATION, BENCH_SEALER, LIGHT192, LIGHT256, SEALERS, SPOC64,
                      SPOC128, Card, Fault, Head, Permutation, Refused, Sealer, Spoc,
                      Suite, Writer, xor)
from workbench import Workbench

DOCS = os.path.join(os.path.dirname(os.path.abspath(__file__)), "..", "docs")

KEY = b"\1" * 8 + b"\2" * 8
NONCE = b"\4" * 8 + b"\x08" * 8
CARD_NUMBER = 0x0404040404040404

BENCH_CARD = bytes.fromhex("""
    53 45 41
    00 09
    04 04 04 04 04 04 04 04
    01 00 00 00 07 00 03 00 02
    13 06
    72 46 83 00 03 04 87 07
    02 00 00 00 01 00 00 00 00
    51 46 43 02 0B 00 82 03""")

EMPTY_BENCH_CARD = bytes.fromhex("""
    53 45 41 00 09 04 04 04 04 04 04 04 04 02 00 00 00 00 00 00 00 00 51 47 43 02 0B 00 82 02""")


class Checks:
    """Counts what was compared, and prints what differs."""

    def __init__(self) -> None:
        self.count = 0
        self.wrong = 0

    def same(self, what: str, got: object, want: object) -> None:
        self.count += 1
        if got != want:
            self.wrong += 1
            print(f"{what}:\n  got  {got!r}\n  want {want!r}")


def quarters(*parts: str) -> bytes:
    """A bench state; a quarter of one byte is that byte eight times."""
    state = b""
    for part in parts:
        quarter = bytes.fromhex(part)
        state += quarter * 8 if len(quarter) == 1 else quarter.ljust(8, quarter[-1:])
    return state


def fault_of(call) -> object:
    """The fault that a call is refused with, or what it answers."""
    try:
        return call()
    except Refused as refused:
        return refused.fault


def check_permutations(checks: Checks) -> None:
    known = [
        (LIGHT192, "FFFF9AFFFFFC 0000640000D5 FFFF9BFFFFFC 0000650000F4",
         "2DCACA3466FA 126D47F0E142 29A11A0B5D4C 7F702D8A464D"),
        (LIGHT256, "00000C6F00000426 FFFFE3C3FFFFF348 00001C3C00000C2C FFFFF390FFFFFB2E",
         "C14FD32FDD8C4F91 3D7CD37CE4C0FC40 47577247A907F46A B9296703C6788A4C"),
    ]
    for permutation, first, last in known:
        zeros = bytes(permutation.size)
        name = f"sLiSCP-light of {permutation.size} bytes"
        checks.same(f"{name}, forward by 1", permutation.forward_by(zeros, 1), bytes.fromhex(first))
        checks.same(f"{name}, back by 1", permutation.back_by(bytes.fromhex(first), 1), zeros)
        checks.same(f"{name}, forward", permutation.forward(zeros), bytes.fromhex(last))
        checks.same(f"{name}, back", permutation.back(bytes.fromhex(last)), zeros)
        checks.same(f"{name}, steps", permutation.steps, 18)

    states = [quarters("01", "02", "04", "08"), quarters("09", "01", "02", "04"),
              quarters("0D", "09", "01", "02")]
    for before, after in zip(states, states[1:]):
        checks.same("bench forward", BENCH_PERMUTATION.forward(before), after)
        checks.same("bench back", BENCH_PERMUTATION.back(after), before)
    checks.same("bench steps", BENCH_PERMUTATION.steps, 1)

    for permutation in (LIGHT192, LIGHT256, BENCH_PERMUTATION):
        state = bytes(range(permutation.size))
        checks.same("back after forward", permutation.back(permutation.forward(state)), state)
        checks.same("forward after back", permutation.forward(permutation.back(state)), state)
        for by in range(permutation.steps + 1):
            checks.same(f"back by {by} after forward by {by}",
                        permutation.back_by(permutation.forward_by(state, by), by), state)
            checks.same(f"forward by {by} after back by {by}",
                        permutation.forward_by(permutation.back_by(state, by), by), state)
        checks.same("forward by none", permutation.forward_by(state, 0), state)
        for call in (permutation.forward_by, permutation.back_by):
            checks.same("more steps than there are",
                        str(fault_of(lambda: call(state, permutation.steps + 1))),
                        "refused 21 layer 1 record 0 place 0")


def check_pages(checks: Checks) -> None:
    for state in (bytes(32), bytes(range(32)), b"\xFF" * 32):
        page = BENCH_PERMUTATION.page(state, 1, 1089)
        lines = page.decode().split("\n")
        checks.same("bench page, the first 64 bits", lines[:8], ["   2" * 8] * 8)
        checks.same("bench page, the others", lines[8:32], ["   1" * 8] * 24)
        checks.same("bench page, the sum", lines[32:], ["sum" + " " * 26 + "320", ""])
        checks.same("page by none", BENCH_PERMUTATION.page(state, 0, 1089),
                    b"   1   1   1   1   1   1   1   1\n" * 32 + b"sum" + b" " * 26 + b"256\n")
    zeros = bytes(24)
    with open(os.path.join(DOCS, "permutations.md"), encoding="utf-8") as file:
        text = file.read()
    for s in (6, 18):
        page = LIGHT192.page(zeros, s, 825).decode()
        checks.same("length of a page", len(page), 825)
        shown = "".join(f"    {line}\n" for line in page.split("\n")[:-1])
        checks.same(f"page after {s} steps, in docs", shown in text, True)
    checks.same("steps before room", str(fault_of(lambda: LIGHT192.page(zeros, 19, 0))),
                "refused 21 layer 1 record 0 place 0")
    checks.same("room", str(fault_of(lambda: LIGHT192.page(zeros, 18, 824))),
                "refused 4 layer 1 record 0 place 0")


def check_suites(checks: Checks) -> None:
    for suite, version, size, rate in ((SPOC64, 1, 24, 8), (SPOC128, 2, 32, 16), (BENCH, 9, 32, 8)):
        used = [*suite.rate_places, *suite.masked_places]
        checks.same("version", suite.version, version)
        checks.same("size", suite.permutation.size, size)
        checks.same("rate", suite.rate, rate)
        checks.same("masked places", len(suite.masked_places), rate)
        checks.same("different places", len(set(used)), 2 * rate)
        checks.same("places below the size", max(used) < size, True)


def check_cipher(checks: Checks) -> None:
    ten, twenty = b"\x10" * 8, b"\x20" * 8
    examples = [
        (b"", b"", b"", "09" * 8),
        (ten, b"", b"", "1D" * 8),
        (b"", b"\x10", b"\x12", "1D8D" + "0D" * 6),
        (ten, twenty, b"\x21" * 8, "1F" + "3F" * 7),
        (b"", ten, b"\x12" * 8, "1D" * 8),
    ]
    for data, message, ciphertext, tag in examples:
        right = bytes.fromhex(tag)
        made = dukkovil.crypt(BENCH, KEY, NONCE, data, message, opening=False)
        checks.same("bench example sealed", made, (ciphertext, right))
        opened = dukkovil.crypt(BENCH, KEY, NONCE, data, ciphertext, opening=True)
        checks.same("bench example opened", opened, (message, right))

    # The example in pencil, row by row.
    state = BENCH.start(KEY, NONCE)
    checks.same("start", state, quarters("01", "02", "04", "08"))
    state = BENCH_PERMUTATION.forward(state)
    checks.same("zero mask, forward", state, quarters("09", "01", "02", "04"))
    state = dukkovil.masked(BENCH, state, ten, 0x20)
    checks.same("data block", state, quarters("19", "01", "2202", "04"))
    state = BENCH_PERMUTATION.forward(state)
    checks.same("forward", state, quarters("1D", "19", "01", "2202"))
    state = dukkovil.masked(BENCH, state, twenty, 0xC0)
    checks.same("message block", state, quarters("3D", "19", "C101", "2202"))
    state = BENCH_PERMUTATION.forward(state)
    checks.same("forward", state, quarters("1F3F", "3D", "19", "C101"))


def check_questions(checks: Checks) -> None:
    """Each question of each sealer broken alone, and with all later ones broken too."""
    for sealer in ALL_SEALERS:
        what = f"version {sealer.version}"
        message = b"\x10" * 3
        ciphertext, right = sealer.sealed(KEY, NONCE, b"", message)
        wrong = bytes([right[0] ^ 1]) + right[1:]
        broken = {1: {"key": KEY[:15]}, 2: {"nonce": NONCE + b"\0"}, 3: {"data": bytes(65536)},
                  4: {"room": 2, "scratch": 15}, 5: {"tag": right[1:]}, 6: {"tag": wrong}}
        for first in (0, *broken):
            for numbers in ([first], list(range(first, 7))) if first else ([],):
                case = {"key": KEY, "nonce": NONCE, "data": b"", "room": 5, "scratch": 18,
                        "tag": right}
                for number in reversed(numbers):
                    case.update(broken[number])
                public = case["key"], case["nonce"], case["data"]
                tag, fault = case["tag"], Fault(first, 1) if first else None
                said = f"{what}, {numbers} broken"

                out = bytearray(b"\xA5" * case["room"])
                checks.same(f"open, {said}",
                            fault_of(lambda: sealer.open(*public, ciphertext, out, tag)), fault)
                after = {0: message, 6: bytes(3)}.get(first, b"\xA5" * 3)
                checks.same(f"output, {said}", out, (after + b"\xA5" * 2)[:case["room"]])

                scratch = bytearray(b"\xA5" * case["scratch"])
                checks.same(f"test, {said}",
                            fault_of(lambda: sealer.test(*public, ciphertext, scratch, tag)), fault)
                after = bytes(16) if first in (0, 6) else b"\xA5" * 16
                checks.same(f"scratch, {said}", scratch, (after + b"\xA5" * 2)[:case["scratch"]])

                if first == 6:  # seal does not ask for this one
                    continue
                out, sealed_tag = bytearray(b"\xA5" * case["room"]), bytearray(b"\xA5" * len(tag))
                checks.same(f"seal, {said}",
                            fault_of(lambda: sealer.seal(*public, message, out, sealed_tag)), fault)
                after = b"\xA5" * 3 if first else ciphertext
                checks.same(f"sealed, {said}", out, (after + b"\xA5" * 2)[:case["room"]])
                checks.same(f"sealed tag, {said}", sealed_tag,
                            b"\xA5" * len(tag) if first else right)


def check_test(checks: Checks) -> None:
    """Test answers as open does, wherever both have room; and a message's own tag agrees."""
    random = Random(1)
    for sealer in ALL_SEALERS:
        for length in (0, 1, 2, 4, 5, 6, 7, 8, 9, 15, 16, 17, 24, 31, 32, 33, 53, 100):
            key, nonce = random.randbytes(16), random.randbytes(16)
            data, message = random.randbytes(random.randrange(40)), random.randbytes(length)
            ciphertext, tag = sealer.sealed(key, nonce, data, message)
            checks.same("opened again", sealer.opened(key, nonce, data, ciphertext, tag), message)
            changed = [(ciphertext, tag), (ciphertext, flipped(tag, random)),
                       (ciphertext + b"\0", tag), (ciphertext[:-1], tag)]
            changed += [(flipped(ciphertext, random), tag) for _ in range(3) if length]
            for text, said in changed:
                out, scratch = bytearray(len(text)), bytearray(b"\xA5" * 16)
                opened = fault_of(lambda: sealer.open(key, nonce, data, text, out, said))
                tested = fault_of(lambda: sealer.test(key, nonce, data, text, scratch, said))
                checks.same(f"test of version {sealer.version}", tested, opened)
                checks.same("its scratch", scratch, bytes(16))


def flipped(text: bytes, random: Random) -> bytes:
    """The same bytes with one bit changed."""
    bit = random.randrange(8 * len(text))
    return text[:bit // 8] + bytes([text[bit // 8] ^ 1 << bit % 8]) + text[bit // 8 + 1:]


class OpensIntoMuch(Sealer):
    """Another sealer, but that its test opens into 4,096 bytes of its own."""

    def __init__(self, sealer: Sealer):
        self.sealer, self.version, self.width = sealer, sealer.version, sealer.width

    def sealed(self, *words: bytes) -> tuple[bytes, bytes]:
        return self.sealer.sealed(*words)

    def opened(self, *words: bytes) -> Optional[bytes]:
        return self.sealer.opened(*words)

    def tested(self, key: bytes, nonce: bytes, data: bytes, ciphertext: bytes,
               scratch: bytearray, tag: bytes) -> bool:
        room = bytearray(b"\x5A" * 4096)
        return fault_of(lambda: self.open(key, nonce, data, ciphertext, room, tag)) is None


def check_through_open(checks: Checks) -> None:
    """Check answers as one that opens each body into 4,096 bytes."""
    random = Random(2)
    for sealer in ALL_SEALERS:
        medium = bytearray(200)
        writer = Writer.start(sealer, KEY, CARD_NUMBER, medium)
        for cell, body in ((7, b"shoal"), (8, b""), (9, b"a body of several blocks")):
            writer.append(medium, cell, 1, body)
        card = bytes(medium[:writer.close(medium)])
        texts = [card, card + b"\0", *(card[:length] for length in range(len(card)))]
        texts += [card[:i] + bytes([card[i] ^ random.randrange(1, 256)]) + card[i + 1:]
                  for i in range(len(card))]
        for text in texts:
            answers_of = []
            for one in (sealer, OpensIntoMuch(sealer)):
                scratch = bytearray(b"\xA5" * 17)
                answers_of.append(fault_of(lambda: dukkovil.check(one, KEY, text, scratch)))
                checks.same("scratch", scratch, bytes(16) + b"\xA5")
            checks.same(f"check of version {sealer.version}", *answers_of)


def check_bench_cards(checks: Checks) -> None:
    medium = bytearray(b"\xA5" * 50)
    writer = Writer.start(BENCH_SEALER, KEY, CARD_NUMBER, medium)
    checks.same("after start", medium, BENCH_CARD[:13] + b"\xA5" * 37)
    checks.same("append", writer.append(medium, 7, 3, b"\x41\x42"), 0)
    checks.same("after append", medium, BENCH_CARD[:32] + b"\xA5" * 18)
    checks.same("close", writer.close(medium), 49)
    checks.same("after close", medium, BENCH_CARD + b"\xA5")

    medium = bytearray(30)
    writer = Writer.start(BENCH_SEALER, KEY, CARD_NUMBER, medium)
    shorter = bytearray(29)
    checks.same("close on a shorter medium", fault_of(lambda: writer.close(shorter)),
                Fault(9, 3, 0, 13))
    checks.same("which stays", shorter, bytes(29))
    checks.same("append without room", fault_of(lambda: writer.append(medium, 0, 0, b"")),
                Fault(9, 2, 0, 13))
    medium = bytearray(30)
    writer = Writer.start(BENCH_SEALER, KEY, CARD_NUMBER, medium)
    checks.same("close at once", writer.close(medium), 30)
    checks.same("card without a sheet", medium, EMPTY_BENCH_CARD)

    scratch = bytearray(b"\xA5" * 17)
    card = dukkovil.check(BENCH_SEALER, KEY, BENCH_CARD, scratch)
    checks.same("scratch", scratch, bytes(16) + b"\xA5")
    checks.same("count", card.count, 1)
    checks.same("find", (dukkovil.find(card, 7), dukkovil.find(card, 8)), (0, None))
    body = bytearray(b"\xA5" * 3)
    checks.same("sheet", dukkovil.sheet(BENCH_SEALER, card, 0, body), dukkovil.Sheet(7, 3, 2))
    checks.same("body", body, b"\x41\x42\xA5")
    empty = dukkovil.check(BENCH_SEALER, KEY, EMPTY_BENCH_CARD, scratch)
    checks.same("count without a sheet", empty.count, 0)


def check_tag_in_pencil(checks: Checks) -> None:
    """The tag of the card without a sheet, row by row."""
    blocks = dukkovil.cut(EMPTY_BENCH_CARD[:22], 8)
    rows = [
        (0x20, quarters("5244400108050505", "01", "2202", "04"),
         quarters("564044050C010101", "5244400108050505", "01", "2202")),
        (0x20, quarters("5244400108030101", "5244400108050505", "2101", "2202"),
         quarters("704642030A010303", "5244400108030101", "5244400108050505", "2101")),
        (0xB0, quarters("704642030A018303", "5244400108030101", "E244400108050505", "2101"), None),
    ]
    checks.same("control bytes", dukkovil.control_bytes(b"".join(blocks), b"", 8),
                [0, 0x20, 0x20, 0xB0])
    state = BENCH.start(KEY, dukkovil.record_nonce(EMPTY_BENCH_CARD[:13], 0))
    checks.same("start", state, quarters("01", "02", "04", "00"))
    state = BENCH_PERMUTATION.forward(state)
    checks.same("zero mask, forward", state, quarters("01", "01", "02", "04"))
    for block, (control, with_mask, after) in zip(blocks, rows):
        state = dukkovil.masked(BENCH, state, block, control)
        checks.same(f"block {block.hex()}", state, with_mask)
        state = BENCH_PERMUTATION.forward(state)
        if after is not None:
            checks.same("forward", state, after)
    checks.same("tag", state[:8], EMPTY_BENCH_CARD[22:])


def check_said_of_cards(checks: Checks) -> None:
    """What cards.md says in sentences."""
    def checked(data: bytes) -> object:
        return fault_of(lambda: dukkovil.check(BENCH_SEALER, KEY, data, bytearray(16)).count)

    long_end = BENCH_CARD[:32] + Head(2, 1, 0, 9999).to_bytes() + bytes(8)
    checks.same("an end of length 9,999", checked(long_end), Fault(14, 2, 1, 33))
    checks.same("only the tag cut", checked(BENCH_CARD[:-1]), Fault(10, 2, 1, 41))

    medium = bytearray(13 + 514 * 17)
    writer = Writer.start(BENCH_SEALER, KEY, CARD_NUMBER, medium)
    for i in range(512):
        writer.append(medium, i, 0, b"")
    checks.same("513th append", fault_of(lambda: writer.append(medium, 0, 0, bytes(4097))),
                Fault(8, 2, 512, 13 + 512 * 17))
    full = bytes(medium[:writer.place])
    checks.same("kind 3 after 512", checked(full + b"\3" + bytes(16)), Fault(13, 2, 512, len(full)))
    checks.same("kind 1 after 512", checked(full + b"\1" + bytes(16)), Fault(8, 2, 512, len(full)))
    checks.same("8 bytes after 512", checked(full + bytes(8)), Fault(10, 2, 512, len(full)))
    length = writer.close(medium)
    checks.same("512 sheets", checked(bytes(medium[:length])), 512)

    checks.same("sheet of the empty card",
                fault_of(lambda: dukkovil.sheet(BENCH_SEALER, Card(), 5, bytearray())),
                Fault(12, 3, 5, 0))
    checks.same("find on the empty card", dukkovil.find(Card(), 0), None)


def answers(*lines: str) -> list[str]:
    """What the workbench prints for some lines."""
    workbench = Workbench()
    return [answer for line in lines for answer in workbench.answer(line.encode())]


def check_workbench(checks: Checks) -> None:
    key, nonce = KEY.hex(), NONCE.hex()
    start, after = quarters("01", "02", "04", "08").hex(), quarters("09", "01", "02", "04").hex()
    examples = [
        ([f"forward bench {start}"], [f"state {after}"]),
        ([f"back bench {after}"], [f"state {start}"]),
        ([f"trace bench {start}"], [f"step 0 {start}", f"step 1 {after}"]),
        (["forward 192 " + "00" * 24],
         ["state 2DCACA3466FA126D47F0E14229A11A0B5D4C7F702D8A464D"]),
        ([f"seal 9 {key} {nonce} - 10"], ["sealed 12 1D8D0D0D0D0D0D0D"]),
        ([f"open 9 {key} {nonce} - 12 1D8D0D0D0D0D0D0D"], ["opened 10"]),
        ([f"open 9 {key} {nonce} - 12 1D8D0D0D0D0D0D0C"], ["refused 6 layer 1 record 0 place 0"]),
        ([f"seal-into 9 {key} {nonce} - 10 3 8"],
         ["sealed", "output 12A5A5", "tag 1D8D0D0D0D0D0D0D"]),
        ([f"open-into 9 {key} {nonce} - 12 1D8D0D0D0D0D0D0C 3"],
         ["refused 6 layer 1 record 0 place 0", "output 00A5A5"]),
        ([f"write 9 {key} {CARD_NUMBER} 49 00", "append 7 3 4142", "", "# -", "close", "end"],
         ["started", "record 0", "closed 49", f"medium {BENCH_CARD.hex().upper()}"]),
        ([f"write 9 {key} {CARD_NUMBER} 52 EE", "append 7 3 4142", "append 8 1 43", "close", "end"],
         ["started", "record 0", "refused 9 layer 2 record 1 place 32", "closed 49",
          f"medium {BENCH_CARD.hex().upper()}EEEEEE"]),
        ([f"test 9 {key} {nonce} - 12 1D8D0D0D0D0D0D0D 16"], ["tested", "scratch zero"]),
        ([f"test 9 {key} {nonce} - 12 1D8D0D0D0D0D0D0C 17"],
         ["refused 6 layer 1 record 0 place 0", "scratch zero"]),
        ([f"test 9 {key} {nonce} - 12 1D8D0D0D0D0D0D0D 15"],
         ["refused 4 layer 1 record 0 place 0", "scratch kept"]),
        ([f"test 9 {key} {nonce} - 12 1D8D0D0D0D0D0D0D 0"],
         ["refused 4 layer 1 record 0 place 0", "scratch kept"]),
        ([f"check 9 {key} {BENCH_CARD.hex()} 16"], ["checked 1", "scratch zero"]),
        ([f"check 9 {key} {BENCH_CARD.hex()} 15"],
         ["refused 4 layer 1 record 0 place 0", "scratch kept"]),
        ([f"sheet 9 {key} 0 3 {BENCH_CARD.hex()}"],
         ["sheet 0 cell 7 edition 3 length 2 body 4142", "buffer 4142A5"]),
        ([f"find 9 {key} 7 {BENCH_CARD.hex()}"], ["found 0"]),
        ([f"find 9 {key} 8 {BENCH_CARD.hex()}"], ["none"]),
        (["forward 192 00"], ["unread: a state of 192 has 24 bytes, not 1"]),
        (["close"], ["unread: no card is being written"]),
    ]
    for lines, want in examples:
        checks.same(lines[0], answers(*lines), want)


def check_listing(checks: Checks) -> None:
    checks.same("bench card listed", dukkovil.listing(KEY + BENCH_CARD),
                f"card {CARD_NUMBER} version 9 sheets 1\nsheet 0 cell 7 edition 3 length 2\n")
    refusals = [
        (KEY[:15], "1 layer 1 record 0 place 0"),
        (KEY + bytes(65537), "3 layer 1 record 0 place 0"),
        (KEY + bytes(65536), "11 layer 3 record 0 place 0"),
        (KEY + BENCH_CARD[:12], "10 layer 3 record 0 place 0"),
        (KEY + b"SEE" + BENCH_CARD[3:], "11 layer 3 record 0 place 0"),
        (KEY + b"SEA\0\3" + BENCH_CARD[5:], "12 layer 3 record 0 place 3"),
        (KEY + BENCH_CARD + b"\0", "15 layer 3 record 1 place 49"),
    ]
    for text, want in refusals:
        checks.same("listing", dukkovil.listing(text), f"refused {want}\n")


class RingPermutation(Permutation):
    """The permutation of a suite of another's making: a turn by 11 places is one step, a xor the other."""

    size = 23
    steps = 2

    def _take(self, state: bytes, i: int) -> bytes:
        return state[12:] + state[:12] if i == 0 else self._mix(state)

    def _undo(self, state: bytes, i: int) -> bytes:
        return state[11:] + state[:11] if i == 0 else self._mix(state)

    def _mix(self, state: bytes) -> bytes:
        return xor(state[:11], state[11:22]) + state[11:]


RING = RingPermutation()
RING_SUITE = Suite("ring", 777, RING, (21, 13, 17, 11, 19), (7, 1, 9, 3, 5),
                   lambda key, nonce: RING.forward(xor(key, nonce) + nonce[9:]))


RING_SEALER = Spoc(RING_SUITE)


def check_other_suite(checks: Checks) -> None:
    state = bytes(range(1, 24))
    moved = bytes.fromhex("0C0C0C141414141C1C1C1C0102030405060708090A0B0C")
    checks.same("ring forward", RING.forward(state), moved)
    checks.same("ring back", RING.back(moved), state)
    rows = [(b"", b"", "", "070A880A08"), (b"\x10" * 5, b"", "", "1515BA1715"),
            (b"", b"\x10", "12", "1585DA0705"), (b"chart", b"shoal", "7B62676B64", "1D0FEC1C15"),
            (b"chart 7", b"shoal at 5 m", "7E6D6A6466221C1547562865", "FC44BF4863")]
    for data, message, ciphertext, tag in rows:
        made = dukkovil.crypt(RING_SUITE, KEY, NONCE, data, message, opening=False)
        checks.same("ring sealed", made, (bytes.fromhex(ciphertext), bytes.fromhex(tag)))
    medium = bytearray(80)
    writer = Writer.start(RING_SEALER, KEY, CARD_NUMBER, medium)
    for cell, edition, body in ((7, 1, b"shoal"), (7, 2, b"deeper"), (9, 1, b"")):
        writer.append(medium, cell, edition, body)
    checks.same("ring card's length", writer.close(medium), 80)
    checks.same("ring card", bytes(medium), bytes.fromhex("""
        53454103090404040404040404
        0100000007000100 05 766D3A250B 272F596167
        0100000007000200 06 606030340334 44A145726C
        0100000009000100 00 31477F0E5E
        0200000003000000 00 3047740C5F"""))


class FirstByte(Sealer):
    """A sealer of another's making: a ciphertext is its message, a tag the key's first byte."""

    version = 778
    width = 1

    def sealed(self, key: bytes, nonce: bytes, data: bytes, message: bytes) -> tuple[bytes, bytes]:
        return message, key[:1]

    def opened(self, key: bytes, nonce: bytes, data: bytes, ciphertext: bytes,
               tag: bytes) -> Optional[bytes]:
        return ciphertext if tag == key[:1] else None

    def tested(self, key: bytes, nonce: bytes, data: bytes, ciphertext: bytes,
               scratch: bytearray, tag: bytes) -> bool:
        for block in dukkovil.cut(ciphertext, 16):
            scratch[:len(block)] = block
        return tag == key[:1]


FIRST_BYTE = FirstByte()
FIRST_BYTE_CARD = bytes.fromhex("""
    53 45 41 03 0A 04 04 04 04 04 04 04 04
    01 00 00 00 07 00 01 00 05 73 68 6F 61 6C 01
    01 00 00 00 09 00 02 00 06 64 65 65 70 65 72 01
    02 00 00 00 02 00 00 00 00 01""")

ALL_SEALERS = (*SEALERS.values(), RING_SEALER, FIRST_BYTE)


def check_other_sealer(checks: Checks) -> None:
    """The card of another sealer, and what the tests of crates/other_sealer expect."""
    nonce, other_key, like_key = b"\4" * 16, b"\3" + KEY[1:], KEY[:15] + b"\3"
    out, tag = bytearray(b"\7" * 8), bytearray(1)
    FIRST_BYTE.seal(KEY, nonce, b"chart", b"shoal", out, tag)
    checks.same("first byte sealed", (out, tag), (b"shoal\7\7\7", b"\1"))
    out = bytearray(b"\7" * 6)
    for key, fault, after in ((KEY, None, b"shoal\7"), (other_key, Fault(6, 1), bytes(5) + b"\7")):
        checks.same("first byte opened", fault_of(
            lambda: FIRST_BYTE.open(key, nonce, b"chart", b"shoal", out, b"\1")), fault)
        checks.same("its output", out, after)

    kept, wiped = b"\7" * 18, bytes(16) + b"\7\7"
    for key, said, fault, after in (
            (KEY, b"\1", None, wiped), (KEY, b"\2", Fault(6, 1), wiped),
            (KEY, b"", Fault(5, 1), kept), (b"\1" * 15, b"\1", Fault(1, 1), kept)):
        scratch = bytearray(kept)
        checks.same("first byte tested", fault_of(
            lambda: FIRST_BYTE.test(key, nonce, b"chart", b"shoal", scratch, said)), fault)
        checks.same("its scratch", scratch, after)
    scratch = bytearray(b"\7" * 15)
    checks.same("a scratch of 15", fault_of(
        lambda: FIRST_BYTE.test(KEY, nonce, b"", b"", scratch, b"\1")), Fault(4, 1))
    checks.same("which stays", scratch, b"\7" * 15)

    sheets = ((7, 1, b"shoal"), (9, 2, b"deeper"))
    medium = bytearray(b"\7" * 56)
    writer = Writer.start(FIRST_BYTE, KEY, CARD_NUMBER, medium)
    for i, sheet in enumerate(sheets):
        checks.same("append", writer.append(medium, *sheet), i)
    checks.same("first byte's card's length", writer.close(medium), 54)
    checks.same("first byte's card", medium, FIRST_BYTE_CARD + b"\7\7")

    medium = bytearray(b"\7" * 54)
    writer = Writer.start(FIRST_BYTE, KEY, CARD_NUMBER, medium)
    calls = [lambda: writer.append(medium, *sheets[0]),
             lambda: writer.append(medium, 8, 1, bytes(4097)),
             lambda: writer.append(medium, *sheets[1]), lambda: writer.close(medium)]
    checks.same("replayed", [fault_of(call) for call in calls], [0, Fault(7, 2, 1, 28), 1, 54])
    checks.same("its medium", medium, FIRST_BYTE_CARD)

    scratch = bytearray(kept)
    card = dukkovil.check(FIRST_BYTE, KEY, FIRST_BYTE_CARD, scratch)
    checks.same("scratch", scratch, wiped)
    checks.same("count", card.count, 2)
    for i, (cell, edition, body) in enumerate(sheets):
        out = bytearray(b"\7" * 16)
        checks.same("sheet", dukkovil.sheet(FIRST_BYTE, card, i, out),
                    dukkovil.Sheet(cell, edition, len(body)))
        checks.same("body", out, body.ljust(16, b"\7"))
    checks.same("find", (dukkovil.find(card, 9), dukkovil.find(card, 8)), (1, None))
    checks.same("another sealer's card",
                fault_of(lambda: dukkovil.sheet(BENCH_SEALER, card, 1, out)), Fault(12, 3, 1, 0))

    def checked(key: bytes, place: Optional[int] = None, byte: int = 0) -> object:
        text = bytearray(FIRST_BYTE_CARD)
        if place is not None:
            text[place] = byte
        return fault_of(lambda: dukkovil.check(FIRST_BYTE, key, bytes(text), bytearray(16)).count)

    checks.same("its key", checked(KEY), 2)
    checks.same("a key that begins alike", checked(like_key), 2)
    checks.same("a key that begins otherwise", checked(other_key), Fault(6, 1, 0, 27))
    checks.same("a tag changed", checked(KEY, 43, 2), Fault(6, 1, 1, 43))
    checks.same("the last tag changed", checked(KEY, 53, 2), Fault(6, 1, 2, 53))
    checks.same("a version changed", checked(KEY, 4, 9), Fault(12, 3, 0, 3))


def main() -> int:
    checks = Checks()
    for part in (check_permutations, check_pages, check_suites, check_cipher, check_questions, check_test,
                 check_through_open, check_bench_cards, check_tag_in_pencil, check_said_of_cards,
                 check_workbench, check_listing, check_other_suite, check_other_sealer):
        part(checks)
    print(f"{checks.count} checks, {checks.wrong} wrong")
    return 1 if checks.wrong else 0


if __name__ == "__main__":
    sys.exit(main())

"""Read a workbench script from standard input and print its answers."""

from __future__ import annotations

import sys
from dataclasses import dataclass, field
from typing import Callable, Iterable, Optional, Union

import dukkovil
from dukkovil import PERMUTATIONS, SCRATCH_BYTES, SEALERS, Permutation, Refused, Sealer, Writer

FILLED = b"\xA5"

# More than any machine has; smaller buffers are tried.
NO_MEMORY_FROM = 1 << 40

Lines = list[str]


class Unread(Exception):
    """A line that can't be read, with the reason."""


# Words

class Words:
    """The words of a line, taken from left to right."""

    def __init__(self, line: bytes):
        self._words = line.split(b" ")
        self._next = 0

    def take(self) -> bytes:
        """The next word, which must be there."""
        if self._next == len(self._words):
            raise Unread("too few words")
        word = self._words[self._next]
        self._next += 1
        if not word:
            raise Unread("words are separated by one space")
        return word

    def end(self) -> None:
        """No word may be left."""
        if self._next < len(self._words):
            raise Unread("too many words")

    # What a word can stand for

    def take_bytes(self) -> bytes:
        return read_bytes(self.take())

    def take_number(self, bits: int = 64) -> int:
        return read_number(self.take(), bits)

    def take_sealer(self) -> Sealer:
        sealer = SEALERS.get(self.take_number())
        if sealer is None:
            raise Unread("unknown version")
        return sealer

    def take_permutation(self) -> tuple[str, Permutation]:
        """A permutation with its name."""
        name = self.take().decode("latin-1")
        if name not in PERMUTATIONS:
            raise Unread("unknown permutation")
        return name, PERMUTATIONS[name]

    def take_one_byte(self) -> bytes:
        text = self.take_bytes()
        if len(text) != 1:
            raise Unread("not one byte")
        return text


def read_bytes(word: bytes) -> bytes:
    """Read hexadecimal pairs, or - for none."""
    if word == b"-":
        return b""
    pairs = word[:len(word) // 2 * 2]
    if any(digit not in b"0123456789ABCDEFabcdef" for digit in pairs):
        raise Unread("not a hexadecimal digit")
    if len(word) % 2:
        raise Unread("odd number of digits")
    return bytes.fromhex(word.decode("ascii"))


def read_number(word: bytes, bits: int) -> int:
    """Read a decimal number of at most so many bits."""
    if any(digit not in b"0123456789" for digit in word):
        raise Unread("not a decimal number")
    digits = word.lstrip(b"0") or b"0"
    # 64 bits have at most 20 digits.
    if len(digits) > 20 or int(digits) >> bits:
        raise Unread(f"a number of more than {bits} bits")
    return int(digits)


def shown(text: Union[bytes, bytearray]) -> str:
    """Bytes as they are printed."""
    return text.hex().upper() or "-"


def buffer(size: int, fill: bytes = FILLED) -> bytearray:
    """A buffer of one byte repeated."""
    if size >= NO_MEMORY_FROM:
        raise MemoryError
    return bytearray(fill * size)


# Calls on permutations

def call_forward(words: Words) -> Lines:
    permutation, state = read_state(words)
    return [f"state {shown(permutation.forward(state))}"]


def call_back(words: Words) -> Lines:
    permutation, state = read_state(words)
    return [f"state {shown(permutation.back(state))}"]


def call_trace(words: Words) -> Lines:
    permutation, state = read_state(words)
    return [f"step {s} {shown(permutation.forward_by(state, s))}"
            for s in range(permutation.steps + 1)]


def read_state(words: Words) -> tuple[Permutation, bytes]:
    name, permutation = words.take_permutation()
    return permutation, read_last_state(words, name, permutation)


def read_last_state(words: Words, name: str, permutation: Permutation) -> bytes:
    state = words.take_bytes()
    words.end()
    ask_length(name, permutation, state)
    return state


def ask_length(name: str, permutation: Permutation, state: bytes) -> None:
    if len(state) != permutation.size:
        raise Unread(f"a state of {name} has {permutation.size} bytes, not {len(state)}")


def call_forward_by(words: Words) -> Lines:
    permutation, s, state = read_steps(words)
    return stepped(state, lambda: permutation.forward_by(state, s))


def call_back_by(words: Words) -> Lines:
    permutation, s, state = read_steps(words)
    return stepped(state, lambda: permutation.back_by(state, s))


def read_steps(words: Words) -> tuple[Permutation, int, bytes]:
    name, permutation = words.take_permutation()
    s = words.take_number()
    return permutation, s, read_last_state(words, name, permutation)


def call_page(words: Words) -> Lines:
    name, permutation = words.take_permutation()
    s = words.take_number()
    state = words.take_bytes()
    room = words.take_number()
    words.end()
    ask_length(name, permutation, state)
    rest = buffer(room)
    try:
        page = permutation.page(state, s, room)
    except Refused as refused:
        return [str(refused.fault), f"rest {shown(rest)}"]
    lines = page.decode("ascii").split("\n")
    return lines[:-1] + [f"rest {shown(rest[len(page):])}"]


def stepped(state: bytes, call: Callable[[], bytes]) -> Lines:
    """The state after the call, which stays below a refusal."""
    try:
        return [f"state {shown(call())}"]
    except Refused as refused:
        return [str(refused.fault), f"state {shown(state)}"]


# Calls on the cipher

def call_seal(words: Words) -> Lines:
    sealer = words.take_sealer()
    key, nonce, data, message = (words.take_bytes() for _ in range(4))
    words.end()
    out, tag = buffer(len(message)), buffer(sealer.width)
    refusal = refused(lambda: sealer.seal(key, nonce, data, message, out, tag))
    return [refusal or f"sealed {shown(out)} {shown(tag)}"]


def call_open(words: Words) -> Lines:
    sealer = words.take_sealer()
    key, nonce, data, ciphertext, tag = (words.take_bytes() for _ in range(5))
    words.end()
    out = buffer(len(ciphertext))
    refusal = refused(lambda: sealer.open(key, nonce, data, ciphertext, out, tag))
    return [refusal or f"opened {shown(out)}"]


def call_seal_into(words: Words) -> Lines:
    sealer = words.take_sealer()
    key, nonce, data, message = (words.take_bytes() for _ in range(4))
    room, width = words.take_number(), words.take_number()
    words.end()
    out, tag = buffer(room), buffer(width)
    refusal = refused(lambda: sealer.seal(key, nonce, data, message, out, tag))
    return [refusal or "sealed", f"output {shown(out)}", f"tag {shown(tag)}"]


def call_open_into(words: Words) -> Lines:
    sealer = words.take_sealer()
    key, nonce, data, ciphertext, tag = (words.take_bytes() for _ in range(5))
    room = words.take_number()
    words.end()
    out = buffer(room)
    refusal = refused(lambda: sealer.open(key, nonce, data, ciphertext, out, tag))
    return [refusal or "opened", f"output {shown(out)}"]


def call_test(words: Words) -> Lines:
    sealer = words.take_sealer()
    key, nonce, data, ciphertext, tag = (words.take_bytes() for _ in range(5))
    room = words.take_number()
    words.end()
    scratch = buffer(room)
    refusal = refused(lambda: sealer.test(key, nonce, data, ciphertext, scratch, tag))
    return [refusal or "tested", f"scratch {scratch_after(scratch)}"]


def scratch_after(scratch: bytearray) -> str:
    """What has become of a scratch that was filled."""
    if scratch == FILLED * len(scratch):
        return "kept"
    wiped = bytes(SCRATCH_BYTES) + FILLED * (len(scratch) - SCRATCH_BYTES)
    return "zero" if scratch == wiped else "other"


def refused(call: Callable[[], object]) -> Optional[str]:
    """Make a call; give its refusal, or None if it is accepted."""
    try:
        call()
    except Refused as refusal:
        return str(refusal.fault)
    return None


# Calls on cards

def call_check(words: Words) -> Lines:
    sealer, key, card = words.take_sealer(), words.take_bytes(), words.take_bytes()
    size = words.take_number()
    words.end()
    scratch = buffer(size)
    try:
        answer = f"checked {dukkovil.check(sealer, key, card, scratch).count}"
    except Refused as refusal:
        answer = str(refusal.fault)
    return [answer, f"scratch {scratch_after(scratch)}"]


def call_sheet(words: Words) -> Lines:
    sealer, key = words.take_sealer(), words.take_bytes()
    i, length = words.take_number(), words.take_number()
    data = words.take_bytes()
    words.end()
    body = buffer(length)
    try:
        card = dukkovil.check(sealer, key, data, buffer(SCRATCH_BYTES))
        found = dukkovil.sheet(sealer, card, i, body)
        answer = (f"sheet {i} cell {found.cell} edition {found.edition}"
                  f" length {found.length} body {shown(body[:found.length])}")
    except Refused as refusal:
        answer = str(refusal.fault)
    return [answer, f"buffer {shown(body)}"]


def call_find(words: Words) -> Lines:
    sealer, key, cell = words.take_sealer(), words.take_bytes(), words.take_number(32)
    data = words.take_bytes()
    words.end()
    try:
        card = dukkovil.check(sealer, key, data, buffer(SCRATCH_BYTES))
    except Refused as refusal:
        return [str(refusal.fault)]
    i = dukkovil.find(card, cell)
    return ["none" if i is None else f"found {i}"]


# Writing a card

WriterCall = Callable[[Writer, bytearray], str]


@dataclass
class Block:
    """A card that is being written: the write line, and the calls so far."""

    sealer: Sealer
    key: bytes
    number: int
    size: int
    fill: bytes
    calls: list[WriterCall] = field(default_factory=list)

    def answers(self) -> Lines:
        """Make the calls; give a line for each, and the medium."""
        medium = buffer(self.size, self.fill)
        return [*self._called(medium), f"medium {shown(medium)}"]

    def _called(self, medium: bytearray) -> Iterable[str]:
        try:
            writer = Writer.start(self.sealer, self.key, self.number, medium)
        except Refused as refusal:
            yield str(refusal.fault)
            return
        yield "started"
        for call in self.calls:
            if writer.closed:
                return
            try:
                yield call(writer, medium)
            except Refused as refusal:
                yield str(refusal.fault)


def read_write(words: Words) -> Block:
    sealer, key = words.take_sealer(), words.take_bytes()
    number, size = words.take_number(), words.take_number()
    fill = words.take_one_byte()
    words.end()
    return Block(sealer, key, number, size, fill)


def read_append(words: Words) -> WriterCall:
    cell, edition, body = words.take_number(32), words.take_number(16), words.take_bytes()
    words.end()
    return lambda writer, medium: f"record {writer.append(medium, cell, edition, body)}"


def read_close(words: Words) -> WriterCall:
    words.end()
    return lambda writer, medium: f"closed {writer.close(medium)}"


# Lines

CALLS: dict[bytes, Callable[[Words], Lines]] = {
    b"forward": call_forward,
    b"back": call_back,
    b"trace": call_trace,
    b"forward-by": call_forward_by,
    b"back-by": call_back_by,
    b"page": call_page,
    b"seal": call_seal,
    b"open": call_open,
    b"seal-into": call_seal_into,
    b"open-into": call_open_into,
    b"test": call_test,
    b"check": call_check,
    b"sheet": call_sheet,
    b"find": call_find,
}

WRITER_CALLS: dict[bytes, Callable[[Words], WriterCall]] = {
    b"append": read_append,
    b"close": read_close,
}


class Workbench:
    """Answers line after line; remembers the card that is being written."""

    def __init__(self) -> None:
        self._block: Optional[Block] = None

    def answer(self, line: bytes) -> Lines:
        """The lines that one line of the script prints, its line feed taken off."""
        line = line.removesuffix(b"\r")
        if not line or line.startswith(b"#"):
            return []
        try:
            return self._call(Words(line))
        except Unread as unread:
            return [f"unread: {unread}"]
        except MemoryError:
            return ["unread: out of memory"]

    def _call(self, words: Words) -> Lines:
        name = words.take()
        if name in WRITER_CALLS or name == b"end":
            return self._in_block(name, words)
        if name != b"write" and name not in CALLS:
            raise Unread("unknown call")
        if self._block is not None:
            raise Unread("a card is being written")
        if name == b"write":
            self._block = read_write(words)
            return []
        return CALLS[name](words)

    def _in_block(self, name: bytes, words: Words) -> Lines:
        if self._block is None:
            raise Unread("no card is being written")
        if name == b"end":
            words.end()
            block, self._block = self._block, None
            return block.answers()
        self._block.calls.append(WRITER_CALLS[name](words))
        return []


def main() -> None:
    workbench = Workbench()
    for line in sys.stdin.buffer:
        for answer in workbench.answer(line.removesuffix(b"\n")):
            print(answer)


if __name__ == "__main__":
    main()

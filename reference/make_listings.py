"""Make inputs for the lister: make_listings.py SEED [COUNT [DIRECTORY]].

With a directory, input 7 goes into 0007.in and what is to be printed into
0007.out. Without one, each input is a line: its bytes in hexadecimal (- for
none), a tab, and the text with \\n for each line feed.
"""

from __future__ import annotations

import sys
from pathlib import Path
from typing import Iterator

from dukkovil import BENCH_SEALER, KEY_BYTES, MOST_BODY, MOST_LISTED, SEALERS, Sealer, listing
from make_scripts import Draft, Script, all_breaks, broken_card, card_size, changed, draft


def listed(card: Draft) -> bytes:
    """The lister's input for a card."""
    return card.key + card.to_bytes()


def inputs(script: Script) -> Iterator[bytes]:
    yield from short_inputs(script)
    for sealer in SEALERS.values():
        yield from right_cards(script, sealer)
        yield from wrong_cards(script, sealer)
        yield from unknown_versions(script, sealer)
    yield listed(draft(script, BENCH_SEALER, [0] * 512))
    yield from long_inputs(script)


def short_inputs(script: Script) -> Iterator[bytes]:
    """Fewer bytes than a key has, and a key with little or nothing after it."""
    for length in (0, 1, 2, 8, 14, 15, 16, 17):
        yield script.some_bytes(length)
    text = listed(draft(script, BENCH_SEALER, (2,)))
    for length in range(KEY_BYTES - 1, len(text) + 1):
        yield text[:length]


def right_cards(script: Script, sealer: Sealer) -> Iterator[bytes]:
    """Cards with no sheet, one and several, with small numbers and the greatest."""
    yield listed(draft(script, sealer, ()))
    yield listed(draft(script, sealer, (0,)))
    card = draft(script, sealer, (1, 0))
    card.number = (1 << 64) - 1
    card.records[0].cell, card.records[0].edition = (1 << 32) - 1, 65535
    card.records[1].cell, card.records[1].edition = 0, 0
    yield listed(card)
    yield listed(draft(script, sealer, (MOST_BODY,)))
    for _ in range(6 * script.count):
        lengths = [script.random.randrange(30) for _ in range(script.random.randrange(12))]
        yield listed(draft(script, sealer, lengths))


def wrong_cards(script: Script, sealer: Sealer) -> Iterator[bytes]:
    """A changed byte, a cut, a wrong key, and everything that check asks for."""
    card = draft(script, sealer, (4, 0))
    text = listed(card)
    for _ in range(12 * script.count):
        place = script.random.randrange(len(text))
        yield changed(text, place, script.random.randrange(1, 256))
        yield text[:script.random.randrange(KEY_BYTES, len(text))]
    yield text + b"\0"
    yield script.some_bytes(KEY_BYTES) + card.to_bytes()
    for break_one in script.random.sample(all_breaks(script, sealer), 20):
        yield listed(broken_card(card, break_one))


def unknown_versions(script: Script, sealer: Sealer) -> Iterator[bytes]:
    """Versions of no suite, and of the other ones."""
    card = draft(script, sealer, (2,))
    for version in (0, 1, 2, 3, 8, 9, 10, 256 * sealer.version, 256 + sealer.version, 65535):
        if version != sealer.version:
            card.version = version
            yield listed(card)


def long_inputs(script: Script) -> Iterator[bytes]:
    """Inputs of 65,552 bytes, the most there may be, and of one more."""
    for sealer in SEALERS.values() if script.count > 1 else (BENCH_SEALER,):
        lengths = [MOST_BODY] * 15
        lengths.append(MOST_LISTED - KEY_BYTES - card_size(sealer, [*lengths, 0]))
        text = listed(draft(script, sealer, lengths))
        assert len(text) == MOST_LISTED
        yield text
        yield text + b"\0"
    yield bytes(MOST_LISTED)
    yield bytes(MOST_LISTED + 1)


def write(directory: Path, texts: Iterator[bytes]) -> None:
    """Write inputs and outputs as files."""
    directory.mkdir(parents=True, exist_ok=True)
    for i, text in enumerate(texts):
        (directory / f"{i:04}.in").write_bytes(text)
        (directory / f"{i:04}.out").write_bytes(listing(text).encode())


def show(texts: Iterator[bytes]) -> None:
    """Print inputs and outputs, one pair to a line."""
    for text in texts:
        shown = listing(text).replace("\n", "\\n")
        print(f"{text.hex().upper() or '-'}\t{shown}")


def main() -> int:
    if not 2 <= len(sys.argv) <= 4:
        print("usage: make_listings.py SEED [COUNT [DIRECTORY]]", file=sys.stderr)
        return 2
    count = int(sys.argv[2]) if len(sys.argv) > 2 else 1
    texts = inputs(Script(int(sys.argv[1]), count))
    if len(sys.argv) == 4:
        write(Path(sys.argv[3]), texts)
    else:
        show(texts)
    return 0


if __name__ == "__main__":
    sys.exit(main())

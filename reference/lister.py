"""Read a key and a card from standard input and print what the card holds."""

import sys

from dukkovil import listing


def main() -> None:
    sys.stdout.write(listing(sys.stdin.buffer.read()))


if __name__ == "__main__":
    main()

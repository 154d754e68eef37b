"""What the lists of cases have in common: the words of a line, and bytes."""
import re

MAX = 2**64 - 1
UNTOUCHED = b"\xa5"
WORDS = {"empty": b"", "LF": b"\n", "CR": b"\r", "TAB": b"\t"}
TOKEN = re.compile(r"\s*(`[^`]*`|->|[A-Za-z0-9_+]+|[(),:])")


class Line:
    """The words of a line, taken one after the other."""

    def __init__(self, line):
        self.words = []
        at = 0
        line = line.rstrip()
        while at < len(line):
            found = TOKEN.match(line, at)
            if not found:
                raise ValueError(f"cannot read {line[at:]!r}")
            self.words.append(found.group(1))
            at = found.end()
        self.words.reverse()

    def next(self):
        return self.words[-1] if self.words else None

    def take(self, *expected):
        word = self.words.pop() if self.words else None
        if expected and word not in expected:
            raise ValueError(f"{word!r} stands where {' or '.join(expected)} is due")
        return word

    def number(self):
        word = self.take()
        return MAX if word == "max" else int(word)

    def end(self):
        if self.next() is not None:
            raise ValueError(f"{self.next()!r} is too much")

    def pieces(self):
        """The bytes of each word for bytes, as long as such words follow."""
        pieces = []
        while (word := self.next()) is not None:
            if word[0] == "`":
                pieces.append(self.take()[1:-1].encode())
            elif word in WORDS:
                pieces.append(WORDS[self.take()])
            elif word.startswith("U+"):
                pieces.append(chr(int(self.take()[2:], 16)).encode())
            elif word == "hex":
                self.take(), self.take("(")
                while self.next() != ")":
                    pieces.append(bytes.fromhex(self.take()))
                self.take(")")
            elif word == "repeat":
                self.take(), self.take("(")
                count = self.number()
                self.take(",")
                pieces += count * self.pieces()
                self.take(")")
            else:
                break
        if not pieces:
            raise ValueError(f"{self.next()!r} stands where bytes are due")
        return pieces

    def bytes(self):
        return b"".join(self.pieces())


def entry(code, start, length):
    """A tape's entry as a number."""
    return code << 56 | start << 28 | length


def fields(word):
    """An entry's number as its code, start and length."""
    return f"{word >> 56} {word >> 28 & 0xFFFFFFF} {word & 0xFFFFFFF}"


def tape(entries, size):
    """A tape of so many bytes with these entries."""
    written = b"".join(word.to_bytes(8, "big") for word in entries)
    if len(written) > size:
        raise ValueError("the entries do not fit the tape")
    return written.ljust(size, UNTOUCHED)


def say_tape(written, count):
    """A tape's first so many entries in words, not all if they are many, and whether other bytes are touched."""
    count = min(count, len(written) // 8)
    entries = [fields(int.from_bytes(written[8 * i:8 * i + 8], "big")) for i in range(count)]
    rest = written[8 * count:]
    shown = ", ".join(entries[:60]) + (", ..." if count > 60 else "")
    return shown, rest != UNTOUCHED * len(rest)

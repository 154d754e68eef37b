"""Cases of reading items, of the C interface and of parts: items.txt says how they are written."""
import struct

from notation import MAX, UNTOUCHED, Line, entry, say_tape, tape

ITEMS, PART, INTERFACE = 0, 5, 6


class Case:
    def __init__(self, line):
        words = Line(line)
        self.text = words.bytes()
        self.entry, self.limit, self.depth, self.events, size = ITEMS, MAX, 0, 0, None
        while words.next() != "->":
            word = words.take("limit", "tape", "events", "interface", "part")
            if word == "limit":
                self.limit = words.number()
            elif word == "tape":
                size = words.number()
            elif word == "events":
                self.events = words.number()
            elif word == "interface":
                self.entry, self.depth = INTERFACE, words.number()
            else:
                self.entry, self.limit, self.depth, size = PART, words.number(), words.number(), 0
        words.take("->")
        if self.entry == PART:
            self.part = words.bytes()
        else:
            self.number, self.place, count = words.number(), words.number(), words.number()
            self.items = []
            while words.next() is not None:
                words.take(":", ",")
                self.items.append(entry(words.number(), words.number(), words.number()))
            if count != len(self.items):
                raise ValueError(f"{count} items are said, {len(self.items)} are listed")
        words.end()
        self.tape = 8 * (len(self.items) + 1) if size is None else size

    def input(self):
        head = struct.pack(">BQQIII", self.entry, self.limit, self.depth, self.tape, self.events, len(self.text))
        return head + self.text

    def answer(self):
        if self.entry == PART:
            return struct.pack(">Q", len(self.part)) + self.part
        head = struct.pack(">QQQQ", self.number, self.place, len(self.items), 0)
        return head + tape(self.items, self.tape) + self.events * UNTOUCHED

    def length(self, answers, at):
        """How long the answer is that begins there."""
        return 8 + int.from_bytes(answers[at:at + 8], "big") if self.entry == PART else len(self.answer())

    def say(self, answer):
        """An answer's bytes in the list's notation."""
        if self.entry == PART:
            return f"a part of {len(answer) - 8} bytes: hex({answer[8:40].hex(' ')})"
        number, place, count, events = struct.unpack_from(">QQQQ", answer)
        items, touched = say_tape(answer[32:], count)
        said = f"{number} {place} {count}{': ' if items else ''}{items}{f' and {events} events' if events else ''}"
        return said + (" (and touches the tapes' rest)" if touched else "")

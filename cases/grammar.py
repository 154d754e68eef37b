"""Cases of the grammar entries: grammar.txt says how they are written."""
import struct

from notation import MAX, Line, entry, say_tape, tape

ENTRIES = {"value": 1, "constant": 2, "type": 3, "selection": 4}
PUNCTUATORS = {b",": 3, b"!": 4, b"$": 5, b"&": 6, b"(": 7, b")": 8, b"...": 9, b":": 10, b"=": 11, b"@": 12, b"[": 13, b"]": 14,
               b"{": 15, b"|": 16, b"}": 17}
NODES = """NAME INT_VALUE FLOAT_VALUE STRING_VALUE BOOLEAN_VALUE NULL_VALUE ENUM_VALUE LIST_VALUE OBJECT_VALUE OBJECT_FIELD VARIABLE
NAMED_TYPE LIST_TYPE NON_NULL_TYPE SELECTION_SET FIELD ALIAS ARGUMENTS ARGUMENT DIRECTIVES DIRECTIVE FRAGMENT_SPREAD FRAGMENT_NAME
INLINE_FRAGMENT TYPE_CONDITION""".split()
OPEN, TOKEN, CLOSE, INSIDE = range(4)


def code(piece):
    """The item code of a piece of text that is one item: what it is, its first character says. None: the pieces are bytes only."""
    if piece in PUNCTUATORS:
        return PUNCTUATORS[piece]
    try:
        first = piece.decode()[0]
    except UnicodeDecodeError:
        return None
    if first in "\t \n\r\ufeff":
        return 1
    if first == "#":
        return 2
    if first == '"':
        return 19
    if first.isascii() and (first.isalpha() or first == "_"):
        return 18
    if first in "-0123456789" and piece != b"-":
        return 21 if any(c in piece for c in b".eE") else 20
    return None


def items_of(pieces):
    """Each piece as an item: code, start, length, bytes. Whitespace that follows whitespace is one with it."""
    items, start = [], 0
    for n, piece in pieces:
        if n == 1 and items and items[-1][0] == 1:
            before = items.pop()
            piece, start = before[3] + piece, before[1]
        items.append((n, start, len(piece), piece))
        start += len(piece)
    return items + [(0, start, 0, b"")]


def tree(words, closing=None):
    """The steps of trees that stand side by side: nodes that open, tokens, nodes that close."""
    steps = []
    while words.next() not in (closing, ","):
        word = words.take()
        if word[0] == "`":
            steps.append((TOKEN, word[1:-1].encode()))
        elif word == "INSIDE":
            steps.append((INSIDE,))
        elif word in ("repeat", "nest"):
            words.take("(")
            count = words.number()
            words.take(",")
            first = tree(words, ")")
            if word == "repeat":
                steps += count * first
            else:
                words.take(",")
                at = first.index((INSIDE,))
                steps += count * first[:at] + tree(words, ")") + count * first[at + 1:]
            words.take(")")
        elif word in NODES:
            node = NODES.index(word) + 1
            words.take("(")
            steps += [(OPEN, node)] + tree(words, ")") + [(CLOSE, node)]
            words.take(")")
        else:
            raise ValueError(f"{word!r} stands where a node or a token is due")
    return steps


def events_of(steps, items):
    """The events of a tree whose tokens are those of the items."""
    tokens = [item for item in items if item[0] not in (0, 1, 2, 3)]
    events, opened, at = [], [], 0
    for step in steps:
        if step[0] == OPEN:
            opened.append(at)
            events.append(entry(step[1], tokens[at][1], 0))
        elif step[0] == TOKEN:
            n, start, length, piece = tokens[at]
            if piece != step[1]:
                raise ValueError(f"the tree has {step[1]!r} where the text has {piece!r}")
            events.append(entry(128 + n, start, length))
            at += 1
        else:
            start, last = tokens[opened.pop()][1], tokens[at - 1]
            events.append(entry(64 + step[1], start, last[1] + last[2] - start))
    if at != len(tokens):
        raise ValueError("the tree leaves tokens over")
    return events


class Case:
    def __init__(self, line):
        words = Line(line)
        self.entry = ENTRIES[words.take(*ENTRIES)]
        pieces = self.pieces(words)
        self.text = b"".join(piece for _, piece in pieces)
        self.limit, self.depth, size, event_size = MAX, 500, None, None
        while words.next() != "->":
            word = words.take("limit", "depth", "tape", "events")
            number = words.number()
            if word == "limit":
                self.limit = number
            elif word == "depth":
                self.depth = number
            elif word == "tape":
                size = number
            else:
                event_size = number
        words.take("->")
        self.number = words.number()
        self.place, self.items, self.events, self.count = 0, [], [], 0
        self.expect(words, pieces)
        words.end()
        self.tape = 8 * (len(self.items) + 1) if size is None else size
        self.event_tape = 8 * (len(self.events) + 1) if event_size is None else event_size

    def pieces(self, words):
        """Each piece of the text with its item code."""
        pieces = []
        while True:
            if words.next() == "error":
                words.take(), words.take("(")
                number = words.number()
                words.take(",")
                pieces.append((64 + number, words.bytes()))
                words.take(")")
            elif words.next() in ("limit", "depth", "tape", "events", "->"):
                return pieces
            else:
                pieces += [(code(piece), piece) for piece in words.pieces() if piece]

    def expect(self, words, pieces):
        """What the answer is besides its number."""
        if self.number in (1, 2):
            return
        if self.number == 3:
            self.place = words.number()
            return
        if any(n is None for n, _ in pieces):
            raise ValueError("a piece is no item")
        items = items_of(pieces)
        stay = len(items)
        if self.number == 0:
            self.place = len(self.text)
            if words.next() == "words":
                words.take()
                while words.next() is not None:
                    self.events.append(int(words.take(), 16))
            else:
                self.events = events_of(tree(words), items)
            self.count = len(self.events)
        elif self.number == 10:
            self.count = words.number()
        else:
            self.place = words.number()
            if self.number in (4, 5):
                stay = words.number()
        self.items = [entry(*item[:3]) for item in items[:stay]]

    def input(self):
        head = struct.pack(">BQQIII", self.entry, self.limit, self.depth, self.tape, self.event_tape, len(self.text))
        return head + self.text

    def answer(self):
        head = struct.pack(">QQQQ", self.number, self.place, len(self.items), self.count)
        return head + tape(self.items, self.tape) + tape(self.events, self.event_tape)

    def length(self, _answers, _at):
        return len(self.answer())

    def say(self, answer):
        """An answer's bytes in words."""
        number, place, count, events = struct.unpack_from(">QQQQ", answer)
        items, first = say_tape(answer[32:32 + self.tape], count)
        listed, second = say_tape(answer[32 + self.tape:], events if number == 0 else 0)
        said = f"{number} {place} {count}: {items}; {events} events: {listed}"
        return said + (" (and touches the tapes' rest)" if first or second else "")

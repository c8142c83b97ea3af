"""Reads the text of an accepted score by recursive descent: its statements as tuples, each with its kind first."""
import re


def tokens(data):
    found, at = [], 0
    while at < len(data):
        sign = data[at:at + 1]
        if sign in b" \t\n\r":
            at += 1
        elif sign == b"#":
            end = data.find(b"\n", at)
            at = len(data) if end < 0 else end
        else:
            match = re.compile(rb"[a-z][a-z0-9_]*|[0-9]+|[;{}()\[\],=/+\-*%]").match(data, at)
            if not match:
                raise SystemExit(f"no token at byte {at}")
            found.append(match.group().decode())
            at = match.end()
    return found + [""]


def key_of(word):
    match = re.fullmatch(r"([a-g])([sb]?)([0-9])", word)
    if not match:
        return None
    degree = {"c": 0, "d": 2, "e": 4, "f": 5, "g": 7, "a": 9, "b": 11}[match.group(1)]
    return 12 * (int(match.group(3)) + 1) + degree + {"": 0, "s": 1, "b": -1}[match.group(2)]


class Text:
    def __init__(self, data):
        self.left, self.at = tokens(data), 0
        self.running, self.division = False, 480

    def peek(self):
        return self.left[self.at]

    def next(self):
        self.at += 1
        return self.left[self.at - 1]

    def take(self, word):
        if self.peek() == word:
            self.at += 1
            return True
        return False

    def need(self, word):
        got = self.next()
        if got != word:
            raise SystemExit(f"{word!r} expected, {got!r} found")

    def number(self):
        return int(self.next())

    def listed(self, item, end):
        items = [item()]
        while self.take(","):
            items.append(item())
        self.need(end)
        return items

    def length(self):
        if self.take("ticks"):
            return self.number()
        over = self.number()
        self.need("/")
        return 4 * self.division * over // self.number()

    def part(self):
        kind = self.next()
        length = self.length()
        if kind == "flat":
            self.need("by")
            return ("flat", length, self.number())
        if kind == "slope":
            self.need("by")
            first = self.number()
            self.need("to")
            return ("slope", length, first, self.number())
        return (kind, length)

    def expr(self):
        left = self.term()
        while self.peek() in ("+", "-"):
            left = (self.next(), left, self.term())
        return left

    def term(self):
        left = self.factor()
        while self.peek() in ("*", "/", "%"):
            left = (self.next(), left, self.factor())
        return left

    def factor(self):
        word = self.next()
        if word.isdigit():
            return ("number", int(word))
        if re.fullmatch(r"r[0-7]", word):
            return ("register", int(word[1:]))
        if re.fullmatch(r"n[0-9]+", word):
            return ("index", int(word[1:]))
        if word == "-":
            return ("negate", self.factor())
        if word == "(":
            inner = self.expr()
            self.need(")")
            return inner
        self.need("(")
        first = self.expr()
        if word == "pick":
            self.need(")")
            return ("pick", first)
        self.need(",")
        second = self.expr()
        self.need(")")
        return (word, first, second)

    def amount(self):
        if self.take("-"):
            return -self.number()
        if self.take("("):
            inner = self.expr()
            self.need(")")
            return inner
        return self.number()

    def pitch(self):
        if self.take("key"):
            return self.amount()
        return key_of(self.next())

    def duration(self):
        if self.peek() == "ticks" and self.left[self.at + 1] == "(":
            self.at += 2
            inner = self.expr()
            self.need(")")
            self.need("max")
            return ("most", inner, self.number())
        return self.length()

    def block(self):
        self.need("{")
        body = []
        while not self.take("}"):
            body.append(self.statement())
        return body

    def pitches(self):
        items = [self.pitch()]
        while self.take(","):
            items.append(self.pitch())
        return items

    def ends(self, what):
        self.need(";")
        return what

    def statement(self):
        word = self.next()
        if word == "note":
            pitches = self.pitches()
            return self.ends(("note", pitches, self.duration()))
        if word == "play":
            return self.ends(("note", self.pitches(), None))
        if word == "rest":
            return self.ends(("rest", self.duration()))
        if word == "skip":
            return self.ends(("rest", None))
        if word == "control":
            number = self.number()
            return self.ends(("control", number, self.amount()))
        if word in ("program", "bend"):
            return self.ends((word, self.amount()))
        if word == "set":
            register = int(self.next()[1:])
            self.need("=")
            return self.ends(("set", register, self.expr()))
        if word == "if":
            test = self.expr()
            yes = self.block()
            return ("if", test, yes, self.block() if self.take("else") else [])
        if word == "repeat":
            if self.take("("):
                count = self.expr()
                self.need(")")
                self.need("max")
                most = self.number()
                return ("repeat", ("most", count, most), self.block())
            count = self.number()
            return ("repeat", count, self.block())
        if word == "do":
            return self.ends(("do", self.next()))
        if word == "par":
            self.need("{")
            branches = []
            while self.take("branch"):
                branches.append(self.block())
            self.need("}")
            return ("par", branches)
        if word in ("warp", "channel", "volume", "gate"):
            what = self.next()
            return (word, what if word == "warp" else int(what), self.block())
        self.need("[")
        entries = self.listed(self.length if word == "rhythm" else self.number, "]")
        return ("list", word, entries, self.block())

    def score(self):
        self.need("formula")
        self.running = self.number() == 2
        self.need(";")
        if self.running and self.take("division"):
            self.division = self.number()
            self.need(";")
        seed, shapes, phrases, played = 0, {}, {}, []
        if self.take("seed"):
            seed = self.number()
            self.need(";")
        while self.peek():
            if self.take("shape"):
                name = self.next()
                self.need("=")
                shapes[name] = self.listed(self.part, ";")
            elif self.take("phrase"):
                name = self.next()
                phrases[name] = self.block()
            else:
                played.append(self.statement())
        return seed, shapes, phrases, played

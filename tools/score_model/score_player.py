"""Plays the statements of a score by their meaning, and maps the marks of a warp from the inside outwards."""
MOST = 1_000_000
MASK = (1 << 64) - 1
LAST = 1 << 40


def mapped(parts, place, onset):
    total = position = 0
    for part in parts:
        if part[0] == "pause":
            total += part[1] if position <= place else 0
        elif part[0] == "breath":
            total += part[1] if position < place or (onset and position == place) else 0
        else:
            inside = min(place - position, part[1])
            if position <= place and part[0] == "flat":
                total += inside * part[2] // 1000
            elif position <= place:
                length, first, last = part[1], part[2], part[3]
                total += (2 * length * first * inside + (last - first) * inside * inside) // (2 * length * 1000)
            position += part[1]
    return total + max(0, place - position)


def clamp(low, high, value):
    return max(low, min(high, value))


class Process:
    def __init__(self, player, number, position):
        self.number, self.position, self.index = number, position, 0
        self.registers, self.dice = [0] * 8, (player.seed + number) & MASK


class Player:
    """Marks are [process, index, message or None, onset, ending], in positions of the level."""

    def __init__(self, seed, shapes, phrases):
        self.seed, self.shapes, self.phrases = seed, shapes, phrases
        self.born = 0
        self.open = []       # open blocks, the outermost first: ["loop", index] or ["list", kind, entries, cursor]
        self.levels = []     # open warps, the outermost first: where each begins in the level round it, and its parts
        self.starts = []     # of each process the warps that are open where it starts, and its position there
        self.waits = []      # of each process those behind which it starts
        self.channel = 0

    def start(self, position, waits=()):
        self.now = Process(self, self.born, position)
        self.starts.append((list(self.levels), position))
        self.waits.append(list(waits))
        self.born += 1
        self.open = [block if block[0] == "loop" else block[:3] + [0] for block in map(list, self.open)]

    def value(self, expression):
        kind = expression[0]
        if kind == "number":
            return min(expression[1], MOST)
        if kind == "register":
            return self.now.registers[expression[1]]
        if kind == "index":
            return [block[1] for block in reversed(self.open) if block[0] == "loop"][expression[1]]
        left = self.value(expression[1])
        if kind == "negate":
            return clamp(-MOST, MOST, -left)
        if kind == "pick":
            self.now.dice = (self.now.dice * 6364136223846793005 + 1442695040888963407) & MASK
            return clamp(-MOST, MOST, (self.now.dice >> 33) % left if left >= 1 else 0)
        right = self.value(expression[2])
        if kind in ("/", "%") and right == 0:
            return 0
        results = {"+": lambda: left + right, "-": lambda: left - right, "*": lambda: left * right,
                   "/": lambda: left // right, "%": lambda: left - right * (left // right),
                   "min": lambda: min(left, right), "max": lambda: max(left, right),
                   "less": lambda: int(left < right), "same": lambda: int(left == right)}
        return clamp(-MOST, MOST, results[kind]())

    def amount(self, amount):
        return amount if isinstance(amount, int) else self.value(amount)

    def limited(self, duration):
        return duration if isinstance(duration, int) else clamp(0, duration[2], self.value(duration[1]))

    def entry(self, kind, otherwise):
        for block in reversed(self.open):
            if block[0] == "list" and block[1] == kind:
                block[3] += 1
                return block[2][(block[3] - 1) % len(block[2])]
        return otherwise

    def length(self, duration):
        return self.entry("rhythm", 0) if duration is None else self.limited(duration)

    def mark(self, message, ending):
        self.now.index += 1
        return [self.now.number, self.now.index - 1, message, self.now.position, ending]

    def end(self):
        return [self.now.number, self.now.index, None, self.now.position, self.now.position]

    def block(self, block, body):
        self.open.append(block)
        marks = self.passage(body)
        self.open.pop()
        return marks

    def passage(self, body):
        return [mark for statement in body for mark in self.play(statement)]

    def play(self, statement):
        kind, now, channel = statement[0], self.now, self.channel
        if kind == "note":
            keys = [clamp(0, 127, self.amount(pitch)) for pitch in statement[1]]
            length = self.length(statement[2])
            gate, loud = self.entry("artic", 90), self.entry("loud", 64)
            marks = [self.mark([0x90 | channel, key, loud], now.position) for key in keys]
            marks += [self.mark([0x80 | channel, key, 0x40], now.position + length * gate // 100) for key in keys]
            now.position += length
            return marks
        if kind == "rest":
            now.position += self.length(statement[1])
            return []
        if kind == "control":
            return [self.mark([0xB0 | channel, statement[1], clamp(0, 127, self.amount(statement[2]))], now.position)]
        if kind == "program":
            return [self.mark([0xC0 | channel, clamp(0, 127, self.amount(statement[1]))], now.position)]
        if kind == "bend":
            bend = clamp(0, 16383, self.amount(statement[1]) + 8192)
            return [self.mark([0xE0 | channel, bend & 127, bend >> 7], now.position)]
        if kind == "set":
            now.registers[statement[1]] = self.value(statement[2])
            return []
        if kind == "if":
            return self.passage(statement[2] if self.value(statement[1]) > 0 else statement[3])
        if kind == "repeat":
            marks = []
            for number in range(self.limited(statement[1])):
                marks += self.block(["loop", number], statement[2])
            return marks
        if kind == "do":
            return self.passage(self.phrases[statement[1]])
        if kind == "par":
            marks, forked, held = [self.end()], now.position, self.open
            ends, last = [], []
            for branch in statement[1]:
                self.open = held
                self.start(forked, [now.number])
                marks += self.passage(branch)
                marks.append(self.end())
                ends.append(self.now.position)
                last.append(self.now.number)
            self.open = held
            self.start(max(ends), last)
            return marks
        if kind == "warp":
            parts, begun = self.shapes[statement[1]], now.position
            now.position = 0
            self.levels.append((begun, parts))
            marks = self.passage(statement[2])
            self.levels.pop()
            for mark in marks:
                mark[3], mark[4] = begun + mapped(parts, mark[3], True), begun + mapped(parts, min(mark[4], LAST), False)
            self.now.position = begun + mapped(parts, self.now.position, True)
            return marks
        if kind == "channel":
            self.channel = statement[1]
            marks = self.passage(statement[2])
            self.channel = channel
            return marks
        if kind in ("volume", "gate"):
            return self.block(["list", "loud" if kind == "volume" else "artic", [statement[1]], 0], statement[2])
        return self.block(["list", statement[1], statement[2], 0], statement[3])

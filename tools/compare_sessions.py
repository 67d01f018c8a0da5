#!/usr/bin/env python3
"""Compares random sessions of the program with a second reading of docs/RULES.md: a plain list of chunks, colours from the first byte.

usage: tools/compare_sessions.py [SESSIONS]      (after `rt run` in crates/scene, which builds crates/scene/out/scene)
"""
import pathlib, random, subprocess, sys

from compare_colours import Comment, PILES, colours_of

PROGRAM = pathlib.Path(__file__).resolve().parent.parent / 'crates' / 'scene' / 'out' / 'scene'
DIGITS = '0123456789abcdef'
OPENINGS, CLOSINGS = b'([{', b')]}'
ALL = {**PILES, 'comment5': Comment(PILES['comment4'])}


def states(grammar, text):
    """The state before each place, the text's end included."""
    out = [0]
    for b in text:
        out.append(grammar.read(out[-1], b)[0])
    return out


def role(colour, b):
    """1 for a live opening, -1 for a live closing, else 0."""
    if colour != 3:
        return 0
    return (b in OPENINGS) - (b in CLOSINGS)


def kind(b):
    return (OPENINGS + CLOSINGS).index(b) % 3


def roles(grammar, text):
    return [role(c, b) for c, b in zip(colours_of(grammar, text), text)]


def position(text):
    """The line and the column behind a text."""
    last = text.rsplit(b'\n', 1)[-1]
    units = sum(0 if 0x80 <= b <= 0xBF else 2 if b >= 0xF0 else 1 for b in last)
    return text.count(b'\n'), units


def summary(grammar, text):
    lines, units = position(text)
    depth = least = 0
    for r in roles(grammar, text):
        depth += r
        least = min(least, depth)
    state = states(grammar, text)[-1]
    return f'length {len(text)} lines {lines} units {units} state {state} closings {-least} openings {depth - least}'


def partner(grammar, text, place):
    """The place of a bracket's partner, nothing if it has none."""
    live = roles(grammar, text)
    depth = 0
    for q in range(place, len(text)) if live[place] > 0 else range(place, -1, -1):
        depth += live[q]
        if depth == 0:
            return q
    return None


def cut(data):
    count = (len(data) + 63) // 64
    out, at = [], 0
    for k in range(count):
        size = len(data) // count + (1 if k < len(data) % count else 0)
        out.append(data[at:at + size])
        at += size
    return out


def edited(chunks, start, end, new):
    """The chunks after an edit."""
    bounds, at = [], 0
    for c in chunks:
        bounds.append((at, at + len(c)))
        at += len(c)
    if not chunks:
        first, last = 0, 0
    elif start < end:
        hit = [i for i, (a, b) in enumerate(bounds) if a < end and start < b]
        first, last = hit[0], hit[-1] + 1
    else:
        byte = start - 1 if start else 0
        first = next(i for i, (a, b) in enumerate(bounds) if a <= byte < b)
        last = first + 1

    def middle():
        low = bounds[first][0] if first < len(chunks) else at
        high = bounds[last - 1][1] if last > first else low
        text = b''.join(chunks)
        return text[low:start] + new + text[end:high]

    if 1 <= len(middle()) <= 31:
        if last < len(chunks):
            last += 1
        elif first > 0:
            first -= 1
    return chunks[:first] + cut(middle()) + chunks[last:]


class Session:
    def __init__(self, grammar, slots, screen, store, readings):
        self.grammar, self.slots, self.store, self.readings = grammar, slots, store, readings
        self.usable, self.chunks, self.due = 0, [], None
        self.screen = bytearray(screen)

    def text(self):
        return b''.join(self.chunks)

    def refused_range(self, a, b):
        if a > b or b > len(self.text()):
            return f'refused 6 tree {b}'

    def open(self):
        if self.usable:
            return 'refused 1 document 0'
        if not 1 <= self.slots <= 4096:
            return f'refused 2 tree {self.slots}'
        if self.store != 64 * self.slots:
            return f'refused 3 tree {self.store}'
        if self.readings != self.slots:
            return f'refused 3 tree {self.readings}'
        if self.grammar.count == 0:
            return 'refused 4 document 0'
        self.usable = self.slots
        return 'pass'

    def refused_due(self):
        if self.due:
            return f'refused 5 document {self.due[0]}'

    def refused_edit(self, a, b, new):
        if (no := self.refused_range(a, b)):
            return no
        if len(new) > 1024:
            return f'refused 7 tree {len(new)}'
        count = len(edited(self.chunks, a, b, new))
        if count > self.usable:
            return f'refused 8 tree {count}'

    def edit(self, a, b, new):
        if (no := self.refused_due() or self.refused_edit(a, b, new)):
            return no
        chunks = edited(self.chunks, a, b, new)
        old, text = self.text(), self.text()[:a] + new + self.text()[b:]
        before, after = states(self.grammar, old), states(self.grammar, text)
        r, k = b - a, len(new)
        end = next((e for e in range(a + k, len(text) + 1) if after[e] == before[e + r - k]), len(text))
        self.chunks, self.due = chunks, (a, r, k, end)
        return 'due %d %d %d %d' % self.due

    def paint(self, numbers):
        a, r, k, e = numbers
        if self.due != numbers:
            return f'refused 9 document {a}'
        text = self.text()
        n = len(text)
        if len(self.screen) < n or len(self.screen) < n + r - k:
            return f'refused 10 document {len(self.screen)}'
        shown = bytes(self.screen)
        self.screen[a:e] = bytes(colours_of(self.grammar, text)[a:e])
        for i in range(e, n):
            self.screen[i] = shown[i + r - k]
        self.due = None
        return 'pass'

    def record(self, text, a, b, start, end):
        """The refusal of a record, if it is refused."""
        if (no := self.refused_due()):
            return no
        if start > end or end > len(text):
            return f'refused 15 script {end}'
        new = text[start:end]
        if (no := self.refused_edit(a, b, new)):
            return no
        n = len(self.text())
        if len(self.screen) < n or len(self.screen) < n - (b - a) + len(new):
            return f'refused 10 document {len(self.screen)}'
        assert self.edit(a, b, new).startswith('due') and self.paint(self.due) == 'pass'

    def script(self, text, records):
        for index, record in enumerate(records):
            if (no := self.record(text, *record)):
                return no.replace('refused', f'refused {index}', 1)
        return f'done {len(records)}'

    def range(self, a, b):
        return self.refused_range(a, b) or summary(self.grammar, self.text()[a:b])

    def same(self, place, new):
        if place > len(self.text()):
            return f'refused 12 document {place}'
        return 'yes' if self.text()[place:place + len(new)] == new else 'no'

    def place(self, place):
        if place > len(self.text()):
            return f'refused 12 document {place}'
        return '%d %d' % position(self.text()[:place])

    def spot(self, line, column):
        text = self.text()
        if line > text.count(b'\n'):
            return f'refused 13 document {line}'
        spots = [p for p in range(len(text) + 1) if position(text[:p])[0] == line and position(text[:p])[1] <= column]
        return str(max(spots, default=0))

    def partner(self, place):
        text = self.text()
        if place >= len(text):
            return f'refused 12 document {place}'
        if not roles(self.grammar, text)[place]:
            return f'refused 14 document {place}'
        found = partner(self.grammar, text, place)
        if found is None:
            return 'none'
        return f'{found} agree' if kind(text[place]) == kind(text[found]) else f'{found} differ'

    def front(self, a, b, room, cells, write):
        if (no := self.refused_range(a, b)):
            return no
        if room is not None and b - a > room:
            return f'refused 11 document {room}'
        return write(cells[a:b])


def quoted(data):
    short = {0x0A: '\\n', 0x0D: '\\r', 0x09: '\\t', 0x22: '\\"', 0x5C: '\\\\'}
    return '"' + ''.join(short.get(b) or (chr(b) if 0x20 <= b <= 0x7E else '\\x%02X' % b) for b in data) + '"'


def digits(cells):
    return ''.join(DIGITS[c] for c in cells)


def some_bytes(rng):
    kind = rng.random()
    size = rng.choice([0, 1, 1, 2, 3, 10, 31, 32, 33, 63, 64, 65, 100, 200, 1024, 1025])
    if kind < 0.7:
        size = min(size, 40)
    return bytes(rng.choice(b'ab1.# "\\\n`([{}])' + bytes([0xF0, 0x9F, 0x80, 0x0D])) for _ in range(size))


def written(rng, data):
    return quoted(data) if rng.random() < 0.5 else 'x' + data.hex()


def some_script(rng, n):
    """A text and records; each is made for the length that the text should have then."""
    text = b''.join(some_bytes(rng) for _ in range(rng.randint(0, 3)))
    records = []
    for _ in range(rng.choice([0, 1, 1, 2, 3, 5])):
        a, start = rng.randint(0, n), rng.randint(0, len(text))
        b = min(n, a + rng.choice([0, 0, 1, 5, 40]))
        end = min(len(text), start + rng.choice([0, 1, 5, 40, 1025]))
        if rng.random() < 0.1:
            a, b, start, end = (max(0, x + rng.choice([0, 0, -1, 1, 3])) for x in (a, b, start, end))
        records.append((a, b, start, end))
        n = max(0, n - (b - a) + end - start)
    return text, records


def question(rng, session):
    """One of the calls that ask without writing."""
    text = session.text()
    n = len(text)
    place = rng.randint(0, n + 1)
    which = rng.random()
    if which < 0.25:
        length = rng.choice([0, 1, 3, 70])
        new = text[place:place + length] if rng.random() < 0.7 else some_bytes(rng)
        if new and rng.random() < 0.2:
            new = new[:-1] + bytes([new[-1] ^ 1])
        return f'same {place} {written(rng, new)}', session.same(place, new)
    if which < 0.5:
        return f'place {place}', session.place(place)
    if which < 0.75:
        line, column = position(text[:place])
        line, column = max(0, line + rng.choice([0, 0, 0, 1, -1])), max(0, column + rng.choice([0, 0, 0, 1, -1, 9]))
        return f'spot {line} {column}', session.spot(line, column)
    if rng.random() < 0.8:
        live = [p for p, r in enumerate(roles(session.grammar, text)) if r]
        place = rng.choice(live) if live else place
    return f'partner {place}', session.partner(place)


def step(rng, session):
    """A line and the answer that it must get."""
    n = len(session.text())
    place = lambda: rng.randint(0, n + 1) if rng.random() < 0.1 else rng.randint(0, n)
    a, b = place(), place()
    if rng.random() < 0.9:
        a, b = min(a, b), max(a, b)
    if rng.random() < 0.6:
        b = min(b, a + rng.randint(0, 40)) if b >= a else b
    if rng.random() < 0.12:
        text, records = some_script(rng, n)
        words = ''.join(' %d,%d,%d,%d' % record for record in records)
        return f'script {written(rng, text)}{words}', session.script(text, records)
    if rng.random() < 0.25:
        return question(rng, session)
    which = rng.random()
    if which < 0.05:
        return 'open', session.open()
    if which < 0.45:
        new = some_bytes(rng)
        return f'edit {a} {b} {written(rng, new)}', session.edit(a, b, new)
    if which < 0.75:
        numbers = session.due or (0, 0, 0, 0)
        if rng.random() < 0.1:
            numbers = tuple(rng.randint(0, n) for _ in range(4))
            return 'paint %d %d %d %d' % numbers, session.paint(numbers)
        return 'paint', session.paint(numbers)
    if which < 0.78:
        return 'close', session.refused_due() or 'closed'
    room = rng.choice([None, None, rng.randint(0, 60)])
    tail = '' if room is None else f' {room}'
    if which < 0.85:
        return f'text {a} {b}{tail}', session.front(a, b, room, session.text(), quoted)
    if which < 0.92:
        return f'colours {a} {b}{tail}', session.front(a, b, room, colours_of(session.grammar, session.text()), digits)
    if which < 0.94:
        return f'range {a} {b}', session.range(a, b)
    if which < 0.97:
        return 'size', f'{n} {len(session.chunks)} '
    return 'screen', digits(session.screen[:n])


def one(rng):
    name = rng.choice(sorted(ALL))
    slots = rng.choice([0, 1, 2, 3, 5, 8, 16, 40, 4096, 4097])
    screen = rng.choice([0, 20, 100, 400, 5000, 262144])
    store = 64 * slots if rng.random() < 0.95 else rng.randint(0, 300)
    readings = slots if rng.random() < 0.95 else rng.randint(0, 5)
    session = Session(ALL[name], slots, screen, store, readings)
    lines, wanted = [], []
    for k in range(rng.randint(5, 60)):
        line, answer = ('open', session.open()) if k == 1 else step(rng, session)
        lines.append(line)
        wanted.append(answer)
    words = [name, str(slots), '--screen', str(screen), '--store', str(store), '--readings', str(readings)]
    run = subprocess.run([PROGRAM, *words], input='\n'.join(lines).encode() + b'\n', capture_output=True, check=False)
    got = run.stdout.decode('latin-1').split('\n')[:-1]
    for k, (line, want) in enumerate(zip(lines, wanted)):
        have = got[k] if k < len(got) else '(nothing)'
        fine = have == want
        if line == 'size' and not fine:
            height = have[len(want):]
            fine = have.startswith(want) and height.isdigit() and fits(int(want.split()[1]), int(height))
        if not fine:
            print('session', ' '.join(words), *lines[:k + 1], f'wanted {want}', f'got    {have}', sep='\n')
            return False
    return len(got) == len(lines) and run.returncode == 0


def fits(count, height):
    """Whether a balanced tree of so many slots can be so high."""
    least = [0, 1]
    while len(least) <= height:
        least.append(least[-1] + least[-2] + 1)
    return least[height] <= count <= 2 ** height - 1


def main():
    rounds = int(sys.argv[1]) if len(sys.argv) > 1 else 300
    rng = random.Random(20)
    wrong = sum(not one(rng) for _ in range(rounds))
    print(f'{rounds} sessions compared, {wrong} wrong')
    sys.exit(wrong > 0)


if __name__ == '__main__':
    main()

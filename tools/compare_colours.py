#!/usr/bin/env python3
"""Compares the program's colours with a second reading of docs/RULES.md, on random texts and for every pile.

usage: tools/compare_colours.py [ROUNDS]      (after `rt run` in crates/scene, which builds crates/scene/out/scene)
"""
import pathlib, random, subprocess, sys

PROGRAM = pathlib.Path(__file__).resolve().parent.parent / 'crates' / 'scene' / 'out' / 'scene'


class Words:
    count = 3

    def read(self, s, b):
        """The next state and the class of byte b from state s."""
        if b in b'\t\n\r ':
            return 0, 0
        if 0x41 <= b <= 0x5A or 0x61 <= b <= 0x7A or b == 0x5F or b >= 0x80:
            return 1, 1
        if 0x30 <= b <= 0x39:
            return (1, 1) if s == 1 else (2, 2)
        if b == 0x2E and s == 2:
            return 2, 2
        return 0, 3

    def is_open(self, s):
        return True


class Layer:
    def __init__(self, below, count):
        self.below, self.n = below, below.count
        self.count = count if 0 < count <= 64 else 0


class Comment(Layer):
    def __init__(self, below):
        super().__init__(below, 2 * below.count)

    def read(self, s, b):
        if s < self.n:
            after, colour = self.below.read(s, b)
            return (self.n + after, 4) if b == 0x23 and self.below.is_open(s) else (after, colour)
        return self.below.read(s - self.n, b) if b == 0x0A else (s, 4)

    def is_open(self, s):
        return s < self.n and self.below.is_open(s)


class String(Layer):
    def __init__(self, below):
        super().__init__(below, 3 * below.count)

    def read(self, s, b):
        n = self.n
        if s < n:
            after, colour = self.below.read(s, b)
            return (n + after, 5) if b == 0x22 and self.below.is_open(s) else (after, colour)
        waiting, escaped = (s - n, False) if s < 2 * n else (s - 2 * n, True)
        if b == 0x0A:
            return self.below.read(waiting, b)
        if escaped:
            return n + waiting, 6
        if b == 0x22:
            return waiting, 5
        return (2 * n + waiting, 6) if b == 0x5C else (s, 5)

    def is_open(self, s):
        return s < self.n and self.below.is_open(s)


class Region(Layer):
    def __init__(self, below, inner):
        super().__init__(below, below.count + below.count * inner.count if inner.count else 0)
        self.inner, self.m = inner, inner.count

    def read(self, s, b):
        n, m = self.n, self.m
        if s < n:
            after, colour = self.below.read(s, b)
            return (n + m * after, 7) if b == 0x60 and self.below.is_open(s) else (after, colour)
        t, u = divmod(s - n, m)
        if b == 0x60 and self.inner.is_open(u):
            return t, 7
        after, colour = self.inner.read(u, b)
        return n + m * t + after, colour

    def is_open(self, s):
        return self.below.is_open(s) if s < self.n else self.inner.is_open((s - self.n) % self.m)


W = Words()
PILES = {
    'words': W, 'comment': Comment(W), 'string': String(W), 'region': Region(W, W),
    'string-comment': String(Comment(W)), 'comment-string': Comment(String(W)),
    'comment-region': Comment(Region(W, W)), 'string-region': String(Region(W, W)),
    'comment4': Comment(Comment(Comment(Comment(W)))),
}


def colours_of(grammar, text):
    """The colour of each byte, in a walk begun at the first one."""
    state, out = 0, []
    for b in text:
        state, colour = grammar.read(state, b)
        out.append(colour)
    return out


def digits(grammar, text):
    return ''.join('%x' % c + ('\n' if b == 0x0A else '') for b, c in zip(text, colours_of(grammar, text))) + '\n'


def random_text(rng):
    length = rng.choice([0, 1, 2, 5, 20, 300, 5000])
    if rng.random() < 0.3:
        return bytes(rng.randrange(256) for _ in range(length))
    return bytes(rng.choice(b'ab1.9 \n\t#"\\`()[]{}\x00\xc3\xa9\xff-_Z0') for _ in range(length))


def main():
    rounds = int(sys.argv[1]) if len(sys.argv) > 1 else 40
    rng = random.Random(20261117)
    wrong = 0
    for _ in range(rounds):
        text = random_text(rng)
        for name, grammar in PILES.items():
            got = subprocess.run([PROGRAM, name, '--colour'], input=text, capture_output=True).stdout.decode()
            if got != digits(grammar, text):
                wrong += 1
                print(f'{name}: wrong on {text[:60]!r}')
    print(f'{rounds * len(PILES) - wrong} passed, {wrong} failed')
    return 1 if wrong else 0


if __name__ == '__main__':
    sys.exit(main())

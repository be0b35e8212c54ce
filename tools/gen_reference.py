#!/usr/bin/env python3
"""The text of the generated job of a number, from its rule alone (docs/formats.md): a check on what `gen N` makes from outside.

    python3 tools/gen_reference.py N            writes the text, without a line feed
    python3 tools/gen_reference.py --sum N..    a line for each N: the number, how many bytes, and their FNV-1a hash of 64 bits

The random words are those of xoshiro256++, whose state SplitMix64 makes of N (Blackman and Vigna, "Scrambled linear
pseudorandom number generators"; the reference code is in the public domain). Python's standard library alone.
"""
import json
import sys

WORD = (1 << 64) - 1


def split_mix(x):
    """The words of SplitMix64 from the state x."""
    while True:
        x = (x + 0x9E3779B97F4A7C15) & WORD
        z = x
        z = ((z ^ (z >> 30)) * 0xBF58476D1CE4E5B9) & WORD
        z = ((z ^ (z >> 27)) * 0x94D049BB133111EB) & WORD
        yield z ^ (z >> 31)


def rotated(x, k):
    return ((x << k) | (x >> (64 - k))) & WORD


def plus_plus(seed):
    """The words of xoshiro256++ from a state of four words."""
    s0, s1, s2, s3 = seed
    while True:
        yield (rotated((s0 + s3) & WORD, 23) + s0) & WORD
        t = (s1 << 17) & WORD
        s2 ^= s0
        s3 ^= s1
        s1 ^= s2
        s0 ^= s3
        s2 ^= t
        s3 = rotated(s3, 45)


def job(n):
    seeds = split_mix(n)
    words = plus_plus([next(seeds) for _ in range(4)])

    def draw(m):
        return next(words) % m

    vertices = [{"name": f"v{i}", "sdram": draw(1048577)} for i in range(200)]
    nets = []
    for i in range(300):
        source = draw(200)
        count = 1 + draw(8)
        targets = [draw(200) for _ in range(count)]
        keys = 1 + draw(16)
        nets.append({"keys": keys, "name": f"n{i}", "source": f"v{source}", "targets": [f"v{t}" for t in targets]})
    packets = []
    for net in nets:
        for _ in range(4):
            index = draw(net["keys"])
            packets.append({"index": index, "net": net["name"], "payload": draw(1 << 32)})
    live = {y: range(max(0, y - 3), min(8, y + 5)) for y in range(8)}
    dead = [[x, y] for x in range(8) for y in range(8) if x not in live[y]]
    return {
        "graph": {"nets": nets, "vertices": vertices},
        "machine": {"dead_chips": dead, "height": 8, "width": 8},
        "run": {"packets": packets, "patience": 16, "queue": 1200, "target": 0, "turns": 64, "workers": 4},
        "version": 1,
    }


def text(n):
    return json.dumps(job(n), separators=(",", ":"), sort_keys=True).encode("ascii")


def hashed(data):
    """FNV-1a of 64 bits."""
    h = 0xCBF29CE484222325
    for byte in data:
        h = ((h ^ byte) * 0x100000001B3) & WORD
    return h


def main():
    words = sys.argv[1:]
    if len(words) > 1 and words[0] == "--sum":
        for word in words[1:]:
            data = text(int(word))
            print(int(word), len(data), f"{hashed(data):016x}")
        return 0
    if len(words) != 1:
        print(__doc__)
        return 2
    sys.stdout.buffer.write(text(int(words[0])))
    return 0


if __name__ == "__main__":
    sys.exit(main())

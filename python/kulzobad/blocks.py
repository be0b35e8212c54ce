"""Blocks of keys: those that are `key` under a mask, with any bits in the mask, and how they are cut in parts.

Words have 32 bits. A mask's ones are the bits that a block cares for; the key has no bit outside the mask.
"""
from __future__ import annotations

from bisect import bisect_left, bisect_right
from typing import Any, Dict, Iterable, Iterator, List, NamedTuple, Sequence, Tuple

from .kinds import whole

WORD = 2**32 - 1


class Block(NamedTuple):
    """The keys k for which `k & mask == key`."""

    key: int
    mask: int

    @property
    def size(self) -> int:
        """How many keys it has."""
        return 1 << bin(WORD & ~self.mask).count("1")


def block_of(key: int, mask: int) -> Block:
    """The block of a key and a mask. ValueError where one of them is no word of 32 bits, or the key has a bit outside the mask."""
    key, mask = whole("key", key), whole("mask", mask)
    for word in (key, mask):
        if not 0 <= word <= WORD:
            raise ValueError(f"{word} is no word of 32 bits")
    if key & ~mask:
        raise ValueError(f"key {key:08x} has a bit outside the mask {mask:08x}")
    return Block(key, mask)


def blocks_of_range(first: int, count: int) -> List[Block]:
    """The blocks, in order and as few as can be, whose masks are ones followed by zeros, of the keys from `first` on. ValueError where
    there are no keys, or some beyond 32 bits."""
    if count < 1 or first < 0 or first + count > WORD + 1:
        raise ValueError(f"{count} keys from {first} on: there are none, or not so many")
    found, at, end = [], first, first + count
    while at < end:
        size = at & -at or WORD + 1
        while size > end - at:
            size //= 2
        found.append(Block(at, WORD - size + 1))
        at += size
    return found


def halves(block: Block, mask: int) -> Tuple[Block, Block]:
    """Both halves of a block, by the highest bit that the mask cares for and the block does not; the keys without the bit come first.
    ValueError where there is no such bit."""
    bit = 1 << (mask & ~block.mask).bit_length() >> 1
    if not bit:
        raise ValueError("the mask cares for no bit that the block leaves open")
    return Block(block.key, block.mask | bit), Block(block.key | bit, block.mask | bit)


class Order:
    """An order of the 32 bits of a word, from the most significant one on. What is asked of keys and of rows stays the same where
    the bits of all of them change their places in the same way, since they are compared bit by bit."""

    def __init__(self, bits: Sequence[int]) -> None:
        if sorted(bits) != list(range(32)):
            raise ValueError("an order has each of the bits 0 to 31 once")
        self.bits = tuple(bits)
        self.is_usual = self.bits == tuple(range(31, -1, -1))
        there = {bit: 31 - i for i, bit in enumerate(self.bits)}
        self._parts = [[sum(1 << there[8 * i + b] for b in range(8) if byte >> b & 1) for byte in range(256)] for i in range(4)]

    def word(self, word: int) -> int:
        """The word with its bits in this order."""
        low, second, third, high = self._parts
        return low[word & 255] | second[word >> 8 & 255] | third[word >> 16 & 255] | high[word >> 24]

    def back(self, word: int) -> int:
        """The word that has become this one."""
        return sum(1 << bit for i, bit in enumerate(self.bits) if word >> (31 - i) & 1)

    def opened(self, mask: int) -> int:
        """The bits that the mask does not care for, above a bit that it does care for, in this order: those that a block with this
        mask has to be cut by, so that its mask becomes ones followed by zeros."""
        found, cared = 0, False
        for bit in reversed(self.bits):
            if mask >> bit & 1:
                cared = True
            elif cared:
                found |= 1 << bit
        return found


USUAL = Order(range(31, -1, -1))


def order_of(masks: Sequence[int]) -> Order:
    """An order in which each of these masks is ones followed by zeros. ValueError where of two of them neither has all bits of the
    other."""
    bits: List[int] = []
    for mask in [*sorted(set(masks), key=lambda it: bin(it).count("1")), WORD]:
        seen = sum(1 << bit for bit in bits)
        if seen & ~mask:
            raise ValueError("the masks are not nested")
        bits += [bit for bit in range(31, -1, -1) if (mask & ~seen) >> bit & 1]
    return Order(bits)


def cut(block: Block, bits: int) -> Iterator[Block]:
    """The parts of a block that differ in these bits, for which it does not care. Two to the power of their number."""
    part = 0
    while True:
        yield Block(block.key | part, block.mask | bits)
        part = (part - bits) & bits
        if not part:
            return


class Meeting:
    """Blocks that each stand for something, and which of them have a key in common with another block."""

    # So few keys are looked at one by one.
    FEW = 8

    def __init__(self, blocks: Iterable[Tuple[Block, Any]]) -> None:
        by_mask: Dict[int, Dict[int, List[Any]]] = {}
        for (key, mask), thing in blocks:
            by_mask.setdefault(mask, {}).setdefault(key, []).append(thing)
        self._by_mask = [(mask, sorted(by_key), by_key) for mask, by_key in by_mask.items()]

    def of(self, block: Block) -> Iterator[Any]:
        """What the blocks stand for that have a key in common with this one, those of one mask by their keys."""
        for mask, keys, by_key in self._by_mask:
            care = block.mask & mask
            want = block.key & care
            ahead = [(want, mask & ~care)]
            while ahead:
                # (the keys that have these bits, and any of the open ones)
                least, opened = ahead.pop()
                low, high = bisect_left(keys, least), bisect_right(keys, least | opened)
                if high - low > self.FEW and opened:
                    bit = 1 << opened.bit_length() >> 1
                    ahead += [(least | bit, opened ^ bit), (least, opened ^ bit)]
                    continue
                for key in keys[low:high]:
                    if key & care == want:
                        yield from by_key[key]

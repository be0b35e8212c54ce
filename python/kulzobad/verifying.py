"""Whether tables, whoever made them, bring each key of each net to just the net's targets.

    from kulzobad import KeyedNet, Machine, verify

    places = {"eye": (0, 0, 1), "left": (1, 0, 3), "motor": (1, 0, "N")}
    nets = [KeyedNet("spikes", "eye", ["left", "motor"], [(0x1000, 0xFFFFFFF0)])]
    print(verify(Machine(2, 1), places, nets, {(0, 0): [(0x1000, 0xFFFFFFF0, 0x1)], (1, 0): [(0x1000, 0xFFFFFFF0, 0x204)]}))

What the program's `check` asks of a job, and so what is done here before it is asked:

- It places the job's vertices by its own rule. A vertex with a chip gets the chip's least free core, so each vertex is asked for with
  its chip, vertices in the order of their cores, and every other core of these chips is listed dead: there is one core left for each.
- Keys are fixed blocks, whose masks are ones followed by zeros, and no two share a key. A block with another mask is asked for in
  parts that are such blocks, each as a net of its own; where that would be many parts, the bits of all words of a request change their
  places in the same way, so that its masks become such. Nets that share keys are asked for in several requests.
- A tree is good if its links are live, none leads into the source's chip and no two into one chip, all of them can be reached from the
  source's chip, and its ends are chips of targets, all of which it has. So packets that cross each other's way at a chip have no tree.
- `split` is its answer where the first row that meets a net's block takes some of its keys and not all: this it does not decide. Here
  each block is cut first by the rows that it meets on its way, always at the highest bit that the row cares for and the block does not.
  Where the answer still comes, the block is cut by the row that it names, and the rest is asked again. There are as many parts as rows
  cut out of the net: few where nets have keys by population and neuron. Where rows care for bits here and there, it may double with each
  bit that rows care for and the net leaves open: 2 to the power of the number of these bits is the most. So cuts are counted, and so are
  requests with bits in another order; beyond a bound of each the question is refused (`TooManyParts`).
- A request has at most 4,096 nets, 16,384 vertices and 16 MiB. More goes into several requests, each with all rows; where all rows
  together are too many for a request, with those of the chips that the request's trees have; and of a block that is too much for one
  even then, with the rows that its keys meet, up to the first that takes all of them. The whole is right if all answers are.
- An image has no rows that send nowhere, and none whose key has a bit outside the mask. The latter match no packet and are left out.
  The former become rows to core 0, which no vertex has, so that no tree wants what they say.
- A device sends no packets in a job. Where one is a net's source, the net's packets come in by its link. Only where no row of that chip
  takes them is that not the same as from a core: then a last row is added there that sends these keys straight on.

`Right()` is given only where the program said `right` to each part. An answer that names a key was found by walking this key from its
source over the rows, and has its way.
"""
from __future__ import annotations

from dataclasses import dataclass
from functools import reduce
from operator import or_
from typing import Any, Dict, Hashable, Iterable, Iterator, List, Mapping, NamedTuple, Optional, Sequence, Set, Tuple, Union

from . import asking
from .asking import Batch, KnownNet, Part, Wire, Words, answer_to, bytes_of_rows, compact, layers, met
from .blocks import USUAL, WORD, Block, Meeting, Order, block_of, blocks_of_range, cut, halves, order_of
from .checks import BadImage, BadTree, Right, Split, Verdict, Wrong
from .grid import Grid
from .images import Image
from .jobs import Chip, Machine, Net
from .kinds import chip_of, hashable, items, lists_of_numbers, mapping, numbers, one, shown, whole, wrong
from .kinds import links as links_in
from .links import Links, Routes
from .reports import ENTRIES, LINKS, Table
from .trees import Link
from .verdicts import KINDS, Foreign, Full, Misses, Note, OffTree, OffTrees, TooLong, Unfollowed, Unmet
from .walks import DEVICES, MISSES, Hops, Row, Spot, Walk, Walker, straight_on

Name = Hashable
# Where a vertex stands: a chip and a core from 1 to 17; of a device a chip and a link, by its letters or as 18 and its number.
Place = Tuple[int, int, Union[int, str]]
Rows = Union[Table, Iterable[Any]]
Tables = Union[Image, Mapping[Chip, Rows]]
Places = Mapping[Any, Place]
Trees = Mapping[Any, Iterable[Link]]

MOST_BYTES = 2**24
# Of the bytes of a request, so many are left for what is not counted one by one.
SPARE = 65536
# Rows of all chips go into each request as long as they take no more bytes than this.
MOST_FOR_ROWS = 11 * 2**20
# A block is cut into as many parts as this for its mask; where it would be more, bits change places.
MOST_PARTS = 64
# How often blocks are cut in two, all nets together: so often in any case, and so often for each row where that is more. A row under ones
# followed by zeros cuts a block of that kind at most once for each of its bits.
MOST_CUTS, CUTS_OF_A_ROW = 2**14, 32
# How many requests there are at most whose bits have changed places.
MOST_ORDERS = 512


class TooManyParts(ValueError):
    """Rows cut a block of the net's keys into too many parts to be asked for. `bits` is how many bits the block leaves open and rows that
    have keys of it care for: with each of them the parts may double."""

    def __init__(self, net: Any, bits: int) -> None:
        super().__init__(
            f"net {net!r} is not decided: rows cut its keys into too many parts. They care for {bits} bits that it leaves open, and with each"
            " of these the parts may double"
        )
        self.net, self.bits = net, bits


class Amiss(NamedTuple):
    """What is amiss with a net, and the net's place in the list."""

    place: int
    what: Union[Verdict, TooManyParts]


def earlier_of(found: Optional[Amiss], other: Optional[Amiss]) -> Optional[Amiss]:
    """What is amiss with the earlier net of two; of one net the first."""
    if found is None or other is None:
        return found or other
    return other if other.place < found.place else found


@dataclass
class KeyedNet:
    """A net whose keys are known: its name, its source, its targets, and blocks of keys, each a key and a mask with any bits."""

    name: Name
    source: Name
    targets: Sequence[Name]
    blocks: Sequence[Tuple[int, int]]

    @classmethod
    def counted(cls, name: Name, source: Name, targets: Sequence[Name], first: int, count: int) -> "KeyedNet":
        """A net with `count` keys from `first` on. ValueError where there are none, or some beyond 32 bits."""
        return cls(name, source, targets, blocks_of_range(whole("KeyedNet.counted: first", first), whole("KeyedNet.counted: count", count)))


# ---- what is handed in


def number_of(name: Name, place: Place) -> Spot:
    """A place as numbers: a device's link is 18 and the link's number. ValueError where its letters are no link's."""
    what = f"the place of {name!r}"
    x, y, last = parts_of_place(what, place)
    if isinstance(last, Links) or (isinstance(last, Routes) and last.is_link):
        last = last.name
    elif isinstance(last, Routes):
        last = last.core
    if isinstance(last, str):
        if last not in LINKS:
            raise ValueError(f"{name!r} hangs on {last!r}, which is none of the links {', '.join(LINKS)}")
        last = DEVICES + LINKS.index(last)
    x, y, number = numbers(what, (x, y, last), "x y number")
    return x, y, number


def parts_of_place(what: str, place: Place) -> Sequence[Any]:
    """The three parts of a place."""
    wanted = "(x, y, core), or (x, y, link) with the letters of a device's link"
    found = items(what, place, wanted)
    if len(found) != 3:
        raise wrong(what, place, wanted)
    return found


def spot_of(name: Name, place: Place, grid: Grid) -> Spot:
    """The spot of a vertex. ValueError where nothing can stand there."""
    x, y, number = number_of(name, place)
    if not grid.has((x, y)):
        raise ValueError(f"{name!r} stands outside the grid, at ({x}, {y})")
    if not grid.is_live((x, y)):
        raise ValueError(f"{name!r} stands on the dead chip ({x}, {y})")
    if number >= DEVICES:
        if number >= DEVICES + 6:
            raise ValueError(f"{name!r} stands at {number}, which is no core and no link")
        if grid.next_chip((x, y), number - DEVICES) is not None:
            raise ValueError(f"the device {name!r} hangs on the live link {LINKS[number - DEVICES]} of ({x}, {y})")
    elif not 1 <= number <= 17:
        raise ValueError(f"{name!r} stands on core {number}, and vertices stand on cores 1 to 17")
    return x, y, number


def spots_of(grid: Grid, places: Places) -> Dict[Any, Spot]:
    """The spots of all vertices. ValueError where one can't stand where it does, or two stand at one place."""
    taken: Dict[Spot, Any] = {}
    found: Dict[Any, Spot] = {}
    for name, place in mapping("places", places, "names of vertices to places").items():
        spot = spot_of(name, place, grid)
        if spot in grid.dead_cores:
            raise ValueError(f"{name!r} stands on the dead core {spot[2]} of ({spot[0]}, {spot[1]})")
        if spot in taken:
            raise ValueError(f"{name!r} and {taken[spot]!r} stand at one place, {spot}")
        taken[spot] = name
        found[name] = spot
    return found


def known_nets(nets: Iterable[Union[KeyedNet, Net]], spots: Mapping[Any, Spot]) -> List[KnownNet]:
    """The nets by the spots of their vertices. ValueError where a net has no keys or no targets, a vertex has no place, or two nets have
    one name."""
    found: List[KnownNet] = []
    names: Set[Any] = set()
    for i, net in enumerate(items("nets", nets, "a list of KeyedNet")):
        if not isinstance(net, (KeyedNet, Net)):
            raise wrong(f"nets[{i}]", net, "a KeyedNet, or a Net with `fixed`")
        if hashable(f"nets[{i}].name", net.name) in names:
            raise ValueError(f"two nets are called {net.name!r}")
        names.add(net.name)
        found.append(known_net(f"nets[{i}]", i, net, spots))
    return found


def known_net(what: str, place: int, net: Union[KeyedNet, Net], spots: Mapping[Any, Spot]) -> KnownNet:
    """A net by the spots of its vertices."""
    if isinstance(net, Net) and net.fixed is None:
        raise ValueError(f"net {net.name!r} has no keys: `fixed` says which")
    given = [net.fixed] if isinstance(net, Net) else net.blocks
    blocks = [block_of(*it) for it in lists_of_numbers(f"{what}.blocks", given, "key mask")]
    listed = () if isinstance(net.targets, str) else items(f"{what}.targets", net.targets, "a list of names")
    if not listed or not blocks:
        raise ValueError(f"net {net.name!r} needs a list of targets and a list of blocks of keys, with one of each at least")
    for vertex in (net.source, *listed):
        if hashable(f"{what}: a vertex", vertex) not in spots:
            raise ValueError(f"{vertex!r}, of net {net.name!r}, has no place")
    if len(set(listed)) >= asking.MOST_VERTICES:
        raise ValueError(f"net {net.name!r} has more targets than a request can name: {len(set(listed))}")
    return KnownNet(place, net.name, spots[net.source], {spots[it]: it for it in listed}, blocks)


def known_trees(trees: Optional[Trees], nets: Sequence[KnownNet], grid: Grid) -> Dict[Any, List[Link]]:
    """The links of trees by the names of nets. ValueError where a name is no net's, or a link none of the grid's."""
    given = mapping("trees", {} if trees is None else trees, "names of nets to lists of links")
    unknown = set(given) - {net.name for net in nets}
    if unknown:
        raise ValueError(f"trees of nets that are none: {', '.join(sorted(map(repr, unknown)))}")
    return {net: known_links(net, it, grid) for net, it in given.items()}


def known_links(net: Any, links: Iterable[Link], grid: Grid) -> List[Link]:
    """The links of a net's tree. ValueError where one is none of the grid's."""
    found = links_in(f"the tree of {net!r}", links)
    for x, y, link in found:
        if not grid.has((x, y)) or not 0 <= link <= 5:
            raise ValueError(f"the tree of {net!r} has ({x}, {y}, {link}), which is no link of the grid")
    return found


def words_of(chip: Chip, place: int, row: Any) -> Words:
    """Key, mask and route of a row, which has them as items or under these names."""
    parts = row
    if type(row) is not tuple:
        try:
            parts = row.key, row.mask, row.route
        except AttributeError:
            pass
    if type(parts) is tuple and len(parts) == 3:
        key, mask, route = parts
        if type(key) is type(mask) is type(route) is int and 0 <= key <= WORD and 0 <= mask <= WORD and 0 <= route <= WORD:
            return key, mask, route
    what = f"row {place} of chip {chip}"
    try:
        key, mask, route = numbers(what, parts, "key mask route")
    except TypeError:
        raise TypeError(f"{what} is {shown(row)}, and should be a key, a mask and a route") from None
    if min(key, mask, route) < 0 or max(key, mask, route) > WORD:
        raise ValueError(f"{what} has no words of 32 bits: {shown(row)}")
    return key, mask, route


def listed_by_chip(tables: Tables) -> Dict[Chip, Sequence[Any]]:
    """Of each chip, by x and y, its rows as they are given."""
    given = tables.tables if isinstance(tables, Image) else mapping("tables", tables, "chips to rows")
    chips = {chip_of("tables", chip): rows for chip, rows in given.items()}
    return {chip: rows.rows if isinstance(rows, Table) else items(f"tables[{chip}]", rows, "a list of rows") for chip, rows in chips.items()}


def words_by_chip(tables: Tables) -> Dict[Chip, List[Words]]:
    """Of each chip, by x and y, its rows as words."""
    return {chip: [words_of(chip, place, row) for place, row in enumerate(rows)] for chip, rows in listed_by_chip(tables).items()}


def size_of(image: Image) -> str:
    """An image's machine in words."""
    return f"{image.width} by {image.height} chips {'with' if image.wrap else 'without'} wrap"


def known_rows(tables: Tables, grid: Grid) -> Dict[Chip, List[Row]]:
    """The rows that can match, by chip. ValueError where an image is of another machine, a chip lies outside the grid, or a row has words
    of more than 32 bits."""
    if isinstance(tables, Image) and (tables.width, tables.height, tables.wrap) != (grid.width, grid.height, grid.wrap):
        made = Image(grid.width, grid.height, grid.wrap, b"")
        raise ValueError(f"other machine: the image is of {size_of(tables)}, and the machine has {size_of(made)}")
    found: Dict[Chip, List[Row]] = {}
    for chip, words in sorted(words_by_chip(tables).items()):
        if not grid.has(chip):
            raise ValueError(f"chip {chip} has rows, and lies outside the grid")
        rows = [Row(key, mask, route, place) for place, (key, mask, route) in enumerate(words) if not key & ~mask]
        if rows:
            found[chip] = rows
    return found


# ---- the question


class Verifier:
    """A question about tables: what `verify` and `notes` say of a machine, places, nets and tables. ValueError where places, nets and
    rows are none on this machine."""

    def __init__(
        self,
        machine: Machine,
        places: Places,
        nets: Iterable[Union[KeyedNet, Net]],
        tables: Tables,
        trees: Optional[Trees] = None,
        program: Optional[str] = None,
    ) -> None:
        self.machine, self.program = one("machine", machine, Machine), program
        self.grid = Grid(machine)
        self.spots = spots_of(self.grid, places)
        self.nets = known_nets(nets, self.spots)
        self.rows = known_rows(tables, self.grid)
        self.trees = known_trees(trees, self.nets, self.grid)
        self.walker = Walker(self.grid, self.rows, set(self.spots.values()))
        # How many requests were made, and how many parts they asked for.
        self.requests = self.asked = 0
        self._link_texts: Dict[Link, str] = {}
        self._wire = Wire(machine, USUAL)
        size = sum(map(bytes_of_rows, self.rows.values()))
        self._has_all_rows = size <= MOST_FOR_ROWS
        self._room = MOST_BYTES - SPARE - len(compact(machine.as_json())) - (size if self._has_all_rows else 0)
        self._all_rows: Optional[str] = None
        # Of each chip that packets come to, the places of rows that take them, and the nets of these packets; None stands for default
        # routing. It is whole once all nets were walked.
        self._takers: Dict[Chip, Dict[Optional[int], Set[int]]] = {}
        self._has_all_takers = self._are_rows_judged = False
        # How often blocks were cut, how often that may be, and how many requests have their bits in another order.
        self._cuts = self._orders = 0
        self._most_cuts = max(MOST_CUTS, CUTS_OF_A_ROW * sum(map(len, self.rows.values())))
        # What is to be asked for in the usual order of bits, and what has other masks.
        self._usual = self._batch()
        self._others: List[Batch] = []

    def _batch(self) -> Batch:
        return Batch(self.rows, self._has_all_rows)

    # -- walks

    def walk(self, net: KnownNet, block: Block) -> Walk:
        """The walk of a block of a net."""
        return self.walker.walk(net.source, list(net.targets), block)

    def told(self, net: KnownNet, key: int) -> Optional[Verdict]:
        """What is amiss with a key of a net, if anything."""
        walk = self.walk(net, Block(key, WORD))
        if walk.fault == MISSES:
            assert walk.target is not None
            return Misses(net.name, key, net.targets[walk.target], walk.way())
        return KINDS[walk.fault](net.name, key, walk.way()) if walk.fault else None

    def parts_of(self, net: KnownNet, block: Block) -> Iterator[Union[Part, Verdict]]:
        """The parts of a block, each of which every row on its way takes or leaves as a whole, with their trees; and what is amiss in place
        of the first part with which something is. TooManyParts where it is cut too often."""
        for part, walk in self._walks_of(net, block):
            if walk.fault:
                found = self.told(net, part.key)
                assert found is not None
                yield found
                return
            self._note_takers(net, walk)
            came = straight_on(net.source)
            yield Part(net, part, self.trees.get(net.name, walk.links), 1 << came if came >= 0 and walk.rows[0] is None else None)

    def _walks_of(self, net: KnownNet, block: Block) -> Iterator[Tuple[Block, Walk]]:
        """The walks of a block's parts, each of which every row on its way takes or leaves as a whole."""
        ahead = [block]
        while ahead:
            part = ahead.pop()
            walk = self.walk(net, part)
            if walk.cut is None:
                yield part, walk
                continue
            self._cuts += 1
            if self._cuts > self._most_cuts:
                raise self._too_many(net, block)
            ahead += reversed(halves(part, walk.cut.mask))

    def _too_many(self, net: KnownNet, block: Block) -> TooManyParts:
        """The refusal of a net of which this block has too many parts, with the number of bits by which these are cut."""
        meeting = (row.mask for rows in self.rows.values() for row in rows if not (row.key ^ block.key) & row.mask & block.mask)
        return TooManyParts(net.name, bin(reduce(or_, meeting, 0) & ~block.mask).count("1"))

    # -- the verdict

    def verdict(self) -> Verdict:
        """`Right`, or what is amiss with the first net that something is amiss with. TooManyParts where rows cut a net into too many parts,
        and nothing is amiss with a net before it."""
        for chip, rows in self.rows.items():
            if len(rows) > ENTRIES:
                return TooLong(*chip, len(rows))
        self._judge_rows()
        self._cuts = self._orders = 0
        found = self._walk_all()
        while self._usual.parts or self._others:
            found = self._ask_usual(found) if self._usual.parts else self._ask_other(self._others[0], found)
        if found is None:
            return Right()
        if isinstance(found.what, TooManyParts):
            raise found.what
        return found.what

    def _walk_all(self) -> Optional[Amiss]:
        """Walks the nets, and asks for their parts where there are many. What is amiss with one, if anything: the walks end with it."""
        for net in self.nets:
            for block in net.blocks:
                found = self._take(net, block)
                if found is not None:
                    return found
        self._has_all_takers = True
        return None

    def _take(self, net: KnownNet, block: Block) -> Optional[Amiss]:
        """Walks a block, and asks for its parts where there are many. What is amiss, if anything."""
        try:
            for part in self.parts_of(net, block):
                found = Amiss(net.place, part) if isinstance(part, Verdict) else self._add(part)
                if found is not None:
                    return found
        except TooManyParts as error:
            return Amiss(net.place, error)
        return None

    def _add(self, part: Part) -> Optional[Amiss]:
        """Puts a part among those that are to be asked for, and asks for them where they are many."""
        opened = USUAL.opened(part.block.mask)
        if 1 << bin(opened).count("1") <= MOST_PARTS:
            self._usual.add(part, list(cut(part.block, opened)))
            return self._ask_usual(None) if self._is_full(self._usual) else None
        batch = next((it for it in self._others if it.fits(part.block.mask)), None)
        if batch is None:
            self._orders += 1
            if self._orders > MOST_ORDERS:
                uncut = next(it for it in part.net.blocks if part.block.key & it.mask == it.key and not it.mask & ~part.block.mask)
                return Amiss(part.net.place, self._too_many(part.net, uncut))
            batch = self._batch()
            self._others.append(batch)
        batch.add(part, [part.block])
        return self._ask_other(batch, None) if self._is_full(batch) else None

    def _is_full(self, batch: Batch) -> bool:
        return len(batch.parts) >= asking.MOST_NETS - MOST_PARTS or batch.is_over(self._room * 3 // 4)

    def _ask_usual(self, found: Optional[Amiss]) -> Optional[Amiss]:
        batch, self._usual = self._usual, self._batch()
        return self._ask(batch.parts, USUAL, found)

    def _ask_other(self, batch: Batch, found: Optional[Amiss]) -> Optional[Amiss]:
        self._others.remove(batch)
        return self._ask(batch.parts, order_of(list(batch.masks)), found)

    def _ask(self, parts: Sequence[Part], order: Order, found: Optional[Amiss]) -> Optional[Amiss]:
        """Asks for parts, in as many requests as they need, but for those that do not come before a net with which something was found
        amiss. What is amiss with the first net."""
        for layer in layers([it for it in parts if found is None or it.net.place < found.place], order):
            batch = self._batch()
            for part in layer:
                batch.add(part, [part.block])
                if batch.is_over(self._room) and len(batch.parts) > 1:
                    found = self._decide(batch.parts[:-1], order, found)
                    batch = self._batch()
                    batch.add(part, [part.block])
            found = self._decide(batch.parts, order, found)
        return found

    def _decide(self, parts: List[Part], order: Order, found: Optional[Amiss]) -> Optional[Amiss]:
        """Asks for parts that one request has room for, again and again: as long as one of them is split, which then is cut; and for those
        of earlier nets, where one is amiss. What is amiss with the first net."""
        while True:
            parts = [it for it in parts if found is None or it.net.place < found.place]
            if not parts:
                return found
            rows = self._rows_for(parts)
            verdict = self._answer(parts, rows, order)
            if isinstance(verdict, Right):
                return found
            if not isinstance(verdict, (Split, Wrong, BadTree)):
                raise RuntimeError(f"the program answers {verdict} to rows that it has taken")
            place = int(verdict.net[1:])
            part = parts[place]
            if not isinstance(verdict, Split):
                found = Amiss(part.net.place, self._amiss(part, verdict, order))
                continue
            row = rows[verdict.x, verdict.y][verdict.row]
            parts = parts[:place] + parts[place + 1:]
            for half in halves(part.block, row[1]):
                found = earlier_of(found, self._take(part.net, half))

    def _amiss(self, part: Part, verdict: Union[Wrong, BadTree], order: Order) -> Verdict:
        """What the program's answer says in terms of a way."""
        has_tree = part.net.name in self.trees
        if isinstance(verdict, BadTree):
            if has_tree:
                return BadTree(part.net.name)
            raise RuntimeError(f"net {part.net.name!r}: the program takes no tree that a walk has found")
        key = order.back(verdict.key)
        found = self.told(part.net, key)
        if found is None and has_tree:
            return OffTree(part.net.name, key, self._way_off(part, key))
        if found is None:
            raise RuntimeError(f"net {part.net.name!r}: the program says that {key:08x} goes wrong at ({verdict.x}, {verdict.y})")
        return found

    def _way_off(self, part: Part, key: int) -> Hops:
        """The way to the first chip at which a key leaves its tree."""
        walk = self.walk(part.net, Block(key, WORD))
        tree, made = set(part.links), set(walk.links)
        apart = {link[:2] for link in tree ^ made}
        off = next(at for at, chip in enumerate(walk.chips) if chip in apart)
        link = next((d for d in range(6) if (*walk.chips[off], d) in made - tree), None)
        return walk.way_to(off, None if link is None else LINKS[link])

    # -- notes

    def notes(self) -> List[Note]:
        """What `notes` says."""
        found: List[Note] = []
        try:
            self._walk_for_takers()
        except TooManyParts as error:
            found.append(Unfollowed(error.net, error.bits))
        is_followed = not found
        takers, meeting = self._takers, Meeting((block, net.place) for net in self.nets for block in net.blocks)
        for chip, rows in self.rows.items():
            if len(rows) > ENTRIES - 1:
                found.append(Full(*chip, len(rows)))
            if chip not in takers and is_followed:
                found.append(OffTrees(*chip, len(rows)))
            here = takers.get(chip, {})
            come: Set[int] = set().union(*here.values())
            for row in rows:
                nets = meeting.of(Block(row.key, row.mask))
                if row.place in here:
                    stranger = next((it for it in nets if it not in come), None) if is_followed else None
                    if stranger is not None:
                        found.append(Foreign(self.nets[stranger].name, *chip, row.place, self.nets[min(here[row.place])].name))
                elif next(nets, None) is None:
                    found.append(Unmet(*chip, row.place))
        return found

    def _walk_for_takers(self) -> None:
        """Walks all nets, if that was not done. TooManyParts where one is cut too often."""
        if self._has_all_takers:
            return
        self._judge_rows()
        self._cuts = 0
        for net in self.nets:
            for block in net.blocks:
                for _, walk in self._walks_of(net, block):
                    self._note_takers(net, walk)
        self._has_all_takers = True

    def _note_takers(self, net: KnownNet, walk: Walk) -> None:
        """Notes which rows take packets of a net."""
        for chip, row in zip(walk.chips, walk.rows):
            self._takers.setdefault(chip, {}).setdefault(None if row is None else row.place, set()).add(net.place)

    # -- requests

    def _judge_rows(self) -> None:
        """Asks whether the machine and the rows are such at all, once. ValueError where a row is none."""
        if self._are_rows_judged:
            return
        chips: List[Chip] = []
        size = 0
        for chip in [*self.rows, None]:
            size += bytes_of_rows(self.rows[chip]) if chip else 0
            if chip is None or size > MOST_FOR_ROWS:
                listed = {it: [row[:3] for row in self.rows[it]] for it in chips}
                verdict = self._answer([], listed, USUAL)
                if isinstance(verdict, BadImage):
                    raise ValueError(self._bad_row(chips, verdict.at))
                if not isinstance(verdict, Right):
                    raise RuntimeError(f"the program answers {verdict} to rows without nets")
                chips, size = [], bytes_of_rows(self.rows[chip]) if chip else 0
            if chip is not None:
                chips.append(chip)
        self._are_rows_judged = True

    def _bad_row(self, chips: Sequence[Chip], at: int) -> str:
        """Which row stands at this byte of an image of these chips."""
        start = 10
        for chip in chips:
            place, start = (at - start - 4) // 12, start + 4 + 12 * len(self.rows[chip])
            if at < start:
                row = self.rows[chip][max(place, 0)]
                return f"row {row.place} of chip {chip} is none that a router has: {row.key:08x} {row.mask:08x} {row.route:06x}"
        return f"the rows are none that routers have, from byte {at} of their image on"

    def _rows_for(self, parts: Sequence[Part]) -> Dict[Chip, List[Words]]:
        """The rows that go into a request: all, or those of the chips on its trees, with what is added. Of a part that is too large for
        that the rows that its keys meet, up to the first that takes them all."""
        chips: Iterable[Chip] = self.rows
        if not self._has_all_rows:
            ends = {self.grid.far((x, y), d) for part in parts for x, y, d in part.links} | {part.net.source[:2] for part in parts}
            chips = [chip for chip in self.rows if chip in ends]
        found: Dict[Chip, List[Words]] = {chip: [row[:3] for row in self.rows[chip]] for chip in chips}
        if len(parts) == 1 and self._is_too_large(parts[0]):
            found = {chip: list(met(rows, parts[0].block)) for chip, rows in found.items()}
        for part in parts:
            if part.added:
                found.setdefault(part.net.source[:2], []).append((*part.block, part.added))
        return found

    def _is_too_large(self, part: Part) -> bool:
        """Whether a part is too large for a request of its own with all rows of its chips."""
        batch = self._batch()
        batch.add(part, [part.block])
        return batch.is_over(self._room)

    def _answer(self, parts: Sequence[Part], rows: Mapping[Chip, Sequence[Words]], order: Order) -> Verdict:
        """What the program says to parts and rows."""
        wire = self._wire if order.is_usual else Wire(self.machine, order)
        is_all = order.is_usual and self._has_all_rows and not any(it.added for it in parts)
        if is_all and self._all_rows is None:
            self._all_rows = wire.image(rows)
        image = self._all_rows if is_all else wire.image(rows)
        trees = ",".join(f'[{",".join(map(self._link_text, part.links))}]' for part in parts)
        self.requests, self.asked = self.requests + 1, self.asked + len(parts)
        text = f'{{"job":{wire.job(parts)},"trees":[{trees}],"image":{image}}}'
        return answer_to(text, {"job": {"machine": self.machine.as_json()}}, self.program)

    def _link_text(self, link: Link) -> str:
        found = self._link_texts.get(link)
        if found is None:
            found = self._link_texts[link] = compact(link)
        return found


def verify(
    machine: Machine,
    places: Places,
    nets: Iterable[Union[KeyedNet, Net]],
    tables: Tables,
    trees: Optional[Trees] = None,
    program: Optional[str] = None,
) -> Verdict:
    """Whether the tables bring each key of each net to just the net's targets, by live links.

    `places` has, by the names of vertices, (x, y, core) with cores 1 to 17, or for a device (x, y, link) with the link's letters. `nets`
    are of `KeyedNet`, or of `Net` with `fixed`. `tables` has, by chips, the rows in the order in which the router looks: each a key, a mask
    and a route word, or an object with these names; or it is an image. `trees` has, by the names of nets, the links as (x, y, link) that a
    net's keys have to go by; of a net that it has not, any tree will do.

    The answer is `Right()`, or it is false and names a key and its way: `Strays`, `Dies`, `Loops`, `Twice`, `Misses`, `Stops`,
    `OffTree`; or `BadTree` of a tree that was given, or `TooLong`. ValueError where places, nets or rows are none on this machine, or where
    they are not decided within its bounds; Refused where the program takes no such machine."""
    return Verifier(machine, places, nets, tables, trees, program).verdict()


def notes(
    machine: Machine,
    places: Places,
    nets: Iterable[Union[KeyedNet, Net]],
    tables: Tables,
    trees: Optional[Trees] = None,
    program: Optional[str] = None,
) -> List[Note]:
    """What else there is to be said of tables: by chips, and there by rows. None of it makes them wrong. The program is asked whether the
    machine and the rows are such at all; errors are those of `verify`."""
    return Verifier(machine, places, nets, tables, trees, program).notes()

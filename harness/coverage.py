"""The images of the comparison of coverage and the blocks that are asked of each, always the same for
one seed.

`python3 coverage.py [SEED]` prints them: a line `# GROUP` before each group, and for each image a
line `image WIDTH VALUES NODE..` and below it the queries `covered KEY/LEN`, in the form of
docs/COMPARISON.md without the answers."""
import random

import lists
import matches
from matches import Image, cut, past

SEED = 20261126
WIDTHS = lists.WIDTHS
STYLES = ["one", "halves", "leaves", "ragged", "comb"]
FLAWS = [None, None, "address", "piece", "half a piece"]


def halves(w, block):
    address, n = block
    return [(address, n + 1), (address | 1 << (w - n - 1), n + 1)]


def leaves(w, block, k):
    """The 2^k blocks of one length that fill a block."""
    address, n = block
    return [(address | x << (w - n - k), n + k) for x in range(2**k)]


def ragged(r, w, block, bottom):
    """Blocks that fill a block, split at random."""
    pieces = [block]
    for _ in range(r.randint(2, 40)):
        i = r.choice([r.randrange(len(pieces)), len(pieces) // 2])
        if pieces[i][1] < bottom:
            pieces[i:i + 1] = halves(w, pieces[i])
    return pieces


def comb(r, w, block, bottom):
    """The blocks beside the path to a block of the length `bottom` inside a block, and that block."""
    pieces = []
    while block[1] < bottom:
        parts = halves(w, block)
        block = parts.pop(r.randrange(2))
        pieces += parts
    return [*pieces, block]


def tiles(r, w, block, style, bottom):
    """Blocks that fill a block, none longer than `bottom`."""
    left = bottom - block[1]
    if style == "one" or left == 0:
        return [block]
    if style == "halves":
        return halves(w, block)
    if style == "leaves":
        return leaves(w, block, r.randint(1, min(left, r.choice([4, 6, 8]))))
    if style == "ragged":
        return ragged(r, w, block, bottom)
    return comb(r, w, block, r.choice([bottom, r.randint(block[1] + 1, bottom)]))


def flawed(r, w, pieces, flaw, bottom):
    """The blocks with a gap: a whole piece, half of one, or one block of the length `bottom`."""
    i = r.randrange(len(pieces))
    piece = pieces[i]
    if flaw == "piece":
        return pieces[:i] + pieces[i + 1:], piece
    if flaw == "half a piece" and piece[1] < bottom:
        half, gap = r.sample(halves(w, piece), 2)
        return [*pieces[:i], half, *pieces[i + 1:]], gap
    *rest, gap = comb(r, w, piece, bottom)
    return pieces[:i] + rest + pieces[i + 1:], gap


def inside(r, w, block, longest):
    """A block inside this one, or it."""
    address, n = block
    length = r.choice([r.randint(n, longest), r.randint(n, min(n + 6, longest))])
    return cut(w, address | r.getrandbits(w) % 2**(w - n), length), length


def filled(r, w, block, i):
    """An image in which a block is filled in the i-th way, mostly with other entries, some with a gap
    and some with nodes that nothing reaches; and the blocks to ask about."""
    loose = i % 4 == 3 and block[1] < 5 * (w // 5)
    bottom = 5 * (w // 5) - 1 if loose else w
    pieces = tiles(r, w, block, STYLES[i % 5], bottom)
    focus = [block]
    flaw = r.choice(FLAWS)
    if flaw:
        pieces, gap = flawed(r, w, pieces, flaw, bottom)
        focus.append(gap)
    entries = list(pieces)
    for _ in range(r.choice([0, 0, 2, 6])):
        entries.append(inside(r, w, block, bottom))
    for _ in range(r.choice([0, 0, 1, 3])):
        entries.append(inside(r, w, (0, 0), bottom))
    if r.random() < 0.1:
        n = r.randint(0, block[1])
        entries.append((cut(w, block[0], n), n))
    if flaw and r.random() < 0.7:
        # nothing else closes the gap
        entries = [e for e in entries if not overlap(w, e, focus[1])]
    beyond = []
    if loose:
        depth = matches.depth_of_orphans(w, entries)
        beyond = matches.orphans(r, w, depth, r.randint(1, 6))
    return Image(w, entries, beyond), focus


def overlap(w, a, b):
    n = min(a[1], b[1])
    return cut(w, a[0], n) == cut(w, b[0], n)


def some_block(r, w, longest):
    n = r.randint(0, longest)
    return cut(w, r.getrandbits(w), n), n


def dense(r, w):
    """Many random entries in a block of few bits more, all of whose parts are asked about."""
    block = some_block(r, w, w - 4)
    longest = min(w, block[1] + r.randint(3, 8))
    entries = [inside(r, w, block, longest) for _ in range(r.randint(5, 90))]
    return Image(w, [e for e in entries if e[1] > block[1]]), [block]


def empty(r, w, i):
    """No entry; and in some images nodes that nothing reaches."""
    beyond = matches.orphans(r, w, 5, i % 4)
    return Image(w, [], beyond), [(0, 0)]


class Leaves:
    """An image of the 2^k blocks of one length that fill a block, or of all but one of them, made
    without looking at each."""

    def __init__(self, r, w, block, k, gap):
        address, n = block
        last = n + k
        bitmaps = []
        for depth in range(0, last + 1, 5):
            step = min(5, last - depth)
            free = min(step, max(0, depth + step - n))
            low = (address >> (w - depth - step)) % 2**step
            ones = 2**(2**free) - 1
            node = (0, ones << low) if step == 5 else (ones << (2**step - 1 + low), 0)
            bitmaps += [node] * 2**max(0, depth - n)
        self.w, self.blocks = w, [block]
        if gap:
            x = r.randrange(2**k)
            self.blocks.append((address | x << (w - last), last))
            at = (x >> step) - 2**max(0, depth - n)
            bit = 2**step - 1 + low + x % 2**free
            if step:
                bitmaps[at] = (bitmaps[at][0] ^ 1 << bit, 0)
            else:
                drop_node(bitmaps, at, 2**max(0, depth - 5 - n), 2**max(0, depth - n))
        self.nodes, self.values = lists.counted(bitmaps)

    line = Image.line


def drop_node(bitmaps, at, above, level):
    """Drops a node of the last level and the child bit that leads to it. All nodes of the last level
    are alike, and all of the level above."""
    share = level // above
    parent, child = divmod(level + at, share)
    data, children = bitmaps[parent - level - above]
    left = [b for b in range(32) if children >> b & 1]
    bitmaps[parent - level - above] = (data, children ^ 1 << left[child])
    bitmaps.pop()


def broad(r):
    """Many leaves, up to half the nodes that an image may have."""
    for w, most in [(8, 8), (16, 16), (32, 23), (64, 23)]:
        for k in sorted({most // 2, 2 * most // 3, 3 * most // 4, most - 1, most}):
            for gap in [False, True]:
                n = r.randint(0, w - k)
                if k > 20:
                    # sixteen leaves to a node, or there are too many nodes
                    odd = (4 - k) % 5
                    n = odd + 5 * r.randint(0, (w - k - odd) // 5)
                yield w, (cut(w, r.getrandbits(w), n), n), k, gap


def images(seed, per_width):
    """Each group's name, and its images with the blocks to ask about."""
    def rng(name):
        return random.Random("%s %s" % (seed, name))

    b = rng("blocks filled")
    yield "blocks filled", (filled(b, w, some_block(b, w, w), i)
                            for i in range(5 * per_width // 2) for w in WIDTHS)
    s = rng("the whole space")
    yield "the whole space", (filled(s, w, (0, 0), i) for i in range(per_width) for w in WIDTHS)
    d = rng("dense")
    yield "dense", (dense(d, w) for _ in range(per_width) for w in WIDTHS)
    e = rng("empty")
    yield "empty", (empty(e, w, i) for i in range(12) for w in WIDTHS)
    l = rng("many leaves")
    yield "many leaves", ((image, image.blocks)
                          for image in (Leaves(l, *case) for case in broad(l)))
    for name, some in matches.images(matches.SEED, per_width):
        yield "coverage of " + name, ((image, image.blocks[:4] or [(0, 0)]) for image in some)


def queries(r, image, focus, stored=6):
    """Pairs of a raw key and a length: every length on a path through a block that is asked about,
    some lengths on another path, blocks inside the first, the parts of each and what stands around
    it, and stored blocks."""
    w, out = image.w, []

    def ask(key, n):
        out.append((past(r, w, key, n), n))

    for (address, n), lengths in [(focus[-1], range(w + 1)), (focus[0], r.sample(range(w + 1), 8))]:
        on = address | r.getrandbits(w) % 2**(w - n)
        for length in lengths:
            ask(on, length)
    longest = max(length for _, length in [focus[0], *image.blocks])
    for _ in range(12):
        ask(*inside(r, w, focus[0], longest))
    for address, n in [*focus, *r.sample(image.blocks, min(stored, len(image.blocks)))]:
        ask(address, n)
        if n:
            ask(address ^ 1 << (w - n), n)
            ask(address, n - 1)
        if n < w:
            for key, length in halves(w, (address, n)):
                ask(key, length)
            ask(*inside(r, w, (address, n), w))
    return sorted(set(out), key=lambda q: (q[1], q[0]))


def refusals(r, image):
    """The library's own refusals: 13 before 12, and 12."""
    w = image.w
    other = r.choice([x for x in WIDTHS if x != w])
    n = r.randint(0, other)
    return ["refuse-covered %d %d/%d 13" % (other, past(r, other, r.getrandbits(other), n), n),
            "refuse-covered %d %d/%d 13" % (other, r.getrandbits(other),
                                            r.randint(max(w, other) + 1, 255)),
            "refuse-covered %d %d/%d 12" % (w, r.getrandbits(w),
                                            r.choice([w + 1, 255, r.randint(w + 1, 255)]))]


def groups(seed, per_width=480):
    """Each group's name and, for each of its images, the image, its queries and its refusals."""
    for name, some in images(seed, per_width):
        r = random.Random("%s queries of %s" % (seed, name))
        yield name, ((image, queries(r, image, focus), refusals(r, image))
                     for image, focus in some)


if __name__ == "__main__":
    matches.show(groups, SEED, "covered")

"""The images and queries of the comparison of matches, always the same for one seed.

`python3 matches.py [SEED]` prints them: a line `# GROUP` before each group, and for each image a
line `image WIDTH VALUES NODE..` and below it the queries `ask KEY/LEN`, in the form of
docs/COMPARISON.md without the answers. All of them are accepted by construction."""
import random
import sys

import lists

SEED = 20261119
WIDTHS = lists.WIDTHS
FULL = 2**31 - 1


def cut(w, key, length):
    """The key with all bits past the length zero."""
    return key >> (w - length) << (w - length)


def slots(w, depth):
    """All data bits that a node at this depth may have."""
    return 2**(2**(min(4, w - depth) + 1) - 1) - 1


class Image:
    """A width, the bitmaps of the nodes, and the stored blocks that are reached."""

    def __init__(self, w, blocks, orphans=()):
        self.w = w
        self.blocks = sorted(set(blocks))
        self.nodes, self.values = lists.counted(lists.image(w, self.blocks) + list(orphans))
        self.orphans = len(orphans)

    def line(self):
        words = ["%d,%d,%d,%d" % node for node in self.nodes]
        return " ".join(["image", str(self.w), str(self.values), *words])


def depth_of_orphans(w, blocks):
    """One level below the deepest node that these blocks reach."""
    return 5 * (max([length // 5 for _, length in blocks], default=0) + 1)


def orphans(r, w, depth, count):
    """Nodes that nothing reaches: as many child bits as nodes, all of them their own."""
    shares = [0] * count
    for _ in range(count):
        shares[r.randrange(count)] += 1
    out = []
    for share in shares:
        child = sum(1 << b for b in r.sample(range(32), share))
        data = r.choice([0, 1, r.getrandbits(31), FULL]) & slots(w, depth)
        out.append((data or (0 if child else 1), child))
    return out


def with_orphans(r, w, blocks, most):
    """The image of the blocks that leave room for a deeper node, and nodes that nothing reaches."""
    last = 5 * (w // 5)
    blocks = [b for b in blocks if b[1] < last]
    count = r.randint(1, most)
    return Image(w, blocks, orphans(r, w, depth_of_orphans(w, blocks), count))


def chain(r, w, share):
    """Blocks of one key at many lengths, down to the last depth, and some beside the path."""
    key = r.choice([0, 2**w - 1, r.getrandbits(w), r.getrandbits(w)])
    lengths = {n for n in range(w + 1) if r.random() < share} | {r.randint(5 * (w // 5), w)}
    out = {(cut(w, key, n), n) for n in lengths}
    for _ in range(r.randint(0, 6)):
        n = r.randint(1, w)
        out.add((cut(w, key ^ 1 << r.randrange(w), n), n))
    return sorted(out)


def step(r, w, level):
    """One block only, in the node at this level of a random path."""
    n = min(w, 5 * level + r.randint(0, 4))
    return [(cut(w, r.getrandbits(w), n), n)]


def full_node(r, w, level):
    """Every slot of the node at this level of a random path, and a few blocks above it."""
    depth = 5 * level
    path = cut(w, r.getrandbits(w), depth)
    out = {(cut(w, path, n), n) for n in r.sample(range(depth + 1), min(depth + 1, 3))}
    for n in range(depth, min(depth + 4, w) + 1):
        out |= {(path | x << (w - n), n) for x in range(2**(n - depth))}
    return sorted(out)


def counts(r, i):
    """How many blocks a random image has: most have few, some have hundreds."""
    return [0, 1, 2, r.randint(3, 12), r.randint(3, 12), r.randint(10, 40), r.randint(10, 40),
            r.randint(40, 120), r.randint(10, 40), r.randint(100, 400)][i % 10]


def images(seed, per_width):
    """Each group's name and its images."""
    def rng(name):
        return random.Random("%s %s" % (seed, name))

    r = rng("random")
    yield "random", (Image(w, lists.prefixes(r, w, counts(r, i)))
                     for i in range(per_width) for w in WIDTHS)
    q = rng("orphans")
    yield "orphans", (with_orphans(q, w, lists.prefixes(q, w, i % 31), 6)
                      for i in range(per_width // 2) for w in WIDTHS)
    c = rng("chains")
    yield "chains", (Image(w, chain(c, w, [1.0, 0.5, 0.2, 0.05][i % 4]))
                     for i in range(per_width // 4) for w in WIDTHS)
    s = rng("steps")
    yield "steps", (Image(w, step(s, w, i % (w // 5 + 1)))
                    for i in range(per_width // 4) for w in WIDTHS)
    f = rng("full nodes")
    yield "full nodes", (Image(w, full_node(f, w, i % (w // 5 + 1)))
                         for i in range(per_width // 8) for w in WIDTHS)


def past(r, w, key, length):
    """The key with the bits past the length zero, one, random, or one of them set."""
    rest = w - length
    one = 1 << r.randrange(rest) if rest else 0
    low = r.choice([0, 0, 0, 2**rest - 1, r.getrandbits(w) % 2**rest, one])
    return cut(w, key, length) | low


def queries(r, image, stored=16):
    """Pairs of a raw key and a length: every length on a stored block and off it, stored blocks
    themselves, and blocks just inside and just above them."""
    w, out = image.w, []
    for n in range(w + 1):
        address, length = r.choice(image.blocks) if image.blocks else (0, 0)
        on = address | r.getrandbits(w) % 2**(w - length)
        out.append((past(r, w, on, n), n))
        off = r.choice([on ^ 1 << r.randrange(w), r.getrandbits(w)])
        out.append((past(r, w, off, n), n))
    for address, length in r.sample(image.blocks, min(stored, len(image.blocks))):
        out.append((past(r, w, address, length), length))
        longer = r.randint(length, min(w, length + 6))
        out.append((past(r, w, address | r.getrandbits(w) % 2**(w - length), longer), longer))
        shorter = r.randint(max(0, length - 2), length)
        out.append((past(r, w, address, shorter), shorter))
    return sorted(set(out), key=lambda q: (q[1], q[0]))


def refusals(r, image):
    """The library's own refusals, as lines with their answers: 13 before 12, 12, and 14."""
    w = image.w
    other = r.choice([x for x in WIDTHS if x != w])
    longer = r.choice([w + 1, 255, r.randint(w + 1, 255)])
    n = r.randint(0, other)
    lines = ["refuse %d %d/%d 13" % (other, past(r, other, r.getrandbits(other), n), n),
             "refuse %d %d/%d 13" % (other, r.getrandbits(other), r.randint(max(w, other) + 1, 255)),
             "refuse %d %d/%d 12" % (w, r.getrandbits(w), longer),
             "refuse-value %d 14" % r.choice([image.values, image.values + 1, 2**32 - 1])]
    if image.values:
        lines.append("value %d" % r.choice([0, image.values - 1, r.randrange(image.values)]))
    return lines


def groups(seed, per_width=480):
    """Each group's name and, for each of its images, the image, its queries and its refusals."""
    for name, some in images(seed, per_width):
        r = random.Random("%s queries of %s" % (seed, name))
        yield name, ((image, queries(r, image), refusals(r, image)) for image in some)


def show(groups, seed, word):
    """Prints the groups of the seed, or of the one that stands in the arguments, with this word before each pair."""
    for name, some in groups(sys.argv[1] if len(sys.argv) > 1 else seed):
        print("#", name)
        for image, asked, refused in some:
            print(image.line())
            for key, length in asked:
                print("%s %d/%d" % (word, key, length))
            print("\n".join(refused))


if __name__ == "__main__":
    show(groups, SEED, "ask")

"""The lists of the comparison, good and damaged, always the same for one seed.

`python3 lists.py [SEED]` prints them: a line `# GROUP` before each group, and for each pair of
lists a line `WIDTH VALUES NODE..`, in the form of docs/COMPARISON.md without the answer."""
import itertools
import random
import sys

SEED = 20261118
WIDTHS = [8, 16, 32, 64]
ALL = 2**32 - 1
MAX_NODES = 1_048_576
MAX_VALUES = 33_554_432
# the data bitmaps around the last slot of each tier, and around bit 31
SLOTS = sorted({d for m in range(5) for b in [2**(2**(m + 1) - 1)] for d in (b - 1, b, b + 1)})


def ones(x):
    return bin(x).count("1")


def counted(bitmaps):
    """Nodes with these bitmaps, whose indexes are right, and the number of values."""
    nodes, data, child = [], 0, 1
    for d, c in bitmaps:
        nodes.append((d, c, data & ALL, child & ALL))
        data, child = data + ones(d), child + ones(c)
    return nodes, data


def bitmaps(nodes):
    return [(n[0], n[1]) for n in nodes]


def image(w, prefixes):
    """The bitmaps, level by level, of a set of prefixes (address as a number of w bits, length)."""
    levels = [{() : [0, 0]}]
    for address, length in prefixes:
        bits = [address >> (w - 1 - i) & 1 for i in range(length)]
        path = ()
        for k in range(length // 5):
            step = int("".join(map(str, bits[5 * k:5 * k + 5])), 2)
            levels[k][path][1] |= 1 << step
            path += (step,)
            if len(levels) == k + 1:
                levels.append({})
            levels[k + 1].setdefault(path, [0, 0])
        rest = bits[len(bits) - length % 5:] if length % 5 else []
        slot = 2**len(rest) - 1 + int("0" + "".join(map(str, rest)), 2)
        levels[length // 5][path][0] |= 1 << slot
    return [tuple(level[path]) for level in levels for path in sorted(level)]


def prefixes(r, w, count):
    """A random set, some of it in a narrow range, so that nodes are shared."""
    base = r.getrandbits(w)
    out = set()
    for _ in range(count):
        length = r.choice([r.randint(0, w), r.randint(0, min(w, 12)), w])
        near = base ^ r.getrandbits(max(1, w // 3))
        address = r.choice([near, r.getrandbits(w)])
        out.add((address >> (w - length) << (w - length) if length else 0, length))
    return sorted(out)


def good(r, per_width, most=40):
    """Random images at each width, all of which hold, of up to `most` prefixes."""
    for w in WIDTHS:
        for i in range(per_width):
            nodes, values = counted(image(w, prefixes(r, w, i % (most + 1))))
            yield w, values, nodes


def orphans(r, per_width):
    """Images with nodes behind them that nothing reaches: as many child bits as nodes."""
    for w in WIDTHS:
        for i in range(per_width):
            maps = image(w, prefixes(r, w, i % 5))
            more = r.randint(1, 4)
            shares = [0] * more
            for _ in range(more):
                shares[r.randrange(more)] += 1
            for share in shares:
                child = sum(1 << b for b in r.sample(range(32), share))
                data = r.choice([0, 1, 1, 2, 64, 128, 2**15 - 1, 2**15, 2**30, 2**31])
                maps.append((data or (0 if child else 1), child))
            nodes, values = counted(maps)
            yield w, values, nodes


def changes(r, x):
    """A number's neighbours, the two ends, and some of its bits turned."""
    bits = {0, 31, *r.sample(range(32), 4)}
    return {(x + 1) & ALL, (x - 1) & ALL, 0, ALL, *(x ^ 1 << b for b in bits)} - {x}


def field_damage(r, per_width):
    """One number of one node changed; for a bitmap also with the indexes and values counted anew.
    Each number of a list of up to six nodes, and 24 numbers of a longer one."""
    for w, values, nodes in good(r, per_width, 6):
        places = list(itertools.product(range(len(nodes)), range(4)))
        for i, field in sorted(r.sample(places, min(24, len(places)))):
            for x in sorted(changes(r, nodes[i][field])):
                node = nodes[i][:field] + (x,) + nodes[i][field + 1:]
                bad = nodes[:i] + [node] + nodes[i + 1:]
                yield w, values, bad
                if field < 2:
                    again, count = counted(bitmaps(bad))
                    yield w, r.choice([values, count, count]), again


def list_damage(r, per_width):
    """Nodes dropped, doubled, swapped and appended, as they are and counted anew; values off."""
    for w, values, nodes in good(r, per_width, 8):
        lists = []
        for extra in [(0, 0), (1, 0), (0, 1), (1, 1), (2, 0), (2**31, 0), (ALL, ALL)]:
            lists.append(counted([*bitmaps(nodes), extra])[0])
        for i in sorted(r.sample(range(len(nodes)), min(12, len(nodes)))):
            lists.append(nodes[:i] + nodes[i + 1:])
            lists.append(nodes[:i + 1] + nodes[i:])
            if i:
                lists.append(nodes[:i - 1] + [nodes[i], nodes[i - 1]] + nodes[i + 1:])
        for bad in lists:
            yield w, values, bad
            again, count = counted(bitmaps(bad))
            yield w, count, again
        counts = {values + 1, max(values - 1, 0), 0, values + 31, 2 * values}
        for count in sorted(counts - {values}):
            yield w, count, nodes


def tiny(r):
    """All lists of one node and of two and three nodes over a few bitmaps and indexes."""
    small = [0, 1, 2, 3, 7, 8, 127, 128, 32767, 32768, 2**31 - 1, 2**31, ALL]
    for w in WIDTHS:
        yield w, 0, []
        yield w, 1, []
        for node in itertools.product(small, [0, 1, 3, 2**31, ALL], [0, 1, ALL], [0, 1, 2, ALL]):
            for values in sorted({0, 1, ones(node[0]), ones(node[0]) + 1}):
                yield w, values, [node]
        pairs = list(itertools.product([0, 1, 2, 8, 128, 32768, 2**31], [0, 1, 2, 3]))
        for maps in itertools.product(pairs, repeat=2):
            nodes, values = counted(maps)
            yield w, values, nodes
            yield w, r.choice([0, values + 1]), nodes
        for maps in itertools.product(itertools.product([0, 1, 3], [0, 1, 3]), repeat=3):
            nodes, values = counted(maps)
            yield w, values, nodes
            yield w, r.choice([values + 1, max(values - 1, 0)]), nodes


def chains(r):
    """One node to a level, down to each width's last depth and past it, at every slot's bound."""
    for w in WIDTHS:
        for length in range(1, w // 5 + 5):
            for data, inner, last in itertools.product(SLOTS, [0, 1], [0, 1]):
                maps = [(inner, 1)] * (length - 1) + [(data, last)]
                nodes, values = counted(maps)
                yield w, values, nodes
                at = r.randrange(length)
                maps[at] = (data, maps[at][1])
                nodes, values = counted(maps)
                yield w, values, nodes


def few_bits(r):
    return r.getrandbits(32) & r.getrandbits(32) & r.getrandbits(32)


def random_lists(r, per_width):
    """Lists of a few nodes with random bitmaps and mostly right indexes."""
    for w in WIDTHS:
        for _ in range(per_width):
            count = r.randint(1, 7)
            maps = [(r.choice([0, 1, 2, 3, 64, 127, r.getrandbits(15), r.getrandbits(32)]),
                     r.choice([0, 1, 1, 2, 3, 5, 2**31, few_bits(r)])) for _ in range(count)]
            nodes, values = counted(maps)
            if r.random() < 0.3:
                i, field = r.randrange(count), r.randrange(2, 4)
                x = (nodes[i][field] + r.choice([1, -1, 2, 31])) & ALL
                nodes[i] = nodes[i][:field] + (x,) + nodes[i][field + 1:]
            yield w, values + r.choice([0, 0, 0, 0, 1, 31]), nodes


def run(bitmaps, index, count):
    """The word of a run of nodes."""
    return "%d,%d,%d,%d*%d" % (*bitmaps, *index, count)


def limits():
    """Lists at the two limits, as words: runs keep them short."""
    full = 2**31 - 1
    broad = [run((0, ALL), (0, 1), 32767), "0,%d,0,%d" % (full, 1 + 32 * 32767),
             run((1, 0), (0, 32 * 32767 + 32), MAX_NODES - 32768)]
    for w in WIDTHS:
        for n in [MAX_NODES - 1, MAX_NODES, MAX_NODES + 1]:
            yield w, 0, ["0,0,0,1", run((0, 1), (0, 1), n - 1)]
            yield w, n - 1, ["0,0,0,1", run((1, 1), (0, 1), n - 1)]
            yield w, n, ["0,0,0,1", run((1, 1), (0, 1), n - 1)]
            yield w, 31 * n, ["%d,0,0,1" % full, run((full, 1), (31, 1), n - 1)]
            # the last node is empty, or has a wrong index, or one child bit too many or too few
            body = ["0,0,0,1", run((0, 1), (0, 1), n - 2)]
            for last in ["0,0,0", "0,1,1", "0,3,0", "1,0,0"]:
                yield w, 0, [*body, "%s,%d" % (last, n - 1)]
            yield w, 0, [*body, "0,1,0,%d" % n]
            yield w, 1, [*body, "1,0,0,%d" % (n - 1)]
        yield w, MAX_NODES - 32768, broad
        leaves = run((1, 0), (0, 32 * 32767 + 32), MAX_NODES - 32769)
        yield w, MAX_NODES - 32768, [*broad[:2], leaves]
        for values in [MAX_VALUES - 1, MAX_VALUES, MAX_VALUES + 1]:
            yield w, values, []
            yield w, values, ["0,0,0,1"]
            yield w, values, ["1,0,0,1"]
            yield w, values, ["0,0,0,1", "0,0,0,1"]
            yield w, values, ["0,0,0,1", run((0, 1), (0, 1), MAX_NODES)]
            yield w, values, ["%d,0,0,1" % full, run((full, 1), (31, 1), MAX_NODES - 1)]
        for values in [31 * MAX_NODES - 1, 31 * MAX_NODES + 1]:
            yield w, values, ["%d,0,0,1" % full, run((full, 1), (31, 1), MAX_NODES - 1)]


def differences():
    """The short lists of docs/DIFFERENCES.md."""
    for w in WIDTHS:
        yield w, 0, [(0, 1, 0, 1)]
        yield w, 1, [(0, 0, 0, 1), (1, 0, 0, 1)]
        yield w, 0, [(1, 0, 0, 1)]
        yield w, 1, [(0, 0, 0, 1)]
        yield w, 0, [(0, 0, 0, 1)]
        yield w, 0, [(0, 0, 0, 1), (0, 1, 0, 1)]
        yield w, 1, [(0, 0, 0, 1), (1, 1, 0, 1)]
        yield w, 1, [(0, 1, 0, 1), (1, 0, 0, 2), (0, 1, 1, 2)]


def groups(seed):
    """Each group's name and its lists: a width, a number of values and the words of the nodes."""
    def words(lists):
        seen = set()
        for w, values, nodes in lists:
            line = (w, values, tuple("%d,%d,%d,%d" % n for n in nodes))
            if line not in seen:
                seen.add(line)
                yield line

    def rng(name):
        return random.Random("%s %s" % (seed, name))

    yield "differences", words(differences())
    yield "limits", limits()
    yield "tiny", words(tiny(rng("tiny")))
    yield "chains", words(chains(rng("chains")))
    yield "good", words(good(rng("good"), 1500))
    yield "orphans", words(orphans(rng("orphans"), 3000))
    yield "one number changed", words(field_damage(rng("fields"), 150))
    yield "lists changed", words(list_damage(rng("lists"), 200))
    yield "random", words(random_lists(rng("random"), 6000))


if __name__ == "__main__":
    for name, lists in groups(sys.argv[1] if len(sys.argv) > 1 else SEED):
        print("#", name)
        for w, values, nodes in lists:
            print(w, values, *nodes)

#!/usr/bin/env python3
"""Writes the stored input and output of the program lookup.

usage: python3 tools/sample.py FOLDER     writes FOLDER/stdin and FOLDER/stdout

The input is the sheet of an image with 41 prefixes of 32 bits, a site for each of its values, and 106 queries. The
answers are found here by trying every prefix, without a trie.
"""

import pathlib
import sys

WIDTH = 32

PREFIXES = """
10.0.0.0/8 10.1.0.0/16 10.1.2.0/24 10.1.2.0/25 10.1.2.128/26 10.1.2.192/27 10.1.2.200/29 10.1.2.203/32
10.1.2.204/31 10.1.2.204/30 172.16.0.0/12 172.20.0.0/14 172.20.8.0/21 172.20.8.0/22 172.20.8.128/25
192.168.0.0/16 192.168.4.0/23 192.168.4.16/28 192.168.4.16/32 100.64.0.0/10 100.96.0.0/11 100.127.0.0/16
128.0.0.0/1 224.0.0.0/3 240.0.0.0/4 248.0.0.0/5 252.0.0.0/6 254.0.0.0/7 8.0.0.0/7 8.8.0.0/13 8.8.0.0/15
8.8.8.0/24 8.8.8.8/32 11.128.0.0/9 11.192.0.0/17 11.192.64.0/18 11.192.64.0/19 11.192.80.0/20 0.0.0.0/2
255.255.255.255/32 0.0.0.0/32
""".split()

# found at every depth, and none
FOUND = """
10.1.2.203 10.1.2.204 10.1.2.205/32 10.1.2.206 10.1.2.200/29 10.1.2.199/30 10.1.2.193 10.1.2.130 10.1.2.77/25
10.1.2.77/24 10.1.3.4 10.1.3.4/17 10.2.3.4 10.2.3.4/9 10.0.0.0/8 10.99.98.97/8 10.0.0.0/7 11.0.0.1 12.1.1.1
128.0.0.1 200.1.2.3 224.1.1.1 240.0.0.1 249.0.0.1 253.0.0.1 254.1.1.1 255.255.255.255 255.255.255.255/31
0.0.0.0 0.0.0.0/31 0 0/31 1 0/2 0/1 63.255.255.255 64.0.0.0 192.168.4.16 192.168.4.17 192.168.4.31/28
192.168.5.255 192.168.6.0 192.168.4.0/22 172.16.0.1 172.20.8.129 172.20.8.1 172.20.9.255/24 172.20.12.1
172.23.255.255 172.24.0.0 172.31.255.255/12 172.32.0.0 100.100.1.1 100.127.200.3 100.64.0.0/10 100.64.0.0/9
8.8.8.8 8.8.8.9 8.8.9.1 8.10.0.0 8.16.0.0 9.0.0.0 11.192.80.1 11.192.70.1 11.192.100.1 11.192.1.1
11.192.128.1 11.128.0.0/9 167837643 167837644 167837645/32 167903234/16 3232236560/32 3232236561 4294967295
4294967295/6 2147483648/1 2147483648/0 2147483647/1 2886729729
""".split()

# longer than the key, among them lengths that are in range after a byte is cut off
TOO_LONG = ["9/33", "10.1.2.3/33", "10.1.2.3/4294967295", "167837643/256", "0/288"]

NO_QUERY = [
    "abc", "", "10.1.2", "10.1.2.3.4", "10.1.2.256", "10.01.2.3", "010", "4294967296", "10.1.2.3/", "/8",
    "10.1.2.3/08", "10.1.2.3/4294967296", "10.1.2.3/+8", "-1", "1 ", "10.1.2.3 /8", "10.1.2.3/8/8", "1.2.3.4\r",
]

QUERIES = FOUND + TOO_LONG + NO_QUERY + ["178/6", "9/32", "10.1.2.203/32"]


def first_bits(key, n):
    return key >> (WIDTH - n)


def key_of(quad):
    return int.from_bytes(bytes(map(int, quad.split("."))), "big")


def quad_of(key):
    return ".".join(map(str, key.to_bytes(4, "big")))


def prefix(text):
    quad, length = text.split("/")
    return key_of(quad), int(length)


def trie(prefixes):
    """The nodes, by depth and path: each with its slots, a prefix for each data bit, and its children."""
    nodes = {(0, 0): ({}, set())}
    for address, length in prefixes:
        depth = length - length % 5
        for d in range(0, depth, 5):
            child = first_bits(address, d + 5)
            nodes[d, first_bits(address, d)][1].add(child)
            nodes.setdefault((d + 5, child), ({}, set()))
        tier = length - depth
        bit = 2**tier - 1 + first_bits(address, length) % 2**tier
        nodes[depth, first_bits(address, depth)][0][bit] = address, length
    return nodes


def columns(numbers):
    return "".join(str(n).rjust(11) for n in numbers) + "\n"


def sheet(nodes):
    """The text of the image, and the prefix that each value stands for."""
    lines, values, children = [], [], 1
    for _, (slots, below) in sorted(nodes.items()):
        data = sum(1 << bit for bit in slots)
        child = sum(1 << path % 32 for path in below)
        lines.append((data, child, len(values), children))
        values += [slots[bit] for bit in sorted(slots)]
        children += len(below)
    head = [(WIDTH, len(lines), len(values))]
    places = [(place + 1,) for place in range(len(values))]
    return "".join(map(columns, head + lines + places)), values


def site(place):
    dam = 1 + place % 6
    return dam, 1 + place // 6 % 12, 1000 + 17 * place + dam


def number(text):
    if text.isascii() and text.isdigit() and text == str(int(text)) and int(text) < 2**32:
        return int(text)
    return None


def key_and_style(text):
    if number(text) is not None:
        return number(text), str
    octets = [number(part) for part in text.split(".")]
    if len(octets) == 4 and all(o is not None and o < 256 for o in octets):
        return key_of(text), quad_of
    return None, None


def answer(line, query, values):
    text, slash, tail = query.partition("/")
    key, style = key_and_style(text)
    length = number(tail) if slash else WIDTH
    if key is None or length is None:
        return f"line {line}: fault 15, no query"
    if length > WIDTH:
        return f"{query}: fault 12, LengthExceedsKey: the prefix is longer than the key"
    holding = [v for v in values if v[1] <= length and first_bits(key, v[1]) == first_bits(v[0], v[1])]
    if not holding:
        return f"{query}: no match"
    found = max(holding, key=lambda v: v[1])
    place = values.index(found)
    dam, borehole, logger = site(place)
    return f"{query}: {style(found[0])}/{found[1]} at place {place}: dam {dam}, borehole {borehole}, logger {logger}"


def main():
    folder = pathlib.Path(sys.argv[1])
    text, values = sheet(trie([prefix(p) for p in PREFIXES]))
    sites = "".join(columns(site(place)) for place in range(len(values)))
    # the last line lacks its end
    (folder / "stdin").write_bytes((text + sites + "\n".join(QUERIES)).encode())
    answers = [answer(line, query, values) + "\n" for line, query in enumerate(QUERIES, 1)]
    (folder / "stdout").write_bytes("".join(answers).encode())


main()

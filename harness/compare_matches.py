#!/usr/bin/env python3
"""Asks the crate every query of matches.py and coverage.py, and holds the library's program to its
answers.

Usage: compare_matches.py PROGRAM          all queries; PROGRAM is the built program of crates/asked
       compare_matches.py --table          only asks the crate and writes the table
       compare_matches.py --sample FOLDER  writes a sample of the last table, and what the program
                                           is to print of it, to FOLDER/stdin and FOLDER/stdout
The table of all queries goes to out/matches.txt, what the program printed to out/matched.txt."""
import pathlib
import random
import subprocess
import sys

import coverage
import lists
import matches

HERE = pathlib.Path(__file__).resolve().parent
TABLE = HERE / "out" / "matches.txt"
KINDS = ["exact", "longest", "shortest"]
CALLS = ["exact match", "longest match", "shortest match", "exact match of a span",
         "longest match of a span", "shortest match of a span", "value", "covered",
         "covered, of a span", "address count"]
# how the rows of a call name an answer that finds something and one that does not, and the latter's
# word in the table
ROWS = {"covered": ("yes", "no", "0"), "covered, of a span": ("yes", "no", "0"),
        "address count": ("a number", "whole", "whole")}
STOP = "panic: attempt to subtract with overflow"
BATCH = 60
# what the sample has of a group: images of each width, characters in the longest line of one, and of
# each image's lines how many beside those that show something new
SAMPLED = {"# blocks filled": (10, 1500, 5), "# the whole space": (5, 1500, 5),
           "# dense": (5, 1500, 5), "# empty": (2, 1500, 5), "# many leaves": (1, 4000, 5)}
MATCHES = (8, 4000, 12)
THEIR_COVERAGE = (2, 1500, 3)
HEAD = """# Images and queries, with the answers of the Rust crate. docs/COMPARISON.md has the form;
# harness/compare_matches.py wrote this file.
"""


def ask(oracle, batch, questions):
    """The crate's answers: for each image its verdict, and one to each of the questions."""
    text, count = [], 0
    for image, asked, _ in batch:
        text.append("image %d %d %d" % (image.w, len(image.nodes), image.values))
        text += ["%d %d %d %d" % node for node in image.nodes]
        some = questions(asked)
        text += some
        count += 1 + len(some)
    run = subprocess.run([HERE / "bin" / oracle, "query"], input="\n".join(text) + "\n",
                         capture_output=True, text=True, check=True)
    answers = run.stdout.splitlines()
    if len(answers) != count:
        sys.exit("%s: unforeseen answers" % oracle)
    return answers


def match_questions(asked):
    return ["%s %d %d" % (kind, key, n) for key, n in asked for kind in KINDS]


def coverage_questions(asked):
    return ["count", *("covered %d %d" % pair for pair in asked)]


def word(answer):
    """An answer of the crate in the form of the table."""
    if answer == "none" or answer.isdigit():
        return answer
    address, length, place = map(int, answer.split(" "))
    return "%d/%d@%d" % (address, length, place)


class Answers:
    """The release build's answers, one after another. The build with overflow checks has to answer
    the same, but where it stops at 64 bits with a length of 60 or more; these are counted in `stops`
    by kind."""

    def __init__(self, batch, questions, stops):
        self.release = iter(ask("oracle", batch, questions))
        self.checked = iter(ask("oracle-checked", batch, questions))
        self.stops = stops

    def open(self, image):
        if (next(self.release), next(self.checked)) != ("ok", "ok"):
            sys.exit("refused: " + image.line())
        self.image = image

    def take(self, kind, key=0, n=0):
        answer, other = next(self.release), next(self.checked)
        if other == STOP and self.image.w == 64 and n >= 60 and kind != "exact":
            self.stops[kind] = self.stops.get(kind, 0) + 1
        elif other != answer:
            sys.exit("the builds differ: %s: %s %d/%d" % (self.image.line(), kind, key, n))
        return answer


def matched(batch, stops):
    """The lines of the table that ask for matches."""
    answers = Answers(batch, match_questions, stops)
    for image, asked, refused in batch:
        answers.open(image)
        yield image.line()
        for key, n in asked:
            words = [word(answers.take(kind, key, n)) for kind in KINDS]
            yield " ".join(["ask", "%d/%d" % (key, n), *words])
        yield from refused


def covered(batch, stops):
    """The lines of the table that ask for coverage."""
    answers = Answers(batch, coverage_questions, stops)
    for image, asked, refused in batch:
        answers.open(image)
        yield image.line()
        yield "count " + answers.take("count")
        for key, n in asked:
            yield "covered %d/%d %s" % (key, n, answers.take("covered", key, n))
        yield from refused


def batches(some):
    batch = []
    for one in some:
        batch.append(one)
        if len(batch) == BATCH:
            yield batch
            batch = []
    if batch:
        yield batch


def is_span(w, pair):
    key, n = map(int, pair.split("/"))
    return w == 32 and n <= 32 and matches.cut(32, key, n) == key


def rows_of(call):
    return ROWS.get(call, ("found", "none", "none"))


def found(answer):
    return answer != "none" and not answer.startswith("fault")


def length_of(answer):
    return int(answer.split("/")[1].split("@")[0])


class Tally:
    """What the program is to print where it agrees with every line."""

    def __init__(self):
        self.count, self.images, self.queries, self.w = {}, 0, 0, 0

    def bump(self, row):
        self.count[row, self.w] = self.count.get((row, self.w), 0) + 1

    def call(self, name, answer):
        some, nothing, absent = rows_of(name)
        self.queries += 1
        if answer.startswith("fault"):
            self.bump("refused with " + answer.removeprefix("fault "))
            self.bump(name + ", refused")
        else:
            self.bump(name + ", " + (nothing if answer == absent else some))

    def match(self, w, pair, answers):
        for call, answer in zip(CALLS, answers):
            self.call(call, answer)
            if found(answer):
                self.call("value", answer)
        if found(answers[1]):
            length = length_of(answers[1])
            self.bump("longest match in a node at depth %d" % (length - length % 5))
        if is_span(w, pair):
            for call, answer in zip(CALLS[3:], answers):
                self.call(call, answer)

    def coverage(self, w, pair, answer):
        self.call("covered", answer)
        if is_span(w, pair):
            self.call("covered, of a span", answer)

    def line(self, line):
        words = line.split(" ")
        if words[0] == "image":
            self.images, self.w = self.images + 1, int(words[1])
            self.bump("images")
        elif words[0] == "ask":
            self.match(self.w, words[1], words[2:])
        elif words[0] == "refuse":
            self.match(int(words[1]), words[2], ["fault " + words[3]] * 3)
        elif words[0] == "refuse-value":
            self.call("value", "fault " + words[2])
        elif words[0] == "value":
            self.call("value", words[1])
        elif words[0] == "covered":
            self.coverage(self.w, words[1], words[2])
        elif words[0] == "refuse-covered":
            self.coverage(int(words[1]), words[2], "fault " + words[3])
        elif words[0] == "count":
            self.call("address count", words[1])
        else:
            sys.exit("no line of the table: " + line)

    def text(self):
        names = ["images", *(c + ", " + a for c in CALLS for a in (*rows_of(c)[:2], "refused")),
                 *("longest match in a node at depth %d" % d for d in range(0, 65, 5)),
                 *("refused with %d" % n for n in (12, 13, 14))]
        rows = ["       8      16      32      64  bits"]
        for name in names:
            rows.append("".join("%8d" % self.count.get((name, w), 0) for w in lists.WIDTHS)
                        + "  " + name)
        rows.append("%d images, %d queries, 0 differ" % (self.images, self.queries))
        return "\n".join(rows) + "\n"


def tally(lines):
    counted = Tally()
    for line in lines:
        if line[0] != "#":
            counted.line(line.rstrip("\n"))
    return counted.text()


def write_table():
    TABLE.parent.mkdir(exist_ok=True)
    stops = {}
    with open(TABLE, "w") as out:
        for groups, answered in [(matches.groups(matches.SEED), matched),
                                 (coverage.groups(coverage.SEED), covered)]:
            for name, some in groups:
                out.write("# %s\n" % name)
                images = asked = 0
                for batch in batches(some):
                    images, asked = images + len(batch), asked + sum(len(b[1]) for b in batch)
                    out.writelines(line + "\n" for line in answered(batch, stops))
                print("%s: %d images, %d pairs of a key and a length" % (name, images, asked))
    print("stops of the build with overflow checks:", stops)


def compare(program):
    write_table()
    with open(TABLE) as table:
        run = subprocess.run([program], stdin=table, capture_output=True, text=True)
    (HERE / "out" / "matched.txt").write_text(run.stdout)
    print(run.stdout[-6000:], end="")
    with open(TABLE) as table:
        same = run.stdout == tally(table)
    sys.exit(0 if same and run.returncode == 0 else "the program's answers differ")


def read_table():
    """Each group's name, and its images with their lines."""
    groups, name = {}, ""
    with open(TABLE) as table:
        for line in table:
            line = line.rstrip("\n")
            if line[0] == "#":
                name = line
            elif line.startswith("image "):
                groups.setdefault(name, []).append((line, []))
            else:
                groups[name][-1][1].append(line)
    return groups


def facts(w, name, line):
    """What the sample is to have of a line: a length, what was found and how deep, loose bits."""
    words = line.split(" ")
    if words[0] in ("refuse", "refuse-covered"):
        return {(w, *words[:2], words[-1])}
    if words[0] == "count":
        return {(w, name, "count", words[1] if words[1] in ("0", "whole") else "some")}
    if words[0] not in ("ask", "covered"):
        return {(w, words[0])}
    key, n = map(int, words[1].split("/"))
    loose = matches.cut(w, key, n) != key
    if words[0] == "covered":
        return {(w, "coverage", n, words[2]), (w, "coverage", n, loose), (w, name, n, words[2])}
    out = {(w, "length", n, loose), (w, "exact", n, words[2] != "none")}
    for kind, answer in zip(KINDS[1:], words[3:]):
        length = length_of(answer) if found(answer) else "none"
        out |= {(w, kind, length, loose), (w, name, kind, length == "none")}
    return out


def chosen(r, images, w, name, seen, count, longest):
    """Images of this width of up to `longest` characters: by turns one whose queries show the most
    that is new among 120, and any."""
    start = "image %d " % w
    left = [i for i in images if i[0].startswith(start) and len(i[0]) <= longest]
    r.shuffle(left)
    for turn in range(min(count, len(left))):
        def news(i):
            return len(set().union(*(facts(w, name, line) for line in left[i][1])) - seen)
        best = max(range(min(120, len(left))), key=news) if turn % 4 else 0
        yield left.pop(best)


def sample(folder):
    """Of each group and width a few images, and of their queries those that show something new,
    and some more."""
    r = random.Random(matches.SEED)
    seen, kept, text = set(), [], HEAD
    for name, images in read_table().items():
        text += name + "\n"
        others = THEIR_COVERAGE if name.startswith("# coverage of") else MATCHES
        count, longest, spare = SAMPLED.get(name, others)
        for w in lists.WIDTHS:
            many = max(count, 5 * w // 8) if name == "# steps" else count
            for image, lines in chosen(r, images, w, name, seen, many, longest):
                some = set(r.sample(range(len(lines)), min(spare, len(lines))))
                part = [image]
                for i, line in enumerate(lines):
                    new = facts(w, name, line) - seen
                    if new or i in some:
                        seen |= new
                        part.append(line)
                kept += part
                text += "".join(line + "\n" for line in part)
    (folder / "stdin").write_text(text)
    (folder / "stdout").write_text(tally(kept))
    print(tally(kept).splitlines()[-1], "in %d lines, %d bytes" % (len(kept), len(text)))
    lacking(seen)


def lacking(seen):
    """Says which lengths and depths the sample has no case of."""
    for w in lists.WIDTHS:
        for n in range(w + 1):
            wanted = [(w, "length", n, False), (w, "exact", n, True), (w, "exact", n, False),
                      (w, "longest", n, False), (w, "shortest", n, False)]
            if n < w:
                wanted += [(w, "length", n, True), (w, "coverage", n, True)]
            wanted += [(w, "coverage", n, answer) for answer in ("0", "1", False)]
            for fact in wanted:
                if fact not in seen:
                    print("the sample lacks", *fact)


if len(sys.argv) == 3 and sys.argv[1] == "--sample":
    sample(pathlib.Path(sys.argv[2]))
elif sys.argv[1:] == ["--table"]:
    write_table()
elif len(sys.argv) == 2 and sys.argv[1] != "--sample":
    compare(sys.argv[1])
else:
    sys.exit(__doc__)

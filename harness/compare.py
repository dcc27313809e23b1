#!/usr/bin/env python3
"""Asks the crate about every list of lists.py, and holds the library's program to its answers.

Usage: compare.py PROGRAM          all lists; PROGRAM is the built program of crates/replay
       compare.py --sample FOLDER  writes a sample of the last table, and what the program is to
                                   print of it, to FOLDER/stdin and FOLDER/stdout
The table of all lists goes to out/table.txt, what the program printed to out/answer.txt."""
import pathlib
import random
import subprocess
import sys

import lists

HERE = pathlib.Path(__file__).resolve().parent
TABLE = HERE / "out" / "table.txt"
BATCH = 20_000
NAMES = ["NodeListTooShort", "NodeListTooLong", "NodeListInconsistent", "NodeIndexOverflow",
         "DataListTooShort", "DataListTooLong", "DataListInconsistent", "DataIndexOverflow",
         "ContainsEmptyNode", "MissingRootNode", "DepthExceedsPrefixRepr"]
HEAD = """# Cases of the acceptance of lists, with the answers of the Rust crate. docs/COMPARISON.md has the
# form; harness/compare.py wrote this file.
"""


def ask(oracle, batch):
    """The crate's answers: 'ok' or the fault's number as text."""
    text = []
    for w, values, nodes in batch:
        text.append("image %d %d %d" % (w, len(nodes), values))
        text += [node.replace(",", " ").replace("*", " ") for node in nodes]
    run = subprocess.run([HERE / "bin" / oracle, "query"], input="\n".join(text) + "\n",
                         capture_output=True, text=True, check=True)
    answers = [line.removeprefix("fault ") for line in run.stdout.splitlines()]
    if len(answers) != len(batch) or not all(a == "ok" or a.isdigit() for a in answers):
        sys.exit("%s: unforeseen answers" % oracle)
    return answers


def answered(batch):
    answers = ask("oracle", batch)
    if ask("oracle-checked", batch) != answers:
        sys.exit("the crate's two builds differ")
    for (w, values, nodes), answer in zip(batch, answers):
        yield " ".join([str(w), answer, str(values), *nodes])


def batches(all_lists):
    batch = []
    for one in all_lists:
        batch.append(one)
        if len(batch) == BATCH:
            yield batch
            batch = []
    yield batch


def tally(cases):
    """What the program is to print of these lines where it agrees with all."""
    count, total = {}, 0
    for line in cases:
        w, answer = line.split(" ", 2)[:2]
        count[answer, w] = count.get((answer, w), 0) + 1
        total += 1
    rows = ["  answer       8      16      32      64"]
    for answer, name in [("ok", "accepted"), *((str(i + 1), n) for i, n in enumerate(NAMES))]:
        row = "".join("%8d" % count.get((answer, str(w)), 0) for w in lists.WIDTHS)
        rows.append("%8s%s  %s" % (answer, row, name))
    return "\n".join([*rows, "%d cases, 0 differ" % total]) + "\n"


def compare(program):
    TABLE.parent.mkdir(exist_ok=True)
    with open(TABLE, "w") as out:
        for name, group in lists.groups(lists.SEED):
            out.write("# %s\n" % name)
            for batch in batches(group):
                out.writelines(line + "\n" for line in answered(batch))
    with open(TABLE) as table:
        print("by group:", ", ".join("%d %s" % (n, name) for name, n in by_group(table)))
    with open(TABLE) as table:
        run = subprocess.run([program], stdin=table, capture_output=True, text=True)
    (HERE / "out" / "answer.txt").write_text(run.stdout)
    print(run.stdout[-4000:], end="")
    with open(TABLE) as table:
        same = run.stdout == tally(line for line in table if line[0] != "#")
    sys.exit(0 if same and run.returncode == 0 else "the program's answers differ")


def by_group(table):
    counts = []
    for line in table:
        if line[0] == "#":
            counts.append([line[2:].strip(), 0])
        else:
            counts[-1][1] += 1
    return counts


def sample(folder, bucket=20, longest=400):
    """All cases at the limits, and of each other group a few of each answer at each width."""
    r = random.Random(lists.SEED)
    found, name = {}, ""
    with open(TABLE) as table:
        for line in table:
            line = line.rstrip("\n")
            if line[0] == "#":
                name = line
            elif name == "# limits" or len(line) <= longest:
                kind = tuple(line.split(" ", 2)[:2])
                found.setdefault(name, {}).setdefault(kind, []).append(line)
    cases, text = [], HEAD
    for name, buckets in found.items():
        text += name + "\n"
        for lines in buckets.values():
            if name != "# limits":
                places = r.sample(range(len(lines)), min(bucket, len(lines)))
                lines = [lines[i] for i in sorted(places)]
            cases += lines
            text += "".join(line + "\n" for line in lines)
    (folder / "stdin").write_text(text)
    (folder / "stdout").write_text(tally(cases))
    print("%d cases, %d bytes" % (len(cases), len(text)))


if len(sys.argv) == 3 and sys.argv[1] == "--sample":
    sample(pathlib.Path(sys.argv[2]))
elif len(sys.argv) == 2 and sys.argv[1] != "--sample":
    compare(sys.argv[1])
else:
    sys.exit(__doc__)

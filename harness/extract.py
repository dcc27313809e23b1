"""Lays the crate's text out below gen/src. Files are copied byte for byte, but src/rkyv/mod.rs
loses the lines that name modules outside this comparison and gains one for shims/open.rs."""
import pathlib
import sys

FILES = ["prefix", "node", "table", "allocator", "aggregate", "rkyv/mod", "rkyv/map",
         "rkyv/validate"]
DROP = ["mod deserialize;", "pub mod joint;", "mod serialize;", "pub mod set;", "#[cfg(test)]",
        "mod test;", "mod view;",
        "pub use joint::{ArchivedJointPrefixMap, ArchivedJointPrefixSet, JointPrefixMapResolver};",
        "pub use set::ArchivedPrefixSet;"]


def find(root, name):
    for p in [root / "src" / (name + ".rs"), root / (name + ".rs")]:
        if p.is_file():
            return p
    sys.exit("no text of src/%s.rs in the source folder" % name)


def main(source, here):
    out = here / "gen" / "src"
    (out / "rkyv").mkdir(parents=True, exist_ok=True)
    for name in FILES:
        text = find(source, name).read_text(encoding="utf-8")
        if name == "rkyv/mod":
            lines = text.split("\n")
            for d in DROP:
                if lines.count(d) != 1:
                    sys.exit("src/rkyv/mod.rs: expected one line %r" % d)
                lines.remove(d)
            text = "\n".join(lines) + "\npub mod open;\n"
        (out / (name + ".rs")).write_text(text, encoding="utf-8")
    (out / "rkyv" / "open.rs").write_text((here / "shims" / "open.rs").read_text())
    (out / "main.rs").write_text((here / "driver.rs").read_text())


main(pathlib.Path(sys.argv[1]), pathlib.Path(sys.argv[2]))

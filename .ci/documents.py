"""Holds README.md and docs/ to the repository: every path that they name exists, and README.md's table of specification files is true.

With --fix it writes that table anew: the crates in the order of crates.txt, the files in that of specs/Lib.antt, and what each one's first line says.
"""
import glob
import os
import re
import sys

HEADER = "| Specification | Lines | Of what |\n|---|---|---|\n"
ENDINGS = r"\.(rt|antt|md|txt|edit|py)$"


def read(path):
    with open(path, encoding="utf-8") as f:
        return f.read()


def specifications():
    """The rows of the table."""
    crates = [line.split()[0].rstrip(":") for line in read("crates.txt").splitlines() if line.strip() and not line.startswith("#")]
    for crate in crates:
        root = "crates/%s/specs/" % crate
        for name in re.findall(r"^pub mod (\w+)", read(root + "Lib.antt"), re.M) if os.path.exists(root + "Lib.antt") else []:
            text = read(root + name + ".antt")
            what = re.sub(r"^-- |\.( .*)?$", "", text.splitlines()[0])
            yield "| `%s%s.antt` | %d | %s |\n" % (root, name, len(text.splitlines()), what)


def expanded(word):
    """`a/{b,c}/d` names several paths."""
    m = re.match(r"^(.*?)\{([^}]*)\}(.*)$", word)
    return [word] if not m else [p for part in m.group(2).split(",") for p in expanded(m.group(1) + part + m.group(3))]


def missing(page):
    """The paths that a page names, in backticks and from the top, from crates/ or from a crate, and that are not there."""
    for word in re.findall(r"`([^`\s]+)`", read(page)):
        is_path = re.fullmatch(r"[\w./{},*-]+", word) and ("/" in word or re.search(ENDINGS, word))
        if is_path and not word.startswith("target/") and "/out/" not in word:
            for path in expanded(word):
                if not any(glob.glob(root + path, recursive=True) for root in ("", "crates/", "crates/*/", "crates/**/")):
                    yield path


text = read("README.md")
table = HEADER + "".join(specifications())
stands = re.search(re.escape(HEADER) + r"(\|.*\n)*", text)
if "--fix" in sys.argv:
    with open("README.md", "w", encoding="utf-8") as f:
        f.write(text[: stands.start()] + table + text[stands.end() :])
    sys.exit(0)
faults = ["%s names %s, which is not there" % (page, path) for page in ["README.md"] + sorted(glob.glob("docs/**/*.md", recursive=True)) for path in missing(page)]
if stands is None or stands.group() != table:
    faults.append("README.md's table of specification files is not true: python3 .ci/documents.py --fix writes it")
print("\n".join(faults) if faults else "documents: ok")
sys.exit(1 if faults else 0)

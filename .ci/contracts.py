"""Every public function of a library has an `ensures`, none a `requires`, and every library has must-fail edits."""
import glob
import re
import sys

faults = []


def head(text, at):
    """A function's text from `at` to its body's brace: the braces of its clauses are passed over."""
    out, depth = "", 0
    for c in text[at:]:
        if c == "{" and depth == 0 and not re.search(r"\b(requires|ensures|ghost)(\s+[\w-]+)?\s*$", out):
            return out
        depth += {"{": 1, "}": -1}.get(c, 0)
        out += c
    return out


for root in sorted(glob.glob("crates/*/src/lib.rt")):
    crate = root.split("/")[1]
    for path in sorted(glob.glob("crates/%s/src/**/*.rt" % crate, recursive=True)):
        with open(path, encoding="utf-8") as f:
            text = re.sub(r"//[^\n]*", "", f.read())
        for m in re.finditer(r"\bpub\s+(?:extern\s+\"C\"\s+)?fn\s+(\w+)", text):
            clauses = head(text, m.end())
            if "ensures" not in clauses:
                faults.append("%s: pub fn %s has no ensures" % (path, m.group(1)))
            if "requires" in clauses:
                faults.append("%s: pub fn %s has a requires: it should refuse instead" % (path, m.group(1)))
    if not glob.glob("crates/%s/must-fail/*.edit" % crate):
        faults.append("crates/%s has no must-fail edit" % crate)

print("\n".join(faults) if faults else "contracts: ok")
sys.exit(1 if faults else 0)

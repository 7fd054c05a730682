"""Prints, as Markdown, each public signature, clause, invariant and definition that differs between two trees: promises.py OLD NEW.

OLD and NEW are folders with crates/. The kit's contracts.py reads both; of what it finds, the public part is printed, old above new.
"""

import collections
import sys

sys.path.insert(0, "/opt/rattle/port")
import contracts  # noqa: E402


def public(root):
    """The public functions outside tests, by crate, file, type and name."""
    functions = contracts.read(root)[1]
    return {key: f for key, fs in functions.items() for f in fs if f["pub"] and not f["test"] and not f["in tests"]}


def name(key):
    return " ".join(part for part in key[:4] if part)


def diff(old, new):
    return "\n".join(["", "```diff", *("- " + text for text in old), *("+ " + text for text in new), "```", ""])


def clauses(requires, ensures):
    return [f"requires {{ {c[1]} }}" for c in requires] + [f"ensures {{ {c[1]} }}" for c in ensures]


def texts(value):
    return value if isinstance(value, list) else [value]


def rows(old, new):
    """Pairs of a crate and a piece of Markdown."""
    r = contracts.compare(old, new)
    was = public(old)
    shown = {name(key) for key in [*was, *public(new)]}
    gone = {row.split(" (")[0] for row in r["functions not found again"]}
    for function, before, now in r["signatures changed"]:
        if function in shown:
            yield function.split()[0], f"- signature of `{function.split()[-1]}`\n" + diff([before], [now])
    for function, *before_and_now in r["contracts changed"]:
        if function in shown:
            yield function.split()[0], f"- clauses of `{function.split()[-1]}`\n" + diff(clauses(*before_and_now[:2]), clauses(*before_and_now[2:]))
    for key, f in sorted(was.items()):
        if name(key) in gone:
            ensures = [f"ensures {{ {c[2]} }}" for c in f["ensures"]]
            yield key[0], f"- gone or moved: the function `{' '.join(part for part in key[2:4] if part)}`\n" + diff([f["sign"], *ensures], [])
    for label in ("ghost items and constants", "definitions"):
        for row in r[label]["changed"]:
            yield row[0], f"- `{' '.join(row[1:-2])}`\n" + diff(texts(row[-2]), texts(row[-1]))
        for row in r[label]["gone"]:
            yield row[0], f"- gone: `{' '.join(row[1:])}`"


def main(old, new):
    out = collections.defaultdict(list)
    for crate, text in rows(old, new):
        out[crate].append(text)
    for crate in sorted(out):
        print(f"### {crate}\n")
        print("\n".join(out[crate]))
        print()


if __name__ == "__main__":
    main(*sys.argv[1:3])

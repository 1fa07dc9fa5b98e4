#!/usr/bin/env python3
"""respell.py [FOLDER]: gives the repository's own definitions and lemmas today's spelling.

port.py, the toolchain's, turns the names of the library, and of our own those alone that a library shares. This one
turns the rest: words in snake case, as bank_size for bankSize and room_for_one for room-for-one; facts and types keep
their capital. It goes by text over the .antt and .rt files of crates/. Names of the Rust code, of its types and of what
the toolchain makes stay, and so do local names. OTHER has the names that would fall together with another.
"""
import os
import re
import sys

# A name whose turned spelling means something else already, with the one that it gets.
OTHER = {
    "allListed": "all_are_listed",
    "check-numbers": "numbers_of_check",
    "goesBy": "goes_on_by",
    "in-ram": "ram_bytes",
    "inImage": "is_in_image",
    "is-start": "start_there",
    "isFree": "is_free_at",
    "lengthDigits": "digits_of_length",
    "marks-read": "marks_counted",
    "noStart": "no_start_text",
    "numberBy": "number_from",
    "one-step": "single_step",
    "passedOn": "passed_result",
    "ram-left": "left_ram",
    "read-numbers": "numbers_of_read",
    "return-m": "returning_m",
    "return-x": "returning_x",
    "routines-fit": "all_fit",
    "row-at": "row_at_lem",
    "row-size": "size_of_row",
    "run-numbers": "numbers_of_run",
    "state-fits": "fits_state",
    "state-left": "left_state",
    "written-numbers": "numbers_of_write",
}

TOKEN = re.compile(r"(?<![A-Za-z0-9_'₀-₉-])[A-Za-z_][A-Za-z0-9_'₀-₉-]*")
HEAD = re.compile(r"^\s*(?:(?:abbrev|unfoldable|pub|data|record) )*([^\s:(){}]+) (?:[({][^)}]*[)}] )*:(?: |$)")
# A function's proof, in a folder of its own below proofs/: the names in it are those of its goals.
MADE = re.compile(r"/proofs/.*/(Proof|Answers|Invariants)\.antt$|/Lib\.antt$")


def files(root, *ends):
    for folder, names, found in os.walk(os.path.join(root, "crates")):
        names[:] = sorted(n for n in names if n not in ("out", "data"))
        for name in sorted(found):
            if name.endswith(ends):
                yield os.path.join(folder, name)


def snake(name):
    name = name.replace("-", "_")
    return re.sub(r"(?<=[a-z0-9])([A-Z]+)", lambda m: "_" + m.group(1).lower(), name)


def declared(root):
    own = set()
    for path in files(root, ".antt"):
        if MADE.search(path):
            continue
        for line in open(path, encoding="utf-8"):
            head = HEAD.match(line)
            if head and not line.startswith(("use ", "--")):
                own.add(head.group(1))
    return {name for name in own if re.match(r"[a-z]", name)}


def turn(text, turned):
    return TOKEN.sub(lambda m: turned.get(m.group(0), m.group(0)), text)


def main():
    root = sys.argv[1] if len(sys.argv) > 1 else "."
    own = declared(root)
    turned = {name: OTHER.get(name, snake(name)) for name in own}
    # A lemma with the name of a function of specs/ says so at its end.
    words = {to for name, to in turned.items() if "-" not in name}
    turned = {n: to + "_lem" if "-" in n and n not in OTHER and to in words else to for n, to in turned.items()}
    turned = {name: to for name, to in turned.items() if name != to}
    used = {}
    for path in files(root, ".antt", ".rt"):
        for token in TOKEN.findall(open(path, encoding="utf-8").read()):
            used.setdefault(token, set()).add(os.path.relpath(path, root))
    for name, to in sorted(turned.items()):
        others = [n for n, t in turned.items() if t == to and n != name]
        if others or to in used:
            print(f"falls together: {name} -> {to} {others} {sorted(used.get(to, ()))[:4]}")
    if "--list" in sys.argv:
        return
    count = 0
    for path in files(root, ".antt", ".rt"):
        text = open(path, encoding="utf-8").read()
        new = turn(text, turned)
        if new != text:
            open(path, "w", encoding="utf-8").write(new)
            count += 1
    print(f"turned {len(turned)} names in {count} files")


main()

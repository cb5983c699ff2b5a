# Prints each pair of parameters that stands in three or more signatures of a crate, and in which: python3 tools/pairs.py
# docs/DESIGN-PASS.md counts with it.
import collections, glob, itertools, re

SIGNATURE = re.compile(r"fn (\w+)(?:<[^>]*>)?\(([^{]*?)\)\s*(?:->|requires|ensures|ghost|\{)", re.S)
found = collections.defaultdict(list)
for path in sorted(glob.glob("crates/*/src/*.rt")):
    with open(path) as file:
        signatures = SIGNATURE.findall(file.read())
    for function, parameters in signatures:
        names = [p.split(":")[0].replace("mut ", "").strip() for p in re.split(r",(?![^<(]*[>)])", parameters) if p.strip()]
        for pair in itertools.combinations(names, 2):
            found[path.split("/")[1], *pair].append(function)
for (crate, one, other), functions in sorted(found.items(), key=lambda item: -len(item[1])):
    if len(functions) >= 3:
        print(f"{crate}: {one}, {other}: {len(functions)}: {' '.join(functions)}")

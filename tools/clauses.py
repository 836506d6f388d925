"""Lists the clauses whose text stands at three or more functions of one crate, and ends with how many there are."""

import collections
import glob
import re

places = collections.defaultdict(set)
for path in sorted(glob.glob("crates/*/src/**/*.rt", recursive=True)):
    crate, function = path.split("/")[1], None
    for line in open(path, encoding="utf-8"):
        begins = re.search(r"\bfn (\w+)", line)
        if begins:
            function = (path, begins.group(1))
        clause = re.match(r"\s+(?:requires|ensures) (?:[a-z_]+ )?\{ (.*) \}", line)
        if clause and function:
            places[(crate, clause.group(1))].add(function)
often = {clause: found for clause, found in places.items() if len(found) >= 3}
for (crate, text), found in sorted(often.items(), key=lambda item: -len(item[1])):
    print(len(found), crate, text)
print(f"{len(often)} texts, at {sum(map(len, often.values()))} places")

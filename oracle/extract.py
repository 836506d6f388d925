#!/usr/bin/env python3
"""Cut the string kernels, unchanged, out of the crate's source files.

usage: extract.py CRATE OUTPUT

CRATE is the crate's folder (it holds src/string/split_part.rs and so on);
one file per source file is written into the folder OUTPUT.
"""

import hashlib
import re
import sys
from pathlib import Path

ITEMS = {
    "string/split_part.rs": [
        "fn split_nth",
        "fn rsplit_nth",
        "fn split_nth_finder",
        "fn rsplit_nth_finder",
        "fn append_split_part",
        "fn split_part_scalar_impl",
        "fn map_strings",
    ],
    "unicode/substrindex.rs": [
        "fn substr_index_slice",
        "fn substr_index_single_byte",
        "fn substr_index_slice_finder",
        "fn substr_index_rslice_finder",
        "fn substr_index_scalar_impl",
        "fn map_strings",
    ],
    "string/common.rs": [
        "trait Trimmer",
        "fn leading_bytes",
        "fn trailing_bytes",
        "struct TrimLeft",
        "impl Trimmer for TrimLeft",
        "struct TrimRight",
        "impl Trimmer for TrimRight",
        "struct TrimBoth",
        "impl Trimmer for TrimBoth",
    ],
}

# Comments, strings and character literals are matched whole, so that a brace
# inside one of them is never counted.  A lifetime ('a) has no closing quote
# and so does not match as a character literal.
TOKEN = re.compile(
    r"""//[^\n]*|/\*.*?\*/|"(?:\\.|[^"\\])*"|'(?:\\[^']*|[^\\'\n])'|[{};]""", re.S
)
ATTRIBUTE_OR_DOC = re.compile(r"\s*(#\[.*\]|///.*)\s*$")


def find_start(source, item, path):
    # Anchored at the start of a line: only items of the file's own level,
    # never a namesake inside a test module or an impl.
    pattern = re.compile(r"^(?:pub(?:\([a-z]+\))? )?" + re.escape(item) + r"\b", re.M)
    starts = [match.start() for match in pattern.finditer(source)]
    if len(starts) != 1:
        sys.exit(f"extract.py: `{item}` found {len(starts)} times in {path}, wanted once")
    return starts[0]


def find_end(source, start, item, path):
    depth = 0
    for token in TOKEN.finditer(source, start):
        text = token.group()
        if text == ";" and depth == 0:
            return token.end()
        if text == "{":
            depth += 1
        if text == "}":
            depth -= 1
            if depth == 0:
                return token.end()
    sys.exit(f"extract.py: `{item}` has no end in {path}")


def include_attributes(source, start):
    lines = source[:start].splitlines(keepends=True)
    while lines and ATTRIBUTE_OR_DOC.match(lines[-1]):
        start -= len(lines.pop())
    return start


def cut(source, item, path):
    start = find_start(source, item, path)
    end = find_end(source, start, item, path)
    return source[include_attributes(source, start):end]


def extract_file(crate, name, items, output):
    path = crate / "src" / name
    if not path.is_file():
        sys.exit(f"extract.py: no file {path}")
    raw = path.read_bytes()
    source = raw.decode("utf-8")
    pieces = [cut(source, item, path) for item in items]
    (output / path.name).write_text("\n\n".join(pieces) + "\n", encoding="utf-8")
    digest = hashlib.sha256(raw).hexdigest()
    print(f"extracted {len(pieces)} items of {name} (sha256 {digest})", file=sys.stderr)


def main():
    if len(sys.argv) != 3:
        sys.exit(__doc__)
    crate, output = Path(sys.argv[1]), Path(sys.argv[2])
    output.mkdir(parents=True, exist_ok=True)
    for name, items in ITEMS.items():
        extract_file(crate, name, items, output)


if __name__ == "__main__":
    main()

#!/usr/bin/env python3
"""Compare the list's answers with those of a database server.

usage: compare.py LIST ANSWERS SERVER KIND...

ANSWERS has a line "number of the list's line, tab, answer in hex" for every
request that could be put to the server; requests of the given kinds that are
not there count as not comparable.  Only bytes are compared: a server does not
tell the place of its answer.
"""

import sys
from collections import defaultdict, namedtuple

EXAMPLES_SHOWN = 8

Request = namedtuple("Request", "kind row pattern number answer")


def text_of_hex(field):
    return "" if field == "-" else bytes.fromhex(field).decode("utf-8")


def read_list(path, kinds):
    requests = {}
    with open(path, encoding="ascii") as lines:
        for line_number, line in enumerate(lines, start=1):
            kind, row, pattern, number, answer, _place = line.rstrip("\n").split("\t")
            if kind in kinds:
                requests[line_number] = Request(
                    kind, text_of_hex(row), text_of_hex(pattern), int(number), text_of_hex(answer)
                )
    return requests


def read_answers(path):
    answers = {}
    with open(path, encoding="ascii") as lines:
        for line in lines:
            line_number, answer = line.rstrip("\n").split("\t")
            answers[int(line_number)] = text_of_hex(answer.lower() or "-")
    return answers


def counted_from_the_left(kind, row, delimiter, number):
    """The answer of a server that finds the occurrences from the left, each
    after the end of the one before, even for a negative number."""
    if number == 0 or delimiter == "":
        return ""
    parts = row.split(delimiter)
    if kind == "split":
        index = number - 1 if number > 0 else len(parts) + number
        return parts[index] if 0 <= index < len(parts) else ""
    if len(parts) <= abs(number):
        return row
    return delimiter.join(parts[:number] if number > 0 else parts[number:])


def cut_to_32_bits(number):
    return (number + 2**31) % 2**32 - 2**31


def difference_class(request, answer):
    """The cause that yields the server's answer exactly, if one is known."""
    if request.kind in ("split", "index"):
        cut = cut_to_32_bits(request.number)
        explained = answer == counted_from_the_left(*request[:3], cut)
        if explained and cut != request.number:
            return "the number is cut to 32 bits"
        if explained and request.number < 0:
            return "a negative number counts occurrences found from the left"
    return "NOT EXPLAINED"


def group_differences(requests, answers):
    classes = defaultdict(list)
    for line_number, answer in answers.items():
        request = requests[line_number]
        if answer != request.answer:
            classes[difference_class(request, answer)].append((request, answer))
    return classes


def simplest_examples(differences):
    """One request for each number, so that the examples are unlike: the
    shortest, but rather one where the server does not answer empty."""

    def simplicity(difference):
        request, answer = difference
        return (answer == "", len(request.row + request.pattern), request)

    shown = {}
    for request, answer in sorted(differences, key=simplicity):
        shown.setdefault(request.number, (request, answer))
    return list(shown.values())[:EXAMPLES_SHOWN]


def report(server, requests, answers):
    classes = group_differences(requests, answers)
    different = sum(len(differences) for differences in classes.values())
    print(f"compared {len(answers)}, the same {len(answers) - different}, "
          f"different {different}, not comparable {len(requests) - len(answers)}")
    for name, differences in sorted(classes.items()):
        print(f"  {len(differences)} different: {name}")
        for request, answer in simplest_examples(differences):
            print(f"    {request.kind}({request.row!r}, {request.pattern!r}, {request.number}): "
                  f"list {request.answer!r}, {server} {answer!r}")


def main():
    if len(sys.argv) < 5:
        sys.exit(__doc__)
    list_path, answers_path, server = sys.argv[1:4]
    kinds = sys.argv[4:]
    requests = read_list(list_path, kinds)
    answers = {line: text for line, text in read_answers(answers_path).items() if line in requests}
    if not answers:
        sys.exit(f"compare.py: {server} answered nothing")
    print(f"{server}, {' '.join(kinds)}: ", end="")
    report(server, requests, answers)


if __name__ == "__main__":
    main()

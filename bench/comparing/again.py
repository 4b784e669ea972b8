#!/usr/bin/env python3
"""Asks a program again for what it keeps: again.py PROGRAM [LIBRARY] [DOCUMENTS] [SEED].

Each of DOCUMENTS random documents over examples/ (2,000 if left out) is asked with up to four values of its variables, each twice, with the
others in between, alone and in arrays: so its document and its plans are kept, and used again. Each answer is that of a run to which every
text is new, since a comment at its end tells it from all others. The ways are those of builds.py, and the library for C, if it is given,
with one client for all and with one for each line. It prints what differs, the last line counts, and the status is 1 where something does.
"""
import json
import os
import random
import sys

sys.dont_write_bytecode = True

from builds import MODES, answers  # noqa: E402
from compare import EXAMPLES, NAMES, Request  # noqa: E402

CLIENT = os.path.join(EXAMPLES, "..", "clients", "python")
sys.path.insert(0, CLIENT)


def several_values(request, values):
    """The values that a document was written with, and up to three others of the same variables."""
    others = [{name: request.given(request.variables[name][0]) for name in values if name in request.variables} for _ in range(3)]
    return [values, *(it for at, it in enumerate(others) if it not in [values, *others[:at]])]


def groups(draw, count):
    """For each document, what is asked one after the other: a request is its text and its values."""
    for _ in range(count):
        request = Request(draw)
        query, values = request.written()
        asked = [(query, it) for it in several_values(request, values)]
        yield asked + draw.sample(asked, len(asked))


def lines_of(draw, count):
    """The lines with texts that come again, and the same lines with texts that don't."""
    again, new = [], []
    for asked in groups(draw, count):
        while asked:
            size = draw.randint(2, 4) if draw.random() < 0.15 else 1
            now, asked = asked[:size], asked[size:]
            known = [{"query": query, "variables": values} for query, values in now]
            alone = [{**it, "query": f"{it['query']}\n#{len(new)}.{at}"} for at, it in enumerate(known)]
            again.append(json.dumps(known if size > 1 else known[0]))
            new.append(json.dumps(alone if size > 1 else alone[0]))
    return again, new


def by_library(library, lines, *, alone):
    """The answers over the library for C, to the lines one after the other: of one client that starts again, or alone, of a client for each."""
    from answer_worlds import answer, read_table, read_text
    from rudzkvano import Library, Server

    schema, bindings = (read_text(f"{EXAMPLES}/{name}") for name in ("schema.graphql", "bindings.txt"))
    tables = {name: read_table(f"{EXAMPLES}/{name}.csv") for name in NAMES}

    def answered(client, line):
        client.begin(line)
        return answer(client, tables)

    def answered_alone(server, line):
        with server.client({}) as client:
            return answered(client, line)

    def answered_again(client, line):
        client.restart()
        return answered(client, line)

    with Server(schema, bindings, Library(library)) as server, server.client({}) as client:
        return [answered_alone(server, line) if alone else answered_again(client, line) for line in lines]


def differing(ways, again, new):
    """The ways in which some line is answered otherwise where its text came before, each with the first such line."""
    for name, answered in ways:
        kept, alone = answered(again), answered(new)
        wrong = [line for line, one, other in zip(again, kept, alone, strict=True) if one != other]
        if wrong or len(kept) != len(again):
            yield name, wrong[:1]


def main():
    words = sys.argv[1:]
    program = os.path.abspath(words.pop(0))
    library = os.path.abspath(words.pop(0)) if words and not words[0].isdigit() else None
    count, seed = (int(it) for it in [*words, *["2000", "1"][len(words) :]])
    again, new = lines_of(random.Random(seed), count)

    def by_program(mode):
        return lambda lines: answers(program, "".join(it + "\n" for it in lines).encode(), mode)[1].splitlines()

    ways = [(mode or "no options", by_program(mode)) for mode in MODES]
    if library:
        ways.append(("the library for C", lambda lines: by_library(library, lines, alone=False)))
        ways.append(("the library for C, a client for each line", lambda lines: by_library(library, lines, alone=True)))
    wrong = list(differing(ways, again, new))
    for name, first in wrong:
        print("differs with", name, *first)
    print(f"seed {seed}: {count} documents in {len(again)} lines; {len(ways)} ways, {len(wrong)} differ")
    return 1 if wrong else 0


if __name__ == "__main__":
    sys.exit(main())

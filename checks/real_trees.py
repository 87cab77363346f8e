"""How an index of a folder as it lies, by `index --real`, is compared, and how those of its parts are: what
`try_packages` and `try_accept` share.

Needs what packages.py needs.
"""

import collections
import os
import random
import re

from packages import PROGRAM, SYMBOL, Told, occurrences_in, run, see_source, sources_below, text_of
from pair_options import rows_of_bytes, words_of
from pair_runs import has_fronts
from protoc_options import Schema, descriptor_of_options, options_of, see_options

DESCRIPTOR = "google/protobuf/descriptor.proto"
FRONT = re.compile(re.escape(SYMBOL) + "`([^`]+)`/(.+)")


def without_front(symbol):
    """The file that a declaration's symbol has in front, if any, and the symbol without it."""
    front = FRONT.fullmatch(symbol)
    return (front[1], SYMBOL + front[2]) if front else (None, symbol)


def see_real(verdicts, name, root, included, protoc, room):
    """Indexes a root by `--real`: each source that protoc can read is there, with protoc's own definitions and targets,
    and each of its options has protoc's fields. No symbol is that of two declarations; one has a file in front only if
    it is that of what this file declares."""
    index = os.path.join(room, "index")
    done = run([PROGRAM, "index", "--real", *(f"--include={folder}" for folder in included), root, index])
    verdicts.see(f"{name}: --real: status", done.returncode == 0, (done.returncode, done.stderr))
    told = Told(b"\n".join(line for line in done.stderr.splitlines() if b" nowhere" not in line))
    documents, defined = occurrences_in(text_of(index)), collections.defaultdict(list)
    for path, occurrences in documents.items():
        for _, symbol, roles in occurrences:
            if roles & 1 and not symbol.endswith("/"):
                defined[symbol].append(path)
    twice = {symbol: paths for symbol, paths in defined.items() if len(paths) > 1}
    verdicts.see(f"{name}: --real: a symbol is that of one declaration", not twice, twice)
    schema, count = Schema([descriptor_of_options(room), *protoc.records.values()]), 0
    for path, descriptor in protoc.found.items():
        verdicts.see(f"{name}: --real: {path}: indexed", path in documents, told.skipped.get(path))
        options, shown, named, wrong = options_of(descriptor), [], set(), []
        spans = [option.span for option in options]
        for place, symbol, roles in documents.get(path, ()):
            file, plain = without_front(symbol)
            start, end = descriptor.span(place)
            is_in_option = not roles and any(first <= start < behind for first, behind in spans)
            owners = [path if roles & 1 else protoc.owners[path].get(plain)]
            # The options' messages are those of this file, which protoc needs not be given.
            owners += [DESCRIPTOR] * is_in_option
            if file not in (None, *owners) or not roles and symbol in defined and defined[symbol][0] not in owners:
                wrong.append((place, symbol, owners))
            if is_in_option:
                named.add((start, end, plain))
            else:
                shown.append((place, plain, roles))
        verdicts.see(f"{name}: --real: {path}: files in front", not wrong, wrong)
        gaps = [gap for gap in told.gaps if gap[0] == path and gap[2] != "MissingImport"]
        verdicts.see(f"{name}: --real: {path}: without a target", not gaps, gaps)
        see_source(verdicts, f"{name}: --real", descriptor, shown, told, protoc.symbols)
        see_options(verdicts, f"{name}: --real", descriptor, options, named, schema)
        count += len(options)
    print(f"  --real: {len(documents)} sources indexed, {len(told.skipped)} skipped; protoc reads {len(protoc.found)}, "
          f"with {count} options", flush=True)


def see_parts(verdicts, name, root, included, room, count=4):
    """Cuts a root's sources by chance, and indexes each part: joined, that is the one run, if nothing is told of that,
    and no name is declared by several files. This with each option that changes what is indexed, of proto2, too."""
    tried, differing, listed = 0, 0, os.path.join(room, "part.list")
    for row in rows_of_bytes():
        row = row if "--real" in row else {"--accept": ("all",), **row}
        words = [*words_of(row), *(f"--include={folder}" for folder in included), root]
        whole, parts, wrong = os.path.join(room, "whole"), [], []
        done = run([PROGRAM, "index", *words, whole])
        if done.returncode != 0 or done.stderr or has_fronts(text_of(whole)):
            continue
        paths = sources_below(root)
        random.Random(len(paths)).shuffle(paths)
        for number in range(count):
            with open(listed, "w", encoding="utf-8") as file:
                file.writelines(f"{path}\n" for path in paths[number::count])
            parts.append(os.path.join(room, f"part.{number}"))
            done = run([PROGRAM, "index", f"--sources={listed}", *words, parts[-1]])
            wrong += done.stderr.decode().splitlines()
        joined = os.path.join(room, "joined")
        done = run([PROGRAM, "join", joined, *parts])
        is_same = done.returncode == 0 and text_of(joined) == text_of(whole)
        tried, differing = tried + 1, differing + (not is_same or bool(wrong))
        verdicts.see(f"{name}: {' '.join(words_of(row))}: {count} parts", is_same and not wrong,
                     (f"{len(wrong)} lines", wrong[:3], done.stderr))
    print(f"  in {count} parts: {tried} sets of options without a fault, of which {differing} differ", flush=True)

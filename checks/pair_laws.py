"""The laws of `try_pairs`. Each takes a room (pair_runs.py), a tree, a row of options, and a source of chance; it gives
what is wrong, or None, or False where it says nothing of this tree and row. Those about what is told: pair_tellings.py.

Needs python3 alone.
"""

import collections
import re
import shutil

from packages import fields, numbers
from pair_options import LIMITS, SILENT, but, plain, spelled, words_of
from pair_runs import (
    clean_row, difference, documents, edited, encoded, has_fronts, is_clean, listed, named, occurrences, source)
from pair_trees import File, Tree, is_utf8
from pair_tellings import LAWS_OF_WHAT_IS_TOLD

# What --details adds to an occurrence and to the entry of a symbol.
DETAILS = {2: {2: {7: None}, 3: {5: None, 7: None, 8: None}}, 3: {5: None, 7: None, 8: None}}


# ---- what changes nothing


def same_elsewhere(room, tree, row, _):
    """In another folder, whose files were made in another order, a run is the same."""
    copy = Tree(tree.files)
    room.place(copy, True)
    return difference(room.index(tree, row), room.index(copy, row)) or room.free(copy)


def same_for_workers(room, tree, row, _):
    """One thread does what several do."""
    return difference(*(room.index(tree, but(row, workers=count)) for count in ("1", "4")))


def silent_words(room, tree, row, _):
    """What is for people alone changes no byte of the index, and no status."""
    full, less = room.index(tree, row), room.index(tree, but(row, *SILENT, workers="1"))
    return difference((full.status, full.out), (less.status, less.out)) or difference(full.index, less.index)


def explain_adds_lines(room, tree, row, _):
    """--explain only adds lines, and where there is no terminal, --no-explain takes none away."""
    less, full = (room.index(tree, plain(row, **more)) for more in ({}, {"explain": ()}))
    rest = iter(full.err.splitlines())
    if not all(line in rest for line in less.err.splitlines()):
        return f"{less.err} is not in {full.err}"
    both = room.index(tree, plain(row, explain=(), no_explain=()))
    return difference(less, room.index(tree, plain(row, no_explain=()))) or difference(full, both)


def real_is_spelled(room, tree, row, _):
    """--real is what it stands for."""
    if "--real" not in row:
        return False
    full, less = room.index(tree, row), room.index(tree, spelled(row))
    return difference(full.status, less.status) or difference(full.index, less.index)


def lenient_words(room, tree, row, _):
    """A word that takes more changes nothing of a tree of which nothing is refused without it."""
    row = plain(spelled(row), faulty="refuse", options="skip")
    for name, strict, more in (("--accept", "proto3", "all"), ("--custom-options", "refuse", "skip"),
                               ("--duplicates", "refuse", "keep"), ("--faulty", "refuse", "skip")):
        less = room.index(tree, {**row, name: (strict,)})
        found = less.status == 0 and difference(less, room.index(tree, {**row, name: (more,)}))
        if found:
            return f"{name}: {found}"
    return None


def unreached_is_nothing(room, tree, row, _):
    """An included file to which no import leads, from the sources or from descriptor.proto, has no effect."""
    less = tree.without(tree.unreached())
    if tree.links() or len(less.files) == len(tree.files):
        return False
    return difference(room.index(tree, plain(row)), room.index(less, plain(row))) or room.free(less)


def excluded_is_gone(room, tree, row, _):
    """What is excluded is as if it weren't there."""
    if "--exclude" not in row or "--sources" in row or tree.links():
        return False
    gone = {"gen": rb"(.*/)?gen(/.*)?", "*_x.proto": rb"(.*/)?[^/]*_x\.proto|c/.*"}[row["--exclude"][0]]
    less = tree.without({path for path in tree.files if re.fullmatch(gone, path.split(b"/", 1)[1], re.S)})
    return difference(room.index(tree, plain(row)), room.index(less, plain(row, "--exclude"))) or room.free(less)


def links_are_what_they_lead_to(room, tree, row, _):
    """A link is what it leads to, if links are followed, and else as if it weren't there."""
    row, copy, less = plain(row, "--links", "--sources"), tree.followed(), tree.without(tree.links())
    if copy is None or not tree.links():
        return False
    return difference(room.index(copy, row), room.index(tree, but(row, links="follow"))) or difference(
        room.index(less, row), room.index(tree, row)) or room.free(copy, less)


def join_of_one(room, tree, row, _):
    """The join of one index is that index."""
    done = room.index(tree, plain(row))
    if done.status != 0:
        return False
    joined, said = room.joined(tree, [done.index])
    return said or difference(done.index, joined)


def texts_have_one_encoding(room, tree, row, _):
    """An index of texts in another encoding isn't joined; one that says none is."""
    done = room.index(tree, plain(row))
    if done.status != 0:
        return False
    for encoding, wanted in ((2, b"OtherEncoding"), (0, None)):
        other = edited(done.index, {1: {4: lambda _, value=encoding: value}, 2: None})
        joined, said = room.joined(tree, [done.index, other])
        if wanted is None and joined != done.index or wanted and wanted not in (said or "").encode():
            return f"text encoding {encoding}: {said or 'it is joined'}"
    return None


# ---- what only adds


def details_only_add(room, tree, row, _):
    """An index without details is that with them, less them."""
    less, full = (room.index(tree, plain(spelled(row), "--details", **more)) for more in ({}, {"details": ()}))
    if less.status or full.status:
        return difference(less, full)
    return difference(less.index, edited(full.index, DETAILS))


def options_only_add(room, tree, row, _):
    """An index without names in options is that with them, less what occurs in options and what only they name."""
    row = clean_row(room, tree, plain(spelled(row), accept="all", options="link", faulty="refuse"))
    if row is None:
        return False
    full, less = room.index(tree, row), room.index(tree, but(row, options="skip"))
    if less.status or has_fronts(full.index):
        return difference(full.status, less.status) or False
    known = {path: set(document[2]) for path, document in documents(less.index)}

    def without(document):
        kept = known.get(fields(document)[1][-1], ())
        return edited(document, {2: lambda each: each if each in kept or fields(each)[3] else None})
    external = set(fields(less.index)[3])
    return difference(less.index, edited(full.index, {2: without, 3: lambda each: each if each in external else None}))


def well_known_adds(room, tree, row, _):
    """The well-known files take nothing away from a tree that has no fault without them, nor with them."""
    less, full = (plain(spelled(row), "--well-known", accept="all", options="link", **more)
                  for more in ({}, {"well_known": ()}))
    if not is_clean(room, tree, less) or not is_clean(room, tree, full):
        return False
    places = [{(path, place, roles) for path, place, _, roles in named(room.index(tree, each).index)}
              for each in (less, full)]
    gone = sorted(places[0] - places[1])
    return f"not there with --well-known: {gone[:6]}" if gone else None


def only_leaves_out(room, tree, row, _):
    """With --only there is nothing that isn't there without."""
    less, full = room.index(tree, plain(row, only="p")), room.index(tree, plain(row, "--only"))
    if less.status or full.status:
        return difference(less.status, full.status)
    return difference(listed(less.index) - listed(full.index), collections.Counter())


def odd_braces_keep_names(room, tree, row, _):
    """What is no field at the end of an option's braces takes no name away."""
    row = plain(spelled(row), accept="all", options="link", faulty="skip")
    files = {path: File([re.sub(rb"(= \{.*) \};$", rb"\1 1: 5 };", line) for line in file.lines], file.link,
                        file.is_closed) for path, file in tree.files.items()}
    if all(file.lines == files[path].lines for path, file in tree.files.items()):
        return False
    odd = Tree(files)
    less, full = room.index(odd, row), room.index(tree, row)
    room.free(odd)
    if less.status or full.status:
        return difference(less.status, full.status)
    gone = sorted(named(full.index) - named(less.index))
    return f"gone: {gone[:6]}" if gone else None


# ---- what agrees


def names_are_moved(room, tree, row, _):
    """Of another place, root or package only the names of these differ."""
    row = plain(row, "--at", "--project-root", "--manager")
    full = but(row, at="root", project_root="file:///here", manager=("m", "--package", "n", "--release", "v"))
    less, full = room.index(tree, row), room.index(tree, full)
    if less.status or full.status:
        return difference(less.status, full.status)

    def symbol(text):
        return text.replace(b"scip-protobuf m n v ", b"scip-protobuf . . . ").replace(b" `root/", b" `")
    entry = {1: symbol, 8: symbol}
    document = {1: lambda path: path.removeprefix(b"root/"), 2: {2: symbol}, 3: entry}
    moved = edited(full.index, {1: lambda _: fields(less.index)[1][-1], 2: document, 3: entry})
    return difference(listed(less.index), listed(moved))



def units_are_moved(room, tree, row, _):
    """With the other unit only columns differ, and lead to the same characters."""
    less, full = room.index(tree, plain(row, "--positions")), room.index(tree, plain(row, positions="utf16"))
    if less.status or full.status:
        return difference(less, full)

    def moved(document):
        lines = source(tree, fields(document)[1][-1], row).split(b"\n")

        def span(value):
            found = numbers([value])
            for at, line in ((1, found[0]), (len(found) - 1, found[-2] if len(found) == 4 else found[0])):
                text = lines[line][:found[at]].decode("utf-8", "surrogateescape")
                found[at] = sum(1 + (character > "\uffff") for character in text)
            return b"".join(map(encoded, found))
        return edited(document, {2: lambda each: edited(each, {1: span, 7: span}), 6: lambda _: 2})
    return difference(full.index, edited(less.index, {2: moved}))


def parts_are_the_whole(room, tree, row, chance):
    """A list of sources is cut, at each or by chance, each part indexed, and these are joined: that is the one run."""
    row = clean_row(room, tree, row)
    whole = row and room.index(tree, row)
    # A part knows no other declarations of a name than those that its sources reach.
    if not row or has_fronts(whole.index):
        return False
    front = len(row["--at"][0].encode()) + 1 if "--at" in row else 0
    paths = [path[front:] for path, _ in documents(whole.index)]
    chance.shuffle(paths)
    for cuts in range(1, len(paths)), sorted(chance.choices(range(len(paths) + 1), k=chance.randint(1, 3))):
        parts = []
        for start, end in zip([0, *cuts], [*cuts, len(paths)]):
            room.put(tree, "part.list", b"".join(path + b"\n" for path in paths[start:end]))
            done = room.index(tree, but(row, sources="../part.list"), is_new=True)
            if done.status != 0 or done.err:
                return f"the part {paths[start:end]}: status {done.status}, {done.err.decode()}"
            parts.append(done.index)
        joined, said = room.joined(tree, parts)
        wrong = said or difference(whole.index, joined)
        if wrong:
            return wrong
    return None


def questions(index, chance):
    """Commands of `query` about some places of each document, and about names."""
    lines = []
    for path, document in documents(index):
        found = list(occurrences(document))
        for place, symbol, _ in chance.sample(found, min(3, len(found))):
            at = b"%d %d %s" % (place[0], place[1], path)
            lines += [b"def " + at, b"ref " + at, b"doc " + at, b"sig " + at,
                      b"pos %s:%d:%d" % (path, place[0] + 1, place[1] + 1),
                      b"find " + re.findall(rb"\w+", symbol)[-1][:2]]
        lines += [b"sym " + path, b"out " + path]
    return b"\n".join([*lines, b"def 0 9999 a.proto", b"nonsense", b""])


def shell_answers(room, tree, row, chance):
    """`shell` answers as `query` does about the index, and says what `index` says."""
    row = but(row, *LIMITS, "--quiet", "--sync", "--report")
    done = room.index(tree, row)
    if done.status != 0:
        return False
    asked = questions(done.index, chance)
    shell = room.command(tree, "shell", "--more", *words_of(row), "root", stdin=asked)
    query = room.command(tree, "query", "--more", room.put(tree, "asked", done.index), stdin=asked)
    return difference((query.returncode, done.err, query.stdout), (shell.returncode, shell.stderr, shell.stdout))


def is_shown(room, tree, row, _):
    """`snapshot` and `pages` take an index whole, and show the same for both units."""
    at = row.get("--at", ("",))[0]
    less, full = room.index(tree, plain(row, "--positions")), room.index(tree, plain(row, positions="utf16"))
    if less.status or full.status or at not in ("", "root"):
        return False
    root, shown, is_text = "." if at else "root", [], {}
    for path, _ in documents(less.index):
        is_text[path] = is_utf8(source(tree, path, row))
    told = b"".join(b"protoscip: %s: NotText\n" % path for path, is_good in is_text.items() if not is_good)
    for index in (less.index, full.index):
        name = room.put(tree, "asked", index)
        done = room.command(tree, "snapshot", name, root)
        shown.append((done.returncode, done.stderr, done.stdout))
    pages = room.command(tree, "pages", name, root, "../pages")
    shutil.rmtree(room.beside(tree, "pages"), ignore_errors=True)
    is_empty = bool(is_text) and not any(is_text.values())
    wrong = pages.returncode != 3 * is_empty or not is_empty and pages.stderr != told
    wrong = f"pages: status {pages.returncode}, {pages.stderr.decode()}" if wrong else None
    return difference((0, told), shown[0][:2]) or difference(*shown) or wrong


def roots_stay_apart(room, tree, row, _):
    """Of two roots that are joined, an import leads where it led in the index of its own root."""
    row, parts = plain(row, "--sources", "--project-root", "--include", faulty="skip"), []
    for root in ("root", "inc"):
        done = room.index(tree, but(row, at=root), root)
        if done.status != 0:
            return False
        parts.append(done.index)
    joined, said = room.joined(tree, parts)
    if said:
        return said
    for part in parts:
        asked = [b"def %d %d %s\n" % (*place[:2], path) for path, document in documents(part)
                 for place, _, roles in occurrences(document) if roles & 2]
        answers = [re.split(rb"= \d+\n", room.command(tree, "query", room.put(tree, "asked", index),
                                                      stdin=b"".join(asked)).stdout) for index in (part, joined)]
        for line, alone, both in zip(asked, *answers):
            if alone and alone != both:
                return f"{line}: {alone} alone, {both} in the join"
    return None


LAWS = (same_elsewhere, same_for_workers, silent_words, explain_adds_lines, real_is_spelled, lenient_words,
        unreached_is_nothing, excluded_is_gone, links_are_what_they_lead_to, join_of_one, texts_have_one_encoding,
        details_only_add, options_only_add, well_known_adds, odd_braces_keep_names, only_leaves_out, names_are_moved,
        units_are_moved, parts_are_the_whole, shell_answers, is_shown, roots_stay_apart, *LAWS_OF_WHAT_IS_TOLD)

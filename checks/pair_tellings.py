"""The laws of `try_pairs` about what a run tells, reports and refuses, as those in pair_laws.py.

Needs python3 alone; protoc, where it is there.
"""

import collections
import json
import os
import re
from urllib.parse import unquote_to_bytes

from pair_options import but, has, plain, spelled, words_of
from pair_runs import difference, documents, folders, named, occurrences, source
from pair_trees import WELL_KNOWN, File, Tree, is_utf8

BAD_LIST = re.compile(rb"\.list:\d+: (BadPath|NotUtf8)\n")
OPTION = re.compile(rb"\boption \(?\.?(\w+)")
COMMENT = re.compile(rb"(\"(?:\\.|[^\"\\\n])*\"|'(?:\\.|[^'\\\n])*')|//[^\n]*|/\*.*?\*/", re.DOTALL)


def skip_refuses_nothing(room, tree, row, _):
    """With `skip` no source and no entry refuses a run. A run that is done leaves an index, and any other none."""
    done = room.index(tree, row)
    if (done.index is None) != (done.status != 0) or done.out:
        return f"status {done.status}, index {done.index is not None}, standard output {done.out}"
    less = room.index(tree, plain(row))
    if has(row, "--faulty", "skip") and less.status != 0 and not BAD_LIST.search(less.err):
        return f"status {less.status}: {less.err.decode()}"
    return None


def counts_agree(room, tree, row, _):
    """Each thing is told once; the numbers are those of the lines and the documents; the limits count alike."""
    row = plain(row, faulty="skip")
    done = room.index(tree, row)
    if done.status != 0:
        return False
    lines, counts = done.told()
    kinds = collections.Counter(line[4] if line[1] == b"no target" else line[1] for line in lines)
    known = [line[0] for line in lines if line[4] != b"Unreadable"]
    if len(set(known)) != len(known):
        return f"told twice: {known}"
    skipped, sources = kinds[b"skipped"], len(documents(done.index))
    uses = kinds[b"Unresolved"] + kinds[b"Ambiguous"] + kinds[b"Option"]
    if lines and counts != (sources, skipped, kinds[b"MissingImport"], uses):
        return f"the numbers are {counts}: {done.err.decode()}"
    for limit, number, is_broken in (("max_skipped", skipped, False), ("max_skipped", skipped - 1, True),
                                     ("min_sources", sources, False), ("min_sources", sources + 1, True)):
        status = number >= 0 and room.index(tree, but(row, **{limit: str(number)})).status
        if number >= 0 and status != is_broken:
            return f"--{limit} {number}: status {status}, {done.err.decode()}"
    return None


def unreadable_are_told(room, tree, row, _):
    """Each path that can't be read is told, and each entry whose name isn't UTF-8."""
    if "--sources" in row or "--exclude" in row or tree.links():
        return False
    done = room.index(tree, plain(row, faulty="skip"))
    entries = {entry for entry in tree.unreadable().values() if entry.split(b"/")[0].decode() in folders(row)}
    paths = [entry.split(b"/", 1)[1] for entry in entries]
    paths = [path for path in paths if not is_utf8(path)] + list(set(filter(is_utf8, paths)))
    shown = sorted(path.decode("utf-8", "backslashreplace") for path in paths)
    found = sorted(line[2].decode() for line in done.told()[0] if line[4] == b"Unreadable")
    return None if found == shown else f"{paths} can't be read; told: {done.err.decode()}"


def refuse_finds_what_skip_tells(room, tree, row, _):
    """The report of a refused run has just what the report of `skip` has; if nothing is refused, nothing is told."""
    row = plain(row, report="../report")
    refused, skipped = (room.index(tree, but(row, faulty=word)) for word in ("refuse", "skip"))
    if refused.status == 0 and b"skipped" not in skipped.err:
        return difference(refused.index, skipped.index) or (skipped.told()[0] and skipped.err.decode()) or None
    found, wanted = (collections.Counter((each["name"], each["path"], each["offset"], each["message"])
                                         for each in done.found()[0]) for done in (refused, skipped))
    if refused.status != 1 or skipped.status != 0 or any(name in ("BadPath", "TooMany") for name, *_ in found):
        return False
    more, less = sorted((found - wanted).elements()), sorted((wanted - found).elements())
    return f"only with refuse: {more[:4]}, only with skip: {less[:4]}" if more or less else None


def report_is_what_is_told(room, tree, row, _):
    """A report has the lines of standard error, and their numbers; its two forms have the same."""
    done, sarif = (room.index(tree, plain(row, report=("../report", *more)))
                   for more in ((), ("--report-format", "sarif")))
    if done.status not in (0, 1) or done.report is None:
        return False
    (lines, counts), (found, last) = done.told(), done.found()
    if last["kind"] != "counts" or last["status"] != done.status:
        return f"status {done.status}, and the report ends with {last}"
    if counts:
        told = [(line[1].decode(), line[2].decode(), line[3] and int(line[3])) for line in lines]
        wrong = difference(told, [(each["kind"], each["path"], each["offset"]) for each in found])
        wrong = wrong or difference(counts, tuple(last[name] for name in ("sources", "skipped", "imports", "uses")))
        if wrong:
            return wrong
    results = json.loads(sarif.report)["runs"][0]["results"]
    return difference([each["name"] for each in found], [each["ruleId"] for each in results])


def report_leads_to_files(room, tree, row, _):
    """The paths of a report lead to files, and it doesn't say of a file that it isn't there."""
    row = plain(row, "--sources")
    found = room.index(tree, but(row, report="../report")).found()[0]
    sarif = room.index(tree, but(row, report=("../report", "--report-format", "sarif"))).report
    if not found or "--exclude" in row or tree.links():
        return False
    paths = {path.split(b"/", 1)[1] for path in tree.files if path.split(b"/")[0].decode() in folders(row)}
    for each in found:
        if each["name"] == "MissingImport" and each["import"].encode() in paths and each["message"].startswith("no "):
            return f"{each['path']}: {each['import']} is there, and the report says: {each['message']}"
    paths |= {path.split("/", 2)[2].encode() for path in WELL_KNOWN}
    for each in json.loads(sarif)["runs"][0]["results"]:
        for location in each.get("locations", ()):
            uri = location["physicalLocation"]["artifactLocation"]["uri"]
            front = unquote_to_bytes(uri).rstrip(b"/") + b"/"
            if uri not in folders(row) and not any((path + b"/").startswith(front) for path in paths):
                return f"the URI {uri} leads to no file"
    return None


def uncommented(text):
    """The text with spaces for its comments."""
    return COMMENT.sub(lambda found: found[1] or re.sub(rb"[^\n]", b" ", found[0]), text)


def options_are_named_or_told(room, tree, row, _):
    """The name of an option is named or told, since there is a file with the messages of options."""
    row = plain(spelled(row), "--only", "--positions", "--exclude", accept="all", options="link", faulty="skip",
                well_known=())
    done = room.index(tree, row)
    if done.status != 0 or b"descriptor.proto" in done.err:
        return False
    told = {(line[2], int(line[3])) for line in done.told()[0] if line[3]}
    for path, document in documents(done.index):
        text = uncommented(source(tree, path, row))
        below = path[len(row["--at"][0].encode()) + 1 if "--at" in row else 0:]
        places = {place[:2] for place, _, _ in occurrences(document)}
        for found in OPTION.finditer(text):
            start = found.start(1)
            place = text.count(b"\n", 0, start), start - text.rfind(b"\n", 0, start) - 1
            if place not in places and not any((below, at) in told for at in range(found.start(), found.end())):
                return f"{path.decode()}, line {place[0] + 1}: {found[0].decode()} is neither named nor told"
    return None


def what_is_certain_stays(room, tree, row, _):
    """If what can't be read is mended, each name still names the same, but where it was told uncertain."""
    row = plain(row, "--sources", "--positions", faulty="skip", report="../report")
    mended = tree.mended()
    if mended is None:
        return False
    before, after = room.index(tree, row), room.index(mended, row)
    room.free(mended)
    if before.status or after.status or {each["name"] for each in after.found()[0]} - {"MissingImport", "Unresolved",
                                                                                       "Option", "Unreadable"}:
        return False
    gaps = [(each["path"], each["offset"], each["end"]) for each in before.found()[0] if each["end"]]
    later = collections.defaultdict(set)
    for path, place, symbol, _ in named(after.index):
        later[path, place].add(symbol)
    for path, place, symbol, roles in sorted(named(before.index)):
        if roles or symbol in later[path, place]:
            continue
        start = sum(len(line) + 1 for line in source(tree, path, row).split(b"\n")[:place[0]]) + place[1]
        below = path.decode().removeprefix(row.get("--at", ("",))[0]).lstrip("/")
        if not any(other == below and first <= start < end for other, first, end in gaps):
            return (f"{path.decode()} at {place}: {symbol.decode()} now, {later[path, place]} once mended; told: "
                    f"{before.err.decode()}")
    return None


def out_is_refused_if_read(room, tree, row, chance):
    """OUT is refused as a source just if it was read: if the run is another one when nobody may read it. With a list,
    so is one with the path of a file that was. (A path with a control character is told as BadPath or Unreadable.)"""
    row = plain(row, faulty="skip")
    hidden = {path.split(b"/", 1)[1] for path in tree.unreadable()}
    files = sorted(path for path in tree.files if path.split(b"/", 1)[1] not in hidden)
    if tree.links() or not files or any(set(path) & set(range(32)) for path in files):
        return False
    below = [path.split(b"/", 1)[1] for path in files]
    files = [path for path in files if below.count(path.split(b"/", 1)[1]) > 1] or files
    for path in chance.sample(files, min(2, len(files))):
        closed, copy = Tree({**tree.files, path: File(tree.files[path].lines, is_closed=True)}), Tree(tree.files)
        is_read = difference(room.index(tree, row), room.index(closed, row)) is not None
        done = room.command(copy, "index", *words_of(row), "root", path)
        room.free(closed, copy)
        is_refused = done.returncode == 3 and done.stderr.endswith(b"IsSource\n")
        may_be = is_refused and "--sources" in row and below.count(path.split(b"/", 1)[1]) > 1
        if done.returncode in (0, 3) and is_refused != is_read and not may_be:
            return f"OUT is {path}, which is {'' if is_read else 'not '}read: {done.returncode}, {done.stderr.decode()}"
    return None


def what_protoc_takes_is_good(room, tree, row, _):
    """Of a source that protoc takes nothing is told by --real, with the same folders, but of a file of another folder
    with its path that can't be read; and an option, if descriptor.proto can't be read."""
    if "--exclude" in row or tree.links() or not room.protoc:
        return False
    row = plain(row, "--accept", "--custom-options", "--sources", "--options", "--faulty", "--duplicates", real=(),
                include=("inc", "--include", "more"))
    done = room.index(tree, but(row, "--include-package"))
    unread = (b": Unreadable",)
    if any(path.endswith(b"/google/protobuf/descriptor.proto") for path in tree.unreadable()):
        unread += (b": Option",)
    told = {line[2].decode(): line[0].decode() for line in done.told()[0] if not line[0].endswith(unread)} \
        if done.status == 0 else {}
    for path in sorted(told):
        if os.path.exists(os.path.join(tree.at, "root", path)) and room.is_taken_by_protoc(tree, path):
            return f"protoc takes {path}: {told[path]}"
    return None if told else False


LAWS_OF_WHAT_IS_TOLD = (
    skip_refuses_nothing, counts_agree, unreadable_are_told, refuse_finds_what_skip_tells, report_is_what_is_told,
    report_leads_to_files, options_are_named_or_told, what_is_certain_stays, out_is_refused_if_read,
    what_protoc_takes_is_good)

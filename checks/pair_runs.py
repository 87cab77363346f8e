"""Runs of the program for `try_pairs`, what they give, and what is in an index.

Needs python3 alone.
"""

import collections
import json
import os
import re
import shutil

from packages import field_at, fields, numbers, run, text_of
from pair_options import plain, words_of
from pair_trees import WELL_KNOWN, File, Tree

LINE = re.compile(rb"protoscip: (skipped|no target|uncertain): (.*?)(?:@(\d+))?(?:: (\w+)(?: of .*)?| behind .*)", re.S)
COUNTS = re.compile(rb"protoscip: (\d+) sources indexed, (\d+) skipped, (\d+) imports and (\d+) uses without a target")
# The file in front of a declaration that several files have.
FRONT = re.compile(rb"`[^`]+\.proto`/(?=.)")

# ---- indexes


def encoded(value):
    out = bytearray()
    while value > 127:
        out.append(value & 127 | 128)
        value >>= 7
    return bytes([*out, value])


def edited(data, edits):
    """A record, of which fields are left out (None), or changed, by a function or by further edits."""
    out, at = bytearray(), 0
    while at < len(data):
        number, kind, value, end = field_at(data, at)
        edit = edits.get(number, bytes)
        if edit is bytes:
            out += data[at:end]
        elif edit is not None:
            value = edited(value, edit) if isinstance(edit, dict) else edit(value)
            if value is not None:
                out += encoded(number << 3 | kind)
                out += encoded(value) if kind == 0 else encoded(len(value)) + value
        at = end
    return bytes(out)


def documents(data):
    """The documents of an index, each with its path."""
    return [(document[1][-1], document) for document in map(fields, fields(data)[2])]


def occurrences(document):
    """The places, symbols and roles of a document, with four numbers for each place."""
    for occurrence in map(fields, document[2]):
        span = numbers(occurrence[1])
        yield (tuple(span) if len(span) == 4 else (span[0], span[1], span[0], span[2]), occurrence[2][-1],
               occurrence[3][-1] if occurrence[3] else 0)


def named(data):
    """All that occurs: path, place, symbol, without the file in front, and roles."""
    return {(path, place, FRONT.sub(b"", symbol), roles)
            for path, document in documents(data) for place, symbol, roles in occurrences(document)}


def has_fronts(data):
    """Whether a name is declared by several files."""
    symbols = [symbol for _, document in documents(data) for _, symbol, _ in occurrences(document)]
    return any(map(FRONT.search, symbols + [fields(each)[1][-1] for each in fields(data)[3]]))


def listed(data):
    """All that is in an index, piece by piece."""
    found = collections.Counter([("metadata", *fields(data)[1]), *(("external", each) for each in fields(data)[3])])
    for path, document in documents(data):
        found.update([(path, *document[4], *document[6]), *((path, "entry", entry) for entry in document[3]),
                      *((path, *each) for each in occurrences(document))])
    return found


# ---- runs


class Done:
    """What a run gave."""

    def __init__(self, status, out, err, index, report):
        self.status, self.out, self.err, self.index, self.report = status, out, err, index, report

    def told(self):
        """The lines that say what an index lacks (paths may have line ends), and the numbers of the last one."""
        entries = re.split(rb"\n(?=protoscip: )", self.err.rstrip(b"\n"))
        counts = COUNTS.search(self.err)
        return list(filter(None, map(LINE.fullmatch, entries))), counts and tuple(map(int, counts.groups()))

    def found(self):
        """What a report of lines has, and its last line."""
        lines = [json.loads(line) for line in (self.report or b"null").decode().splitlines()]
        return lines[:-1], lines[-1]


class Room:
    """Where trees are written, and the program is run."""

    def __init__(self, program, folder):
        self.program, self.folder, self.trees, self.runs = program, folder, 0, 0
        known = Tree({path.encode(): File(text.encode().splitlines()) for path, text in WELL_KNOWN.items()})
        known.write(os.path.join(folder, "known"))
        binaries = os.path.join(folder, "known", "protoc", "bin")
        os.makedirs(binaries)
        with open(os.path.join(binaries, "protoc"), "w", encoding="utf-8") as protoc:
            os.chmod(protoc.name, 0o755)
        self.environment = {**os.environ, "PATH": binaries}
        self.protoc = shutil.which("protoc")

    def place(self, tree, backwards=False):
        """The folder of a tree, which is written where it isn't there yet."""
        if tree.at is None:
            self.trees += 1
            tree.write(os.path.join(self.folder, str(self.trees), "tree"), backwards)
        return tree.at

    def free(self, *trees):
        for tree in trees:
            if tree.at is not None:
                shutil.rmtree(os.path.dirname(tree.at), ignore_errors=True)
                tree.at = None

    def beside(self, tree, name):
        """A file beside the tree, which the program knows as `../name`."""
        return os.path.join(os.path.dirname(self.place(tree)), name)

    def put(self, tree, name, data):
        with open(self.beside(tree, name), "wb") as file:
            file.write(data)
        return f"../{name}"

    def got(self, tree, name):
        path = self.beside(tree, name)
        return text_of(path) if os.path.exists(path) else None

    def command(self, tree, *words, stdin=b""):
        self.runs += 1
        return run([self.program, *words], cwd=self.place(tree), input=stdin, env=self.environment)

    def index(self, tree, row, root="root", is_new=False):
        """A run of `index`. Each is made once, but for one that is to be new."""
        words = (*words_of(row), root)
        if is_new or words not in tree.runs:
            for name in ("index", "report"):
                if os.path.exists(self.beside(tree, name)):
                    os.remove(self.beside(tree, name))
            done = self.command(tree, "index", *words, "../index")
            tree.runs[words] = Done(done.returncode, done.stdout, done.stderr, self.got(tree, "index"),
                                    self.got(tree, "report"))
        return tree.runs[words]

    def is_taken_by_protoc(self, tree, path):
        places = "root", "inc", "more", os.path.join(self.folder, "known", "protoc", "include")
        return run([self.protoc, *(f"-I{folder}" for folder in places), f"--descriptor_set_out={os.devnull}",
                    f"root/{path}"], cwd=self.place(tree)).returncode == 0

    def joined(self, tree, parts):
        """The join of indexes, or what is said in its place."""
        paths = [self.put(tree, f"part.{number}", part) for number, part in enumerate(parts)]
        done = self.command(tree, "join", "../joined", *paths)
        return (self.got(tree, "joined"), None) if done.returncode == 0 else (None, f"join: {done.stderr.decode()}")


def difference(one, other):
    """What differs, in short, of two runs, indexes or other values."""
    if isinstance(one, Done):
        found = {name: difference(value, vars(other)[name]) for name, value in vars(one).items()}
        return next((f"{name}: {what}" for name, what in found.items() if what), None)
    if one == other:
        return None
    if isinstance(one, bytes) and isinstance(other, bytes) and one[:1] == other[:1] == b"\n":
        first, second = listed(one), listed(other)
        less, more = (sorted(map(str, each)) for each in (first - second, second - first))
        return f"{len(less)} only in the first: {less[:5]}, {len(more)} only in the second: {more[:5]}"
    return f"{str(one)[:500]} against {str(other)[:500]}"


# ---- what laws share


def source(tree, path, row):
    """The text of a document's source."""
    below = path.decode().removeprefix(row.get("--at", ("",))[0]).lstrip("/")
    return text_of(os.path.join(tree.at, "root", below))


def is_clean(room, tree, row):
    """Whether the tree has no fault with these options, so that nothing is told."""
    done = room.index(tree, plain(row, faulty="refuse"))
    return done.status == 0 and not done.err


def clean_row(room, tree, row):
    """The row, if the tree has no fault with it, or else with what takes and finds more; or None."""
    rows = plain(row), plain(row, accept="all", well_known=(), include=("inc", "--include", "more"))
    return None if tree.links() else next((each for each in rows if is_clean(room, tree, each)), None)


def folders(row):
    """The folders that a row searches."""
    return ["root", *(word for name in ("--include", "--include-package") for word in row.get(name, ())
                      if word in ("inc", "more"))]

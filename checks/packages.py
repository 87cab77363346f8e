"""Debian packages with .proto files, what protoc's descriptors say of these, and what an index has of them: what
`try_packages` and `try_accept` share.

Needs python3, apt-get, dpkg-deb and protoc (Debian: protobuf-compiler).
"""

import bisect
import collections
import glob
import os
import re
import subprocess
import tarfile
import tempfile

# What is included beside each package: a package, and a folder of it.
INCLUDED = (
    ("libprotobuf-dev", "usr/include"),
    ("golang-github-gogo-protobuf-dev", "usr/share/gocode/src"),
    ("golang-github-gogo-protobuf-dev", "usr/share/gocode/src/github.com/gogo/protobuf"),
    ("golang-github-gogo-googleapis-dev", "usr/share/gocode/src/github.com/gogo/googleapis"),
)
# Packages whose roots import one another: beside each root, the others are included, too.
TOGETHER = ("src:grpc-java",)
TOP = os.path.dirname(os.path.dirname(os.path.realpath(__file__)))
PROGRAM = os.environ.get("PROTOSCIP") or os.path.join(TOP, "protoscip")
# A comment, a string, or an import with its path.
IMPORT = re.compile(r"//[^\n]*|/\*.*?\*/|\bimport\s+(?:public\s+|weak\s+)?\"([^\"\n]*)\"|\"(?:\\.|[^\"\\\n])*\"", re.S)
# A comment; a comment or a word.
COMMENT = re.compile(rb"//[^\n]*|/\*.*?\*/", re.S)
WORD = re.compile(rb"//[^\n]*|/\*.*?\*/|(\w+)", re.S)
TOLD = re.compile(r"protoscip: (?:(skipped): (.*?)@(\d+): (\w+)(?: of (.*)@(\d+))?"
                  r"|(no target): (.*)@(\d+): (MissingImport|Unresolved|Ambiguous|Option)"
                  r"|(uncertain): (.*)@(\d+) behind (.*))")
COUNTS = re.compile(r"protoscip: (\d+) sources indexed, (\d+) skipped, (\d+) imports and (\d+) uses without a target")
SYMBOL = "scip-protobuf . . . "
GROUP = 10  # the type of a group's field


class Verdicts:
    """How many comparisons were right, and how many wrong."""

    def __init__(self):
        self.right = self.wrong = 0

    def see(self, name, holds, found=""):
        if holds:
            self.right += 1
        else:
            self.wrong += 1
            print(f"WRONG: {name}: {str(found)[:300]}", flush=True)

    def ended(self):
        """Prints the counts; gives the exit status."""
        print(f"{self.right} right, {self.wrong} wrong")
        return 0 if self.right and not self.wrong else 1


# ---- packages


def run(command, **named):
    return subprocess.run(command, stdout=subprocess.PIPE, stderr=subprocess.PIPE, check=False, **named)


def is_there(*command):
    """Whether a command can be run."""
    try:
        return run(command).returncode == 0
    except OSError:
        return False


def source_options(room):
    """The options by which apt-get finds source packages: where the system lists none, by lists of our own, of the
    places that its binary packages come from."""
    if run(["apt-get", "indextargets", "Created-By: Sources"]).stdout:
        return []
    folder = os.path.join(room, "apt")
    options = ["-o", "Dir::Etc::SourceList=/dev/null", "-o", f"Dir::Etc::SourceParts={folder}/parts",
               "-o", f"Dir::State::Lists={folder}/lists", "-o", "APT::Sandbox::User=root"]
    if not os.path.isdir(folder):
        os.makedirs(f"{folder}/parts")
        os.makedirs(f"{folder}/lists/partial")
        for path in ("/etc/apt/sources.list", *glob.glob("/etc/apt/sources.list.d/*")):
            if path.endswith((".list", ".sources")) and os.path.isfile(path):
                lines = re.sub(rb"(?m)^(Types: *deb|deb)\b(?!-)", rb"\1-src", text_of(path))
                with open(f"{folder}/parts/{os.path.basename(path)}", "wb") as file:
                    file.write(lines)
        run(["apt-get", *options, "update"])
    return options


def fetched(package, room, given):
    """The folder that the package's files are in, or None."""
    is_source, name = package.startswith("src:"), package.removeprefix("src:")
    if given is None:
        verb = [*source_options(room), "source", "--download-only"] if is_source else ["download"]
        run(["apt-get", *verb, "-o", "APT::Sandbox::User=root", name], cwd=room)
    pattern = name + ("_*.orig*.tar.*" if is_source else "_*.deb")
    files = [path for path in sorted(glob.glob(os.path.join(given or room, pattern))) if not path.endswith(".asc")]
    if not files:
        return None
    folder = tempfile.mkdtemp(dir=room)
    for path in files:
        if is_source:
            with tarfile.open(path) as archive:
                archive.extractall(folder, filter="data")
        elif run(["dpkg-deb", "-x", path, folder]).returncode != 0:
            return None
    return folder


def sources_below(folder):
    """The paths of the regular files named .proto, below the folder, as `index` walks it."""
    found = []
    for at, folders, names in os.walk(folder):
        folders.sort()
        paths = (os.path.join(at, name) for name in names if name.endswith(".proto"))
        found += [os.path.relpath(path, folder) for path in paths if os.path.isfile(path) and not os.path.islink(path)]
    return sorted(found, key=os.fsencode)


def text_of(path):
    with open(path, "rb") as file:
        return file.read()


def imports_of(text):
    return [path for path in IMPORT.findall(text.decode("utf-8", "replace")) if path]


def roots_of(folder, paths):
    """The folders, as paths below `folder`, from which the package's imports begin; each path is below one of them."""
    votes = collections.Counter()
    for path in paths:
        for imported in imports_of(text_of(os.path.join(folder, path))):
            votes.update(other[:-len(imported)] for other in paths if ("/" + other).endswith("/" + imported))
    roots, rest = [], list(paths)
    for root, _ in sorted(votes.items(), key=lambda vote: (-vote[1], len(vote[0]))):
        if any(path.startswith(root) for path in rest) and not any(other.startswith(root) for other in roots):
            roots.append(root)
            rest = [path for path in rest if not path.startswith(root)]
    if rest:
        shared = os.path.commonpath([os.path.dirname(path) for path in rest])
        roots.append(shared + "/" if shared else "")
    return roots


def trees_of(packages, room, given):
    """Each root of each package: its name, the root, and the folders that are included beside it. What can't be had is
    said, and left out."""
    known = {package: fetched(package, room, given) for package in dict.fromkeys(name for name, _ in INCLUDED)}
    included = [os.path.join(known[package], at) for package, at in INCLUDED if known[package]]
    for package in packages:
        at = known.get(package) or fetched(package, room, given)
        paths = sources_below(at) if at else []
        if not paths:
            print(f"{package}: can't be had, or has no .proto file: left out")
            continue
        roots = roots_of(at, paths)
        for root in roots:
            name = f"{package}, {root.rstrip('/') or '.'}"
            print(f"{name}: {sum(path.startswith(root) for path in paths)} sources", flush=True)
            beside = [os.path.join(at, other) for other in roots if other != root and package in TOGETHER]
            yield name, os.path.join(at, root), [*beside, *included]


# ---- records of protocol buffers


def varint(data, at):
    value = shift = 0
    while True:
        byte = data[at]
        value |= (byte & 127) << shift
        shift, at = shift + 7, at + 1
        if byte < 128:
            return value, at


def field_at(data, at):
    """The field that begins here: its number and kind, its value as a number or as bytes, and where it ends. A group's
    value is what is in it; where a group ends, there is none."""
    tag, at = varint(data, at)
    number, kind, start = tag >> 3, tag & 7, at
    if kind == 0:
        value, at = varint(data, at)
    elif kind == 3:
        end, inner = at, 3
        while inner != 4:
            at = end
            _, inner, _, end = field_at(data, at)
        value, at = data[start:at], end
    elif kind == 4:
        value = b""
    else:
        size, at = {1: (8, at), 5: (4, at)}.get(kind) or varint(data, at)
        value, at = data[at:at + size], at + size
    return number, kind, value, at


def fields(data):
    """The fields of a message, by number, each a list of numbers and bytes."""
    found, at = collections.defaultdict(list), 0
    while at < len(data):
        number, _, value, at = field_at(data, at)
        found[number].append(value)
    return found


def numbers(pieces):
    """The numbers of a repeated field, packed or not."""
    found = []
    for piece in pieces:
        if isinstance(piece, int):
            found.append(piece)
            continue
        at = 0
        while at < len(piece):
            value, at = varint(piece, at)
            found.append(value)
    return found


def name_of(message, number=1):
    return message[number][-1].decode() if message[number] else ""


# ---- what protoc says


class Descriptor:
    """A file's definitions, uses and imports by protoc: places are (line, column, end line, end column), in bytes.
    Extensions are among them where they are declared, and not only read past. What is declared outermost, and is
    repeated, has the file before the package."""

    def __init__(self, data, text, has_extensions, repeated=()):
        self.file, self.has_extensions, self.repeated = fields(data), has_extensions, repeated
        self.path, self.package = name_of(self.file), name_of(self.file, 2)
        self.imports = [path.decode() for path in self.file[3]]
        self.text, self.lines = text, text.split(b"\n")
        self.starts = [0, *(at.end() for at in re.finditer(b"\n", text))]
        self.places = {}
        for location in fields(self.file[9][-1])[1] if self.file[9] else ():
            parts = fields(location)
            self.places.setdefault(tuple(numbers(parts[1])), numbers(parts[2]))
        self.symbols, self.definitions, self.uses, self.flaws = {}, set(), set(), []
        self.outermost = [self.full(name_of(fields(data))) for kind in (4, 5, 6) for data in self.file[kind]]
        self.outermost += [self.full(name_of(fields(data))) for data in self.file[7] if has_extensions]
        if (2,) in self.places:
            front = ""
            for place, word in self.words_at(self.place((2,)))[1:]:
                front += word + "/"
                self.definitions.add((place, SYMBOL + front))
        for number, message in enumerate(self.file[4]):
            self.add_message(message, (4, number), self.scope(name_of(fields(message))), self.package)
        for number, enum in enumerate(self.file[5]):
            self.add_enum(enum, (5, number), self.scope(name_of(fields(enum))), self.package)
        for number, service in enumerate(self.file[6]):
            self.add_service(fields(service), (6, number), self.scope(name_of(fields(service))))
        self.add_extensions(self.file[7], (7,), self.scope)

    def full(self, name):
        return f"{self.package}.{name}".lstrip(".")

    def scope(self, name):
        """What the symbol of an outermost declaration has before its name."""
        file = f"`{self.path}`/" if self.full(name) in self.repeated else ""
        return SYMBOL + file + "".join(part + "/" for part in self.package.split(".") if part)

    def column(self, line, column):
        """protoc counts a tab up to the next multiple of 8."""
        found = 0
        for at, byte in enumerate(self.lines[line] + b"\n"):
            if found >= column:
                return at
            found = found + 8 - found % 8 if byte == 9 else found + 1
        return len(self.lines[line])

    def place(self, path):
        span = self.places.get(path)
        return None if span is None else self.place_at(span)

    def place_at(self, span):
        """The place of protoc's span."""
        line, start, end_line, end = span if len(span) == 4 else (span[0], span[1], span[0], span[2])
        return line, self.column(line, start), end_line, self.column(end_line, end)

    def span(self, place):
        """The offsets of a place."""
        return self.starts[place[0]] + place[1], self.starts[place[2]] + place[3]

    def place_of(self, start, end):
        """The place of these offsets."""
        lines = bisect.bisect(self.starts, start) - 1, bisect.bisect(self.starts, end) - 1
        return lines[0], start - self.starts[lines[0]], lines[1], end - self.starts[lines[1]]

    def words_at(self, place):
        """The words of the text at a place, each with its own place."""
        words = (word for word in WORD.finditer(self.text, *self.span(place)) if word[1])
        return [(self.place_of(*word.span()), word[1].decode()) for word in words]

    def value_place(self, place):
        """Where the type of the values of the map field at this place is: protoc doesn't say."""
        start, end = self.span(place)
        bare = COMMENT.sub(lambda comment: b" " * len(comment[0]), self.text[start:end])
        value = re.compile(rb"\s*([^>]*?)\s*>").match(bare, bare.index(b",") + 1)
        return self.place_of(start + value.start(1), start + value.end(1))

    def define(self, scope, name, end, path, spelled=None):
        """Notes a definition; its name is at the place with that path, or else what is spelled there."""
        place = self.place(path)
        words = [word for _, word in self.words_at(place)] if place else []
        if words != [spelled or name]:
            self.flaws.append((scope + name + end, place, words))
        self.definitions.add((place, scope + name + end))

    def use(self, place, type_name):
        self.uses.add((place, type_name))

    def occurrences_of(self, place, type_name, symbols):
        """The occurrences of a use: each component of the name names what the type's full name says."""
        words, parts, found = self.words_at(place), type_name.removeprefix(".").split("."), set()
        front = len(parts) - len(words)
        if front < 0 or [word for _, word in words] != parts[front:]:
            self.flaws.append((type_name, place, words))
            return found
        for number, (at, _) in enumerate(words, front + 1):
            package = SYMBOL + "".join(part + "/" for part in parts[:number])
            found.add((at, symbols.get("." + ".".join(parts[:number]), package)))
        return found

    def add_message(self, data, path, scope, outer):
        message = fields(data)
        if fields(b"".join(message[7]))[7] == [1]:
            return
        symbol, full = scope + name_of(message) + "#", f"{outer}.{name_of(message)}".lstrip(".")
        self.symbols["." + full] = symbol
        self.define(scope, name_of(message), "#", path + (1,))
        entries = {f".{full}.{name_of(nested)}": fields(nested[2][1]) for nested in map(fields, message[3])
                   if fields(b"".join(nested[7]))[7] == [1]}
        for number, field in enumerate(map(fields, message[2])):
            self.add_field(field, path + (2, number), symbol, entries)
        for number, oneof in enumerate(map(fields, message[8])):
            # `optional` has a oneof of its own, which stands nowhere.
            if path + (8, number, 1) in self.places:
                self.define(symbol, name_of(oneof), ":", path + (8, number, 1))
        for number, nested in enumerate(message[3]):
            self.add_message(nested, path + (3, number), symbol, full)
        for number, enum in enumerate(message[4]):
            self.add_enum(enum, path + (4, number), symbol, full)
        self.add_extensions(message[6], path + (6,), lambda _: symbol)

    def add_field(self, field, path, symbol, entries):
        """A group's field stands at the word `group`; its type, at the group's name, is no use."""
        if field[5] == [GROUP]:
            self.define(symbol, name_of(field), ".", path + (5,), "group")
            return
        self.define(symbol, name_of(field), ".", path + (1,))
        value = entries.get(name_of(field, 6))
        if value and value[6]:
            self.use(self.value_place(self.place(path)), name_of(value, 6))
        elif field[6] and not value:
            self.use(self.place(path + (6,)), name_of(field, 6))

    def add_extensions(self, extensions, path, scope):
        for number, field in enumerate(map(fields, extensions if self.has_extensions else ())):
            self.add_field(field, path + (number,), scope(name_of(field)), {})
            self.use(self.place(path + (number, 2)), name_of(field, 2))

    def add_enum(self, data, path, scope, outer):
        enum = fields(data)
        symbol = scope + name_of(enum) + "#"
        self.symbols[f".{outer}.{name_of(enum)}".replace("..", ".")] = symbol
        self.define(scope, name_of(enum), "#", path + (1,))
        for number, value in enumerate(map(fields, enum[2])):
            self.define(symbol, name_of(value), ".", path + (2, number, 1))

    def add_service(self, service, path, scope):
        symbol = scope + name_of(service) + "#"
        self.define(scope, name_of(service), "#", path + (1,))
        for number, method in enumerate(map(fields, service[2])):
            at = path + (2, number)
            self.define(symbol, name_of(method), "().", at + (1,))
            for kind in (2, 3):
                self.use(self.place(at + (kind,)), name_of(method, kind))


class Protoc:
    """What protoc says of these sources: the descriptors of those that it can read, the first line of what it says of
    the others, the symbols, imports and descriptors of all the files that they see, and for each source the file of
    each declaration, by its symbol. `repeated` has the names that a file gives after another one, by path."""

    def __init__(self, folders, paths, room, has_extensions, repeated=None):
        self.found, self.refused, self.symbols, self.imports, self.owners, self.records = {}, {}, {}, {}, {}, {}
        out = os.path.join(room, "descriptors")
        for path in paths:
            places = [f"--proto_path={folder}" for folder in folders]
            command = ["protoc", "--include_source_info", "--include_imports", f"--descriptor_set_out={out}"]
            done = run([*command, *places, path], cwd=room)
            if done.returncode != 0:
                said = done.stderr.decode("utf-8", "replace").splitlines()
                errors = [line for line in said if "warning" not in line.lower()]
                self.refused[path] = (errors or ["?"])[0]
                continue
            self.owners[path] = {}
            for data in fields(text_of(out))[1]:
                name = name_of(fields(data))
                read = self.found.get(name)
                if read is None or name == path:
                    at = next(filter(os.path.exists, (os.path.join(folder, name) for folder in folders)))
                    read = Descriptor(data, text_of(at), has_extensions, (repeated or {}).get(name, ()))
                self.owners[path].update({symbol: name for _, symbol in read.definitions if not symbol.endswith("/")})
                self.symbols.update(read.symbols)
                self.imports[name], self.records[name] = read.imports, read.file
                if name == path:
                    self.found[name] = read


# ---- what the program says


class Told:
    """What standard error says of a run by `skip`."""

    def __init__(self, err):
        lines = err.decode().splitlines()
        self.lines = [TOLD.fullmatch(line) for line in lines[:-1]]
        self.counts = COUNTS.fullmatch(lines[-1]) if lines else None
        self.skipped = {line[2]: line for line in self.lines if line and line[1]}
        self.gaps = {(line[8], int(line[9]), line[10]) for line in self.lines if line and line[7]}

    def is_good(self, sources):
        """Each line has the form; they are in order of files, sources first, and of places; the numbers are theirs."""
        if not self.lines or self.counts is None or None in self.lines:
            return False
        own = set(sources)
        keys = [(path not in own, os.fsencode(path), int(at))
                for path, at in ((line[2] or line[8] or line[12], line[3] or line[9] or line[13])
                                 for line in self.lines)]
        kinds = collections.Counter(line[1] or line[10] or line[11] for line in self.lines)
        uses = kinds["Unresolved"] + kinds["Ambiguous"] + kinds["Option"]
        wanted = (len(own - set(self.skipped)), kinds["skipped"], kinds["MissingImport"], uses)
        return keys == sorted(set(keys)) and wanted == tuple(map(int, self.counts.groups()))


class Runs:
    """Two runs of `index`, with both words of `--faulty`: what each said, and what it wrote, if anything."""

    def __init__(self, verdicts, name, root, included, options, room):
        self.written, self.said, self.sources = {}, {}, sources_below(root)
        index = os.path.join(room, "index")
        for faulty in ("refuse", "skip"):
            if os.path.exists(index):
                os.remove(index)
            words = ["--faulty", faulty, *options]
            done = run([PROGRAM, "index", *words, *(f"--include={folder}" for folder in included), root, index])
            verdicts.see(f"{name}: {' '.join(words)}: status",
                         done.returncode == 0 or faulty == "refuse" and done.returncode == 1,
                         (done.returncode, done.stderr))
            self.written[faulty] = text_of(index) if os.path.exists(index) else None
            self.said[faulty] = done.stderr
        self.told, self.documents = Told(self.said["skip"]), occurrences_in(self.written["skip"] or b"")
        if self.written["refuse"] is not None:
            is_alike = self.written["refuse"] == self.written["skip"] and not self.said["skip"]
            verdicts.see(f"{name}: {' '.join(options)}: a good tree", is_alike, self.said["skip"])
        else:
            is_good = self.told.is_good(self.sources)
            verdicts.see(f"{name}: {' '.join(options)}: what is said", is_good, self.said["skip"])
        wanted = set(self.sources) - set(self.told.skipped)
        verdicts.see(f"{name}: {' '.join(options)}: documents", set(self.documents) == wanted,
                     set(self.documents) ^ wanted)

    def counts(self):
        refused = self.said["refuse"].decode().strip().removeprefix("protoscip: ")
        counts = self.told.counts
        said = counts[0].removeprefix("protoscip: ") if counts else f"{len(self.documents)} sources indexed"
        return f"refuse: {refused or 'indexed'}\n    skip: {said}"


def occurrences_in(data):
    """The occurrences of each document, by path: place, symbol and roles."""
    found = {}
    for document in map(fields, fields(data)[2]):
        listed = []
        for occurrence in map(fields, document[2]):
            span = numbers(occurrence[1])
            place = tuple(span) if len(span) == 4 else (span[0], span[1], span[0], span[2])
            listed.append((place, name_of(occurrence, 2), occurrence[3][-1] if occurrence[3] else 0))
        found[name_of(document)] = listed
    return found


def see_flaws(verdicts, name, descriptor):
    """Sees that the words at protoc's places are those that its names have."""
    verdicts.see(f"{name}: {descriptor.path}: protoc's places", not descriptor.flaws, descriptor.flaws)


def see_source(verdicts, name, descriptor, occurrences, told, symbols):
    """Compares a source's document with its descriptor; gives how many definitions and uses it has."""
    path = descriptor.path
    defined = {(place, symbol) for place, symbol, roles in occurrences if roles & 1}
    defined.discard(((0, 0, 0, 0), f"{SYMBOL}`{path}`/"))
    differences = sorted(map(str, defined ^ descriptor.definitions))
    verdicts.see(f"{name}: {path}: definitions", not differences, differences)
    gaps = [gap for gap in told.gaps if gap[0] == path]
    there = sum(roles & 2 > 0 for _, _, roles in occurrences) + sum(gap[2] == "MissingImport" for gap in gaps)
    verdicts.see(f"{name}: {path}: imports", there == len(descriptor.imports), there)
    wanted = set()
    for place, type_name in descriptor.uses:
        start = descriptor.span(place)[0]
        if not {(path, start, "Unresolved"), (path, start, "Ambiguous")} & told.gaps:
            wanted |= descriptor.occurrences_of(place, type_name, symbols)
    used = {(place, symbol) for place, symbol, roles in occurrences if roles == 0}
    differences = sorted(map(str, used ^ wanted))
    verdicts.see(f"{name}: {path}: uses", not differences, differences)
    see_flaws(verdicts, name, descriptor)
    return len(defined), len(descriptor.uses)

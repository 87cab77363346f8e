"""Trees for `try_pairs`, made by chance: a folder `root` with sources, and the folders `inc` and `more`, which may be
included; and what those trees have in common, the files that protoc comes with.

Needs python3 alone.
"""

import os
import re

DESCRIPTOR = "google/protobuf/descriptor.proto"
# As protoc's, but with few fields.
OPTIONS = """syntax = "proto2"; package google.protobuf;
message FileOptions { optional string java_package = 1; optional OptimizeMode optimize_for = 9; extensions 1000 to max;
  enum OptimizeMode { SPEED = 1; CODE_SIZE = 2; } }
message MessageOptions { optional bool message_set_wire_format = 1; optional bool deprecated = 3;
  extensions 1000 to max; }
message FieldOptions { optional bool lazy = 5; optional bool deprecated = 3; extensions 1000 to max; }
message EnumOptions { optional bool deprecated = 3; extensions 1000 to max; }
message EnumValueOptions { optional bool deprecated = 1; extensions 1000 to max; }
message ServiceOptions { optional bool deprecated = 33; extensions 1000 to max; }
message MethodOptions { optional bool deprecated = 33; extensions 1000 to max; }
"""
WELL_KNOWN = {
    "protoc/include/google/protobuf/descriptor.proto": OPTIONS,
    "protoc/include/google/protobuf/any.proto":
        'syntax = "proto3"; package google.protobuf; message Any { string type_url = 1; bytes value = 2; }',
    "protoc/include/google/protobuf/timestamp.proto":
        'syntax = "proto3"; package google.protobuf; message Timestamp { int64 seconds = 1; }',
}
FOLDERS = ("root", "inc", "more")
PATHS = {
    "root": ("a.proto", "b.proto", "c/d.proto", "c/e/f.proto", "gen/g.proto", "h_x.proto", "types.proto", "é o.proto",
             ".h/i.proto", "j.proto/k.proto", "x.html/l.proto"),
    "inc": ("i/m.proto", "i/n.proto", "types.proto", "c/d.proto", "gen/o.proto"),
    "more": ("i/n.proto", "q.proto", "types.proto"),
}
PACKAGES = ("", "p", "p.q", "p.q.r", "q")
IMPORT = re.compile(rb'\bimport\s+(public\s+|weak\s+)?"([^"\n]*)"')
# Each is a line that no file with it can be read for.
BROKEN = (b"@", b'"open', b"message {", b"/*/", b"import public public;")
# Names that aren't UTF-8, and what shows like one.
ODD = (b"caf\xe9.proto", b"caf\\xe9.proto", b"\xff/r.proto", b"s\xe9")


class File:
    """The lines of a file, or where a link leads; and whether nobody may read it."""

    def __init__(self, lines=(), link=None, is_closed=False):
        self.lines, self.link, self.is_closed = list(lines), link, is_closed

    def text(self):
        return b"".join(line + b"\n" for line in self.lines)


class Tree:
    """Files by path, from the tree's folder, in bytes; written where it is first asked for."""

    def __init__(self, files):
        self.files, self.at, self.runs = files, None, {}

    def write(self, at, backwards=False):
        self.at = at
        for folder in FOLDERS:
            os.makedirs(os.path.join(at, folder))
        listed = [path[5:] for path in sorted(self.files) if path.startswith(b"root/") and path.endswith(b".proto")]
        for number, name in enumerate(("all.list", "some.list")):
            with open(os.path.join(at, name), "wb") as file:
                file.write(b"".join(path + b"\n" for path in listed[number::number + 1]))
        for path in sorted(self.files, reverse=backwards):
            file, full = self.files[path], os.path.join(at.encode(), path)
            os.makedirs(os.path.dirname(full), exist_ok=True)
            if file.link:
                os.symlink(file.link, full)
                continue
            with open(full, "wb") as opened:
                opened.write(file.text())
            if file.is_closed:
                os.chmod(full, 0)

    def without(self, paths):
        return Tree({path: file for path, file in self.files.items() if path not in paths})

    def links(self):
        return {path for path, file in self.files.items() if file.link}

    def followed(self):
        """The tree in which each link is what it leads to, or isn't there; or None if one leads to a folder."""
        files = {path: file for path, file in self.files.items() if not file.link}
        for path in self.links():
            to = os.path.normpath(os.path.join(os.path.dirname(path), self.files[path].link))
            if any(other.startswith(to + b"/") for other in self.files):
                return None
            if to in files and path.endswith(b".proto"):
                files[path] = files[to]
        return Tree(files)

    def unreadable(self):
        """What can't be read: files that are closed, and names that aren't UTF-8, of files or of folders, as they are
        told (docs/INDEXING.md); by the paths of the files."""
        found = {}
        for path, file in self.files.items():
            parts = path.split(b"/")
            odd = [number for number, part in enumerate(parts, 1) if not is_utf8(part)]
            if odd or file.is_closed:
                found[path] = b"/".join(parts[:odd[0]] if odd else parts)
        return found

    def shown(self):
        """The tree, to be read."""
        lines = []
        for path, file in sorted(self.files.items()):
            what = f" -> {file.link.decode()}" if file.link else " (closed)" if file.is_closed else ""
            lines += [f"    {path.decode('utf-8', 'backslashreplace')!r}{what}"]
            lines += [f"      | {line.decode('utf-8', 'backslashreplace')}" for line in file.lines]
        return "\n".join(lines)

    def mended(self):
        """The tree in which what can't be read can be, if there is any; but names stay."""
        files = {path: File([b"" if line in BROKEN else line for line in file.lines], file.link)
                 for path, file in self.files.items()}
        is_other = any(file.is_closed or file.lines != files[path].lines for path, file in self.files.items())
        return Tree(files) if is_other else None

    def unreached(self):
        """The included files to which no import leads from the sources, nor from descriptor.proto."""
        by_path = {}
        for path, file in self.files.items():
            by_path.setdefault(path.split(b"/", 1)[1], []).append(file)
        rest = [path.split(b"/", 1)[1] for path in self.files if path.startswith(b"root/")] + [DESCRIPTOR.encode()]
        reached = set()
        while rest:
            path = rest.pop()
            if path not in reached:
                reached.add(path)
                rest += [other for file in by_path.get(path, ()) for _, other in IMPORT.findall(file.text())]
        far = {path for path in self.files if path.split(b"/", 1)[1] not in reached and min(path) >= 32}
        return far - self.links() - set(self.unreadable())


def is_utf8(path):
    try:
        path.decode()
    except UnicodeDecodeError:
        return False
    return True


class Maker:
    """Makes a tree by chance. `types` are the full names of messages and enums, each with the path of its file;
    `options` the extensions of options, with what they extend and whether they have braces."""

    def __init__(self, chance):
        self.chance, self.files, self.types, self.options, self.numbers = chance, {}, [], [], 50000
        self.is_rich = chance.random() < 0.65
        paths = [f"{folder}/{path}" for folder, few, many in (("root", 2, 6), ("inc", 1, 4), ("more", 0, 3))
                 for path in self.some(PATHS[folder], few, many)]
        self.names = {path: f"M{number}" for number, path in enumerate(paths)}
        self.imported = {}
        if self.is_rich:
            self.option_files()
        for number, path in enumerate(paths):
            self.file(path, number, paths)
        for _ in range(chance.choice((0, 0, 0, 1, 1, 2))):
            chance.choice(FAULTS)(self)

    def some(self, pool, few, many):
        return self.chance.sample(pool, min(len(pool), self.chance.randint(few, many)))

    def likely(self, likelihood):
        return self.chance.random() < likelihood

    def add(self, path, lines, **named):
        self.files[path.encode()] = File([line.encode() for line in lines], **named)

    def tree(self):
        return Tree(self.files)

    # ---- files

    def option_files(self):
        """Files with the types of options, some of which are imported in private, and with what extends options."""
        chance = self.chance
        folder = chance.choice(("root", "inc", "inc"))
        kind = chance.choice(("", "", "public "))
        if self.likely(0.35):
            self.add(f"{chance.choice(('inc', 'inc', 'root'))}/{DESCRIPTOR}", OPTIONS.splitlines())
        descriptor = DESCRIPTOR
        if self.likely(0.2):
            descriptor = "copy/descriptor.proto"
            self.add(f"{chance.choice(('root', folder))}/{descriptor}", OPTIONS.splitlines())
        self.descriptor = descriptor
        set_form = "option message_set_wire_format = true; " * self.likely(0.3)
        self.add(f"{folder}/o/rule.proto", [
            'syntax = "proto3"; package o;', "message Rule { string get = 1; Rule more = 2; Mode mode = 3; "
            "repeated Rule all = 4; map<string, Rule> by = 5; }", "enum Mode { SOFT = 0; HARD = 1; }",
            *['import "google/protobuf/any.proto"; message Any { google.protobuf.Any any = 1; }'] * self.likely(0.1)])
        self.add(f"{folder}/o/options.proto", [
            f'syntax = "proto2"; package o; import "{descriptor}"; import {kind}"o/rule.proto";',
            *(f"extend google.protobuf.{kind}Options {{ optional Rule {kind.lower()} = 50001; }}"
              for kind in ("File", "Message", "Field", "Enum", "EnumValue", "Service", "Method")),
            "extend google.protobuf.FileOptions { optional Set set = 50002; optional Old old = 50003; }",
            f"message Set {{ {set_form}extensions 100 to 200; }} extend Set {{ optional Rule in_set = 100; }}",
            "message InSet { extend Set { optional InSet in_set = 101; } optional int32 x = 1; }",
            'message Old { reserved "gone"; optional int32 here = 1; }'])
        if self.likely(0.35):
            where = chance.choice((f"{folder}/o/foreign.proto", f"{folder}/copy/o/rule.proto", "more/foreign.proto"))
            self.add(where, ['syntax = "proto3"; package o;',
                             chance.choice(("message Rule {}", "enum Mode { X = 0; }"))])

    def imports(self, path, paths):
        """Import statements, mostly of files that are there, in any order, so that there are cycles, too."""
        folder, chance = path.split("/")[0], self.chance
        may_be = [other.split("/", 1)[1] for other in paths
                  if other != path and (folder == "root" or not other.startswith("root/"))]
        found = chance.sample(may_be, min(len(may_be), chance.choice((0, 1, 1, 2, 3))))
        if self.is_rich and self.likely(0.7):
            found.append("o/options.proto")
        if self.is_rich and self.likely(0.12):
            found.append(self.descriptor)
        if self.likely(0.08):
            found.append("google/protobuf/timestamp.proto")
        self.imported[path] = found
        return [f'import {chance.choice(("", "", "", "", "public ", "public ", "weak "))}"{other}";' for other in found]

    def file(self, path, number, paths):
        chance, name = self.chance, self.names[path]
        package = chance.choice(PACKAGES)
        is_proto2 = self.is_rich and self.likely(0.25)
        lines = [f'syntax = "proto{2 if is_proto2 else 3}";', *[f"package {package};"] * bool(package)]
        lines += self.imports(path, paths)
        front = package + "." if package else ""
        label = "optional " if is_proto2 else ""
        if self.is_rich:
            lines += self.file_options(path)
        lines += self.comment()
        fields = [f"{label}{self.type_name(path, front)} f{each} = {each + 1}{self.field_options(path, label)};"
                  for each in range(chance.randint(0, 3))]
        lines.append(f"message {name} {{ {self.message_option(path)}message In {{ {label}int32 x = 1; }} "
                     f"{' '.join(fields)} oneof one {{ In in = 9; }} }}{chance.choice(('', ' // behind'))}")
        self.types += [(front + name, path, package), (f"{front}{name}.In", path, package)]
        if self.likely(0.4):
            lines += self.comment()
            lines.append(f"{self.wide()}enum E{number} {{ V{number} = {0 if not is_proto2 else 1}; W{number} = 2; }}")
            self.types.append((f"{front}E{number}", path, package))
        if self.likely(0.3):
            uses = self.message_type(path, front, name), self.message_type(path, front, name)
            lines.append(f"service S{number} {{ rpc Do({uses[0]}) returns (stream {uses[1]}); }}")
        if self.likely(0.06):
            lines.append("message Twice {}")
            self.types.append((front + "Twice", path, package))
        self.add(path, lines)

    def wide(self):
        return self.chance.choice(("", "", "/* é */ ", "/* \U0001F600 */ "))

    def comment(self):
        return self.chance.choice(([], [], ["// A thing."], ["/** Several", " * lines. */"],
                                   ["// one", "//   two \U0001F600"]))

    def type_name(self, path, front):
        if self.likely(0.3):
            return "int32"
        if self.likely(0.15):
            return self.names[path] if self.likely(0.5) else self.wide() + "In"
        return self.seen_type(path) or "string"

    def message_type(self, path, front, name):
        found = self.seen_type(path)
        return name if not found or found.split(".")[-1].startswith("E") else found

    def seen_type(self, path):
        """The name of a type of a file that is imported, whole, or as short as its package allows."""
        seen = [each for each in self.types if each[1].split("/", 1)[1] in self.imported[path]]
        if not seen:
            return None
        name, _, package = self.chance.choice(seen)
        return self.chance.choice((name, "." + name, name.removeprefix(package + ".") if self.likely(0.1) else name))

    # ---- options

    def braces(self, depth=0):
        chance, found = self.chance, []
        for field in chance.sample(("get: \"x\"", "mode: HARD", "more { %s }", "all: [ { %s }, { } ]", "more < %s >",
                                    'by { key: "k" value { %s } }'), chance.randint(1, 3)):
            if not any(other.split()[0] == field.split()[0] for other in found):
                found.append(field.replace("%s", self.braces(depth + 1) if depth < 1 else ""))
        return chance.choice((" ", ", ", "; ")).join(found)

    def rule(self, extension):
        """An option whose type is Rule."""
        chance = self.chance
        name = chance.choice((f"(o.{extension})", f"(.o.{extension})"))
        return chance.choice((f'{name}.get = "x"', f"{name}.more.mode = HARD", f"{name} = {{ {self.braces()} }}"))

    def file_options(self, path):
        chance, lines = self.chance, []
        if self.likely(0.5):
            lines.append(chance.choice(('option java_package = "x";', "option optimize_for = SPEED;")))
        if "o/options.proto" in self.imported[path] and self.likely(0.7):
            lines.append(chance.choice((f"option {self.rule('file')};", f"option {self.rule('file')};",
                                        "option (o.set) = { [o.in_set] { get: \"x\" } };",
                                        "option (o.set).(o.in_set).get = \"x\";", "option (o.old) = { here: 1 };",
                                        "option (o.old) = { gone: 1 here: 2 };", "option (o.old) = { here: 1 # c\n };",
                                        "option (o.set) = { [o.InSet] { x: 1 } };", "option (o.old) = { 1: 2 };")))
        return lines

    def message_option(self, path):
        if not self.is_rich or self.likely(0.6):
            return ""
        if "o/options.proto" in self.imported[path] and self.likely(0.6):
            return f"option {self.rule('message')}; "
        return "option deprecated = true; "

    def field_options(self, path, label):
        if not self.is_rich or self.likely(0.6):
            return ""
        if "o/options.proto" in self.imported[path] and self.likely(0.6):
            return f" [{self.rule('field')}, deprecated = true]"
        return " [deprecated = true]"

    def nearer(self):
        """A name that is declared in the package around, and in a nearer one, of which one may not be read."""
        has_options = self.likely(0.5)
        for path, package in (("near.proto", "p"), ("nearer.proto", "p.q")):
            self.add(f"{self.chance.choice(('root', 'root', 'inc'))}/{path}", [
                f'syntax = "proto2"; package {package};', "message T { message In {} }", *[
                    'import "google/protobuf/descriptor.proto"; '
                    f"extend google.protobuf.FileOptions {{ optional T t = {50000 + len(package)}; }}"] * has_options])
        self.add("root/uses.proto", ['syntax = "proto3"; package p.q.r;', 'import "near.proto"; import "nearer.proto";',
                                     "message Uses { T t = 1; T.In in = 2; .p.T other = 3; }",
                                     *["option (t) = {};"] * has_options])
        broken = self.files[self.chance.choice([path for path in sorted(self.files) if b"/near" in path])]
        if self.likely(0.5):
            broken.is_closed = True
        else:
            broken.lines.append(self.chance.choice(BROKEN))

    # ---- faults

    def a_file(self, folders=FOLDERS):
        return self.chance.choice([path for path, file in sorted(self.files.items())
                                   if path.split(b"/")[0].decode() in folders and file.lines])

    def break_line(self):
        lines = self.files[self.a_file()].lines
        lines.insert(self.chance.randint(0, len(lines)), self.chance.choice(BROKEN))

    def close_file(self):
        self.files[self.a_file()].is_closed = True

    def insert(self, *lines):
        """A line at the end of a source."""
        self.files[self.a_file(("root",))].lines.append(self.chance.choice(lines))

    def duplicate(self):
        """What is declared twice, in one file or in two."""
        lines = self.files[self.a_file()].lines
        self.files[self.chance.choice((self.a_file(), self.a_file()))].lines.append(
            self.chance.choice([line for line in lines if line.startswith((b"message", b"enum"))] or [b"message T {}"]))

    def missing_import(self):
        lines = self.files[self.a_file()].lines
        lines.insert(1, b'import "nowhere.proto";')

    def no_target(self):
        self.insert(b"message G1 { Nowhere n = 1; }", b"message G2 { .p.Nowhere n = 1; q.M1.Nowhere m = 2; }",
                    b"service G3 { rpc Do(M77) returns (M78); }")

    def ambiguous(self):
        for name in ("root/one.proto", "root/two.proto"):
            self.add(name, ['syntax = "proto3";', "package p;", "message Both {}"])
        self.add("root/use.proto", ['syntax = "proto3";', "package p;", 'import "one.proto";', 'import "two.proto";',
                                    "message Use { Both b = 1; }"])

    def option_gap(self):
        self.insert(b"option (nowhere) = 1;", b"option nowhere = 1;", b"option (o.file) = { nowhere: 1 };",
                    b"option (o.file).nowhere = 1;", b"message G4 { option (o.message).mode = NOWHERE; }",
                    b"message G5 { option deprecated = true; option lost = 1; option (.o.gone).x = 1; }")

    def odd_name(self):
        folder = self.chance.choice((b"root/", b"root/", b"inc/", b"root/c/"))
        for name in self.some(ODD, 1, 3):
            self.files[folder + name] = File([b'syntax = "proto3";'], is_closed=name == ODD[1])

    def control(self):
        self.add(self.chance.choice(("root/t\tu.proto", "root/v\nw.proto", "inc/t\tu.proto")), ['syntax = "proto3";'])

    def latin(self):
        lines = self.files[self.a_file()].lines
        at = self.chance.randint(0, len(lines))
        lines.insert(at, self.chance.choice((b"// caf\xe9", b"/* \xc3\xa9 \xe2\x82 */",
                                             b'option java_package = "\xe9";')))

    def other_syntax(self):
        self.files[self.a_file()].lines[0] = self.chance.choice((b'edition = "2023";', b"", b'syntax = "proto4";'))

    def link(self):
        target = self.a_file(("root",)).split(b"/")[-1]
        self.files[self.chance.choice((b"root/link.proto", b"root/c/link.proto", b"root/linked"))] = File(
            link=self.chance.choice((target, b"../inc/i", b"nowhere", b"../inc")))


FAULTS = (Maker.break_line, Maker.close_file, Maker.close_file, Maker.duplicate, Maker.duplicate, Maker.missing_import,
          Maker.no_target, Maker.ambiguous, Maker.option_gap, Maker.option_gap, Maker.odd_name, Maker.control,
          Maker.latin, Maker.other_syntax, Maker.link, Maker.nearer, Maker.nearer, Maker.nearer)

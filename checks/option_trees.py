"""Trees for `index --options link`: some that are written out, with what their options name, and generated ones."""

import os

TOP = os.path.dirname(os.path.realpath(__file__))
KINDS = ("File", "Message", "Field", "Oneof", "Enum", "EnumValue", "Service", "Method", "ExtensionRange")
with open(os.path.join(TOP, "descriptor.proto"), encoding="utf-8") as descriptor:
    DESCRIPTOR = descriptor.read()
# The included files.
EXPORTS = {
    "google/protobuf/descriptor.proto": DESCRIPTOR,
    "google/protobuf/any.proto": 'syntax = "proto3"; package google.protobuf; '
                                 "message Any { string type_url = 1; bytes value = 2; }",
}

# ---- trees that are written out


def head(more=""):
    """The first line of a source of package p that sees the options' messages."""
    return f'syntax = "proto2"; package p; import "google/protobuf/descriptor.proto"; {more}\n'


def extending(element, name="x", field_type="int32", number=50001):
    return f"extend google.protobuf.{element}Options {{ optional {field_type} {name} = {number}; }}\n"


TYPES = """enum E { V = 0; W = 1; }
message N { optional int32 i = 1; repeated N ns = 2; optional E e = 3; }
message T { extensions 100 to 199; optional N n = 2; repeated N ns = 3; repeated E es = 4; map<string, N> m = 8;
  optional google.protobuf.Any any = 9; optional group G = 11 { optional int32 ga = 1; } }
extend T { optional int32 e1 = 100; optional N e2 = 101; }
message H { extend T { optional int32 e3 = 102; } }
"""
BRACES = head('import "google/protobuf/any.proto";') + TYPES + extending("File", "x", "T")
ELEMENTS = head() + "".join(extending(kind, kind.lower()) for kind in KINDS) + """option (file) = 1;
message M {
  option (message) = 1;
  extensions 4 to 9 [(extensionrange) = 1];
  optional int32 f = 1 [(field) = 1];
  oneof o { option (oneof) = 1; int32 g = 2; }
}
enum E { option (enum) = 1; V = 0 [(enumvalue) = 1]; }
service S { option (service) = 1; rpc R (M) returns (M) { option (method) = 1; } }
"""
SCOPES = head() + "".join(extending(kind) if kind == "Message" else extending(kind, kind.lower())
                          for kind in ("Message", "Field", "ExtensionRange", "EnumValue")) + """message M {
  option (x) = 1;
  extend google.protobuf.MessageOptions { optional int32 x = 50002; }
  extend google.protobuf.FieldOptions { optional int32 field = 50002; }
  extend google.protobuf.ExtensionRangeOptions { optional int32 extensionrange = 50002; }
  extend google.protobuf.EnumValueOptions { optional int32 enumvalue = 50002; }
  extensions 4 to 9 [(extensionrange) = 1];
  optional int32 f = 1 [(field) = 1];
  enum E { V = 0 [(enumvalue) = 1]; }
  message In { option (x) = 1; }
}
"""
# A message set, and messages with extensions of it.
SET = head() + """message Set { option message_set_wire_format = true; extensions 4 to max; }
message I { extend Set { optional I ext = 100; } optional int32 i = 1; }
message U { optional int32 i = 1; extend Set { optional I other = 101; optional U first = 102; optional U two = 103; } }
message V { optional int32 i = 1; message In { extend Set { optional V deep = 104; } } }
extend Set { optional V v = 105; }
message Q { message In { optional int32 j = 1; extend Set { optional In in = 106; } } }
""" + extending("File", "s", "Set")
WIRE = "google/protobuf/MessageOptions#message_set_wire_format. "
OWN = {"other.proto": 'syntax = "proto2"; package google.protobuf; message FieldOptions { optional bool lazy = 1; }'}
# Included files of which one imports in private what has the type of its option.
RULES = {"o/rule.proto": 'syntax = "proto3"; package o; message Rule { string get = 1; Rule more = 2; }',
         "o/options.proto": 'syntax = "proto2"; package o; import "google/protobuf/descriptor.proto"; '
                            'import "o/rule.proto"; ' + extending("File", "rule", "Rule")}
RULE = 'syntax = "proto3"; import "o/options.proto"; option (o.rule) = { get: "a" more { get: "b" } };'
RULE_NAMES = "o/ o/rule. o/Rule#get. o/Rule#more. o/Rule#get."
OTHER_RULE = 'syntax = "proto3"; package o; message Rule {}'
COPY = ('syntax = "proto2"; package google.protobuf; message FileOptions { optional string mine = 1; } '
        "message FieldOptions { optional bool lazy = 1; }")

# The name of a tree, its sources, its included files, the symbols of what the options of a.proto name, in order of
# place, and the words that have no target. Symbols stand without what is in front of each, `scip-protobuf . . . `.
WORKED = (
    ("nested parts", {"a.proto": head() + TYPES.replace("google.protobuf.Any any", "N any")
                      + extending("File", "x", "T") + "option (x).n.e = W; option (x).g.ga = 1;"}, EXPORTS,
     "p/x. p/T#n. p/N#e. p/E#W. p/x. p/T#g. p/T#G#ga.", ""),
    ("a further part in parentheses",
     {"a.proto": BRACES + "option (x).(e2).i = 1; option (p.x).(.p.H.e3) = 1;"}, EXPORTS,
     "p/x. p/e2. p/N#i. p/ p/x. p/ p/H# p/H#e3.", ""),
    ("an extension inside a message", {"a.proto": head() + f"message M {{ {extending('File')} }} option (M.x) = 1;"},
     EXPORTS, "p/M# p/M#x.", ""),
    ("an extension behind a public import",
     {"a.proto": 'syntax = "proto3"; import "b.proto"; option (p.x) = 1; option (.p.x) = 2;',
      "b.proto": 'syntax = "proto3"; import public "c.proto";', "c.proto": head() + extending("File")}, EXPORTS,
     "p/ p/x. p/ p/x.", ""),
    ("an extension behind another import",
     {"a.proto": 'syntax = "proto3"; import "b.proto"; option (p.x) = 1;',
      "b.proto": 'syntax = "proto3"; import "c.proto";', "c.proto": head() + extending("File")}, EXPORTS, "", "p.x"),
    ("a type that isn't seen", {"a.proto": 'syntax = "proto3"; import "b.proto"; option (p.x).n.i = 1;',
                                "b.proto": head('import "c.proto";') + extending("File", "x", "T"),
                                "c.proto": head('import "google/protobuf/any.proto";') + TYPES}, EXPORTS,
     "p/ p/x. p/T#n. p/N#i.", ""),
    ("elements in a message that hides outer names", {"a.proto": SCOPES}, EXPORTS,
     "p/x. p/extensionrange. p/M#field. p/M#enumvalue. p/M#x.", ""),
    ("one word takes what is innermost", {"a.proto": head() + extending("Field")
                                          + "message M { optional int32 x = 1; optional int32 f = 2 [(x) = 1]; }"},
     EXPORTS, "", "x"),
    ("several words take an aggregate", {"a.proto": head() + extending("Field")
                                         + "message M { message p {} optional int32 f = 2 [(p.x) = 1]; }"},
     EXPORTS, "", "p.x"),
    ("an option of each kind of element", {"a.proto": ELEMENTS}, EXPORTS,
     "p/file. p/message. p/extensionrange. p/field. p/oneof. p/enum. p/enumvalue. p/service. p/method.", ""),
    ("plain names without an import",
     {"a.proto": 'syntax = "proto3"; option optimize_for = SPEED;\nmessage M { option deprecated = true; '
                 "int32 f = 1 [deprecated = true, json_name = \"g\"]; }"}, EXPORTS,
     "google/protobuf/FileOptions#optimize_for. google/protobuf/FileOptions#OptimizeMode#SPEED. "
     "google/protobuf/MessageOptions#deprecated. google/protobuf/FieldOptions#deprecated.", ""),
    ("plain names without the options' messages",
     {"a.proto": 'syntax = "proto3"; option java_package = "x"; message M { int32 f = 1 [lazy = true, (y) = 1]; }'}, {},
     "", "y"),
    ("names that descriptor.proto shares with a file that no source sees",
     {"a.proto": 'syntax = "proto3"; message M { int32 f = 1 [lazy = true, gone = 1]; }'}, {**EXPORTS, **OWN},
     "google/protobuf/FieldOptions#lazy.", "gone"),
    ("the same with one that a source sees",
     {"a.proto": 'syntax = "proto3"; import "other.proto"; message M { int32 f = 1 [lazy = true, gone = 1]; }'},
     {**EXPORTS, **OWN}, "google/protobuf/FieldOptions#lazy.", "gone"),
    ("the same where a source sees descriptor.proto",
     {"a.proto": 'syntax = "proto3"; import "google/protobuf/descriptor.proto"; '
                 "message M { int32 f = 1 [lazy = true]; }"}, {**EXPORTS, **OWN},
     "google/protobuf/FieldOptions#lazy.", ""),
    ("a type behind a private import of an included file", {"a.proto": RULE}, {**EXPORTS, **RULES}, RULE_NAMES, ""),
    ("the same beside another file with its name", {"a.proto": RULE},
     {**EXPORTS, **RULES, "other.proto": OTHER_RULE}, RULE_NAMES, ""),
    ("the same beside copies of both files", {"a.proto": RULE},
     {**EXPORTS, **RULES, **{f"copy/{path}": text for path, text in RULES.items()}}, RULE_NAMES, ""),
    ("the same where a source has its name", {"a.proto": RULE, "0.proto": OTHER_RULE}, {**EXPORTS, **RULES},
     "o/ o/rule.", "get"),
    ("a copy of descriptor.proto that an import leads to",
     {"a.proto": 'syntax = "proto3"; import "b.proto"; option mine = "x"; option java_package = "y"; '
                 "message M { int32 f = 1 [lazy = true]; }", "b.proto": 'syntax = "proto3"; import "copy.proto";'},
     {**EXPORTS, "copy.proto": COPY}, "google/protobuf/FileOptions#mine. google/protobuf/FieldOptions#lazy.",
     "java_package"),
    ("the same where the copy is a source",
     {"a.proto": 'syntax = "proto3"; import "b.proto"; option mine = "x";', "copy.proto": COPY,
      "b.proto": 'syntax = "proto3"; import "copy.proto";'}, EXPORTS, "google/protobuf/FileOptions#mine.", ""),
    ("a copy that no import leads to", {"a.proto": 'syntax = "proto3"; option java_package = "x"; option mine = "y";'},
     {**EXPORTS, "copy.proto": COPY}, "google/protobuf/FileOptions#java_package.", "mine"),
    ("two copies", {"a.proto": 'syntax = "proto3"; import "copy.proto"; import "other.proto"; option mine = "x";'},
     {**EXPORTS, "copy.proto": COPY, "other.proto": COPY}, "", "mine"),
    ("a copy that is left out",
     {"a.proto": 'syntax = "proto3"; package google.protobuf; import "copy.proto"; message FieldOptions {} '
                 'option mine = "x";'}, {**EXPORTS, "copy.proto": COPY}, "", "mine"),
    ("a default", {"a.proto": head() + "enum E { V = 0; W = 1; } message M { optional E e = 1 [default = W]; "
                                       "optional E g = 2 [default = X, deprecated = true]; }"}, EXPORTS,
     "p/E#W. google/protobuf/FieldOptions#deprecated.", "X"),
    ("braces, both separators and angles",
     {"a.proto": BRACES + "option (x) = { n: { i: 1; e: W }, ns < i: 2, > n { }; };"}, EXPORTS,
     "p/x. p/T#n. p/N#i. p/N#e. p/E#W. p/T#ns. p/N#i. p/T#n.", ""),
    ("lists", {"a.proto": BRACES + "option (x) = { ns: [{ i: 1 }, < ns [{ i: 2 }] >] es: [V, W] es: [] };"}, EXPORTS,
     "p/x. p/T#ns. p/N#i. p/N#ns. p/N#i. p/T#es. p/E#V. p/E#W. p/T#es.", ""),
    ("a group in braces", {"a.proto": BRACES + "option (x) = { G { ga: 1 } };"}, EXPORTS, "p/x. p/T#g. p/T#G#ga.", ""),
    ("a group in small letters", {"a.proto": BRACES + "option (x) = { g { ga: 1 } };"}, EXPORTS, "p/x.", "g"),
    ("extensions in braces", {"a.proto": BRACES + "option (x) = { [p.e1]: 1 [e2] { i: 2 } [p.H.e3]: 3 };"}, EXPORTS,
     "p/x. p/ p/e1. p/e2. p/N#i. p/ p/H# p/H#e3.", ""),
    ("Any's form", {"a.proto": BRACES + "option (x) = { any { [type.googleapis.com/p.N] { i: 1 } } };"}, EXPORTS,
     "p/x. p/T#any. p/ p/N# p/N#i.", ""),
    ("the entries of a map", {"a.proto": BRACES + 'option (x) = { m { key: "k" value { e: W } } };'}, EXPORTS,
     "p/x. p/T#m. p/N#e. p/E#W.", ""),
    ("an unknown field in braces", {"a.proto": BRACES + "option (x) = { n { zz: 1 } es: Z };"}, EXPORTS,
     "p/x. p/T#n. p/T#es.", "zz"),
    ("a field number in braces", {"a.proto": BRACES + "option (x) = { n { i: 1 } 2: 3 es: W }; "
                                              "option (x).n = { 1: { i: 2 } e: W };"}, EXPORTS,
     "p/x. p/T#n. p/N#i. p/T#es. p/E#W. p/x. p/T#n. p/N#e. p/E#W.", ""),
    ("braces without a name", {"a.proto": BRACES + "option (x).n = { { i: 1 } i: 2 };"}, EXPORTS,
     "p/x. p/T#n. p/N#i.", ""),
    ("an enum's word with a dot", {"a.proto": BRACES + "option (x) = { es: p.W n { e: .p.E.W, i: 1 } es: [p.V, W] };"},
     EXPORTS, "p/x. p/T#es. p/T#n. p/N#e. p/N#i. p/T#es. p/E#W.", ""),
    ("separators twice", {"a.proto": BRACES + "option (x) = { n { i: 1,, e: W; ; ns { } } , es: V };"}, EXPORTS,
     "p/x. p/T#n. p/N#i. p/N#e. p/E#W. p/N#ns. p/T#es. p/E#V.", ""),
    ("a reserved name in braces",
     {"a.proto": BRACES.replace("message T { ", "message T { reserved \"old\", 'ol' \"der\", '\\x6fct'; ")
      + "option (x) = { old: [{ x: 1 }, 2] older { a: V [p.gone]: W } oct: GONE n { i: 1 } }; option (x).old = 1;"},
     EXPORTS, "p/x. p/T#n. p/N#i. p/x.", "old"),
    ("a name that another message reserves",
     {"a.proto": BRACES.replace("message H {", "message H { reserved 'zz';") + "option (x) = { zz: 1 n { } };"},
     EXPORTS, "p/x. p/T#n.", "zz"),
    ("the domains of Any", {"a.proto": BRACES + "option (x) = { any { [type.googleprod.com/p.N] { i: 1 } "
                                        "[example.com/p.N] { i: 1 } } };"}, EXPORTS,
     "p/x. p/T#any. p/ p/N# p/N#i.", "p.N"),
    ("two paths in Any", {"a.proto": BRACES + "option (x) = { any { [type.googleapis.com/x/p.N] { i: 1 } } n { } };"},
     EXPORTS, "p/x. p/T#any. p/T#n.", ""),
    ("a comment of a #", {"a.proto": BRACES + "option (x) = { n { i: 1 } # ns { gone: 1 } '}' $\n // }\n /* } */ e );\n"
                                     " };\noption (x).n = {# i: 1\n}; option (x).g = { ga: 1 #};"}, EXPORTS,
     "p/x. p/T#n. p/N#i. p/x. p/T#n. p/x. p/T#g. p/T#G#ga.", ""),
    ("a message set", {"a.proto": SET + "option (s) = { [p.I] { i: 1 } [U]: { i: 2 } [Q.In] { j: 3 } };"}, EXPORTS,
     WIRE + "p/s. p/ p/I#ext. p/I#i. p/U#first. p/U#i. p/Q# p/Q#In#in. p/Q#In#j.", ""),
    ("an extension of a set by its own name", {"a.proto": SET + "option (s) = { [p.I.ext] { i: 1 } };"}, EXPORTS,
     WIRE + "p/s. p/ p/I# p/I#ext. p/I#i.", ""),
    ("no extension of its own", {"a.proto": SET + "option (s) = { [p.V] { i: 1 } [p.v] { i: 2 } };"}, EXPORTS,
     WIRE + "p/s. p/ p/v. p/V#i.", "p.V"),
    ("a message of a set in parentheses", {"a.proto": SET + "option (s).(p.I) = { i: 1 };"}, EXPORTS, WIRE + "p/s.",
     "p.I"),
    ("no message set", {"a.proto": SET.replace("= true", "= false") + "option (s) = { [p.I] { i: 1 } };"}, EXPORTS,
     WIRE + "p/s.", "p.I"),
    ("a type that isn't there", {"a.proto": head() + extending("File", "x", "Gone") + "option (x).y = 1;"}, EXPORTS,
     "p/x.", "y"),
)

# ---- generated trees

WORDS = ("x", "y", "M", "N", "q", "p")
NAMES = WORDS + ("u", "v", "w", "z", "k", "l")
T = """syntax = "proto2"; package t; import "google/protobuf/any.proto";
enum E { V = 0; W = 1; } enum F { Z = 0; }
message T { extensions 50000 to 60000; optional int32 i = 1; optional E e = 2; optional T n = 3; repeated T ns = 4;
  repeated E es = 5; optional group G = 6 { optional int32 gi = 1; } map<string, T> m = 7; oneof oo { int32 o = 8; }
  optional google.protobuf.Any any = 9; }
"""
# What may stand in braces of a T: `%s` is a T, `@` an extension of it.
GOOD = ("i: 1", "e: W", "n { %s }", "n: < %s >", "ns: [ { %s }, { } ]", "es: [V, W]", "G { gi: 1 }",
        'm { key: "k" value { %s } }', "o: 2", "[@]: 1", "any { [type.googleapis.com/t.T] { %s } }")
BAD = ("e: Z", "g { gi: 1 }", "zz: 1", "oo: 1", "any { [type.googleapis.com/T] { } }", "[x]: 1", "n { V: 1 }")


def joined(scope, name):
    return f"{scope}.{name}" if scope else name


class Maker:
    """A tree, made by chance: t.proto and s.proto have types; c.proto and b.proto have extensions; a.proto has options,
    each on a line of its own, and doesn't see s.proto. Some are sources, some included, beside files that nothing leads
    to. `taken` are the full names, `extensions` those with what they extend and their types."""

    def __init__(self, chance):
        self.chance, self.taken, self.extensions, self.number = chance, set(), [], 50000
        pick = chance.choice
        self.descriptor = pick(("google/protobuf/descriptor.proto",) * 2 + ("copy/descriptor.proto",))
        self.packages = {"a": pick(("", "p", "p.q", "p.q.r", "q")), "b": pick(("", "p", "p.q", "q", "x", "q.p")),
                         "c": pick(("p", "q", "p.q", "p.x", "M", "p.q.x"))}
        for package in self.packages.values():
            words = package.split(".")
            self.taken |= {".".join(words[:number + 1]) for number in range(len(words))}
        bodies = {letter: self.file(letter) for letter in "cba"}
        imports = {"c": "", "b": pick(("", 'import "c.proto";', 'import public "c.proto";')),
                   "a": pick(('import "b.proto";', 'import "b.proto"; import "c.proto";'))}
        types = T.replace("import", f'import "{self.descriptor}"; import', 1)
        self.files, self.included = {"t.proto": types, "s.proto": types.replace(" t;", " s;")}, dict(EXPORTS)
        for letter, body in bodies.items():
            package = f"package {self.packages[letter]}; " if self.packages[letter] else ""
            self.files[f"{letter}.proto"] = "\n".join(
                [f'syntax = "proto2"; {package}import "{self.descriptor}"; import "t.proto"; ' + imports[letter]
                 + 'import "s.proto"; ' * (letter != "a"), *body, ""])
        for path in chance.sample(("b.proto", "c.proto", "s.proto", "t.proto"), chance.randint(0, 4)):
            self.included[path] = self.files.pop(path)
        self.included[self.descriptor] = DESCRIPTOR
        for path in chance.sample(("b.proto", "c.proto", "s.proto", "t.proto"), chance.randint(0, 2)):
            self.included[f"other/{path}"] = {**self.files, **self.included}[path]
        if self.descriptor in EXPORTS and chance.random() < 0.3:
            self.files["v.proto"] = 'syntax = "proto3"; package a; option java_package = "x"; message M {}'
            self.files["w.proto"] = self.files["v.proto"]

    def is_free(self, scope, name):
        """Takes a full name, if nothing has it."""
        full = joined(scope, name)
        is_free = full not in self.taken
        self.taken.add(full)
        return is_free

    def extension(self, scope):
        name = self.chance.choice(NAMES)
        if not self.is_free(scope, name):
            return []
        self.number += 1
        extended = self.chance.choice((*KINDS, "T", "T", "T", "T"))
        kind = self.chance.choice(("int32", "int32", ".t.T", ".t.E") + (".s.T", ".s.E") * (self.letter != "a"))
        self.extensions.append((joined(scope, name), extended, kind))
        message = ".t.T" if extended == "T" else f"google.protobuf.{extended}Options"
        return [f"extend {message} {{ optional {kind} {name} = {self.number}; }}"]

    def named(self, extended):
        """A name that may be that of an extension of this, and its type."""
        chance, fitting = self.chance, [each for each in self.extensions if each[1] == extended]
        if not fitting or chance.random() < 0.12:
            dot = "." if chance.random() < 0.1 else ""
            return dot + ".".join(chance.choices(WORDS, k=chance.randint(1, 3))), "int32"
        full, _, kind = chance.choice(fitting)
        words = full.split(".")
        if chance.random() < 0.4:
            return "." + full, kind
        return ".".join(words[chance.randrange(len(words)) if chance.random() < 0.3 else 0:]), kind

    def braces(self, kind=".t.T", depth=0):
        """Fields of a T, most of them good ones."""
        found = []
        for field in self.chance.sample(GOOD, self.chance.randint(0, 4)):
            if any(other[0] == field[0] != "e" for other in found) or "@" in field and kind == ".s.T":
                continue
            if "@" in field:
                full = self.named("T")[0]
                field = field.replace("@", full.lstrip("."))
            elif "%s" in field:
                inner = ".t.T" if field.startswith("any") else kind
                field = field % (self.braces(inner, depth + 1) if depth < 3 else "")
            found.append(field + self.chance.choice(("", ",", ";")))
        if self.chance.random() < 0.06:
            found.append(self.chance.choice(BAD))
        return " ".join(found)

    def value(self, kind):
        if kind in (".t.T", ".s.T"):
            remark = self.chance.choice(("",) * 9 + ("# gone: 1 { $ '}' } ;",))
            return f"{{ {self.braces(kind)} {remark} }}"
        return self.chance.choice(("V", "W", "W", "Z")) if kind in (".t.E", ".s.E") else "1"

    def option(self, element):
        if self.chance.random() < 0.12:
            return self.chance.choice(("deprecated = true", "deprecated = true", "deprecated = true", "gone = 1"))
        name, kind = self.named(element)
        if kind not in (".t.T", ".s.T") or self.chance.random() < 0.5:
            return f"({name}) = {self.value(kind)}"
        part = self.chance.choice(("i", "n.i", "g.gi", "e", "o", "n", "n.n.e", "G.gi", "x", "", "n."))
        if part in ("", "n."):
            further, kind = self.named("T")
            return f"({name}).{part}({further}) = {self.value(kind)}"
        kinds = {"e": kind[:2] + ".E", "n": kind}
        return f"({name}).{part} = {self.value(kinds.get(part[-1], 'int32'))}"

    def statement(self, element, likely=1.0):
        return [f"option {self.option(element)};"] if self.chance.random() < likely else []

    def brackets(self, element, likely):
        return f"[{self.option(element)}];" if self.chance.random() < likely else ";"

    def members(self, scope, depth, has_options):
        """What is in a message: of a.proto with options, else extensions most of all."""
        lines = self.statement("Message", 0.6) if has_options else []
        kinds = ("extend", "message", "field", "enum", "oneof", "range", "group")[:None if has_options else 2]
        for number in range(1, self.chance.randint(4, 9) if has_options else 4):
            kind, name = self.chance.choice(kinds), self.chance.choice(WORDS)
            if kind == "extend":
                lines += self.extension(scope)
            elif kind == "range":
                lines += [f"extensions {1000 * number} to {1000 * number + 9}", self.brackets("ExtensionRange", 1)]
            elif kind == "message" and depth < 2 and self.is_free(scope, name):
                lines += [f"message {name} {{", *self.members(joined(scope, name), depth + 1, has_options), "}"]
            elif kind == "field" and self.is_free(scope, name):
                lines += [f"optional int32 {name} = {number}", self.brackets("Field", 0.7)]
            elif kind == "enum" and self.is_free(scope, name):
                value = self.chance.choice(("x", "y"))
                value = value if self.is_free(scope, value) else f"V_{name}_{number}"
                lines += [f"enum {name} {{", *self.statement("Enum", 0.5), f"{value} = 0",
                          self.brackets("EnumValue", 0.6), "}"]
            elif kind == "oneof" and self.is_free(scope, name):
                lines += [f"oneof {name} {{", *self.statement("Oneof"), f"int32 f{number} = {number};", "}"]
            elif kind == "group" and self.is_free(scope, "G") and self.is_free(scope, "g"):
                lines += [f"optional group G = {number}", self.brackets("Field", 1).rstrip(";"), "{",
                          *self.members(joined(scope, "G"), 2, has_options), "}"]
        return lines

    def service(self, scope, name):
        method = self.chance.choice(WORDS)
        self.is_free(joined(scope, name), method)
        return [f"service {name} {{", *self.statement("Service"), f"rpc {method} (.t.T) returns (.t.T) {{",
                *self.statement("Method"), "}", "}"]

    def file(self, letter):
        has_options, package, self.letter = letter == "a", self.packages[letter], letter
        lines = self.statement("File") if has_options else []
        kinds = ("message", "extend", "service", "enum") if has_options else ("message",) + ("extend",) * 4
        for number in range(self.chance.randint(5, 9) if has_options else self.chance.randint(8, 14)):
            kind, name = self.chance.choice(kinds), self.chance.choice(WORDS)
            if kind == "extend":
                lines += self.extension(package)
            elif not self.is_free(package, name):
                continue
            elif kind == "message":
                lines += [f"message {name} {{", *self.members(joined(package, name), 0, has_options), "}"]
            elif kind == "service":
                lines += self.service(package, name)
            else:
                lines += [f"enum {name} {{", *self.statement("Enum"), f"V_{letter}_{number} = 0;", "}"]
        return lines

"""The declarations and options of good sources, as the language specifications and the Text Format's have them: what
the slow reference for `index --options link` reads (option_names.py).

Needs python3 alone.
"""

import re
from ast import literal_eval

TOKEN = re.compile(r"(?P<gap>\s+|//[^\n]*|/\*.*?\*/)|(?P<word>[A-Za-z_]\w*)|(?P<number>\.?\d(?:[eE][+-]|[\w.])*)"
                   r"|(?P<text>\"(?:\\.|[^\"\\\n])*\"|'(?:\\.|[^'\\\n])*')|(?P<sign>.)", re.S)
SCALARS = frozenset("double float int32 int64 uint32 uint64 sint32 sint64 fixed32 fixed64 sfixed32 sfixed64 bool "
                    "string bytes".split())
MAX_DEPTH = 64
# By which `protoc` finds what is packed.
DOMAINS = ("type.googleapis.com", "type.googleprod.com")
# What a declaration's symbol has behind its name.
ENDS = {"message": "#", "enum": "#", "service": "#", "field": ".", "value": ".", "oneof": ":", "method": "()."}


class Malformed(Exception):
    """What is read is no source, or no field's name."""


def joined(scope, name):
    return f"{scope}.{name}" if scope else name


class Name:
    """A name in an option: its role (`field`, `extension`, `packed`, `elsewhere` or `value`), the number of the name
    that it belongs to, whether a dot leads, its words with their offsets, and whether it is that of a message for its
    extension of a message set."""

    def __init__(self, role, owner, has_dot, words, start):
        self.role, self.owner, self.has_dot, self.start, self.is_type = role, owner, has_dot, start, False
        self.words, self.places = [word for word, _ in words], [at for _, at in words]


class Option:
    """An option: of which element it is, the scope from which its name is looked up, its names, how many of them are
    its name's parts, and where it stands."""

    def __init__(self, element, scope, field):
        self.element, self.scope, self.field = element, scope, field
        self.names, self.parts, self.span = [], 0, (0, 0)


class Declaration:
    """What is declared: its kind, its full name, its symbol behind the scheme; of a field its type, what it extends,
    whether it is a map, and the message of a group; and of a message the names that it reserves, and whether it is a
    message set."""

    def __init__(self, source, kind, scope, front, name):
        self.source, self.kind, self.full_name = source, kind, joined(scope, name)
        self.symbol = front + name + ENDS[kind]
        self.outer = self.type = self.extended = self.group = None
        self.is_map, self.reserved, self.is_set = False, set(), False


class TypeUse:
    """A name of a type, and the scope in which it stands."""

    def __init__(self, scope, has_dot, words):
        self.scope, self.has_dot, self.words = scope, has_dot, words


def heard(tokens):
    """The tokens that are in no comment of a `#`: such a one begins right in the braces behind a `=`, and ends before
    the brace that closes them."""
    kept, values, depth = [], [], None
    for kind, text, start in tokens:
        opens, closes = ((kind, text) == ("sign", sign) for sign in "{}")
        if depth is not None and (depth or not closes):
            depth += opens - closes
        elif (kind, text) == ("sign", "#") and values and values[-1]:
            depth = 0
        else:
            depth = None
            if opens:
                values.append(bool(kept) and kept[-1][1] == "=")
            elif closes and values:
                values.pop()
            kept.append((kind, text, start))
    return kept


class Reader:
    """Tokens, taken one after the other."""

    def __init__(self, text):
        found = [(match.lastgroup, match[0], match.start()) for match in TOKEN.finditer(text)]
        self.tokens = heard(token for token in found if token[0] != "gap")
        self.text, self.at, self.end = text, 0, len(text)

    def peek(self, further=0):
        at = self.at + further
        return self.tokens[at] if at < len(self.tokens) else ("end", "", self.end)

    def sees(self, *texts):
        """Whether the next tokens are these."""
        return all(self.peek(at)[1] == text and self.peek(at)[0] != "text" for at, text in enumerate(texts))

    def take(self, text=None, kind=None):
        token = self.peek()
        if token[0] == "end" or text not in (None, token[1]) or kind not in (None, token[0]):
            raise Malformed(token)
        self.at += 1
        return token

    def passes(self, text):
        """Takes the next token if it is this."""
        is_next = self.sees(text)
        self.at += is_next
        return is_next

    def dotted(self):
        words = [self.take(kind="word")[1:]]
        while self.passes("."):
            words.append(self.take(kind="word")[1:])
        return words

    def is_kind(self, *kinds):
        return self.peek()[0] in kinds

    # ---- options

    def option(self, element, scope, field=None):
        option = Option(element, scope, field)
        start = self.peek()[2]
        self.part(option.names, None)
        while self.passes("."):
            self.part(option.names, len(option.names) - 1)
        option.parts = len(option.names)
        self.take("=")
        self.value(option.names)
        last = self.tokens[self.at - 1]
        option.span = (start, last[2] + len(last[1]))
        return option

    def part(self, names, owner):
        if not self.passes("("):
            names.append(Name("field", owner, False, [self.take(kind="word")[1:]], self.tokens[self.at - 1][2]))
            return
        start = self.peek()[2]
        names.append(Name("extension", owner, self.passes("."), self.dotted(), start))
        self.take(")")

    def value(self, names):
        owner = len(names) - 1
        if self.is_kind("word"):
            start = self.peek()[2]
            names.append(Name("value", owner, False, self.dotted(), start))
        elif self.is_kind("text"):
            self.texts()
        elif self.sees("{"):
            self.message(names, owner, MAX_DEPTH)
        else:
            self.passes("-") or self.passes("+")
            self.take()

    def texts(self):
        self.take(kind="text")
        while self.is_kind("text"):
            self.take()

    # ---- messages in values: what the text format has nothing of is passed

    def is_sign(self, signs, further=0):
        kind, text, _ = self.peek(further)
        return kind == "sign" and text in signs

    def pass_one(self):
        """Takes a token, and what it opens: up to the `}` that closes a `{`, or to what closes a `[` or a `<`, whose
        braces are apart; but no `}` that closes what is around."""
        braces, brackets = int(self.is_sign("{")), int(self.is_sign("[<"))
        self.at += 1
        while (braces or brackets and not self.is_sign("}")) and not self.is_kind("end"):
            brackets += 0 if braces else self.is_sign("[<") - self.is_sign("]>")
            braces += self.is_sign("{") - self.is_sign("}")
            self.at += 1

    def is_whole(self, further=0):
        """Whether a word is next that may be a value."""
        return self.peek(further)[0] == "word" and not self.is_sign("./-+=:{<", further + 1)

    def pass_odd(self):
        """Takes one thing that no field begins with; a sign, with the word or the brackets that belong to it."""
        has_word = self.peek(1)[0] == "word" and self.is_sign("./-+=") or self.is_whole(1) and self.is_sign(":")
        if has_word or self.is_sign("./-+=:") and self.is_sign("{[<", 1):
            self.at += 1
        self.pass_one()

    def field_name(self, owner):
        """The name of a field that begins here, or None."""
        begun = self.at
        try:
            if self.passes("["):
                words, role = self.dotted(), "extension"
                if self.passes("/"):
                    domain = ".".join(word for word, _ in words)
                    words, role = self.dotted(), "packed" if domain in DOMAINS else "elsewhere"
                self.take("]")
            else:
                words, role = [self.take(kind="word")[1:]], "field"
        except Malformed:
            words = None
        if words and self.is_sign(":[{<"):
            return Name(role, owner, False, words, words[0][1])
        self.at = begun
        return None

    def message(self, names, owner, levels):
        """A message with its braces."""
        if levels == 0:
            self.pass_one()
            return
        closing = ">" if self.is_sign("<") else "}"
        self.at += 1
        while not self.is_sign(closing + "}") and not self.is_kind("end"):
            name = self.field_name(owner)
            if not name:
                self.pass_odd()
                continue
            names.append(name)
            self.passes(":")
            self.field_value(names, len(names) - 1, levels - 1)
        self.passes(closing)

    def field_value(self, names, owner, levels):
        if not self.passes("["):
            self.item(names, owner, levels)
            return
        while not self.is_sign("]}>") and not self.is_kind("end"):
            self.item(names, owner, levels) or self.pass_odd()
        self.passes("]")

    def item(self, names, owner, levels):
        """Takes a message, or a word as a value, if one is next."""
        if self.is_sign("{<"):
            self.message(names, owner, levels)
        elif self.is_whole():
            names.append(Name("value", owner, False, [self.peek()[1:]], self.peek()[2]))
            self.at += 1
        else:
            return False
        return True


class Source(Reader):
    """A source: its package, imports, declarations and options."""

    def __init__(self, path, text):
        super().__init__(text)
        self.path, self.imports, self.declarations, self.options, self.package = path, [], [], [], ""
        found = re.search(r"(?:^|[;}])\s*package\s+([\w.\s]+);", re.sub(r"//[^\n]*|/\*.*?\*/", " ", text, flags=re.S))
        if found:
            self.package = re.sub(r"\s", "", found[1])
        front = "".join(word + "/" for word in self.package.split(".") if word)
        while not self.is_kind("end"):
            self.statement("File", self.package, self.package, front, None, None)

    def declared(self, kind, scope, front, outer, name):
        found = Declaration(self, kind, scope, front, name)
        found.outer = outer
        self.declarations.append(found)
        return found

    def note(self, element, scope, field=None):
        self.options.append(self.option(element, scope, field))

    def brackets(self, element, scope, field=None):
        if self.passes("["):
            self.note(element, scope, field)
            while self.passes(","):
                self.note(element, scope, field)
            self.take("]")

    def pass_statement(self):
        while self.take()[1] != ";":
            pass

    def reserved(self):
        """The names in a reserved statement."""
        names = [""]
        while self.take()[1] != ";":
            if self.is_kind("text"):
                names[-1] += literal_eval(self.peek()[1])
            elif self.sees(","):
                names.append("")
        return set(names) - {""}

    def type_use(self, scope):
        if self.peek()[1] in SCALARS and not self.peek(1)[1] == ".":
            self.take()
            return None
        return TypeUse(scope, self.passes("."), [word for word, _ in self.dotted()])

    def inside(self, within, outer_scope, scope, front, outer, extended=None):
        self.take("{")
        while not self.passes("}"):
            self.statement(within, outer_scope, scope, front, outer, extended)

    def statement(self, within, outer_scope, scope, front, outer, extended):
        """A statement in braces of this kind, around which is `outer_scope`; what it declares is in `scope`."""
        word = self.peek()[1]
        if self.passes(";"):
            return
        if word == "option" and within != "Extend":
            self.take()
            if within == "Message" and self.sees("message_set_wire_format", "=", "true"):
                outer.is_set = True
            self.note(within, outer_scope)
            self.take(";")
        elif within == "Message" and word == "reserved":
            outer.reserved |= self.reserved()
        elif within == "File" and word in ("syntax", "package") or within == "Enum" and word == "reserved":
            self.pass_statement()
        elif within == "File" and word == "import":
            self.take()
            is_public = self.sees("public")
            if is_public or self.sees("weak"):
                self.take()
            path = ""
            while self.is_kind("text"):
                path += self.take()[1][1:-1]
            self.imports.append((is_public, path))
            self.take(";")
        elif within in ("File", "Message") and word in ("message", "enum", "extend", "service", "oneof"):
            self.block(word, scope, front, outer)
        elif within == "Message" and word == "extensions":
            while not self.sees("[") and not self.sees(";"):
                self.take()
            self.brackets("ExtensionRange", outer_scope)
            self.take(";")
        elif within == "Service":
            self.method(scope, front, outer)
        elif within == "Enum":
            self.declared("value", scope, front, outer, self.take(kind="word")[1])
            self.pass_number()
            self.brackets("EnumValue", scope)
            self.take(";")
        else:
            self.field(scope, front, outer, extended, within)

    def block(self, word, scope, front, outer):
        self.take()
        if word == "extend":
            extended = self.type_use(scope)
            self.inside("Extend", scope, scope, front, outer, extended)
            return
        found = self.declared(word, scope, front, outer, self.take(kind="word")[1])
        within = word.capitalize()
        if word == "oneof":
            self.inside(within, scope, scope, front, outer)
        elif word == "enum":
            self.inside(within, scope, scope, found.symbol, found)
        else:
            self.inside(within, scope, found.full_name, found.symbol, found)

    def method(self, scope, front, outer):
        self.take("rpc")
        self.declared("method", scope, front, outer, self.take(kind="word")[1])
        while not self.sees(";") and not self.sees("{"):
            self.take()
        if self.sees("{"):
            self.inside("Method", scope, scope, front, outer)
        else:
            self.take(";")

    def pass_number(self):
        self.take("=")
        self.passes("-")
        self.take(kind="number")

    def field(self, scope, front, outer, extended, within):
        if self.peek()[1] in ("optional", "repeated", "required") and within != "Oneof":
            self.take()
        is_map = self.sees("map", "<")
        if is_map:
            self.take(), self.take(), self.take(), self.take(",")
            use = self.type_use(scope)
            self.take(">")
        is_group = not is_map and self.sees("group") and self.peek(1)[0] == "word" and self.peek(2)[1] == "="
        if is_group:
            self.take()
            use = None
        elif not is_map:
            use = self.type_use(scope)
        name = self.take(kind="word")[1]
        found = self.declared("field", scope, front, outer, name.lower() if is_group else name)
        found.type, found.extended, found.is_map = use, extended, is_map
        self.pass_number()
        if is_group:
            found.group = self.declared("message", scope, front, outer, name)
        self.brackets("Field", scope, found)
        if is_group:
            self.inside("Message", scope, found.group.full_name, found.group.symbol, found.group)
        else:
            self.take(";")

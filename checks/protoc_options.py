"""What protoc says of options: which fields the names of each are, and which are set in its value, from the descriptors
of files and the places of their options; and what an index has there.

Needs what packages.py needs.
"""

import collections
import os
import re
import shutil

from packages import GROUP, SYMBOL, TOP, fields, name_of, numbers, run, text_of

MESSAGE, ENUM, REPEATED = 11, 14, 3
# What stands where in a descriptor (descriptor.proto): by the kind of what it describes and a field's number, the kind
# of what this field has; and its options' field.
INSIDE = {("File", 4): "Message", ("File", 5): "Enum", ("File", 6): "Service", ("File", 7): "Field",
          ("Message", 2): "Field", ("Message", 3): "Message", ("Message", 4): "Enum", ("Message", 5): "ExtensionRange",
          ("Message", 6): "Field", ("Message", 8): "Oneof", ("Enum", 2): "EnumValue", ("Service", 2): "Method"}
OPTIONS = {"File": 8, "Message": 7, "Field": 8, "Oneof": 2, "Enum": 3, "EnumValue": 3, "Service": 3, "Method": 4,
           "ExtensionRange": 3}
# Options of a field that protoc's parser takes for itself: `default` and `json_name`.
DEFAULT, JSON_NAME = 7, 10
TAKEN = (DEFAULT, JSON_NAME)
ANY = "google.protobuf.Any"
NUMBERS = re.compile(rb"-?\b\d+\b")
EQUALS = re.compile(rb"//[^\n]*|/\*.*?\*/|(=)", re.S)


class Field:
    """A field by protoc: its symbol, its type, and whether a zero of it isn't written."""

    def __init__(self, symbol, record, syntax):
        self.symbol, self.type, self.type_name = symbol, record[5][-1] if record[5] else 0, name_of(record, 6)[1:]
        self.is_repeated = record[4][-1:] == [REPEATED]
        has_presence = syntax != "proto3" or record[2] or record[17] or record[9] or self.type in (MESSAGE, GROUP)
        self.may_be_unset = self.is_repeated or not has_presence


class Schema:
    """The fields of each message by number, extensions among them; what each symbol is: a field, by its message and
    number, or a value, by its enum and number; which messages are the entries of maps, and which are written as sets
    of messages."""

    def __init__(self, files):
        self.fields, self.named, self.entries, self.sets = collections.defaultdict(dict), {}, set(), set()
        for file in files:
            package = name_of(file, 2)
            front = SYMBOL + "".join(word + "/" for word in package.split(".") if word)
            self.syntax = name_of(file, 12)
            self.add_inside(file, package, front, (4, 5, 7))

    def add_inside(self, record, scope, front, kinds):
        messages, enums, extensions = kinds
        for message in map(fields, record[messages]):
            full, symbol = f"{scope}.{name_of(message)}".lstrip("."), f"{front}{name_of(message)}#"
            options = fields(b"".join(message[7]))
            if options[7] == [1]:
                self.entries.add(full)
            if options[1] == [1]:
                self.sets.add(full)
            for field in map(fields, message[2]):
                self.add_field(full, field, symbol)
            self.add_inside(message, full, symbol, (3, 4, 6))
        for enum in map(fields, record[enums]):
            full, symbol = f"{scope}.{name_of(enum)}".lstrip("."), f"{front}{name_of(enum)}#"
            for value in map(fields, enum[2]):
                self.named[f"{symbol}{name_of(value)}."] = ("value", full, value[2][-1] if value[2] else 0)
        for field in map(fields, record[extensions]):
            self.add_field(name_of(field, 2)[1:], field, front)

    def add_field(self, holder, field, front):
        number, symbol = field[3][-1], f"{front}{name_of(field)}."
        self.fields[holder][number] = Field(symbol, field, self.syntax)
        self.named[symbol] = ("field", holder, number)

    def pieces_of(self, message, data):
        """What the fields of a message are written as, by their numbers. A set of messages is written as items, each
        with a field's number and a message."""
        pieces = fields(data)
        if message not in self.sets:
            return pieces
        items = [fields(item) for item in pieces[1]]
        return {numbers(item[2])[0]: item[3] for item in items}

    def written_in(self, message, data):
        """The fields that are set in a message of this type, and the values of enums that are given, each with the
        message or enum and its number; without the fields of entries of maps, and of what is packed."""
        found = set()
        for number, pieces in self.pieces_of(message, data).items():
            field = self.fields[message].get(number)
            if field is None:
                continue
            if message not in self.entries and message != ANY:
                found.add(("field", message, number))
            found |= self.given_to(field, pieces)
        if message == ANY:
            record = fields(data)
            found |= self.written_in(name_of(record).rpartition("/")[2], b"".join(record[2]))
        return found

    def given_to(self, field, pieces):
        """The same in what is given to a field."""
        if field.type in (MESSAGE, GROUP):
            return set().union(*(self.written_in(field.type_name, piece) for piece in pieces))
        return {("value", field.type_name, number) for number in numbers(pieces)} if field.type == ENUM else set()

    def fields_along(self, message, path):
        """The fields with these numbers, each of the type of the one before; behind a repeated one is its index."""
        found = []
        for number in path:
            field = self.fields[message].get(number)
            if field is None:
                break
            found.append(("field", message, number))
            if field.is_repeated or field.type not in (MESSAGE, GROUP):
                break
            message = field.type_name
        return found

    def may_be_unset(self, kind, holder, number):
        """Whether this may be in braces and not be set: a zero of a field without presence, an empty list. The fields
        of `Any` may be there or not."""
        if kind == "value":
            return number == 0
        return holder == ANY or self.fields[holder][number].may_be_unset


def descriptor_of_options(room):
    """The descriptor of descriptor.proto."""
    at, out = os.path.join(room, "own", "google", "protobuf"), os.path.join(room, "own", "set")
    os.makedirs(at, exist_ok=True)
    shutil.copy(os.path.join(TOP, "checks", "descriptor.proto"), at)
    place = os.path.join(room, "own")
    run(["protoc", f"--proto_path={place}", f"--descriptor_set_out={out}", "google/protobuf/descriptor.proto"])
    return fields(fields(text_of(out))[1][0])


class Option:
    """An option at its place: of which element, by the kind and the path of that; the numbers of its fields, or that of
    an option that is taken; and the options of the element, or in the latter case the field."""

    def __init__(self, kind, element, path, record, span):
        self.kind, self.element, self.path, self.record, self.span = kind, element, path, record, span
        self.is_taken = False


def options_of(descriptor):
    """The options of a file by its descriptor (packages.Descriptor), each with the offsets of its place."""
    found = []
    for location in fields(descriptor.file[9][-1])[1] if descriptor.file[9] else ():
        parts = fields(location)
        path = numbers(parts[1])
        kind, record, at = "File", descriptor.file, 0
        while at + 1 < len(path) and (kind, path[at]) in INSIDE:
            kind, record, at = INSIDE[kind, path[at]], fields(record[path[at]][path[at + 1]]), at + 2
        element, behind = tuple(path[:at]), path[at:]
        is_taken = kind == "Field" and len(behind) == 1 and behind[0] in TAKEN
        if is_taken or len(behind) > 1 and behind[0] == OPTIONS[kind]:
            span = descriptor.span(descriptor.place_at(numbers(parts[2])))
            if is_taken:
                found.append(Option(kind, element, behind, record, span))
                found[-1].is_taken = True
            else:
                found.append(Option(kind, element, behind[1:], fields(record[behind[0]][-1]), span))
    return found


def see_options(verdicts, name, descriptor, options, named, schema):
    """Compares what an index has in the options of a file with protoc's: `named` are (start, end, symbol)."""
    given, written, wanted = collections.defaultdict(set), collections.defaultdict(set), {}
    for option in options:
        start, end = option.span
        at_option = f"{name}: {descriptor.path}@{start}"
        inside = sorted(each for each in named if start <= each[0] and each[1] <= end)
        found = [(at, schema.named[symbol]) for at, _, symbol in inside if symbol in schema.named]
        if option.is_taken:
            is_enum = option.path == [DEFAULT] and option.record[5] == [ENUM]
            values = [symbol.rpartition("#")[2] for _, _, symbol in inside]
            verdicts.see(f"{at_option}: a default", values == [f"{name_of(option.record, 7)}."] * is_enum, values)
            continue
        equals = start + next(each.start() for each in EQUALS.finditer(descriptor.text[start:end]) if each[1])
        path = schema.fields_along(f"google.protobuf.{option.kind}Options", option.path)
        names = [each for at, each in found if at < equals and each[0] == "field"]
        verdicts.see(f"{at_option}: an option's name", names == path, (names, path))
        if path:
            key = (option.element, option.path[0])
            given[key] |= {each for _, each in found}
            written[key] |= set(map(int, NUMBERS.findall(descriptor.text[equals:end])))
            field = schema.fields[path[0][1]][path[0][2]]
            wanted[key] = {path[0]} | schema.given_to(field, option.record[path[0][2]])
    for key, is_set in wanted.items():
        more = {each for each in given[key] - is_set if not schema.may_be_unset(*each)}
        # A value may be written as its number.
        less = {each for each in is_set - given[key] if each[0] != "value" or each[2] not in written[key]}
        verdicts.see(f"{name}: {descriptor.path}, {key}: what is set in an option", not more and not less, (more, less))

"""What names in options name: a slow reference for `index --options link`, written from what the language
specifications say and protoc 3.21 does. It looks up each name in all that its file sees, and the fields of messages in
all that its imports lead to.

Needs python3 alone.
"""

from option_sources import TypeUse, joined

DESCRIPTOR = "google/protobuf/descriptor.proto"
TYPES = ("message", "enum")
AGGREGATES = ("message", "enum", "service", "package")


def around(full_name):
    """The scope around what has this full name."""
    return full_name.rpartition(".")[0]


class Tree:
    """Sources and included files, and what names in their options name."""

    def __init__(self, files, sources):
        self.files, self.seen, self.owners = {file.path: file for file in files}, {}, {}
        for file in files:
            for declaration in file.declarations:
                self.owners.setdefault(declaration.full_name, []).append(declaration)
        self.left_out = self.clashing(sources)

    def clashing(self, sources):
        """The files that are left out: of those that count, in order, each with a name that is taken."""
        left_out, reached, items = set(), set(), {}
        for path in sorted(sources, key=str.encode) + sorted(set(self.files) - set(sources), key=str.encode):
            if path not in sources and path not in reached:
                continue
            own, package = {}, self.files[path].package.split(".")
            for name in [".".join(package[:number + 1]) for number in range(len(package) if package[0] else 0)]:
                own[name] = "package"
            names = [declaration.full_name for declaration in self.files[path].declarations]
            if len(set(names) | set(own)) < len(names) + len(own) or any(name in items for name in names) or any(
                    items.get(name, "package") != "package" for name in own):
                left_out.add(path)
                continue
            items.update({name: "declaration" for name in names}, **own)
            if path in sources:
                reached |= self.reached(self.files[path])
        return left_out

    def leads(self, path):
        """The paths of the files that are there to which imports of any kind lead, from this one."""
        found, rest = set(), [path]
        while rest:
            at = rest.pop()
            if at not in found and at in self.files:
                found.add(at)
                rest += [other for _, other in self.files[at].imports]
        return found

    def options_files(self, file):
        """Where a file has the messages of its options: in what its imports lead to, or else in descriptor.proto."""
        found = {declaration.source.path for declaration in self.owners.get("google.protobuf.FileOptions", ())
                 if declaration.kind == "message"} & self.leads(file.path)
        return found or {DESCRIPTOR} & set(self.files)

    def reached(self, file):
        return self.leads(file.path).union(*map(self.leads, self.options_files(file)))

    def visible(self, file):
        """The paths of the files that a file sees: itself, what it imports, and what those import publicly."""
        found, rest = {file.path}, [path for _, path in file.imports]
        while rest:
            path = rest.pop()
            if path not in found and path in self.files:
                found.add(path)
                rest += [other for is_public, other in self.files[path].imports if is_public]
        return found

    def known(self, file):
        """What has a name in the files that a file sees: the kind, and the declaration, if it is one alone, of a file
        that is kept."""
        if file.path not in self.seen:
            names = {}
            for path in sorted(self.visible(file)):
                words = self.files[path].package.split(".")
                for number in range(len(words) if words[0] else 0):
                    names[".".join(words[:number + 1])] = ("package", None)
                for declaration in self.files[path].declarations:
                    is_alone = declaration.full_name not in names and path not in self.left_out
                    names[declaration.full_name] = (declaration.kind, declaration if is_alone else None)
            self.seen[file.path] = names
        return self.seen[file.path]

    def looked_up(self, file, use, kinds, stops):
        """What a name names from its scope outwards, if it has one of these kinds. One word alone stops at what has one
        of the kinds `stops`, or at anything; the first of several at an aggregate."""
        names, whole, scope = self.known(file), ".".join(use.words), use.scope
        if use.has_dot:
            kind, found = names.get(whole, (None, None))
            return found if kind in kinds else None
        while True:
            kind, _ = names.get(joined(scope, use.words[0]), (None, None))
            is_there = kind in AGGREGATES if len(use.words) > 1 else kind and (stops is None or kind in stops)
            if is_there:
                kind, found = names.get(joined(scope, whole), (None, None))
                return found if kind in kinds else None
            if not scope:
                return None
            scope = around(scope)

    def holder(self, field):
        """The message that a field is of."""
        if field.extended:
            return self.looked_up(field.source, field.extended, ("message",), AGGREGATES)
        return field.outer

    def messages_named(self, full_name):
        return [found for found in self.owners.get(full_name, ())
                if found.kind == "message" and found.source.path not in self.left_out]

    def given_by(self, use, declaration):
        """In what names are looked up that belong to something of this type."""
        if use is None:
            return "scalar", None
        found = self.looked_up(declaration.source, use, TYPES, TYPES)
        return (found.kind, found) if found else ("nowhere", None)

    def inside_field(self, field):
        if field.is_map:
            return "entries", field
        return ("message", field.group) if field.group else self.given_by(field.type, field)

    def member(self, message, word, in_braces):
        """The field of a message by its name; in braces, of a group by the name of its message."""
        for found in message.source.declarations:
            if found.kind == "field" and found.outer is message and not found.extended:
                own = found.group.full_name if found.group and in_braces else found.full_name
                if own == joined(message.full_name, word):
                    return found
        return None

    def item(self, message_set, message):
        """The extension of a message set that a message declares and that is of the message: the first one."""
        for found in message.source.declarations:
            if found.kind == "field" and found.outer is message and found.extended and (
                    self.holder(found) is message_set and self.inside_field(found) == ("message", message)):
                return found
        return None

    def link(self, file, option):
        """Of each name of an option: what it names, if anything, and whether it should name something and doesn't."""
        results, contexts = [], []
        for number, name in enumerate(option.names):
            context = ("options", None) if name.owner is None else contexts[name.owner]
            if number == 0 and self.is_taken(option, ("default", "json_name")):
                context = ("untold", None)
            found, needs, inner = self.look(file, option, number, context)
            if number == 0 and self.is_taken(option, ("default",)):
                inner = self.inside_field(option.field)
            results.append((found, needs and found is None))
            contexts.append(inner)
        return results

    def is_taken(self, option, words):
        """protoc's parser takes these options of a field for itself."""
        first = option.names[0]
        return (option.element == "Field" and option.parts == 1 and first.role == "field" and first.words[0] in words)

    def look(self, file, option, number, context):
        """What a name names in a context, whether it has to, and the context that it gives."""
        name, in_braces, (kind, what) = option.names[number], number >= option.parts, context
        word, extended, messages = name.words[0], [], []
        if kind == "options":
            extended, within = self.messages_named(f"google.protobuf.{option.element}Options"), self.options_files(file)
            messages = [found for found in extended if {found.source.path} == within]
            if name.role == "field" and not messages and (len(within) > 1 or within & self.left_out):
                return None, True, ("nowhere", None)
            if name.role == "field" and not messages:
                return None, False, ("untold", None)
        elif kind == "message":
            extended = messages = [what]
        if kind == "skipped" or kind == "untold" and name.role != "extension":
            return None, False, context
        if kind == "entries" and name.role == "field" and word in ("key", "value"):
            return None, False, self.given_by(what.type, what) if word == "value" else ("scalar", None)
        if kind == "scalar" and name.role == "value":
            return None, False, context
        found = None
        if name.role == "field" and messages:
            found = self.member(messages[0], word, in_braces)
            if not found and in_braces and word in messages[0].reserved:
                return None, False, ("skipped", None)
        elif name.role == "extension" and extended:
            scope = around(extended[0].full_name) if in_braces else option.scope
            named = self.looked_up(file, TypeUse(scope, name.has_dot, name.words), ("field", "message"), None)
            if named and named.kind == "field":
                found = named if self.holder(named) in extended else None
            elif named and in_braces and kind == "message" and what.is_set:
                found = self.item(what, named)
                name.is_type = found is not None
        elif name.role == "packed" and kind == "message" and what.full_name == "google.protobuf.Any":
            found = self.looked_up(file, TypeUse("", True, name.words), ("message",), None)
        elif name.role == "value" and kind == "enum":
            full_name = joined(around(what.full_name), ".".join(name.words))
            values = [each for each in self.owners.get(full_name, ()) if each.kind == "value" and each.outer is what]
            found = values[0] if values else None
        if found is None:
            return None, True, ("nowhere", None)
        inner = {"message": ("message", found), "field": found.kind == "field" and self.inside_field(found)}
        return found, True, inner.get(found.kind, ("nowhere", None))

    def components(self, name, found):
        """The symbol of what each component of a name names: of the last the declaration's, of those before what is
        around it, or around its message if the name is that one's."""
        symbols, outer = [found.symbol], found.outer if found.kind != "value" else None
        if name.is_type:
            outer = outer.outer
        words = found.source.package.split(".") if found.source.package else []
        while len(symbols) < len(name.words):
            if outer:
                symbols.append(outer.symbol)
                outer = outer.outer
            else:
                symbols.append("".join(word + "/" for word in words))
                words.pop()
        return list(zip(name.places, name.words, reversed(symbols)))

    def named_in(self, file):
        """What names in the options of a file name: (start, end, symbol). And the offset of each option's first name
        that should name something and doesn't."""
        found, gaps = set(), set()
        for option in file.options:
            links = list(zip(option.names, self.link(file, option)))
            gaps |= set([name.start for name, (_, is_gap) in links if is_gap][:1])
            for name, (target, _) in links:
                if target:
                    found |= {(at, at + len(word), symbol) for at, word, symbol in self.components(name, target)}
        return found, gaps

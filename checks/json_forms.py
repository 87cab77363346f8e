#!/usr/bin/env python3
"""The forms of what the program writes as JSON, as schemas (a part of JSON Schema), and whether a value has its form.

usage: checks/json_forms.py FORM < LINES: says what of each line isn't as the form wants; FORM is `report`, `sarif`,
`answer`, `record`, `stats` or `flaw`. The exit status is 0 only where nothing is wrong.

`sarif` is a log in SARIF 2.1.0 (OASIS Standard, 27 March 2020), as far as ours may go: each object that ours may have,
with the members that the standard gives it, by its section. The other forms are those of docs/QUERIES.md and
docs/INDEXING.md.
"""

import json
import re
import sys

TYPES = {"object": dict, "array": list, "string": str, "boolean": bool, "null": type(None)}


def is_type(value, name):
    """Whether a value has a type; true and false are no numbers."""
    if name == "integer":
        return isinstance(value, int) and not isinstance(value, bool)
    return isinstance(value, TYPES[name])


def wrong_in_object(value, form, at):
    """What of an object isn't as its form wants."""
    members = form.get("properties", {})
    for key in form.get("required", ()):
        if key not in value:
            yield f"{at}: no {key}"
    for key, one in value.items():
        if key in members:
            yield from wrong_in(one, members[key], f"{at}.{key}")
        elif form.get("additionalProperties") is False:
            yield f"{at}: {key} is no member"
    if "anyOf" in form and not any(all(key in value for key in each["required"]) for each in form["anyOf"]):
        yield f"{at}: none of the members of which one is required"


def wrong_in_array(value, form, at):
    """What of an array isn't as its form wants."""
    if len(value) < form.get("minItems", 0) or len(value) > form.get("maxItems", len(value)):
        yield f"{at}: {len(value)} items"
    if form.get("uniqueItems") and len({json.dumps(one, sort_keys=True) for one in value}) != len(value):
        yield f"{at}: an item twice"
    for number, one in enumerate(value):
        yield from wrong_in(one, form.get("items", {}), f"{at}[{number}]")


def wrong_in(value, form, at="$"):
    """What of a value isn't as its form wants."""
    types = form.get("type", [])
    types = types if isinstance(types, list) else [types]
    if types and not any(is_type(value, name) for name in types):
        yield f"{at}: no {' or '.join(types)}"
    elif "enum" in form and value not in form["enum"]:
        yield f"{at}: {value!r} is none of {form['enum']}"
    elif isinstance(value, dict):
        yield from wrong_in_object(value, form, at)
    elif isinstance(value, list):
        yield from wrong_in_array(value, form, at)
    elif isinstance(value, str) and not re.search(form.get("pattern", ""), value):
        yield f"{at}: {value!r} isn't as {form['pattern']}"
    elif is_type(value, "integer") and not form.get("minimum", value) <= value:
        yield f"{at}: {value} is below {form['minimum']}"


def thing(required, own, others=""):
    """An object with these members and no other; what others hold isn't looked at."""
    members = {**own, **{name: {} for name in others.split()}}
    return {"type": "object", "required": required.split(), "properties": members, "additionalProperties": False}


def some(items, **more):
    """A list."""
    return {"type": "array", "items": items, **more}


TEXT = {"type": "string"}
COUNT = {"type": "integer", "minimum": 0}
FROM_ONE = {"type": "integer", "minimum": 1}
FROM_LESS = {"type": "integer", "minimum": -1}
NUMBER = {"type": "integer"}
RANGE = some(COUNT, minItems=4, maxItems=4)


def or_null(form):
    """The same, or null."""
    return {**form, "type": [form["type"], "null"]}


# ---- SARIF: the objects of a log (3.13) that ours may have

URI = {"type": "string", "pattern": r"^[A-Za-z][A-Za-z0-9+.-]*:"}
REFERENCE = {"type": "string", "pattern": r"^(?:[A-Za-z0-9._~:/?#\[\]@!$&'()*+,;=-]|%[0-9A-Fa-f]{2})*$"}  # RFC 3986
MESSAGE = thing("", {"text": TEXT, "markdown": TEXT, "id": TEXT, "arguments": some(TEXT)}, "properties")  # 3.11
MESSAGE["anyOf"] = [{"required": ["text"]}, {"required": ["id"]}]
FORMATTED = thing("text", {"text": TEXT, "markdown": TEXT}, "properties")  # 3.12
ARTIFACT = thing("", {"uri": REFERENCE, "uriBaseId": TEXT, "index": FROM_LESS}, "description properties")  # 3.4
REGION = thing(  # 3.30
    "",
    {"startLine": FROM_ONE, "startColumn": FROM_ONE, "endLine": FROM_ONE, "endColumn": FROM_ONE,
     "charOffset": FROM_LESS, "charLength": COUNT, "byteOffset": FROM_LESS, "byteLength": COUNT},
    "snippet message sourceLanguage properties")
PHYSICAL = thing(  # 3.29
    "", {"artifactLocation": ARTIFACT, "region": REGION, "contextRegion": REGION}, "address properties")
PHYSICAL["anyOf"] = [{"required": ["artifactLocation"]}, {"required": ["address"]}]
LOCATION = thing(  # 3.28
    "", {"id": FROM_LESS, "physicalLocation": PHYSICAL, "message": MESSAGE},
    "logicalLocations annotations relationships properties")
RESULT = thing(  # 3.27
    "message",
    {"ruleId": TEXT, "ruleIndex": FROM_LESS, "message": MESSAGE, "locations": some(LOCATION),
     "kind": {"enum": ["notApplicable", "pass", "fail", "review", "open", "informational"]},
     "level": {"enum": ["none", "note", "warning", "error"]},
     "relatedLocations": some(LOCATION, uniqueItems=True)},
    "rule analysisTarget guid correlationGuid occurrenceCount partialFingerprints fingerprints stacks codeFlows graphs "
    "graphTraversals suppressions baselineState rank attachments hostedViewerUri workItemUris provenance fixes taxa "
    "webRequest webResponse properties")
RULE = thing(  # 3.49
    "id",
    {"id": TEXT, "name": TEXT, "shortDescription": FORMATTED, "fullDescription": FORMATTED, "help": FORMATTED,
     "helpUri": URI},
    "deprecatedIds guid deprecatedGuids deprecatedNames messageStrings defaultConfiguration relationships properties")
DRIVER = thing(  # 3.19
    "name",
    {"name": TEXT, "version": TEXT, "semanticVersion": TEXT, "informationUri": URI, "shortDescription": FORMATTED,
     "fullDescription": FORMATTED, "rules": some(RULE, uniqueItems=True)},
    "guid organization product productSuite fullName dottedQuadFileVersion releaseDateUtc downloadUri "
    "globalMessageStrings notifications taxa locations language contents isComprehensive "
    "localizedDataSemanticVersion minimumRequiredLocalizedDataSemanticVersion associatedComponent "
    "translationMetadata supportedTaxonomies properties")
RUN = thing(  # 3.14
    "tool",
    {"tool": thing("driver", {"driver": DRIVER}, "extensions properties"),  # 3.18
     "results": some(RESULT), "columnKind": {"enum": ["utf16CodeUnits", "unicodeCodePoints"]}},
    "invocations conversion language versionControlProvenance originalUriBaseIds artifacts logicalLocations graphs "
    "automationDetails runAggregates baselineGuid redactionTokens defaultEncoding defaultSourceLanguage "
    "newlineSequences externalPropertyFileReferences threadFlowLocations taxonomies addresses translations policies "
    "webRequests webResponses specialLocations properties")
LOG = thing(  # 3.13
    "version runs", {"$schema": URI, "version": {"enum": ["2.1.0"]}, "runs": some(RUN)},
    "inlineExternalProperties properties")

# ---- a report's lines, of which the last has the counts

PLACE = thing(
    "column end line offset path",
    {"column": or_null(FROM_ONE), "line": or_null(FROM_ONE), "offset": or_null(COUNT), "end": or_null(COUNT),
     "path": TEXT})
FINDING = thing(
    "column end first import kind line message name offset path",
    {"column": or_null(FROM_ONE), "line": or_null(FROM_ONE), "offset": or_null(COUNT), "end": or_null(COUNT),
     "first": {**PLACE, "type": ["object", "null"]}, "import": or_null(TEXT), "message": TEXT,
     "kind": {"enum": ["fault", "skipped", "no target", "uncertain"]},
     "name": {"type": "string", "pattern": "^[A-Z][A-Za-z0-9]*$"}, "path": or_null(TEXT)})
COUNTS = thing(
    "imports kind skipped sources status uses",
    {"imports": COUNT, "kind": {"enum": ["counts"]}, "skipped": COUNT, "sources": COUNT, "status": COUNT,
     "uses": COUNT})

# ---- answers, records, counts and flaws

SITE = {"path": TEXT, "range": RANGE, "roles": NUMBER, "symbol": TEXT}
ENTRY = thing(
    "display_name documentation enclosing_symbol kind signature symbol",
    {"display_name": TEXT, "documentation": some(TEXT), "enclosing_symbol": TEXT, "kind": TEXT, "signature": TEXT,
     "symbol": TEXT})
ANSWERS = {
    "occurrences": some(thing("path range roles symbol", SITE)),
    "definitions": some(thing("exact path range roles symbol", {"exact": {"type": "boolean"}, **SITE})),
    "outline": some(thing("depth kind range symbol", {"depth": COUNT, "kind": TEXT, "range": RANGE, "symbol": TEXT})),
    "symbols": some(ENTRY),
    "texts": some(TEXT),
    "error": {"enum": ["no document", "nothing there", "bad command"]},
}
TOOL = thing("", {"arguments": some(TEXT), "name": TEXT, "version": TEXT})
RECORDS = {
    "metadata": thing(
        "project_root text_document_encoding tool_info version",
        {"project_root": TEXT, "text_document_encoding": NUMBER, "tool_info": TOOL, "version": NUMBER}),
    "document": thing(
        "language path position_encoding", {"language": TEXT, "path": TEXT, "position_encoding": NUMBER}),
    "occurrence": thing("enclosing_range path range roles symbol", {"enclosing_range": some(COUNT), **SITE}),
    "symbol": thing("entry path", {"entry": ENTRY, "path": TEXT}),
    "external_symbol": thing("entry", {"entry": ENTRY}),
}
STATS = "definitions documents external_symbols occurrences symbols"
FLAW = {"type": "string", "pattern": "^[A-Z][A-Za-z]*$"}
FORMS = {
    "sarif": LOG,
    "stats": thing(STATS, {name: COUNT for name in STATS.split()}),
    "flaw": thing("flaw path range symbol", {"flaw": FLAW, "path": TEXT, "range": some(COUNT), "symbol": TEXT}),
}


def one_of(kinds):
    """The form of an object with one key, by that key."""
    return lambda value: thing(" ".join(kinds.keys() & value), {key: kinds[key] for key in kinds.keys() & value}) \
        if isinstance(value, dict) and len(value) == 1 else thing(" ".join(kinds), kinds)


def form_for(name, value):
    """The form that a value has to have."""
    if name == "report":
        return COUNTS if isinstance(value, dict) and value.get("kind") == "counts" else FINDING
    if name == "answer":
        return one_of(ANSWERS)(value)
    if name == "record":
        return one_of(RECORDS)(value)
    return FORMS[name]


def wrong_of(name, value):
    """What of a value isn't as the form with a name wants."""
    return list(wrong_in(value, form_for(name, value)))


def main():
    """Looks at each line, or at all of a log."""
    lines = [sys.stdin.read()] if sys.argv[1] == "sarif" else sys.stdin
    wrong = [each for line in lines for each in wrong_of(sys.argv[1], json.loads(line))]
    for each in wrong:
        print(each)
    return bool(wrong)


if __name__ == "__main__":
    sys.exit(main())

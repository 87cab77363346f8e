# Turns a listing, as library_index.txt has it, into the fields of the index as protoc reads them:
#
#   awk -v front='scip-protobuf . . . ' -v uri=file:/// -v unit=UTF8 -f listing_to_fields.awk LISTING |
#       protoc --encode=scip.Index scip_fields.proto
#
# A line `external SYMBOL NAME` is an entry of the external symbols; lines that begin with `#` are left out.

function end_entry() {
    if (in_entry) print "}"
    in_entry = 0
}

function end_document() {
    end_entry()
    if (in_document) {
        print "  language: \"Protobuf\""
        print "  position_encoding: " unit "CodeUnitOffsetFromLineStart"
        print "}"
    }
    in_document = 0
}

# entry(FIELD): a symbol entry, of which the end comes later.
function entry(field) {
    end_entry()
    print field " {"
    print "    symbol: \"" front $2 "\""
    print "    display_name: \"" $3 "\""
    in_entry = 1
}

function occurrence() {
    end_entry()
    print "  occurrences {"
    print "    range: [" $1 ", " $2 ", " ($1 == $3 ? "" : $3 ", ") $4 "]"
    print "    symbol: \"" front $6 "\""
    print "    symbol_roles: " $5
    print "  }"
}

BEGIN {
    print "metadata {"
    print "  tool_info { name: \"protoscip\" version: \"1\" }"
    print "  project_root: \"" uri "\""
    print "  text_document_encoding: UTF8"
    print "}"
}
/^#/ || /^$/ { next }
$1 == "document" {
    end_document()
    print "documents {"
    print "  relative_path: \"" $2 "\""
    in_document = 1
    next
}
$1 == "entry" { entry("  symbols"); next }
$1 == "external" { end_document(); entry("external_symbols"); next }
$1 == "said" { print "    documentation: " substr($0, 6); next }
/^[0-9]/ { occurrence(); next }
{ print "a line that is none of these: " $0 }
END { end_document(); end_entry() }

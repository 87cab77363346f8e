/* What bench/query_speed compares `protoscip query` with: it reads an index, checks all of it (tags, wire types,
   varints, UTF-8, ranges), keeps spans of its bytes (no memory for each record), and numbers all symbols by hashing,
   so that the places of each stand together. Then it answers each line of its input with "? no document".

   query_speed.c is compiled by the script: cc -O2 -o FILE query_speed.c */
#include <stdint.h>
#include <stdio.h>
#include <stdlib.h>
#include <string.h>
#include <fcntl.h>
#include <sys/stat.h>
#include <unistd.h>

typedef struct { uint32_t at, len; } span;
typedef struct { uint32_t range[4]; span symbol; uint32_t roles, around; } occurrence;
typedef struct { span symbol, shown, language, text, enclosing; uint32_t kind, texts, text_count; } entry;
typedef struct {
    span path, language;
    uint32_t encoding, occurrences, occurrence_count, entries, entry_count;
} document;
typedef struct { uint32_t range[4]; } around;
typedef struct { uint64_t hash; uint32_t first, count; } symbol;

static const uint8_t *bytes;

/* A list that grows. */
#define LIST(T, name) static T *name; static size_t name##_count, name##_room; \
    static T *name##_push(void) { \
        if (name##_count == name##_room) { \
            name##_room = name##_room ? 2 * name##_room : 1024; \
            if (!(name = realloc(name, name##_room * sizeof(T)))) exit(2); \
        } \
        return memset(&name[name##_count++], 0, sizeof(T)); \
    }
LIST(document, documents)
LIST(occurrence, occurrences)
LIST(entry, entries)
LIST(span, texts)
LIST(around, arounds)
LIST(symbol, symbols)

static void refuse(const char *why, size_t at) {
    printf("refused: %s at %zu\n", why, at);
    exit(1);
}

static inline uint64_t varint(size_t *at, size_t end, size_t start) {
    uint64_t value = 0;
    for (int shift = 0;; shift += 7) {
        if (*at == end) refuse("truncated", start);
        uint64_t byte = bytes[(*at)++];
        if (shift == 63 && byte > 1) refuse("varint", start);
        value |= (byte & 127) << shift;
        if (byte < 128) return value;
    }
}

/* A record: its field's number, its wire type, and its number or where its bytes end. */
typedef struct { uint32_t number, type; uint64_t value; size_t from, to; } record;

static inline record next(size_t *at, size_t end) {
    size_t start = *at;
    uint64_t tag = varint(at, end, start);
    if (tag >> 32) refuse("varint", start);
    if (tag < 8) refuse("field zero", start);
    record r = { tag >> 3, tag & 7, 0, 0, 0 };
    uint64_t len;
    switch (r.type) {
    case 0: r.value = varint(at, end, start); return r;
    case 1: len = 8; break;
    case 2: len = varint(at, end, start); break;
    case 5: len = 4; break;
    default: refuse(r.type < 6 ? "group" : "wire type", start); return r;
    }
    if (len > end - *at) refuse("truncated", start);
    r.from = *at, r.to = *at += len;
    return r;
}

/* The Unicode Standard, table 3-7. */
static int is_utf8(size_t at, size_t end) {
    while (at < end) {
        uint64_t eight;
        while (end - at >= 8 && (memcpy(&eight, bytes + at, 8), !(eight & 0x8080808080808080))) at += 8;
        if (at == end) return 1;
        uint8_t a = bytes[at];
        if (a < 128) { at++; continue; }
        if (a < 0xc2 || a > 0xf4) return 0;
        size_t more = a < 0xe0 ? 1 : a < 0xf0 ? 2 : 3;
        if (end - at <= more) return 0;
        uint8_t b = bytes[at + 1], low = a == 0xe0 ? 0xa0 : a == 0xf0 ? 0x90 : 0x80;
        if (b < low || b > (a == 0xed ? 0x9f : a == 0xf4 ? 0x8f : 0xbf)) return 0;
        for (size_t i = 2; i <= more; i++) if (bytes[at + i] >> 6 != 2) return 0;
        at += more + 1;
    }
    return 1;
}

static inline span text(record r, size_t start) {
    if (!is_utf8(r.from, r.to)) refuse("UTF-8", start);
    return (span) { r.from, r.to - r.from };
}

static void number(uint32_t *numbers, int *count, uint64_t value) {
    if (*count < 4) numbers[*count] = value;
    ++*count;
}

/* Whether these are a range; made one of four. */
static int is_range(uint32_t *n, int count) {
    if (count == 3) n[3] = n[2], n[2] = n[0];
    else if (count != 4) return 0;
    if ((n[0] | n[1] | n[2] | n[3]) >> 31) return 0;
    return n[0] < n[2] || (n[0] == n[2] && n[1] <= n[3]);
}

static void read_occurrence(record whole, size_t start) {
    occurrence o = {0};
    around a = {0};
    int count = 0, about = 0;
    for (size_t at = whole.from; at < whole.to;) {
        size_t begin = at;
        record r = next(&at, whole.to);
        int is_own = r.number == 1;
        if ((is_own || r.number == 7) && r.type == 2)
            for (size_t p = r.from; p < r.to;) {
                uint64_t value = varint(&p, r.to, begin);
                number(is_own ? o.range : a.range, is_own ? &count : &about, value);
            }
        else if ((is_own || r.number == 7) && r.type == 0)
            number(is_own ? o.range : a.range, is_own ? &count : &about, r.value);
        else if (r.number == 2 && r.type == 2) o.symbol = text(r, begin);
        else if (r.number == 3 && r.type == 0) o.roles = r.value;
    }
    if (!count) return;
    if (!is_range(o.range, count)) refuse("range", start);
    if (is_range(a.range, about)) *arounds_push() = a, o.around = arounds_count;
    *occurrences_push() = o;
}

static void read_signature(entry *e, record whole) {
    for (size_t at = whole.from; at < whole.to;) {
        size_t begin = at;
        record r = next(&at, whole.to);
        if (r.number == 4 && r.type == 2) e->language = text(r, begin);
        else if (r.number == 5 && r.type == 2) e->text = text(r, begin);
    }
}

static void read_entry(record whole) {
    entry e = { .texts = texts_count };
    for (size_t at = whole.from; at < whole.to;) {
        size_t begin = at;
        record r = next(&at, whole.to);
        if (r.type == 0 && r.number == 5) e.kind = r.value;
        if (r.type != 2) continue;
        switch (r.number) {
        case 1: e.symbol = text(r, begin); break;
        case 3: *texts_push() = text(r, begin); break;
        case 6: e.shown = text(r, begin); break;
        case 7: read_signature(&e, r); break;
        case 8: e.enclosing = text(r, begin); break;
        }
    }
    e.text_count = texts_count - e.texts;
    *entries_push() = e;
}

static void read_document(record whole) {
    document d = { .occurrences = occurrences_count, .entries = entries_count };
    for (size_t at = whole.from; at < whole.to;) {
        size_t begin = at;
        record r = next(&at, whole.to);
        if (r.type == 0 && r.number == 6) d.encoding = r.value;
        if (r.type != 2) continue;
        switch (r.number) {
        case 1: d.path = text(r, begin); break;
        case 2: read_occurrence(r, begin); break;
        case 3: read_entry(r); break;
        case 4: d.language = text(r, begin); break;
        }
    }
    d.occurrence_count = occurrences_count - d.occurrences;
    d.entry_count = entries_count - d.entries;
    *documents_push() = d;
}

static void read_metadata(record whole) {
    for (size_t at = whole.from; at < whole.to;) {
        size_t begin = at;
        record r = next(&at, whole.to);
        if (r.number == 3 && r.type == 2) text(r, begin);
    }
}

static uint64_t hash_of(span s) {
    uint64_t state = 0x243f6a8885a308d3 ^ s.len, a, b;
    const uint8_t *p = bytes + s.at;
    size_t left = s.len;
    for (; left > 16; p += 16, left -= 16) {
        memcpy(&a, p, 8), memcpy(&b, p + 8, 8);
        unsigned __int128 product = (unsigned __int128)(a ^ state) * (b ^ 0x9e3779b97f4a7c15);
        state = (uint64_t)product ^ (uint64_t)(product >> 64);
    }
    a = b = 0;
    memcpy(&a, p, left < 8 ? left : 8);
    if (left > 8) memcpy(&b, p + 8, left - 8);
    unsigned __int128 product = (unsigned __int128)(a ^ state) * (b ^ 0x9e3779b97f4a7c15);
    return (uint64_t)product ^ (uint64_t)(product >> 64);
}

static uint32_t *slots;
static size_t slot_count;

static void more_slots(void) {
    slot_count = slot_count ? 2 * slot_count : 1 << 12;
    free(slots);
    if (!(slots = calloc(slot_count, sizeof *slots))) exit(2);
    for (size_t i = 0; i < symbols_count; i++) {
        size_t slot = symbols[i].hash & (slot_count - 1);
        while (slots[slot]) slot = (slot + 1) & (slot_count - 1);
        slots[slot] = i + 1;
    }
}

static span *names;

/* The number of a symbol: it is a new one if it isn't there yet. */
static uint32_t number_of(span s) {
    uint64_t hash = hash_of(s);
    if (2 * symbols_count >= slot_count) more_slots();
    size_t slot = hash & (slot_count - 1);
    for (; slots[slot]; slot = (slot + 1) & (slot_count - 1)) {
        uint32_t n = slots[slot] - 1;
        if (symbols[n].hash == hash && names[n].len == s.len && !memcmp(bytes + names[n].at, bytes + s.at, s.len))
            return n;
    }
    slots[slot] = symbols_count + 1;
    names[symbols_count] = s;
    symbols_push()->hash = hash;
    return symbols_count - 1;
}

/* The places of each symbol, one symbol after another. */
static uint32_t *places_of(uint32_t *numbers, size_t count) {
    uint32_t *places = malloc(4 * count + 4);
    if (!places) exit(2);
    for (size_t i = 0; i < symbols_count; i++) symbols[i].count = 0;
    for (size_t i = 0; i < count; i++) symbols[numbers[i]].count++;
    uint32_t first = 0;
    for (size_t i = 0; i < symbols_count; i++) symbols[i].first = first, first += symbols[i].count;
    for (size_t i = 0; i < count; i++) places[symbols[numbers[i]].first++] = i;
    return places;
}

int main(int argc, char **argv) {
    struct stat about;
    int file = argc == 2 ? open(argv[1], O_RDONLY) : -1;
    if (file < 0 || fstat(file, &about)) return 2;
    size_t size = about.st_size, have = 0;
    uint8_t *room = malloc(size + 1);
    for (ssize_t got; room && (got = read(file, room + have, size - have)) > 0;) have += got;
    if (!room || have != size) return 2;
    bytes = room;
    for (size_t at = 0; at < size;) {
        record r = next(&at, size);
        if (r.type != 2) continue;
        if (r.number == 1) read_metadata(r);
        else if (r.number == 2) read_document(r);
        else if (r.number == 3) read_entry(r);
    }
    names = malloc((occurrences_count + entries_count + 1) * sizeof *names);
    uint32_t *numbers = malloc(4 * (occurrences_count + 1)), *entry_numbers = malloc(4 * (entries_count + 1));
    if (!names || !numbers || !entry_numbers) return 2;
    for (size_t i = 0; i < occurrences_count; i++) numbers[i] = number_of(occurrences[i].symbol);
    for (size_t i = 0; i < entries_count; i++) entry_numbers[i] = number_of(entries[i].symbol);
    uint32_t *places = places_of(numbers, occurrences_count);
    uint32_t *entry_places = places_of(entry_numbers, entries_count);
    char line[65536];
    while (fgets(line, sizeof line, stdin)) {
        puts("? no document");
        fflush(stdout);
    }
    return places && entry_places ? 0 : 2;
}

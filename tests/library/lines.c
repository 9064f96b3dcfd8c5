// Says of each file whether it is a valid module, by lines as those of wasm-check.
// usage: lines FILE.. ; lines --calls ; lines --stack FILE.. ; lines --parts N FILE.. ; lines --pieces N FILE..
// After --parts each file is judged in N parts, whose verdict has to be that of the whole. After --pieces each file is handed over in
// pieces of N bytes. After --stack each file is judged, and its entries listed, on a stack of 128 KiB, which a page without access ends.
#define _GNU_SOURCE
#include <durskeyl.h>
#include <pthread.h>
#include <stdio.h>
#include <stdlib.h>
#include <string.h>
#include <sys/mman.h>

static const uint8_t header[] = {0, 'a', 's', 'm', 1, 0, 0, 0};
static int wrong;

static uint8_t *read_file(const char *name, size_t *length) {
    FILE *file = fopen(name, "rb");
    if (!file) {
        perror(name);
        exit(2);
    }
    uint8_t *bytes = malloc(1 << 26);
    *length = fread(bytes, 1, 1 << 26, file);
    fclose(file);
    return bytes;
}

// Control characters are escaped: a name of the module could else forge a line.
static void print_text(const char *text, uint32_t length) {
    for (uint32_t i = 0; i < length; i++) {
        unsigned char c = text[i];
        if (c < 0x20 || c == 0x7f)
            printf("\\u{%x}", c);
        else if (c == 0xc2 && i + 1 < length && (unsigned char)text[i + 1] < 0xa0)
            printf("\\u{%x}", (unsigned char)text[++i]);
        else
            putchar(c);
    }
}

// The verdict on bytes that are handed over in pieces of so many. Each piece is a copy that goes after its call.
static uint32_t by_pieces(const durskeyl_settings *settings, const uint8_t *bytes, size_t length, size_t piece, uint64_t most, durskeyl_fault *fault) {
    durskeyl_pieces pieces = DURSKEYL_NO_PIECES;
    uint8_t *copy = malloc(piece);
    uint32_t refused = DURSKEYL_VALID;
    wrong += durskeyl_begin(settings, most, &pieces, fault) != DURSKEYL_VALID;
    for (size_t at = 0; at < length; at += piece) {
        size_t count = length - at < piece ? length - at : piece;
        memcpy(copy, bytes + at, count);
        uint32_t kind = durskeyl_take(&pieces, copy, count, fault);
        wrong += kind != fault->kind || (refused != DURSKEYL_VALID && kind != refused);
        refused = kind;
        memset(copy, '#', count);
    }
    free(copy);
    uint32_t kind = durskeyl_end(&pieces, fault);
    wrong += (refused != DURSKEYL_VALID && kind != refused) || pieces.begun || pieces.inside;
    return kind;
}

static void say(const durskeyl_settings *settings, const char *name, size_t piece) {
    size_t length;
    uint8_t *bytes = read_file(name, &length);
    durskeyl_fault fault;
    memset(&fault, '#', sizeof fault);
    uint32_t kind = piece ? by_pieces(settings, bytes, length, piece, 16 << 20, &fault) : durskeyl_validate(settings, bytes, length, &fault);
    wrong += kind != fault.kind || fault.text[fault.text_length] != 0;
    if (kind == DURSKEYL_VALID) {
        printf("%s: valid\n", name);
    } else {
        printf("%s: invalid at 0x%llx: ", name, (unsigned long long)fault.offset);
        print_text(fault.text, fault.text_length);
        printf("\n");
    }
    free(bytes);
}

// The verdict of all parts is that of the whole, unless memory ran out.
static void say_parts(const durskeyl_settings *settings, const char *name, uint32_t parts) {
    size_t length;
    uint8_t *bytes = read_file(name, &length);
    durskeyl_fault fault;
    uint32_t whole = durskeyl_validate(settings, bytes, length, &fault);
    uint32_t valid = 0;
    for (uint32_t part = 0; part < parts; part++) {
        uint32_t kind = durskeyl_validate_part(settings, bytes, length, part, parts, &fault);
        valid += kind == DURSKEYL_VALID;
        wrong += kind != fault.kind || fault.text[fault.text_length] != 0;
        if (kind == DURSKEYL_OUT_OF_MEMORY || kind == DURSKEYL_BAD_SETTINGS) {
            printf("%s: part %u answers %u\n", name, part, kind);
            wrong++;
        }
    }
    if ((valid == parts) != (whole == DURSKEYL_VALID)) {
        printf("%s: %u of %u parts are valid, and the whole answers %u\n", name, valid, parts, whole);
        wrong++;
    }
    free(bytes);
}

static void want(const char *what, uint64_t got, uint64_t wanted) {
    if (got != wanted) {
        printf("%s: %llu in the place of %llu\n", what, (unsigned long long)got, (unsigned long long)wanted);
        wrong++;
    }
}

static void *many(void *settings) {
    durskeyl_fault fault;
    size_t bad = 0;
    for (int i = 0; i < 500; i++) {
        bad += durskeyl_validate(settings, header, 8, &fault) != DURSKEYL_VALID;
        bad += durskeyl_validate(settings, header, 7, &fault) != DURSKEYL_END_OF_DATA;
    }
    return (void *)bad;
}

// Each limit has its default and its ceiling by the table of the header.
static void limits(const durskeyl_settings *settings) {
    static const struct { enum durskeyl_limit limit; const char *name; uint32_t by_default, ceiling; } table[] = {
#define ROW(NAME, DEFAULT, CEILING) {DURSKEYL_##NAME, #NAME, DEFAULT, CEILING},
        DURSKEYL_LIMIT_TABLE(ROW)
#undef ROW
    };
    durskeyl_fault fault;
    want("limits", sizeof table / sizeof *table, DURSKEYL_TYPE_SIZE + 1);
    for (size_t i = 0; i < sizeof table / sizeof *table; i++) {
        durskeyl_settings other = *settings;
        want(table[i].name, table[i].limit, i);
        want(table[i].name, settings->limits[i], table[i].by_default);
        other.limits[i] = table[i].ceiling;
        want(table[i].name, durskeyl_validate(&other, header, 8, &fault), DURSKEYL_VALID);
        other.limits[i]++;
        want(table[i].name, durskeyl_validate(&other, header, 8, &fault), DURSKEYL_BAD_SETTINGS);
    }
}

// A feature by its name: the bit that a module asks for which needs it.
static void features(const durskeyl_settings *settings) {
    const uint8_t multi[] = {0, 'a', 's', 'm', 1, 0, 0, 0, 5, 5, 2, 0, 0, 0, 0};
    const uint8_t shared[] = {0, 'a', 's', 'm', 1, 0, 0, 0, 5, 4, 1, 3, 0, 1};
    const uint8_t wide[] = {0, 'a', 's', 'm', 1, 0, 0, 0, 5, 3, 1, 4, 0};
    const uint8_t tag[] = {0, 'a', 's', 'm', 1, 0, 0, 0, 1, 4, 1, 0x60, 0, 0, 13, 3, 1, 0, 0};
    const struct { uint64_t bits; const uint8_t *bytes; size_t length; } table[] = {
        {DURSKEYL_MULTI_MEMORY, multi, sizeof multi}, {DURSKEYL_THREADS, shared, sizeof shared},
        {DURSKEYL_MEMORY64, wide, sizeof wide}, {DURSKEYL_EXCEPTIONS, tag, sizeof tag},
    };
    durskeyl_fault fault;
    for (size_t i = 0; i < sizeof table / sizeof *table; i++) {
        durskeyl_settings other = *settings;
        want("with its feature", durskeyl_validate(&other, table[i].bytes, table[i].length, &fault), DURSKEYL_VALID);
        other.features &= ~table[i].bits;
        want("without its feature", durskeyl_validate(&other, table[i].bytes, table[i].length, &fault) != DURSKEYL_VALID, 1);
    }
    want("bits of two", DURSKEYL_REFERENCE_TYPES, DURSKEYL_CALL_INDIRECT_OVERLONG | 8);
    want("bits of two", DURSKEYL_BULK_MEMORY, DURSKEYL_BULK_MEMORY_OPT | 32);
    want("the last", DURSKEYL_CUSTOM_DESCRIPTORS, 1 << 27);
}

// Calls on a handle, in an order that none of the files makes.
static void pieces(const durskeyl_settings *settings) {
    durskeyl_settings other = *settings;
    durskeyl_pieces it = DURSKEYL_NO_PIECES;
    durskeyl_fault fault;
    want("take of none", durskeyl_take(&it, header, 8, &fault), DURSKEYL_BAD_SETTINGS);
    want("take of none", fault.kind, DURSKEYL_BAD_SETTINGS);
    want("end of none", durskeyl_end(&it, &fault), DURSKEYL_BAD_SETTINGS);
    durskeyl_drop(&it);
    want("begin", durskeyl_begin(settings, 16, &it, &fault), DURSKEYL_VALID);
    want("begun", it.begun, 1);
    want("a piece", durskeyl_take(&it, header, 3, &fault), DURSKEYL_VALID);
    want("an empty piece", durskeyl_take(&it, NULL, 0, &fault), DURSKEYL_VALID);
    want("the rest", durskeyl_take(&it, header + 3, 5, &fault), DURSKEYL_VALID);
    want("end", durskeyl_end(&it, &fault), DURSKEYL_VALID);
    want("end again", durskeyl_end(&it, &fault), DURSKEYL_BAD_SETTINGS);
    want("take after the end", durskeyl_take(&it, header, 8, &fault), DURSKEYL_BAD_SETTINGS);
    // no bytes are no module; a header that is cut off is none either
    want("begin", durskeyl_begin(settings, 16, &it, &fault), DURSKEYL_VALID);
    want("end of no bytes", durskeyl_end(&it, &fault), DURSKEYL_END_OF_DATA);
    durskeyl_begin(settings, 16, &it, &fault);
    durskeyl_take(&it, header, 7, &fault);
    want("end of a part", durskeyl_end(&it, &fault), DURSKEYL_END_OF_DATA);
    // a refusal stays
    const uint8_t other_magic[] = {0, 'a', 's', 'n', 1, 0, 0, 0};
    durskeyl_begin(settings, 16, &it, &fault);
    want("a wrong header", durskeyl_take(&it, other_magic, 8, &fault), DURSKEYL_INVALID);
    want("again", durskeyl_take(&it, header, 8, &fault), DURSKEYL_INVALID);
    want("again", fault.kind, DURSKEYL_INVALID);
    want("at the end", durskeyl_end(&it, &fault), DURSKEYL_INVALID);
    // a section of 42 bytes, with its id and size: it is held if it is cut, and is not if it comes whole
    uint8_t section[50] = {0, 'a', 's', 'm', 1, 0, 0, 0, 1, 40, 13};
    for (size_t i = 0; i < 13; i++)
        section[11 + 3 * i] = 0x60; // [] -> []
    durskeyl_begin(settings, 41, &it, &fault);
    want("below the cap", durskeyl_take(&it, section, 49, &fault), DURSKEYL_VALID);
    want("at the cap", durskeyl_take(&it, section + 49, 1, &fault), DURSKEYL_TOO_LONG);
    want("the cap has a text", fault.text_length > 0 && fault.text[fault.text_length] == 0, 1);
    want("the cap, again", durskeyl_take(&it, section, 0, &fault), DURSKEYL_TOO_LONG);
    want("the cap, at the end", durskeyl_end(&it, &fault), DURSKEYL_TOO_LONG);
    durskeyl_begin(settings, 42, &it, &fault);
    durskeyl_take(&it, section, 49, &fault);
    want("within the cap", durskeyl_take(&it, section + 49, 1, &fault), DURSKEYL_VALID);
    want("within the cap", durskeyl_end(&it, &fault), DURSKEYL_VALID);
    durskeyl_begin(settings, 0, &it, &fault);
    want("whole, with a cap of 0", durskeyl_take(&it, section, 50, &fault), DURSKEYL_VALID);
    want("whole, with a cap of 0", durskeyl_end(&it, &fault), DURSKEYL_VALID);
    // contents of a custom section go by, and its name is held
    const uint8_t custom[] = {0, 0x83, 0x80, 0x40, 2, 'a', 'b'}; // 3 bytes and 2^20 of contents
    static const uint8_t contents[1 << 19];
    durskeyl_begin(settings, 16, &it, &fault);
    durskeyl_take(&it, header, 8, &fault);
    want("a custom section", durskeyl_take(&it, custom, 7, &fault), DURSKEYL_VALID);
    want("its contents", durskeyl_take(&it, contents, 1 << 19, &fault), DURSKEYL_VALID);
    want("an empty piece of them", durskeyl_take(&it, NULL, 0, &fault), DURSKEYL_VALID);
    want("all of them", durskeyl_take(&it, contents, 1 << 19, &fault), DURSKEYL_VALID);
    want("their end", durskeyl_end(&it, &fault), DURSKEYL_VALID);
    durskeyl_begin(settings, 16, &it, &fault);
    durskeyl_take(&it, header, 8, &fault);
    durskeyl_take(&it, custom, 7, &fault);
    durskeyl_take(&it, contents, (1 << 19) - 1, &fault);
    want("too few contents", durskeyl_end(&it, &fault), DURSKEYL_END_OF_DATA);
    want("where they begin", fault.offset, 12);
    durskeyl_begin(settings, 5, &it, &fault);
    durskeyl_take(&it, header, 8, &fault);
    want("a part of a name", durskeyl_take(&it, custom, 6, &fault), DURSKEYL_TOO_LONG);
    // what is begun goes if another one is, if none can be, and if it is dropped
    durskeyl_begin(settings, 16, &it, &fault);
    durskeyl_take(&it, other_magic, 8, &fault);
    want("begin anew", durskeyl_begin(settings, 16, &it, &fault), DURSKEYL_VALID);
    want("begun anew", durskeyl_take(&it, header, 8, &fault), DURSKEYL_VALID);
    other.limits[DURSKEYL_LOCALS] = 1000001;
    want("begin by none", durskeyl_begin(&other, 16, &it, &fault), DURSKEYL_BAD_SETTINGS);
    want("take of none", durskeyl_take(&it, header, 8, &fault), DURSKEYL_BAD_SETTINGS);
    durskeyl_begin(settings, 16, &it, &fault);
    durskeyl_drop(&it);
    want("end of what was dropped", durskeyl_end(&it, &fault), DURSKEYL_BAD_SETTINGS);
    // lengths that no object has
    durskeyl_begin(settings, UINT64_MAX, &it, &fault);
    durskeyl_take(&it, header, 4, &fault);
    want("too long", durskeyl_take(&it, header, (size_t)PTRDIFF_MAX + 1, &fault), DURSKEYL_BAD_SETTINGS);
    want("not taken", durskeyl_take(&it, header + 4, 4, &fault), DURSKEYL_VALID);
    want("not taken", durskeyl_end(&it, &fault), DURSKEYL_VALID);
}

// A list that is read, and its first wrong word, from its place in the list on; NULL if there is none.
static void reads_features(const char *list, const char *wanted, uint64_t bits) {
    uint64_t set = 12345;
    const char *found = durskeyl_read_features(list, &set);
    want(list, found && wanted ? (uint64_t)strcmp(found, wanted) : (uint64_t)(found != wanted), 0);
    want(list, set, found ? 12345 : bits);
}

static void reads_limits(const durskeyl_settings *settings, const char *list, const char *wanted, int place, uint32_t most) {
    durskeyl_settings set = *settings, other = *settings;
    const char *found = durskeyl_read_limits(list, set.limits);
    want(list, found && wanted ? (uint64_t)strcmp(found, wanted) : (uint64_t)(found != wanted), 0);
    if (!found) other.limits[place] = most;
    want(list, memcmp(&set, &other, sizeof set), 0);
}

// The words of features and limits. The rows are as `wasm-check --features` and `--limits` say, and refuse, in docs/USAGE.md.
static void words(const durskeyl_settings *settings) {
#define ROW(name, by_default, ceiling) {DURSKEYL_##name, #name, ceiling},
    const struct { uint32_t limit; const char *name; uint32_t ceiling; } table[] = {DURSKEYL_LIMIT_TABLE(ROW)};
#undef ROW
    const uint64_t wasm1 = durskeyl_features(DURSKEYL_WASM1), usual = durskeyl_features(DURSKEYL_DEFAULT);
    char list[100];
    for (uint64_t bit = 0; bit < 29; bit++) {
        const uint64_t of_two = bit == 3 ? DURSKEYL_REFERENCE_TYPES : bit == 5 ? DURSKEYL_BULK_MEMORY : UINT64_C(1) << bit;
        const char *name = durskeyl_feature_name(of_two);
        want("a feature has a word", name != NULL, 1);
        want(name, durskeyl_feature_named(name), of_two);
        snprintf(list, sizeof list, "mvp,%s", name);
        reads_features(list, NULL, durskeyl_features(DURSKEYL_MVP) | of_two);
        snprintf(list, sizeof list, "all,vectors,no-%s", name);
        reads_features(list, NULL, (durskeyl_features(DURSKEYL_ALL) | DURSKEYL_VECTORS) & ~of_two);
    }
    want("no word for two", durskeyl_feature_name(DURSKEYL_SIMD | DURSKEYL_GC) == NULL, 1);
    want("no word for none", durskeyl_feature_name(0) == NULL && durskeyl_feature_name(UINT64_C(1) << 29) == NULL, 1);
    want("the word of a feature", strcmp(durskeyl_feature_name(DURSKEYL_CUSTOM_PAGE_SIZES), "custom-page-sizes"), 0);
    want("no such feature", durskeyl_feature_named("SIMD") | durskeyl_feature_named("") | durskeyl_feature_named("wasm2") | durskeyl_feature_named("gc "), 0);
    reads_features("wasm1", NULL, wasm1);
    reads_features("wasm2,threads,no-simd", NULL, (durskeyl_features(DURSKEYL_WASM2) | DURSKEYL_THREADS) & ~(uint64_t)DURSKEYL_SIMD);
    reads_features("lime1,default", NULL, usual);
    reads_features("vectors,wasm1", NULL, wasm1 | DURSKEYL_VECTORS);
    reads_features("engines,no-vectors", NULL, durskeyl_features(DURSKEYL_WASM3));
    reads_features("no-gc", NULL, usual & ~(uint64_t)DURSKEYL_GC);
    reads_features("", "", usual);
    reads_features("gc,", "", usual);
    reads_features(",gc", ",gc", usual);
    reads_features("gc,GC,simd", "GC,simd", usual);
    reads_features("gc,simd ", "simd ", usual);
    reads_features("no-wasm2", "no-wasm2", usual);
    reads_features("no-", "no-", usual);
    reads_features("no-no-gc", "no-no-gc", usual);
    reads_features("-gc", NULL, usual & ~(uint64_t)DURSKEYL_GC);
    reads_features("vectors,-all,floats", NULL, DURSKEYL_FLOATS | DURSKEYL_VECTORS);
    reads_features("-", "-", usual);
    reads_features("--gc", "--gc", usual);
    reads_features("-wasm2", "-wasm2", usual);
    for (size_t i = 0; i < sizeof table / sizeof *table; i++) {
        const char *name = durskeyl_limit_name(table[i].limit);
        want("a limit has a word", name != NULL, 1);
        want(name, strlen(name), strlen(table[i].name));
        for (size_t k = 0; name[k]; k++) want(name, (uint64_t)(name[k] == '-' ? '_' : name[k] - 32), (uint64_t)table[i].name[k]);
        want(name, durskeyl_limit_named(name), table[i].limit);
        snprintf(list, sizeof list, "%s=%u", name, (unsigned)table[i].ceiling);
        reads_limits(settings, list, NULL, (int)table[i].limit, table[i].ceiling);
        snprintf(list, sizeof list, "%s=%u", name, (unsigned)table[i].ceiling + 1);
        reads_limits(settings, list, list, 0, 0);
    }
    want("no such limit", durskeyl_limit_name(DURSKEYL_TYPE_SIZE + 1) == NULL && durskeyl_limit_name(UINT32_MAX) == NULL, 1);
    want("no such limit", durskeyl_limit_named("local") + durskeyl_limit_named("") + durskeyl_limit_named("Locals"), 3 * DURSKEYL_LIMITS);
    reads_limits(settings, "locals=1,locals=7", NULL, DURSKEYL_LOCALS, 7);
    reads_limits(settings, "locals=0000000007", NULL, DURSKEYL_LOCALS, 7);
    const char *const wrong_limits[] = {"locals", "locals=", "locals=-1", "locals=+1", "locals=1x", "locals=00000000007", "locals=4294967297", "none=1", "", "=1"};
    for (size_t i = 0; i < sizeof wrong_limits / sizeof *wrong_limits; i++) {
        reads_limits(settings, wrong_limits[i], wrong_limits[i], 0, 0);
        snprintf(list, sizeof list, "types=1,%s", wrong_limits[i]);
        reads_limits(settings, list, list + 8, 0, 0);
    }
}

static void calls(void) {
    durskeyl_settings settings, other;
    durskeyl_fault fault;
    durskeyl_settings_default(&settings);
    want("header", durskeyl_validate(&settings, header, 8, &fault), DURSKEYL_VALID);
    want("no bytes", durskeyl_validate(&settings, header, 0, &fault), DURSKEYL_END_OF_DATA);
    want("null of length 0", durskeyl_validate(&settings, NULL, 0, &fault), DURSKEYL_END_OF_DATA);
    other = settings;
    other.features |= UINT64_C(1) << 29;
    want("unknown feature", durskeyl_validate(&other, header, 8, &fault), DURSKEYL_BAD_SETTINGS);
    other = settings;
    other.limits[DURSKEYL_LOCALS] = 1000001;
    want("limit above its ceiling", durskeyl_validate(&other, header, 8, &fault), DURSKEYL_BAD_SETTINGS);
    // a body with ten locals, and with eleven
    uint8_t locals[] = {0, 'a', 's', 'm', 1, 0, 0, 0, 1, 4, 1, 0x60, 0, 0, 3, 2, 1, 0, 0x0a, 6, 1, 4, 1, 10, 0x7f, 0x0b};
    other = settings;
    other.limits[DURSKEYL_LOCALS] = 10;
    want("ten locals", durskeyl_validate(&other, locals, sizeof locals, &fault), DURSKEYL_VALID);
    locals[23] = 11;
    want("no limit refused", fault.limit, 0);
    want("eleven locals", durskeyl_validate(&other, locals, sizeof locals, &fault), DURSKEYL_INVALID);
    want("the limit of locals refused", fault.limit, DURSKEYL_LOCALS + 1);
    want("eleven locals in pieces", by_pieces(&other, locals, sizeof locals, 3, 1 << 20, &fault), DURSKEYL_INVALID);
    want("the limit of locals refused in pieces", fault.limit, DURSKEYL_LOCALS + 1);
    want("eleven locals by default", durskeyl_validate(&settings, locals, sizeof locals, &fault), DURSKEYL_VALID);
    // the same body is judged by part 0 alone, and sections by each part
    other.limits[DURSKEYL_LOCALS] = 10;
    want("the part with the body", durskeyl_validate_part(&other, locals, sizeof locals, 0, 2, &fault), DURSKEYL_INVALID);
    want("the part without", durskeyl_validate_part(&other, locals, sizeof locals, 1, 2, &fault), DURSKEYL_VALID);
    want("a part of a header", durskeyl_validate_part(&settings, header, 7, 1, 2, &fault), DURSKEYL_END_OF_DATA);
    want("no such part", durskeyl_validate_part(&settings, header, 8, 2, 2, &fault), DURSKEYL_BAD_SETTINGS);
    want("no parts", durskeyl_validate_part(&settings, header, 8, 0, 0, &fault), DURSKEYL_BAD_SETTINGS);
    other.limits[DURSKEYL_LOCALS] = 1000001;
    want("a part by bad settings", durskeyl_validate_part(&other, header, 8, 0, 1, &fault), DURSKEYL_BAD_SETTINGS);
    // two memories, which need a feature
    const uint8_t memories[] = {0, 'a', 's', 'm', 1, 0, 0, 0, 5, 5, 2, 0, 0, 0, 0};
    want("two memories", durskeyl_validate(&settings, memories, sizeof memories, &fault), DURSKEYL_VALID);
    other = settings;
    other.features = durskeyl_features(DURSKEYL_WASM2);
    want("two memories in 2.0", durskeyl_validate(&other, memories, sizeof memories, &fault) != DURSKEYL_VALID, 1);
    want("no limit refused two memories", fault.limit, 0);
    other.limits[DURSKEYL_MEMORIES] = 1;
    want("two memories of one", durskeyl_validate(&other, memories, sizeof memories, &fault) != DURSKEYL_VALID, 1);
    want("the limit of memories refused", fault.limit, DURSKEYL_MEMORIES + 1);
    // a body with v128.const, drop
    uint8_t vectors[48] = {0, 'a', 's', 'm', 1, 0, 0, 0, 1, 4, 1, 0x60, 0, 0, 3, 2, 1, 0, 0x0a, 23, 1, 21, 0, 0xfd, 12, [41] = 0x1a, 0x0b};
    want("vectors", durskeyl_validate(&settings, vectors, 43, &fault), DURSKEYL_INVALID);
    want("no limit refused vectors", fault.limit, 0);
    want("what allows vectors", strcmp(durskeyl_hint(&fault), "DURSKEYL_VECTORS judges operators on vectors"), 0);
    other = settings;
    other.features |= DURSKEYL_VECTORS;
    want("vectors, judged", durskeyl_validate(&other, vectors, 43, &fault), DURSKEYL_VALID);
    want("nothing to allow", durskeyl_hint(&fault) == NULL, 1);
    other.features = DURSKEYL_ENGINES;
    want("vectors, as engines do", durskeyl_validate(&other, vectors, 43, &fault), DURSKEYL_VALID);
    want("what engines take", DURSKEYL_ENGINES, durskeyl_features(DURSKEYL_WASM3) | DURSKEYL_VECTORS);
    vectors[41] = 0x45; // i32.eqz of a vector
    want("vectors, judged invalid", durskeyl_validate(&other, vectors, 43, &fault), DURSKEYL_INVALID);
    vectors[41] = 0x1a;
    other.features = durskeyl_features(DURSKEYL_WASM1) | DURSKEYL_VECTORS;
    want("vectors without their feature", durskeyl_validate(&other, vectors, 43, &fault), DURSKEYL_MISSING_FEATURE);
    want("the feature's word", strcmp(durskeyl_feature_name(fault.detail), "simd"), 0);
    want("nothing to allow", durskeyl_hint(&fault) == NULL, 1);
    want("version", durskeyl_version() & ~DURSKEYL_NOT_PROVED, DURSKEYL_VERSION);
    want("version's text tells what its bit tells", strstr(durskeyl_version_text(), " (NOT PROVED, ") != NULL, durskeyl_version() >> 31);
    want("version's text, proved", strstr(durskeyl_version_text(), " (proved, ") != NULL, !(durskeyl_version() >> 31));
    want("features of an unknown set", durskeyl_features(7), UINT64_MAX);
    other = settings;
    other.features = durskeyl_features(99);
    want("features of an unknown set", durskeyl_validate(&other, header, 8, &fault), DURSKEYL_BAD_SETTINGS);
    for (int i = DURSKEYL_TYPE_SIZE + 1; i < DURSKEYL_LIMITS; i++) {
        other = settings;
        other.limits[i] = 1;
        want("a limit that is not known", durskeyl_validate(&other, header, 8, &fault), DURSKEYL_BAD_SETTINGS);
    }
    limits(&settings);
    features(&settings);
    pieces(&settings);
    words(&settings);
    want("header is valid", durskeyl_is_valid(header, 8), 1);
    want("cut off is valid", durskeyl_is_valid(header, 7), 0);
    want("nothing is valid", durskeyl_is_valid(NULL, 0), 0);
    // lengths that no object has
    const size_t lengths[] = {(size_t)PTRDIFF_MAX + 1, (size_t)PTRDIFF_MAX + 9, SIZE_MAX};
    for (int i = 0; i < 3; i++) {
        want("too long", durskeyl_validate(&settings, header, lengths[i], &fault), DURSKEYL_BAD_SETTINGS);
        want("too long", fault.kind, DURSKEYL_BAD_SETTINGS);
        want("too long is valid", durskeyl_is_valid(header, lengths[i]), 0);
        want("imports of too long", durskeyl_imports(header, lengths[i], NULL, 0), DURSKEYL_NO_MODULE);
        want("exports of too long", durskeyl_exports(header, lengths[i], NULL, 0), DURSKEYL_NO_MODULE);
    }
    pthread_t threads[4];
    for (int i = 0; i < 4; i++)
        pthread_create(&threads[i], NULL, many, &settings);
    for (int i = 0; i < 4; i++) {
        void *bad;
        pthread_join(threads[i], &bad);
        want("threads", (uint32_t)(size_t)bad, 0);
    }
}

enum { STACK = 128 << 10, PAGE = 4 << 10 };

struct work {
    durskeyl_settings settings;
    const uint8_t *bytes;
    size_t length;
    uint32_t kind;
};

static void *judge(void *held) {
    struct work *work = held;
    durskeyl_fault fault;
    durskeyl_import in;
    durskeyl_export out;
    work->kind = by_pieces(&work->settings, work->bytes, work->length, 1000, 16 << 20, &fault);
    work->kind = durskeyl_validate(&work->settings, work->bytes, work->length, &fault);
    durskeyl_imports(work->bytes, work->length, &in, 1);
    durskeyl_exports(work->bytes, work->length, &out, 1);
    return NULL;
}

// The stack is filled, so that what was never written tells how far it was used: at its high end some of it is the thread's own.
static size_t on_small_stack(struct work *work) {
    uint8_t *low = mmap(NULL, STACK + PAGE, PROT_NONE, MAP_PRIVATE | MAP_ANONYMOUS, -1, 0);
    pthread_attr_t how;
    pthread_t thread;
    size_t left = 0;
    if (low == MAP_FAILED || mprotect(low + PAGE, STACK, PROT_READ | PROT_WRITE))
        exit(2);
    memset(low + PAGE, 0xa5, STACK);
    pthread_attr_init(&how);
    if (pthread_attr_setstack(&how, low + PAGE, STACK) || pthread_create(&thread, &how, judge, work))
        exit(2);
    pthread_join(thread, NULL);
    pthread_attr_destroy(&how);
    while (left < STACK && low[PAGE + left] == 0xa5)
        left++;
    munmap(low, STACK + PAGE);
    return STACK - left;
}

static void measure(int count, char **names) {
    struct work work;
    size_t most = 0, most_allowed = 0;
    durskeyl_settings_default(&work.settings);
    for (int i = 0; i < count; i++) {
        uint8_t *bytes = read_file(names[i], &work.length);
        work.bytes = bytes;
        size_t used = on_small_stack(&work);
        most = used > most ? used : most;
        most_allowed += work.kind == DURSKEYL_VALID;
        free(bytes);
    }
    printf("at most %zu bytes of a stack of %d, %zu modules valid\n", most, STACK, most_allowed);
}

int main(int count, char **words) {
    if (count == 2 && !strcmp(words[1], "--calls")) {
        calls();
    } else if (count > 3 && !strcmp(words[1], "--parts")) {
        durskeyl_settings settings;
        durskeyl_settings_default(&settings);
        for (int i = 3; i < count; i++)
            say_parts(&settings, words[i], (uint32_t)atoi(words[2]));
    } else if (count > 2 && !strcmp(words[1], "--stack")) {
        measure(count - 2, words + 2);
    } else {
        durskeyl_settings settings;
        durskeyl_settings_default(&settings);
        int by = count > 3 && !strcmp(words[1], "--pieces");
        for (int i = by ? 3 : 1; i < count; i++)
            say(&settings, words[i], by ? strtoul(words[2], NULL, 10) : 0);
    }
    return wrong != 0;
}

/* The words of features and limits, for callers in C. They read and write what the caller hands over and nothing else: they ask for no memory, and
 * judge nothing. They are C, so nothing of them is proved; tests/library/lines.c has worked rows, and compares them with the header's tables. */
#include <durskeyl.h>
#include <string.h>

struct feature {
    const char *name;
    uint64_t bits;
};

static const struct feature features[] = {
    {"mutable-global", DURSKEYL_MUTABLE_GLOBAL},
    {"saturating-float-to-int", DURSKEYL_SATURATING_FLOAT_TO_INT},
    {"sign-extension", DURSKEYL_SIGN_EXTENSION},
    {"reference-types", DURSKEYL_REFERENCE_TYPES},
    {"multi-value", DURSKEYL_MULTI_VALUE},
    {"bulk-memory", DURSKEYL_BULK_MEMORY},
    {"simd", DURSKEYL_SIMD},
    {"relaxed-simd", DURSKEYL_RELAXED_SIMD},
    {"threads", DURSKEYL_THREADS},
    {"shared-everything-threads", DURSKEYL_SHARED_EVERYTHING_THREADS},
    {"tail-call", DURSKEYL_TAIL_CALL},
    {"floats", DURSKEYL_FLOATS},
    {"multi-memory", DURSKEYL_MULTI_MEMORY},
    {"exceptions", DURSKEYL_EXCEPTIONS},
    {"memory64", DURSKEYL_MEMORY64},
    {"extended-const", DURSKEYL_EXTENDED_CONST},
    {"component-model", DURSKEYL_COMPONENT_MODEL},
    {"function-references", DURSKEYL_FUNCTION_REFERENCES},
    {"memory-control", DURSKEYL_MEMORY_CONTROL},
    {"gc", DURSKEYL_GC},
    {"custom-page-sizes", DURSKEYL_CUSTOM_PAGE_SIZES},
    {"legacy-exceptions", DURSKEYL_LEGACY_EXCEPTIONS},
    {"gc-types", DURSKEYL_GC_TYPES},
    {"stack-switching", DURSKEYL_STACK_SWITCHING},
    {"wide-arithmetic", DURSKEYL_WIDE_ARITHMETIC},
    {"call-indirect-overlong", DURSKEYL_CALL_INDIRECT_OVERLONG},
    {"bulk-memory-opt", DURSKEYL_BULK_MEMORY_OPT},
    {"custom-descriptors", DURSKEYL_CUSTOM_DESCRIPTORS},
    {"vectors", DURSKEYL_VECTORS},
};

struct set {
    const char *name;
    uint32_t number;
};

static const struct set sets[] = {
    {"all", DURSKEYL_ALL},     {"mvp", DURSKEYL_MVP},     {"wasm1", DURSKEYL_WASM1},     {"wasm2", DURSKEYL_WASM2},
    {"wasm3", DURSKEYL_WASM3}, {"lime1", DURSKEYL_LIME1}, {"default", DURSKEYL_DEFAULT},
};

/* In the order of enum durskeyl_limit */
static const char *const limits[] = {
    "types",    "params",           "results",       "fields",        "string-bytes", "imports",      "exports", "functions", "globals",         "tags",      "tables",
    "memories", "element-segments", "data-segments", "segment-items", "body-bytes",   "select-types", "locals",  "catches",   "subtyping-depth", "type-size",
};

#define CEILING(name, by_default, ceiling) ceiling,
static const uint32_t ceilings[] = {DURSKEYL_LIMIT_TABLE(CEILING)};

#define COUNT(rows) (sizeof(rows) / sizeof((rows)[0]))

static int is_word(const char *name, const char *word, size_t length) {
    return strlen(name) == length && memcmp(name, word, length) == 0;
}

/* The bits of the feature with this word; 0 if there is none. */
static uint64_t feature_of(const char *word, size_t length) {
    for (size_t i = 0; i < COUNT(features); i++)
        if (is_word(features[i].name, word, length)) return features[i].bits;
    return 0;
}

/* The place of the limit with this word; DURSKEYL_LIMITS if there is none. */
static uint32_t limit_of(const char *word, size_t length) {
    for (size_t i = 0; i < COUNT(limits); i++)
        if (is_word(limits[i], word, length)) return (uint32_t)i;
    return DURSKEYL_LIMITS;
}

const char *durskeyl_feature_name(uint64_t feature) {
    for (size_t i = 0; i < COUNT(features); i++)
        if (features[i].bits == feature) return features[i].name;
    return NULL;
}

uint64_t durskeyl_feature_named(const char *name) {
    return feature_of(name, strlen(name));
}

const char *durskeyl_limit_name(uint32_t limit) {
    return limit < COUNT(limits) ? limits[limit] : NULL;
}

uint32_t durskeyl_limit_named(const char *name) {
    return limit_of(name, strlen(name));
}

/* What a word makes of a set: 1, or 0 if it is unknown. */
static int change(const char *word, size_t length, uint64_t *set) {
    for (size_t i = 0; i < COUNT(sets); i++)
        if (is_word(sets[i].name, word, length)) {
            *set = durskeyl_features(sets[i].number) | (*set & DURSKEYL_VECTORS);
            return 1;
        }
    if (is_word("engines", word, length)) {
        *set = DURSKEYL_ENGINES;
        return 1;
    }
    if (is_word("-all", word, length)) {
        *set &= DURSKEYL_VECTORS;
        return 1;
    }
    uint64_t added = feature_of(word, length);
    size_t front = length > 3 && memcmp(word, "no-", 3) == 0 ? 3 : length > 1 && *word == '-' ? 1 : 0;
    uint64_t removed = front ? feature_of(word + front, length - front) : 0;
    *set = (*set | added) & ~removed;
    return added != 0 || removed != 0;
}

const char *durskeyl_read_features(const char *list, uint64_t *found) {
    uint64_t set = durskeyl_features(DURSKEYL_DEFAULT);
    for (const char *word = list;; word++) {
        size_t length = strcspn(word, ",");
        if (!change(word, length, &set)) return word;
        word += length;
        if (*word == 0) break;
    }
    *found = set;
    return NULL;
}

/* The number that one to ten digits write, if it is not above this; else -1. */
static int64_t number_of(const char *text, size_t length, uint32_t most) {
    int64_t number = 0;
    if (length == 0 || length > 10) return -1;
    for (size_t i = 0; i < length; i++) {
        if (text[i] < '0' || text[i] > '9') return -1;
        number = number * 10 + (text[i] - '0');
    }
    return number <= most ? number : -1;
}

const char *durskeyl_read_limits(const char *list, uint32_t *found) {
    uint32_t read[DURSKEYL_LIMITS];
    memcpy(read, found, sizeof read);
    for (const char *word = list;; word++) {
        size_t length = strcspn(word, ","), name = strcspn(word, ",=");
        uint32_t limit = limit_of(word, name);
        int64_t number = limit < DURSKEYL_LIMITS && name < length ? number_of(word + name + 1, length - name - 1, ceilings[limit]) : -1;
        if (number < 0) return word;
        read[limit] = (uint32_t)number;
        word += length;
        if (*word == 0) break;
    }
    memcpy(found, read, sizeof read);
    return NULL;
}

const char *durskeyl_hint(const durskeyl_fault *fault) {
    if (fault->kind == DURSKEYL_INVALID && strcmp(fault->text, "unexpected SIMD opcode: 0xfd") == 0)
        return "DURSKEYL_VECTORS judges operators on vectors";
    return NULL;
}

/* durskeyl.h: a validator of WebAssembly core modules that is proved right. Version 0.2.0. The library needs the C library alone. Operators on
 * vectors (SIMD) are judged only if you ask for them: settings.features |= DURSKEYL_VECTORS.
 *
 * PROVED, of the library's source: durskeyl_validate answers DURSKEYL_VALID only if the bytes spell a module that is valid by the written
 * rules under the settings (docs/RULES.md names them), and a kind that is a verdict only if they do not; fault->kind is that
 * answer; the text ends in a 0. A module that is accepted runs soundly: if the features are those of the standard, so without
 * DURSKEYL_SHARED_EVERYTHING_THREADS, DURSKEYL_STACK_SWITCHING and DURSKEYL_CUSTOM_DESCRIPTORS, no run of it is stuck, whatever its host
 * and its memory answer; docs/SOUNDNESS.md says which checks a compiler may leave out. durskeyl_is_valid answers 1 only if durskeyl_validate may answer DURSKEYL_VALID by the settings by default,
 * and else 0. durskeyl_imports and durskeyl_exports, of bytes that durskeyl_validate accepted by whatever settings: how
 * many there are, and in each row the names, the kind and the index that the module has, in its order; of any other bytes, that the names of
 * all rows that were written lie in the bytes, unless the answer is DURSKEYL_NO_MODULE. durskeyl_start, of such bytes: the start
 * function that the module has. durskeyl_validate_types answers what durskeyl_validate is proved to answer, and keeps types of a module that it
 * accepted, and of no other; of these durskeyl_entities, durskeyl_type_ids, durskeyl_types and durskeyl_type_values tell how many rows there are and
 * each number of a row, and write no other row. Of a module whose pieces are handed over:
 * durskeyl_take answers DURSKEYL_VALID only if each whole item that came was judged and none is refused; a kind that is a
 * verdict only if no module that begins with these bytes is valid; DURSKEYL_TOO_LONG only if a section or body of them, without the contents of
 * a custom section, has more bytes than the cap, or there are 2^64 of them; and a refusal of bytes stays. durskeyl_end answers of all pieces that were taken what durskeyl_validate
 * is proved to answer of whole bytes, or DURSKEYL_TOO_LONG, as durskeyl_take does. Between calls no more bytes are held than the cap says. All
 * calls end on all bytes, read only what they are given, and write only the fault, the rows or the handle. Except for the calls on a handle
 * no call depends on an earlier one, keeps anything, or leaves anything to free.
 * NOT PROVED: which of several faults is told, its kind, offset, text and limit; time, memory and stack; that the system refused, if the answer is
 *   DURSKEYL_OUT_OF_MEMORY; this header; the calls on words, and those that give text; the kit's functions of memory; the C library. The file PROVED, which is installed beside LICENSE, says whether the archive was built by the
 *   toolchain from what it proved; if it was not, durskeyl_version has the bit DURSKEYL_NOT_PROVED.
 *
 * THE CALLER PROMISES, and nothing checks it:
 *   - settings and fault are not null, and aligned; bytes may be null only with length 0; so many bytes as length says can be
 *     read during the whole call (a length above PTRDIFF_MAX is refused, and nothing is read). Nobody writes them meanwhile: no other thread,
 *     and no process, so no file mapped as shared.
 *   - the fault overlaps neither the bytes nor the settings. rows are so many, apart from the bytes, and aligned; null only with capacity 0.
 *   - a durskeyl_pieces or a durskeyl_module is all 0 before the first call that takes it, is written by these calls alone, and is not copied:
 *     of two copies one call leaves the other with memory that is gone. It overlaps nothing that a call takes besides. One thread at a time uses it; each call may
 *     come from another thread, if that one sees what the one before has written, as after a lock or a join.
 *   - malloc, realloc and free belong together and align to 16; there are 128 KiB of stack, for the library and what the C library
 *     takes of it in these three; no call comes from a signal handler, nor after fork in the child of a process with threads, before exec.
 * Any number of threads may call at once, each with handles of its own. */
#ifndef DURSKEYL_H
#define DURSKEYL_H
#include <stddef.h>
#include <stdint.h>
#ifdef __cplusplus
extern "C" {
#endif

/* The version, 8 bits a number: 0.2.0. Before 1.0.0 a new second number may change what there is, a new third one changes no call;
 * from then on a new second number only adds functions, features or limits. */
#define DURSKEYL_VERSION UINT32_C(0x000200)

/* The version, and in parentheses whether the library was built by the toolchain from what it proved, by which logic and from which commit: a text
 * for people in one line, as "0.2.0 (proved, logic dac8208d650f15bf, commit 919306..)", that ends in a 0 and stays. */
const char *durskeyl_version_text(void);

/* The bit of durskeyl_version by which a library says that it was built without its proof (install-library --unproved). */
#define DURSKEYL_NOT_PROVED UINT32_C(0x80000000)

enum durskeyl_kind {
    DURSKEYL_VALID = 0,
    DURSKEYL_END_OF_DATA = 1,     /* invalid: the bytes end too early; detail: at least so many more would be asked for */
    DURSKEYL_MISSING_FEATURE = 2, /* invalid under these features; detail: the bits of a feature that would allow what is there */
    DURSKEYL_OUT_OF_MEMORY = 3,   /* NO VERDICT: malloc refused. Never take it for invalid */
    DURSKEYL_FAILED = 4,          /* not answered by durskeyl_validate today */
    DURSKEYL_INVALID = 5,         /* invalid: any other fault */
    DURSKEYL_BAD_SETTINGS = 6,    /* NO VERDICT: an unknown bit among the features, a limit above its ceiling, a number other than 0 at a place
                                   * that is kept for later, or a length above PTRDIFF_MAX; or a call on a handle with no module that was begun */
    DURSKEYL_TOO_LONG = 7         /* NO VERDICT, and the same pieces get none again: more bytes would have to be held than the cap of
                                   * durskeyl_begin allows. Only durskeyl_take and durskeyl_end answer it */
};

/* The features, as bits of durskeyl_settings.features: the names are those of wasmparser's WasmFeatures, the order of the bits is ours. */
enum durskeyl_feature {
    DURSKEYL_MUTABLE_GLOBAL = 1 << 0,
    DURSKEYL_SATURATING_FLOAT_TO_INT = 1 << 1,
    DURSKEYL_SIGN_EXTENSION = 1 << 2,
    DURSKEYL_REFERENCE_TYPES = 1 << 3 | 1 << 25, /* and CALL_INDIRECT_OVERLONG */
    DURSKEYL_MULTI_VALUE = 1 << 4,
    DURSKEYL_BULK_MEMORY = 1 << 5 | 1 << 26, /* and BULK_MEMORY_OPT */
    DURSKEYL_SIMD = 1 << 6,
    DURSKEYL_RELAXED_SIMD = 1 << 7,
    DURSKEYL_THREADS = 1 << 8,
    DURSKEYL_SHARED_EVERYTHING_THREADS = 1 << 9,
    DURSKEYL_TAIL_CALL = 1 << 10,
    DURSKEYL_FLOATS = 1 << 11,
    DURSKEYL_MULTI_MEMORY = 1 << 12,
    DURSKEYL_EXCEPTIONS = 1 << 13,
    DURSKEYL_MEMORY64 = 1 << 14,
    DURSKEYL_EXTENDED_CONST = 1 << 15,
    DURSKEYL_COMPONENT_MODEL = 1 << 16,
    DURSKEYL_FUNCTION_REFERENCES = 1 << 17,
    DURSKEYL_MEMORY_CONTROL = 1 << 18,
    DURSKEYL_GC = 1 << 19,
    DURSKEYL_CUSTOM_PAGE_SIZES = 1 << 20,
    DURSKEYL_LEGACY_EXCEPTIONS = 1 << 21,
    DURSKEYL_GC_TYPES = 1 << 22,
    DURSKEYL_STACK_SWITCHING = 1 << 23,
    DURSKEYL_WIDE_ARITHMETIC = 1 << 24,
    DURSKEYL_CALL_INDIRECT_OVERLONG = 1 << 25,
    DURSKEYL_BULK_MEMORY_OPT = 1 << 26,
    DURSKEYL_CUSTOM_DESCRIPTORS = 1 << 27
};

/* A bit beside those of features, which no named set has: with it operators on vectors are judged like all others, and are valid if
 * the features of their proposals allow them; without it each of them is refused. */
#define DURSKEYL_VECTORS (UINT64_C(1) << 28)

/* The places in limits: the most that a module may have of each. The last three are kept for later, and hold 0. */
enum durskeyl_limit {
    DURSKEYL_TYPES,
    DURSKEYL_PARAMS,
    DURSKEYL_RESULTS,
    DURSKEYL_FIELDS,
    DURSKEYL_STRING_BYTES,
    DURSKEYL_IMPORTS,
    DURSKEYL_EXPORTS,
    DURSKEYL_FUNCTIONS,
    DURSKEYL_GLOBALS,
    DURSKEYL_TAGS,
    DURSKEYL_TABLES,
    DURSKEYL_MEMORIES,
    DURSKEYL_ELEMENT_SEGMENTS,
    DURSKEYL_DATA_SEGMENTS,
    DURSKEYL_SEGMENT_ITEMS,
    DURSKEYL_BODY_BYTES,
    DURSKEYL_SELECT_TYPES,
    DURSKEYL_LOCALS,
    DURSKEYL_CATCHES,
    DURSKEYL_SUBTYPING_DEPTH,
    DURSKEYL_TYPE_SIZE,
    DURSKEYL_LIMITS = 24
};

/* The limits in their order, each with its default and its ceiling: X(NAME, DEFAULT, CEILING). */
#define DURSKEYL_LIMIT_TABLE(X) \
    X(TYPES, 1000000, 1048576) \
    X(PARAMS, 1000, 1000) \
    X(RESULTS, 1000, 1000) \
    X(FIELDS, 10000, 1000000) \
    X(STRING_BYTES, 100000, 1000000) \
    X(IMPORTS, 1000000, 1000000) \
    X(EXPORTS, 1000000, 1000000) \
    X(FUNCTIONS, 1000000, 1000000) \
    X(GLOBALS, 1000000, 1000000) \
    X(TAGS, 1000000, 1000000) \
    X(TABLES, 100, 100000) \
    X(MEMORIES, 100, 100000) \
    X(ELEMENT_SEGMENTS, 100000, 1000000) \
    X(DATA_SEGMENTS, 100000, 1000000) \
    X(SEGMENT_ITEMS, 10000000, 10000000) \
    X(BODY_BYTES, 7654321, 7654321) \
    X(SELECT_TYPES, 10, 1000) \
    X(LOCALS, 50000, 1000000) \
    X(CATCHES, 10000, 100000) \
    X(SUBTYPING_DEPTH, 63, 254) \
    X(TYPE_SIZE, 1000000, 16777215)

/* Named sets of features, for durskeyl_features, which answers UINT64_MAX, a set that no call takes, for any other number. */
enum durskeyl_set {
    DURSKEYL_ALL = 0,             /* all that this library knows, proposals too */
    DURSKEYL_MVP = 1,
    DURSKEYL_WASM1 = 2,
    DURSKEYL_WASM2 = 3,
    DURSKEYL_WASM3 = 4,
    DURSKEYL_LIME1 = 5,
    DURSKEYL_DEFAULT = 6          /* WebAssembly 3.0 with threads, and the component model's */
};

/* What browsers' engines take by default today: WebAssembly 3.0 with threads, and operators on vectors. A later version may have more. */
#define DURSKEYL_ENGINES (durskeyl_features(DURSKEYL_WASM3) | DURSKEYL_VECTORS)

typedef struct {
    uint64_t features;            /* bits of enum durskeyl_feature, and DURSKEYL_VECTORS */
    uint32_t limits[DURSKEYL_LIMITS]; /* by enum durskeyl_limit */
} durskeyl_settings;

typedef struct {
    uint32_t kind;                /* the answer, an enum durskeyl_kind */
    uint32_t text_length;         /* at most 256 */
    uint64_t offset;              /* in the bytes */
    uint64_t detail;              /* see the kinds; else 0 */
    char text[260];               /* for people, in UTF-8, with a 0 after it; no stable wording. It may hold a name of the module, with
                                   * any characters: escape it before it is printed to a terminal or a log */
    uint32_t limit;               /* if a limit refused the bytes, 1 more than its place in settings.limits (enum durskeyl_limit); else 0. In
                                   * pieces a limit of one table or one memory is not told. The release 0.2.0 writes 0 */
} durskeyl_fault;

/* A module whose pieces are handed over: what the library keeps of it, between durskeyl_begin and durskeyl_end or durskeyl_drop. */
typedef struct {
    void *inside;                 /* the library's */
    uint64_t begun;               /* 1 if a module was begun, else 0 */
} durskeyl_pieces;

/* A handle with no module, as each handle is at first: durskeyl_pieces pieces = DURSKEYL_NO_PIECES; */
#define DURSKEYL_NO_PIECES {0, 0}

/* What is imported or exported. */
enum durskeyl_external {
    DURSKEYL_FUNCTION = 0,
    DURSKEYL_TABLE = 1,
    DURSKEYL_MEMORY = 2,
    DURSKEYL_GLOBAL = 3,
    DURSKEYL_TAG = 4
};

/* Names are bytes + offset, so many bytes, UTF-8 with any characters, and no 0 after them. */
typedef struct {
    uint64_t module_offset;
    uint64_t name_offset;
    uint32_t module_length;
    uint32_t name_length;
    uint32_t kind;                /* an enum durskeyl_external */
    uint32_t index;               /* that the import gets among those of its kind: imports come before what the module defines */
} durskeyl_import;

typedef struct {
    uint64_t name_offset;
    uint32_t name_length;
    uint32_t kind;                /* an enum durskeyl_external */
    uint32_t index;               /* among those of its kind */
    uint32_t later;               /* kept for later: 0 */
} durskeyl_export;

/* The types of a module that was accepted: what the library keeps of it, between durskeyl_validate_types and durskeyl_release. It holds no byte of
 * the module. */
typedef struct {
    void *inside;                 /* the library's */
    uint64_t known;               /* 1 if types are kept, else 0 */
} durskeyl_module;

/* A handle with no types, as each handle is at first: durskeyl_module module = DURSKEYL_NO_TYPES; */
#define DURSKEYL_NO_TYPES {0, 0}

/* No type, in the place of an id: each id is smaller. */
#define DURSKEYL_NO_TYPE UINT32_MAX

/* What the type of a value is, or what a field stores. */
enum durskeyl_value_kind {
    DURSKEYL_I32 = 0,
    DURSKEYL_I64 = 1,
    DURSKEYL_F32 = 2,
    DURSKEYL_F64 = 3,
    DURSKEYL_V128 = 4,
    DURSKEYL_REFERENCE = 5,
    DURSKEYL_I8 = 6,              /* of a field alone */
    DURSKEYL_I16 = 7              /* of a field alone */
};

/* What a reference refers to. */
enum durskeyl_heap {
    DURSKEYL_HEAP_FUNC = 0,
    DURSKEYL_HEAP_EXTERN = 1,
    DURSKEYL_HEAP_ANY = 2,
    DURSKEYL_HEAP_NONE = 3,
    DURSKEYL_HEAP_NOEXTERN = 4,
    DURSKEYL_HEAP_NOFUNC = 5,
    DURSKEYL_HEAP_EQ = 6,
    DURSKEYL_HEAP_STRUCT = 7,
    DURSKEYL_HEAP_ARRAY = 8,
    DURSKEYL_HEAP_I31 = 9,
    DURSKEYL_HEAP_EXN = 10,
    DURSKEYL_HEAP_NOEXN = 11,
    DURSKEYL_HEAP_CONT = 12,
    DURSKEYL_HEAP_NOCONT = 13,
    DURSKEYL_HEAP_DEFINED = 14    /* the type of the id */
};

/* What holds of a type, as bits of flags. A bit that is not named here is 0 today; do not rest on that. */
enum durskeyl_flag {
    DURSKEYL_MUTABLE = 1,         /* a global or a field may be written */
    DURSKEYL_NULLABLE = 2,        /* a reference may be null */
    DURSKEYL_SHARED = 4,          /* between threads */
    DURSKEYL_EXACT = 8,           /* of exactly that type, and of none below it */
    DURSKEYL_BITS_64 = 16,        /* a table or a memory has addresses of 64 bits */
    DURSKEYL_HAS_MAXIMUM = 32,    /* a table or a memory has one */
    DURSKEYL_HAS_PAGE_SIZE = 64,  /* the size of a memory's page is written in the module */
    DURSKEYL_FINAL = 128          /* a type has none below it */
};

/* The type of a value, or of what a field stores. */
typedef struct {
    uint32_t kind;                /* an enum durskeyl_value_kind */
    uint32_t flags;               /* of a reference NULLABLE, EXACT, and SHARED if heap names no id; of a field MUTABLE too */
    uint32_t heap;                /* of a reference an enum durskeyl_heap, else 0 */
    uint32_t id;                  /* if heap is DURSKEYL_HEAP_DEFINED the type's id, else DURSKEYL_NO_TYPE */
} durskeyl_value;

/* The type of a function, table, memory, global or tag. */
typedef struct {
    uint32_t kind;                /* an enum durskeyl_external */
    uint32_t flags;               /* EXACT, MUTABLE, SHARED, BITS_64, HAS_MAXIMUM, HAS_PAGE_SIZE */
    uint32_t id;                  /* of a function or a tag that of its type, else DURSKEYL_NO_TYPE */
    uint32_t page_size_log2;      /* of a memory: 16 if none is written; else 0 */
    durskeyl_value value;         /* of a table what its elements are; of a global what it holds */
    uint64_t minimum;             /* of a table in elements, of a memory in pages */
    uint64_t maximum;             /* if it has one, else 0 */
} durskeyl_entity;

enum durskeyl_type_kind {
    DURSKEYL_TYPE_FUNCTION = 0,
    DURSKEYL_TYPE_STRUCT = 1,
    DURSKEYL_TYPE_ARRAY = 2,
    DURSKEYL_TYPE_CONTINUATION = 3
};

/* A defined type. */
typedef struct {
    uint32_t kind;                /* an enum durskeyl_type_kind */
    uint32_t flags;               /* FINAL, SHARED */
    uint32_t supertype;           /* the id of the one that it declares, or DURSKEYL_NO_TYPE */
    uint32_t group_first;         /* the id of the first type of its recursion group, whose ids follow one another */
    uint32_t group_count;         /* how many types the group has */
    uint32_t values;              /* how many durskeyl_type_values has: parameters and results, fields, 1 of an array, 0 of a continuation */
    uint32_t params;              /* how many of these are parameters */
    uint32_t function;            /* of a continuation the id of its function type, else DURSKEYL_NO_TYPE */
    uint32_t descriptor;          /* the id of the type that describes it, or DURSKEYL_NO_TYPE */
    uint32_t describes;           /* the id of the type that it describes, or DURSKEYL_NO_TYPE */
} durskeyl_type;

/* Never the answer of durskeyl_imports or durskeyl_exports for a module that was accepted. The rows may hold anything then. */
#define DURSKEYL_NO_MODULE UINT64_MAX

uint32_t durskeyl_version(void);
uint64_t durskeyl_features(uint32_t set);
void durskeyl_settings_default(durskeyl_settings *settings);
uint32_t durskeyl_validate(const durskeyl_settings *settings, const uint8_t *bytes, size_t length, durskeyl_fault *fault);

/* Judges one part of a module, so that a caller's own threads share the work: all sections, and each body whose number, counted from 0, is
 * part modulo parts. If every part from 0 to parts - 1 answers DURSKEYL_VALID, the bytes are a valid module. If one answers
 * DURSKEYL_END_OF_DATA, DURSKEYL_MISSING_FEATURE or DURSKEYL_INVALID they are not, and the other parts need not be waited for. If one answers
 * DURSKEYL_OUT_OF_MEMORY there is no verdict. DURSKEYL_BAD_SETTINGS too if part is not below parts. Each thread hands over a fault of its own. */
uint32_t durskeyl_validate_part(const durskeyl_settings *settings, const uint8_t *bytes, size_t length, uint32_t part, uint32_t parts,
                                durskeyl_fault *fault);

/* 1 if the bytes are a valid module by the settings by default; else 0, also if there was no memory. */
uint32_t durskeyl_is_valid(const uint8_t *bytes, size_t length);

/* A module piece by piece: begun once, then each piece in its order, of any length, 0 too, and then the end, which gives the verdict on all of
 * them together. A piece need not stay there after its call. Each section, and each body, is judged as soon as it is whole and is then
 * forgotten; what is held is a part of one, and what a call finds whole in its piece is not copied.
 *
 * most is the cap: of the bytes no more are held between two calls; the list that holds them may take twice the memory while it grows. If
 * more would have to be held, the answer is DURSKEYL_TOO_LONG. A section other than that of the code is one item, and so is each body,
 * which has at most 7.6 MB by the limits; of a custom section only the id, the size and the name are held, and its contents go by. With 16 MB
 * (16 << 20) a module is judged, however it is cut, if its sections, except those of the code and custom ones, are no longer than that, the
 * bytes of id and size counted; with UINT64_MAX each is that memory is there for. What the module declares is kept besides (types, imports,
 * exports, names), as it is by durskeyl_validate.
 *
 * A refusal of bytes, one for memory, and DURSKEYL_TOO_LONG stay: each later durskeyl_take, and durskeyl_end, answers the same kind, so it
 * does no harm to hand over the rest. DURSKEYL_BAD_SETTINGS of durskeyl_take does not stay, and its piece is not the module's: do not go on as
 * if it were. */

/* Answers DURSKEYL_VALID if a module is begun; DURSKEYL_BAD_SETTINGS or DURSKEYL_OUT_OF_MEMORY if none is. A module that was begun in the
 * handle before is dropped in any case. What is begun belongs to the caller, who gives it back by durskeyl_end or durskeyl_drop. */
uint32_t durskeyl_begin(const durskeyl_settings *settings, uint64_t most, durskeyl_pieces *pieces, durskeyl_fault *fault);

/* Answers DURSKEYL_VALID while nothing is refused, which says nothing of the bytes to come; DURSKEYL_BAD_SETTINGS if no module was begun, or
 * the length is above PTRDIFF_MAX, and then nothing was taken; else why the bytes are refused that came by now. */
uint32_t durskeyl_take(durskeyl_pieces *pieces, const uint8_t *bytes, size_t length, durskeyl_fault *fault);

/* The verdict on all pieces together; DURSKEYL_BAD_SETTINGS if no module was begun. The handle is empty after it, and nothing is left to free. */
uint32_t durskeyl_end(durskeyl_pieces *pieces, durskeyl_fault *fault);

/* Gives back a module for which no verdict is wanted. Does nothing with a handle that has none. */
void durskeyl_drop(durskeyl_pieces *pieces);

/* Of bytes that were accepted, all of them: answers how many imports (exports) the module has, and writes the first of them, as many as
 * capacity. With capacity 0 it only counts. Of other bytes the answer and the rows mean nothing. */
uint64_t durskeyl_imports(const uint8_t *bytes, size_t length, durskeyl_import *rows, size_t capacity);
uint64_t durskeyl_exports(const uint8_t *bytes, size_t length, durskeyl_export *rows, size_t capacity);

/* The types of a module. durskeyl_validate_types answers what durskeyl_validate does, with the same fault, and keeps the types of a module that is
 * accepted in the handle; if the answer is another than DURSKEYL_VALID the handle has none. What it had before is given back in any case. Its
 * caller gives it back by durskeyl_release, which does nothing with a handle that has none. */
uint32_t durskeyl_validate_types(const durskeyl_settings *settings, const uint8_t *bytes, size_t length, durskeyl_module *module,
                                 durskeyl_fault *fault);
void durskeyl_release(durskeyl_module *module);

/* Each of these fills rows of the caller, from `first` on, as many as capacity, and answers how many there are in all; DURSKEYL_NO_MODULE if the
 * handle has no types, or there is no such kind or id. Rows past the last are left as they are. With capacity 0 it only counts. */

/* The functions, tables, memories, globals or tags (kind is an enum durskeyl_external), the imported ones first: the index of a durskeyl_import or
 * a durskeyl_export among those of its kind is the index here. */
uint64_t durskeyl_entities(durskeyl_module *module, uint32_t kind, uint32_t first, durskeyl_entity *rows, size_t capacity);

/* The ids of the module's types, by their indices. Two types with one id are the same. Two with different ids differ, if the features have
 * DURSKEYL_FUNCTION_REFERENCES, DURSKEYL_GC, DURSKEYL_STACK_SWITCHING or DURSKEYL_CUSTOM_DESCRIPTORS; else each type has an id of its own. */
uint64_t durskeyl_type_ids(durskeyl_module *module, uint32_t first, uint32_t *ids, size_t capacity);

/* The types by their ids, which begin with 0. */
uint64_t durskeyl_types(durskeyl_module *module, uint32_t first, durskeyl_type *rows, size_t capacity);

/* What the type of an id is made of, from the first on: of a function its parameters and then its results, of a struct its fields, of an array
 * its element. */
uint64_t durskeyl_type_values(durskeyl_module *module, uint32_t id, durskeyl_value *rows, size_t capacity);

/* Of bytes that were accepted: the index of the start function, or DURSKEYL_NO_MODULE if the module has none. */
uint64_t durskeyl_start(const uint8_t *bytes, size_t length);

/* Words. They are those of wasm-check, and `vectors` for DURSKEYL_VECTORS. Texts end in a 0; those that are answered stay. */

/* The word of a feature, as "custom-page-sizes"; NULL if these are not the bits of one. */
const char *durskeyl_feature_name(uint64_t feature);

/* The bits of the feature with this word; 0 if there is none. */
uint64_t durskeyl_feature_named(const char *name);

/* The word of a limit, as "body-bytes", by its place (enum durskeyl_limit); NULL if there is none. */
const char *durskeyl_limit_name(uint32_t limit);

/* The place of the limit with this word; DURSKEYL_LIMITS if there is none. */
uint32_t durskeyl_limit_named(const char *name);

/* Reads a list as `wasm-check --features` does: words with a comma between them, applied in order to the set by default. A word is a set (mvp, wasm1,
 * wasm2, wasm3, lime1, default, all, or -all for none), a feature, or "no-" or "-" and a feature. Two more words are "vectors", which a set leaves as it was, and
 * the set "engines", which is DURSKEYL_ENGINES. Answers NULL, and writes the set; or the first unknown word, in the list, and writes nothing. */
const char *durskeyl_read_features(const char *list, uint64_t *features);

/* Reads a list as `wasm-check --limits` does: words NAME=N with a comma between them, where N has one to ten digits and is not above the limit's
 * ceiling. Answers NULL, and sets these of the DURSKEYL_LIMITS limits; or the first wrong word, in the list, and writes nothing. */
const char *durskeyl_read_limits(const char *list, uint32_t *limits);

/* What a caller can do about a fault, for people, if something is known: that DURSKEYL_VECTORS judges operators on vectors, of a module that
 * was refused because it has one; else NULL. */
const char *durskeyl_hint(const durskeyl_fault *fault);

#ifdef __cplusplus
}
#endif
#endif

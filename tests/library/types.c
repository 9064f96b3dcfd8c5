// Lists the types of each file that is accepted with all features, a line for each. usage: types FILE.. ; types --calls
#include <durskeyl.h>
#include <stdio.h>
#include <stdlib.h>
#include <string.h>

static int wrong;

static const char *const values[] = {"i32", "i64", "f32", "f64", "v128", "ref", "i8", "i16"};
static const char *const heaps[] = {
    "func", "extern", "any", "none", "noextern", "nofunc", "eq", "struct", "array", "i31", "exn", "noexn", "cont", "nocont"};
static const char *const kinds[] = {"func", "table", "memory", "global", "tag"};

static void print_value(durskeyl_value it) {
    if (it.flags & DURSKEYL_MUTABLE)
        printf("mut ");
    if (it.kind != DURSKEYL_REFERENCE) {
        printf("%s", values[it.kind]);
        return;
    }
    printf("(ref %s%s%s", it.flags & DURSKEYL_NULLABLE ? "null " : "", it.flags & DURSKEYL_EXACT ? "exact " : "", it.flags & DURSKEYL_SHARED ? "shared " : "");
    if (it.heap == DURSKEYL_HEAP_DEFINED)
        printf("#%u)", it.id);
    else
        printf("%s)", heaps[it.heap]);
}

static void print_values(const durskeyl_value *row, uint32_t count, const char *between) {
    for (uint32_t i = 0; i < count; i++) {
        printf("%s", i ? between : "");
        print_value(row[i]);
    }
}

static void print_entity(durskeyl_entity it) {
    if (it.kind == DURSKEYL_FUNCTION || it.kind == DURSKEYL_TAG) {
        printf("#%u%s\n", it.id, it.flags & DURSKEYL_EXACT ? " exact" : "");
        return;
    }
    if (it.kind == DURSKEYL_GLOBAL) {
        printf("%s%s", it.flags & DURSKEYL_MUTABLE ? "mut " : "", it.flags & DURSKEYL_SHARED ? "shared " : "");
        print_value(it.value);
        printf("\n");
        return;
    }
    if (it.kind == DURSKEYL_TABLE) {
        print_value(it.value);
        printf(" ");
    }
    printf("min %llu", (unsigned long long)it.minimum);
    if (it.flags & DURSKEYL_HAS_MAXIMUM)
        printf(" max %llu", (unsigned long long)it.maximum);
    printf("%s%s", it.flags & DURSKEYL_SHARED ? " shared" : "", it.flags & DURSKEYL_BITS_64 ? " 64" : "");
    if (it.flags & DURSKEYL_HAS_PAGE_SIZE)
        printf(" page %u", it.page_size_log2);
    printf("\n");
}

// So many rows and one more, which no call may write.
static void *rows_of(uint64_t count, size_t size) {
    void *rows = malloc((count + 1) * size);
    memset(rows, '#', (count + 1) * size);
    return rows;
}

static void print_some(const char *what, uint32_t id) {
    if (id != DURSKEYL_NO_TYPE)
        printf(" %s #%u", what, id);
}

static void print_type(durskeyl_module *module, uint32_t id, durskeyl_type it) {
    durskeyl_value *made = rows_of(it.values, sizeof *made);
    wrong += durskeyl_type_values(module, id, made, it.values) != it.values || made[it.values].kind != 0x23232323;
    printf("id %u: group %u+%u%s%s", id, it.group_first, it.group_count, it.flags & DURSKEYL_FINAL ? " final" : "", it.flags & DURSKEYL_SHARED ? " shared" : "");
    print_some("sub", it.supertype);
    print_some("describes", it.describes);
    print_some("descriptor", it.descriptor);
    if (it.kind == DURSKEYL_TYPE_CONTINUATION) {
        print_some("cont", it.function);
        printf("\n");
    } else {
        printf(it.kind == DURSKEYL_TYPE_FUNCTION ? " func (" : it.kind == DURSKEYL_TYPE_STRUCT ? " struct (" : " array (");
        if (it.kind == DURSKEYL_TYPE_FUNCTION) {
            print_values(made, it.params, " ");
            printf(") -> (");
            print_values(made + it.params, it.values - it.params, " ");
        } else {
            print_values(made, it.values, ", ");
        }
        printf(")\n");
    }
    free(made);
}

static void print_named(const uint8_t *bytes, uint64_t offset, uint32_t length) {
    fwrite(bytes + offset, 1, length, stdout);
    printf(" ");
}

static void print_entries(durskeyl_module *module, const uint8_t *bytes, size_t length) {
    uint64_t imports = durskeyl_imports(bytes, length, NULL, 0), exports = durskeyl_exports(bytes, length, NULL, 0);
    durskeyl_import *in = rows_of(imports, sizeof *in);
    durskeyl_export *out = rows_of(exports, sizeof *out);
    durskeyl_entity it;
    durskeyl_imports(bytes, length, in, imports);
    durskeyl_exports(bytes, length, out, exports);
    for (uint64_t i = 0; i < imports; i++) {
        durskeyl_entities(module, in[i].kind, in[i].index, &it, 1);
        printf("import ");
        print_named(bytes, in[i].module_offset, in[i].module_length);
        print_named(bytes, in[i].name_offset, in[i].name_length);
        printf("%s %u: ", kinds[in[i].kind], in[i].index);
        print_entity(it);
    }
    for (uint64_t i = 0; i < exports; i++) {
        durskeyl_entities(module, out[i].kind, out[i].index, &it, 1);
        printf("export ");
        print_named(bytes, out[i].name_offset, out[i].name_length);
        printf("%s %u: ", kinds[out[i].kind], out[i].index);
        print_entity(it);
    }
    free(in);
    free(out);
}

static void print_module(durskeyl_module *module, const uint8_t *bytes, size_t length) {
    uint64_t count = durskeyl_types(module, 0, NULL, 0);
    durskeyl_type *types = rows_of(count, sizeof *types);
    wrong += durskeyl_types(module, 0, types, count) != count || types[count].kind != 0x23232323;
    for (uint64_t i = 0; i < count; i++)
        print_type(module, i, types[i]);
    free(types);
    count = durskeyl_type_ids(module, 0, NULL, 0);
    uint32_t *ids = rows_of(count, sizeof *ids);
    wrong += durskeyl_type_ids(module, 0, ids, count) != count || ids[count] != 0x23232323;
    for (uint64_t i = 0; i < count; i++)
        printf("type %llu: #%u\n", (unsigned long long)i, ids[i]);
    free(ids);
    for (uint32_t kind = 0; kind < 5; kind++) {
        count = durskeyl_entities(module, kind, 0, NULL, 0);
        durskeyl_entity *rows = rows_of(count, sizeof *rows);
        wrong += durskeyl_entities(module, kind, 0, rows, count) != count || rows[count].kind != 0x23232323;
        for (uint64_t i = 0; i < count; i++) {
            printf("%s %llu: ", kinds[kind], (unsigned long long)i);
            print_entity(rows[i]);
        }
        free(rows);
    }
    print_entries(module, bytes, length);
    uint64_t start = durskeyl_start(bytes, length);
    if (start != DURSKEYL_NO_MODULE)
        printf("start %llu\n", (unsigned long long)start);
}

static void list(const durskeyl_settings *settings, const char *name) {
    FILE *file = fopen(name, "rb");
    if (!file) {
        perror(name);
        exit(2);
    }
    static uint8_t bytes[1 << 26];
    size_t length = fread(bytes, 1, sizeof bytes, file);
    fclose(file);
    durskeyl_module module = DURSKEYL_NO_TYPES;
    durskeyl_fault fault, other;
    memset(&fault, 0, sizeof fault);
    memset(&other, 0, sizeof other);
    uint32_t kind = durskeyl_validate_types(settings, bytes, length, &module, &fault);
    if (kind != durskeyl_validate(settings, bytes, length, &other) || memcmp(&fault, &other, sizeof fault) || module.known != (kind == DURSKEYL_VALID)) {
        printf("%s: another fault than that of durskeyl_validate\n", name);
        wrong++;
    }
    if (kind == DURSKEYL_VALID) {
        printf("== %s\n", name);
        print_module(&module, bytes, length);
    }
    durskeyl_release(&module);
}

static void want(const char *what, uint64_t got, uint64_t wanted) {
    if (got != wanted) {
        printf("%s: %llu in the place of %llu\n", what, (unsigned long long)got, (unsigned long long)wanted);
        wrong++;
    }
}

// a function of nothing, which starts
static const uint8_t small[] = {0, 'a', 's', 'm', 1, 0, 0, 0, 1, 4, 1, 0x60, 0, 0, 3, 2, 1, 0, 8, 1, 0, 10, 4, 1, 2, 0, 0x0b};

static void without_types(durskeyl_module *module) {
    durskeyl_entity entities[1];
    durskeyl_type types[1];
    durskeyl_value made[1];
    uint32_t ids[1];
    want("no entities", durskeyl_entities(module, 0, 0, entities, 1), DURSKEYL_NO_MODULE);
    want("no types", durskeyl_types(module, 0, types, 1), DURSKEYL_NO_MODULE);
    want("no ids", durskeyl_type_ids(module, 0, ids, 1), DURSKEYL_NO_MODULE);
    want("no values", durskeyl_type_values(module, 0, made, 1), DURSKEYL_NO_MODULE);
    durskeyl_release(module);
    want("nothing is held", module->known || module->inside, 0);
}

static void rows(durskeyl_module *module) {
    durskeyl_entity entities[2];
    durskeyl_type types[2];
    durskeyl_value made[1];
    memset(entities, '#', sizeof entities);
    want("functions", durskeyl_entities(module, DURSKEYL_FUNCTION, 0, entities, 2), 1);
    want("the first", entities[0].kind || entities[0].id, 0);
    want("no second", entities[1].kind, 0x23232323);
    memset(entities, '#', sizeof entities);
    want("functions from 1 on", durskeyl_entities(module, DURSKEYL_FUNCTION, 1, entities, 2), 1);
    want("functions from the last index on", durskeyl_entities(module, DURSKEYL_FUNCTION, UINT32_MAX, entities, 2), 1);
    want("none of them", entities[0].kind, 0x23232323);
    want("tables", durskeyl_entities(module, DURSKEYL_TABLE, 0, entities, 2), 0);
    want("no kind", durskeyl_entities(module, 5, 0, entities, 2), DURSKEYL_NO_MODULE);
    want("types", durskeyl_types(module, 0, types, 2), 1);
    want("a final type", types[0].flags, DURSKEYL_FINAL);
    want("without a supertype", types[0].supertype, DURSKEYL_NO_TYPE);
    want("types from the last id on", durskeyl_types(module, UINT32_MAX, types, 2), 1);
    want("values", durskeyl_type_values(module, 0, made, 1), 0);
    want("values of no id", durskeyl_type_values(module, 1, made, 1), DURSKEYL_NO_MODULE);
    want("values of no type", durskeyl_type_values(module, DURSKEYL_NO_TYPE, made, 1), DURSKEYL_NO_MODULE);
}

// Groups of so many structs each, in which all of a group have as many fields as its number: each row tells the group.
static void groups(uint32_t count, uint32_t size) {
    durskeyl_settings settings;
    durskeyl_settings_default(&settings);
    uint8_t *bytes = malloc(64 + count * (4 + size * (size_t)(2 + 2 * count))), *at = bytes + 18;
    memcpy(bytes, "\0asm\1\0\0\0\1", 9);
    *at++ = count;
    for (uint32_t i = 0; i < count; i++) {
        *at++ = 0x4e;
        *at++ = (size & 127) | 128;
        *at++ = (size >> 7 & 127) | 128;
        *at++ = size >> 14;
        for (uint32_t k = 0; k < size; k++) {
            *at++ = 0x5f;
            *at++ = i;
            memset(at, 0, 2 * i);
            for (uint32_t field = 0; field < i; field++, at += 2)
                *at = 0x7f;
        }
    }
    // the length of the section, in five bytes; four bytes of nothing are part of none
    size_t length = at - bytes - 18;
    uint8_t *whole = malloc(at - bytes);
    memcpy(whole, bytes, 9);
    for (int i = 0; i < 5; i++)
        whole[9 + i] = (length >> 7 * i & 127) | (i < 4 ? 128 : 0);
    memcpy(whole + 14, bytes + 18, length);
    durskeyl_fault fault;
    durskeyl_module module = DURSKEYL_NO_TYPES;
    want("groups", durskeyl_validate_types(&settings, whole, 14 + length, &module, &fault), DURSKEYL_VALID);
    durskeyl_type *types = rows_of((uint64_t)count * size, sizeof *types), one;
    want("their types", durskeyl_types(&module, 0, types, count * (size_t)size), (uint64_t)count * size);
    uint64_t others = 0;
    for (uint32_t id = 0; id < count * size; id++) {
        others += types[id].group_first != id / size * size || types[id].group_count != size || types[id].values != id / size;
        others += id % 997 == 0 && (durskeyl_types(&module, id, &one, 1), memcmp(&one, &types[id], sizeof one));
    }
    want("types of other groups", others, 0);
    durskeyl_release(&module);
    free(types);
    free(whole);
    free(bytes);
}

static void calls(void) {
    durskeyl_settings settings;
    durskeyl_settings_default(&settings);
    durskeyl_fault fault;
    durskeyl_module module = DURSKEYL_NO_TYPES, none = DURSKEYL_NO_TYPES;
    without_types(&none);
    want("valid", durskeyl_validate_types(&settings, small, sizeof small, &module, &fault), DURSKEYL_VALID);
    rows(&module);
    want("valid again", durskeyl_validate_types(&settings, small, sizeof small, &module, &fault), DURSKEYL_VALID);
    rows(&module);
    want("start", durskeyl_start(small, sizeof small), 0);
    want("no start", durskeyl_start(small, 8), DURSKEYL_NO_MODULE);
    want("null of length 0", durskeyl_start(NULL, 0), DURSKEYL_NO_MODULE);
    uint8_t torn[sizeof small];
    memcpy(torn, small, sizeof small);
    torn[13] = 9;
    want("a refusal", durskeyl_validate_types(&settings, torn, sizeof torn, &module, &fault) == DURSKEYL_VALID, 0);
    without_types(&module);
    want("valid once more", durskeyl_validate_types(&settings, small, sizeof small, &module, &fault), DURSKEYL_VALID);
    settings.features = UINT64_MAX;
    want("bad settings", durskeyl_validate_types(&settings, small, sizeof small, &module, &fault), DURSKEYL_BAD_SETTINGS);
    without_types(&module);
    groups(100, 1);
    groups(3, 2);
    groups(50, 200);
    groups(2, 100000);
}

int main(int count, char **words) {
    durskeyl_settings settings;
    durskeyl_settings_default(&settings);
    settings.features = durskeyl_features(DURSKEYL_ALL) | DURSKEYL_VECTORS;
    if (count == 2 && !strcmp(words[1], "--calls"))
        calls();
    else
        for (int i = 1; i < count; i++)
            list(&settings, words[i]);
    return wrong != 0;
}

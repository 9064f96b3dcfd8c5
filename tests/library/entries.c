// Lists what accepted modules import and export, a line for each. usage: entries FILE.. ; entries --calls
#include <durskeyl.h>
#include <pthread.h>
#include <stdio.h>
#include <stdlib.h>
#include <string.h>

static int wrong;

static void print_bytes(const uint8_t *bytes, uint64_t offset, uint32_t length) {
    printf(" ");
    for (uint32_t i = 0; i < length; i++)
        printf("%02x", bytes[offset + i]);
    printf("%s", length ? "" : "-");
}

// The bytes lie in a place of their own that ends where they do, so that a sanitizer sees a read behind them.
static void list(const char *name) {
    FILE *file = fopen(name, "rb");
    if (!file) {
        perror(name);
        exit(2);
    }
    static uint8_t read[1 << 26];
    size_t length = fread(read, 1, sizeof read, file);
    fclose(file);
    uint8_t *bytes = malloc(length);
    memcpy(bytes, read, length);
    uint64_t imports = durskeyl_imports(bytes, length, NULL, 0), exports = durskeyl_exports(bytes, length, NULL, 0);
    durskeyl_import *in = malloc((imports + 1) * sizeof *in);
    durskeyl_export *out = malloc((exports + 1) * sizeof *out);
    memset(in, '#', (imports + 1) * sizeof *in);
    memset(out, '#', (exports + 1) * sizeof *out);
    wrong += durskeyl_imports(bytes, length, in, imports) != imports || durskeyl_exports(bytes, length, out, exports) != exports;
    wrong += in[imports].kind != 0x23232323 || out[exports].kind != 0x23232323;
    for (uint64_t i = 0; i < imports; i++) {
        printf("import");
        print_bytes(bytes, in[i].module_offset, in[i].module_length);
        print_bytes(bytes, in[i].name_offset, in[i].name_length);
        printf(" %u %u\n", in[i].kind, in[i].index);
    }
    for (uint64_t i = 0; i < exports; i++) {
        printf("export");
        print_bytes(bytes, out[i].name_offset, out[i].name_length);
        printf(" %u %u\n", out[i].kind, out[i].index);
        wrong += out[i].later != 0;
    }
    free(bytes);
    free(in);
    free(out);
}

static void want(const char *what, uint64_t got, uint64_t wanted) {
    if (got != wanted) {
        printf("%s: %llu in the place of %llu\n", what, (unsigned long long)got, (unsigned long long)wanted);
        wrong++;
    }
}

// two functions from "a" and a memory between them; an export of each name's length from 0 to 2
static const uint8_t module[] = {0, 'a', 's', 'm', 1, 0, 0, 0, 1, 4, 1, 0x60, 0, 0,
    2, 20, 3, 1, 'a', 1, 'f', 0, 0, 1, 'a', 1, 'm', 2, 0, 0, 1, 'a', 1, 'g', 0, 0,
    7, 13, 3, 0, 0, 1, 1, 'x', 0, 0, 2, 'y', 'z', 2, 0};

static void *many(void *nothing) {
    size_t bad = 0;
    durskeyl_import in[3];
    durskeyl_export out[3];
    for (int i = 0; i < 2000; i++) {
        bad += durskeyl_imports(module, sizeof module, in, 3) != 3 || in[2].index != 1 || in[1].kind != DURSKEYL_MEMORY;
        bad += durskeyl_exports(module, sizeof module, out, 3) != 3 || out[2].name_length != 2;
    }
    (void)nothing;
    return (void *)bad;
}

static void calls(void) {
    durskeyl_import in[4];
    durskeyl_export out[4];
    memset(in, '#', sizeof in);
    memset(out, '#', sizeof out);
    want("imports", durskeyl_imports(module, sizeof module, in, 2), 3);
    want("exports", durskeyl_exports(module, sizeof module, out, 2), 3);
    want("second import", in[1].kind, DURSKEYL_MEMORY);
    want("its name", module[in[1].name_offset], 'm');
    want("third import", in[2].kind, 0x23232323);
    want("second export", out[1].name_length, 1);
    want("third export", out[2].kind, 0x23232323);
    want("no imports", durskeyl_imports(module, 8, in, 4), 0);
    want("no exports", durskeyl_exports(module, 8, out, 4), 0);
    want("null of length 0", durskeyl_imports(NULL, 0, NULL, 0), DURSKEYL_NO_MODULE);
    want("a section that is cut off", durskeyl_exports(module, sizeof module - 1, NULL, 0), DURSKEYL_NO_MODULE);
    // bytes that are mostly no module: an end, names that lie in the bytes, and nothing is written behind the rows
    uint8_t torn[sizeof module];
    size_t outside = 0;
    for (size_t at = 8; at < sizeof module; at++) {
        for (int byte = 0; byte < 256; byte++) {
            memcpy(torn, module, sizeof module);
            torn[at] = byte;
            uint64_t imports = durskeyl_imports(torn, sizeof torn, in, 3), exports = durskeyl_exports(torn, sizeof torn, out, 3);
            for (uint64_t i = 0; imports != DURSKEYL_NO_MODULE && i < imports && i < 3; i++)
                outside += in[i].module_offset + in[i].module_length > sizeof torn || in[i].name_offset + in[i].name_length > sizeof torn;
            for (uint64_t i = 0; exports != DURSKEYL_NO_MODULE && i < exports && i < 3; i++)
                outside += out[i].name_offset + out[i].name_length > sizeof torn;
        }
    }
    want("names outside of the bytes", outside, 0);
    want("behind the rows", in[3].kind == 0x23232323 && out[3].kind == 0x23232323, 1);
    pthread_t threads[4];
    for (int i = 0; i < 4; i++)
        pthread_create(&threads[i], NULL, many, NULL);
    for (int i = 0; i < 4; i++) {
        void *bad;
        pthread_join(threads[i], &bad);
        want("threads", (size_t)bad, 0);
    }
}

int main(int count, char **words) {
    if (count == 2 && !strcmp(words[1], "--calls"))
        calls();
    else
        for (int i = 1; i < count; i++)
            list(words[i]);
    return wrong != 0;
}

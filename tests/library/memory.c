// Refuses each allocation of a validation in turn, of whole bytes, in pieces and with the types kept, and all that come after it, until one meets no refusal. The
// answer is "out of memory", or that of a validation with ample memory, since a type's ancestors are looked for one by one if there is no
// memory to keep them.
// It is linked with the archive of proved code alone, whose three functions of memory are defined here. usage: memory FILE..
#include <durskeyl.h>
#include <stdbool.h>
#include <stdio.h>
#include <stdlib.h>
#include <string.h>

static long left; // how many allocations are granted
static long held; // how many are not given back

// What the archive asks of an allocator: whether there is memory, and a pointer that is never null. A size of 0 asks for some place.
struct tried {
    bool is_there;
    void *at;
};

static struct tried answer(void *at) { return (struct tried){at != NULL, at ? at : (void *)&left}; }

struct tried rattle_alloc(size_t size, size_t align) {
    void *at = left-- > 0 ? malloc(size ? size : align) : NULL;
    held += at != NULL;
    return answer(at);
}

struct tried rattle_realloc(void *old, size_t old_size, size_t size, size_t align) {
    (void)old_size;
    return answer(left-- > 0 ? realloc(old, size ? size : align) : NULL);
}

void rattle_dealloc(void *old) {
    held--;
    free(old);
}

// The verdict on bytes that are handed over in pieces of 100 bytes, or the first refusal.
static uint32_t by_pieces(const durskeyl_settings *settings, const uint8_t *bytes, size_t length, durskeyl_fault *fault) {
    durskeyl_pieces pieces = DURSKEYL_NO_PIECES;
    uint32_t kind = durskeyl_begin(settings, UINT64_MAX, &pieces, fault);
    for (size_t at = 0; kind == DURSKEYL_VALID && at < length; at += 100)
        kind = durskeyl_take(&pieces, bytes + at, length - at < 100 ? length - at : 100, fault);
    if (kind == DURSKEYL_VALID)
        return durskeyl_end(&pieces, fault);
    // what is refused is given back by either call
    if (length & 1)
        durskeyl_drop(&pieces);
    else
        durskeyl_end(&pieces, fault);
    return kind;
}

// The verdict of a call that keeps the types, which are given back.
static uint32_t with_types(const durskeyl_settings *settings, const uint8_t *bytes, size_t length, durskeyl_fault *fault) {
    durskeyl_module module = DURSKEYL_NO_TYPES;
    uint32_t kind = durskeyl_validate_types(settings, bytes, length, &module, fault);
    if (module.known != (kind == DURSKEYL_VALID))
        return DURSKEYL_FAILED;
    durskeyl_release(&module);
    return kind;
}

typedef uint32_t judge(const durskeyl_settings *settings, const uint8_t *bytes, size_t length, durskeyl_fault *fault);

static long tried, without;

// Refuses each allocation of these calls in turn: whether that is told, and nothing is left.
static bool refused_in_turn(const char *name, judge *judge, const durskeyl_settings *settings, const uint8_t *bytes, size_t length, uint32_t wanted) {
    durskeyl_fault fault;
    for (long n = 0;; n++) {
        left = n;
        uint32_t kind = judge(settings, bytes, length, &fault);
        if (held) {
            printf("%s: %ld allocations are not given back where number %ld is refused\n", name, held, n);
            return false;
        }
        if (left >= 0) {
            if (kind != wanted)
                printf("%s: kind %u in the place of %u\n", name, kind, wanted);
            return kind == wanted;
        }
        if (kind != DURSKEYL_OUT_OF_MEMORY && kind != wanted) {
            printf("%s: kind %u in the place of %u where allocation %ld is refused\n", name, kind, wanted, n);
            return false;
        }
        without += kind == wanted;
        tried++;
    }
}

int main(int count, char **words) {
    durskeyl_settings settings;
    durskeyl_fault fault;
    static uint8_t bytes[1 << 20];
    durskeyl_settings_default(&settings);
    for (int i = 1; i < count; i++) {
        FILE *file = fopen(words[i], "rb");
        if (!file)
            return 2;
        size_t length = fread(bytes, 1, sizeof bytes, file);
        fclose(file);
        left = 1 << 30;
        uint32_t wanted = durskeyl_validate(&settings, bytes, length, &fault);
        left = 1 << 30;
        // in pieces another fault may be the first
        uint32_t in_pieces = by_pieces(&settings, bytes, length, &fault);
        if ((wanted == DURSKEYL_VALID) != (in_pieces == DURSKEYL_VALID)) {
            printf("%s: kind %u in pieces in the place of %u\n", words[i], in_pieces, wanted);
            return 1;
        }
        if (!refused_in_turn(words[i], durskeyl_validate, &settings, bytes, length, wanted)
            || !refused_in_turn(words[i], with_types, &settings, bytes, length, wanted)
            || !refused_in_turn(words[i], by_pieces, &settings, bytes, length, in_pieces))
            return 1;
    }
    printf("%ld allocations refused in turn; %ld validations did without\n", tried, without);
    // few can do so: were it most, a refusal would not be told
    return without * 10 < tried ? 0 : 1;
}

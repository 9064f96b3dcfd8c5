/* Looks for a byte that a file doesn't have, over and over: what it takes to look at each byte of it once. */
#include <stdio.h>
#include <stdlib.h>
#include <string.h>

int main(int count, char **words) {
    if (count < 3)
        return 2;
    FILE *file = fopen(words[1], "rb");
    if (!file || fseek(file, 0, SEEK_END))
        return 2;
    size_t size = (size_t)ftell(file), found = 0;
    unsigned char *bytes = malloc(size);
    rewind(file);
    if (!bytes || fread(bytes, 1, size, file) != size)
        return 2;
    for (long pass = atol(words[2]); pass > 0; pass--) {
        /* so that no pass is left out */
        __asm__ volatile("" : : "r"(bytes) : "memory");
        found += memchr(bytes, 0xff, size) != NULL;
    }
    printf("%zu %zu\n", size, found);
    return 0;
}

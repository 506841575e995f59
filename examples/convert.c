/* convert FILE OUT: turns a stored file of any length into the other form. It prints both lengths, and ends with status 0 where
 * OUT is written and 2 where the file is refused, with the number on standard error and OUT as it was; with 3 where a file cannot
 * be read or written. */
#include <inttypes.h>
#include <stdio.h>
#include <stdlib.h>

#include "proximity.h"
#include "read_file.h"

/* Returns 0 where not all bytes are written. */
static int write_file(const char *path, const uint8_t *bytes, size_t length)
{
    FILE *file = fopen(path, "wb");
    size_t written;

    if (file == NULL)
        return 0;
    written = fwrite(bytes, 1, length, file);
    return fclose(file) == 0 && written == length;
}

/* The file in the other form, and its length in *converted; or NULL, and the refusal in *refusal, 0 where there is no memory. */
static uint8_t *other_form(const uint8_t *bytes, size_t length, size_t *converted, uint32_t *refusal)
{
    uint8_t *out;

    *refusal = proximity_converted_length(bytes, length, converted);
    if (*refusal != 0)
        return NULL;
    out = malloc(*converted);
    if (out == NULL)
        return NULL;
    *refusal = proximity_convert(bytes, length, out, *converted);
    if (*refusal != 0) {
        free(out);
        return NULL;
    }
    return out;
}

int main(int argc, char **argv)
{
    uint8_t *bytes, *out;
    size_t length, converted = 0;
    uint32_t refusal;
    int written;

    if (argc != 3) {
        fprintf(stderr, "usage: convert FILE OUT\n");
        return 3;
    }
    bytes = read_file(argv[1], &length);
    if (bytes == NULL) {
        fprintf(stderr, "convert: cannot read %s\n", argv[1]);
        return 3;
    }
    out = other_form(bytes, length, &converted, &refusal);
    free(bytes);
    if (refusal != 0) {
        fprintf(stderr, "refused %" PRIu32 "\n", refusal);
        return 2;
    }
    written = out != NULL && write_file(argv[2], out, converted);
    free(out);
    if (!written) {
        fprintf(stderr, "convert: cannot write %s\n", argv[2]);
        return 3;
    }
    printf("%zu bytes read, %zu bytes written\n", length, converted);
    return 0;
}

/* Reading a whole file, for the examples. */
#ifndef READ_FILE_H
#define READ_FILE_H

#include <stdint.h>
#include <stdio.h>
#include <stdlib.h>

/* The file's bytes, and their number in *length; NULL where it cannot be read. */
static uint8_t *read_file(const char *path, size_t *length)
{
    size_t room = 4096, got, n = 0;
    uint8_t *bytes = malloc(room), *more;
    FILE *file = fopen(path, "rb");

    while (bytes != NULL && file != NULL && (got = fread(bytes + n, 1, room - n, file)) > 0) {
        n += got;
        if (n == room) {
            room *= 2;
            more = realloc(bytes, room);
            if (more == NULL)
                free(bytes);
            bytes = more;
        }
    }
    if (file == NULL || ferror(file)) {
        free(bytes);
        bytes = NULL;
    }
    if (file != NULL)
        fclose(file);
    *length = n;
    return bytes;
}

#endif

/* Loads and saves plans by the library.
 *
 *     plans load FILE SHEET      the answers to the sheet on the file's plan
 *     plans save SHEET           the file of the sheet's plan
 *     plans save-on FILE SHEET   the same on the file's plan
 *
 * Standard output has what was written to the area, or `refused N`. The status is 0, 1 for a refusal, 2 where a file cannot be read or
 * a word is wrong, 3 where the library wrote to what it must leave alone. */
#include <stdio.h>
#include <stdlib.h>
#include <string.h>
#include "entries.h"

enum { AREA = 1 << 16, FILE_LIMIT = 1 << 16 };

static uint8_t file[FILE_LIMIT], sheet[SCREEN_SHEET_LIMIT + 1], area[AREA];
static uint8_t file_before[FILE_LIMIT], sheet_before[SCREEN_SHEET_LIMIT + 1];

static size_t contents(const char *path, uint8_t *to, uint8_t *copy, size_t most) {
    FILE *f = fopen(path, "rb");
    if (f == NULL) {
        fprintf(stderr, "plans: %s cannot be read\n", path);
        exit(2);
    }
    size_t len = fread(to, 1, most, f);
    fclose(f);
    memcpy(copy, to, len);
    return len;
}

static uint8_t pattern(size_t i) {
    return (uint8_t)(i * 37 + 11);
}

/* What is wrong with the buffers after a call that says it wrote so many bytes, or NULL. */
static const char *wrong(size_t written) {
    if (memcmp(file, file_before, sizeof file) != 0 || memcmp(sheet, sheet_before, sizeof sheet) != 0)
        return "a buffer that was lent for reading was written to";
    if (written > AREA)
        return "more was written than the area has";
    for (size_t i = written; i < AREA; i++)
        if (area[i] != pattern(i))
            return "a byte behind what was written has changed";
    return NULL;
}

int main(int argc, char **argv) {
    const char *task = argc > 1 ? argv[1] : "";
    int saves = strcmp(task, "save") == 0, saves_on = strcmp(task, "save-on") == 0;
    if (!(saves && argc == 3) && !((saves_on || strcmp(task, "load") == 0) && argc == 4)) {
        fputs("usage: plans load FILE SHEET | save SHEET | save-on FILE SHEET\n", stderr);
        return 2;
    }
    size_t file_len = saves ? 0 : contents(argv[2], file, file_before, sizeof file);
    size_t len = contents(argv[argc - 1], sheet, sheet_before, sizeof sheet);
    for (size_t i = 0; i < AREA; i++)
        area[i] = pattern(i);
    uint64_t given = saves      ? screen_save(sheet, len, area, AREA)
                     : saves_on ? screen_save_on(file, file_len, sheet, len, area, AREA)
                                : screen_load(file, file_len, sheet, len, area, AREA);
    uint64_t refusal = given % 256, value = given / 256;
    size_t written = (size_t)(saves || saves_on ? value : value / 2);
    const char *fault = wrong(written);
    if (fault == NULL && refusal != 0 && value != 0)
        fault = "a refusal has a value";
    if (fault != NULL) {
        fprintf(stderr, "plans: %s\n", fault);
        return 3;
    }
    if (refusal != 0) {
        printf("refused %u\n", (unsigned)refusal);
        return 1;
    }
    return fwrite(area, 1, written, stdout) == written && fflush(stdout) == 0 ? 0 : 2;
}

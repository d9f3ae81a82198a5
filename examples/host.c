/* A host of the drawing screen's entry: runs the sheet on standard input and prints the answers.
 * An argument gives the size of the area, to see a run that ends early. */
#include <stdio.h>
#include <stdlib.h>
#include "../include/screen.h"

int main(int argc, char **argv) {
    static uint8_t sheet[SCREEN_SHEET_LIMIT + 1];
    size_t size = argc > 1 ? (size_t)strtoul(argv[1], NULL, 10) : (size_t)1 << 22;
    uint8_t *area = malloc(size + 1);
    if (area == NULL) {
        fputs("host: no memory for the answers\n", stderr);
        return 2;
    }
    size_t length = fread(sheet, 1, sizeof sheet, stdin);
    uint64_t result = screen_run(sheet, length, area, size);
    size_t written = SCREEN_WRITTEN(result);
    int ok = fwrite(area, 1, written, stdout) == written && fflush(stdout) == 0;
    free(area);
    if (SCREEN_ENDED(result)) {
        fputs("host: the area is too short for the next answer\n", stderr);
        return 1;
    }
    return ok ? 0 : 2;
}

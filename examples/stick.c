/* A host that saves and loads: runs the sheet on standard input, saves the plan that it leaves, in memory, and shows the plan loaded from
 * there. With an argument one byte of the saved plan is changed before, to see a refusal. */
#include <stdio.h>
#include <string.h>
#include "../include/screen.h"

static int refused(const char *what, uint64_t result) {
    fprintf(stderr, "stick: %s: no %d\n", what, SCREEN_REFUSAL(result));
    return 1;
}

int main(int argc, char **argv) {
    static uint8_t sheet[SCREEN_SHEET_LIMIT + 1];
    static uint8_t file[SCREEN_FILE_LIMIT];
    uint8_t answers[1024];
    const char *show = "show 1\n";
    (void)argv;

    size_t length = fread(sheet, 1, sizeof sheet, stdin);
    uint64_t result = screen_save(sheet, length, file, sizeof file);
    if (SCREEN_REFUSAL(result) != 0)
        return refused("saving", result);
    size_t size = (size_t)SCREEN_VALUE(result);
    fprintf(stderr, "stick: %zu slots\n", size / SCREEN_SLOT);
    if (argc > 1)
        file[size - 1] ^= 1;

    result = screen_load(file, size, (const uint8_t *)show, strlen(show), answers, sizeof answers);
    if (SCREEN_REFUSAL(result) != 0)
        return refused("loading", result);
    uint64_t run = SCREEN_VALUE(result);
    size_t written = SCREEN_WRITTEN(run);
    int ok = !SCREEN_ENDED(run) && fwrite(answers, 1, written, stdout) == written && fflush(stdout) == 0;
    return ok ? 0 : 2;
}

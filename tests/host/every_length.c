/* Calls an entry with an area of every length from 0 to that of the whole output plus 3, and checks what it writes and gives back.
 *
 *     every_length STEP SHEET ANSWERS             a sheet with its stored answers; only every STEP-th length, the last ones always
 *     every_length STEP                           the sheets that are not stored: an empty one, and one of a byte too many
 *     every_length STEP load FILE SHEET ANSWERS   a sheet on the plan of a file
 *     every_length STEP save SHEET FILE           a sheet whose plan is saved
 *     every_length STEP save-on OLD SHEET FILE    the same on the plan of a file
 *     every_length STEP refused FILE N            a file that is refused by N
 *
 * The file, the sheet and the area end where their blocks end, so that a memory checker sees any access past them. With -DGUARD_PAGES the blocks end
 * at a page that may not be touched, for machines without one. */
#ifdef GUARD_PAGES
#define _DEFAULT_SOURCE
#include <sys/mman.h>
#include <unistd.h>
#endif
#include <stdio.h>
#include <stdlib.h>
#include <string.h>
#include "entries.h"

enum { FRONT = 32, MOST_ANSWERS = 1 << 20 };

static void *block(size_t size) {
    void *p = malloc(size);
    if (p == NULL) {
        fputs("every_length: no memory\n", stderr);
        exit(2);
    }
    return p;
}

#ifdef GUARD_PAGES
static size_t pages(size_t size) {
    size_t page = (size_t)sysconf(_SC_PAGESIZE);
    return (size + page - 1) / page * page;
}

static uint8_t *lend(size_t size) {
    size_t room = pages(size), guard = pages(1);
    uint8_t *p = mmap(NULL, room + guard, PROT_READ | PROT_WRITE, MAP_PRIVATE | MAP_ANONYMOUS, -1, 0);
    if (p == MAP_FAILED || mprotect(p + room, guard, PROT_NONE) != 0) {
        fputs("every_length: no memory\n", stderr);
        exit(2);
    }
    return p + (room - size);
}

static void take_back(uint8_t *p, size_t size) {
    munmap(p - (pages(size) - size), pages(size) + pages(1));
}
#else
static uint8_t *lend(size_t size) {
    return block(size);
}

static void take_back(uint8_t *p, size_t size) {
    (void)size;
    free(p);
}
#endif

/* What stands in the area beforehand: no byte of an answer has the high bit. */
static uint8_t pattern(size_t i) {
    return (uint8_t)(0x80 | (i * 37 & 0x7f));
}

/* The bytes of the whole lines of the text that fit into an area. */
static size_t whole_lines(const uint8_t *text, size_t len, size_t area) {
    size_t fit = 0;
    for (size_t i = 0; i < len && i < area; i++)
        if (text[i] == '\n')
            fit = i + 1;
    return fit;
}

enum entry { RUN, LOAD, SAVE, SAVE_ON };

/* A call and what it is to put into an area that has room. A refusal that the area has no part in puts nothing there. */
struct trial {
    const char *name;
    enum entry entry;
    const uint8_t *file;
    size_t file_len;
    const uint8_t *sheet;
    size_t len;
    const uint8_t *due;
    size_t full;
    unsigned refusal;
};

static uint64_t call(const struct trial *t, const uint8_t *file, const uint8_t *sheet, uint8_t *area, size_t size) {
    switch (t->entry) {
    case LOAD:
        return screen_load(file, t->file_len, sheet, t->len, area, size);
    case SAVE:
        return screen_save(sheet, t->len, area, size);
    case SAVE_ON:
        return screen_save_on(file, t->file_len, sheet, t->len, area, size);
    default:
        return screen_run(sheet, t->len, area, size);
    }
}

/* The bytes that are to be written into an area of `size` bytes, and in *number what is to be given back. Answers go in line by line, a
 * file goes in whole or not at all. */
static size_t due(const struct trial *t, size_t size, uint64_t *number) {
    if (t->refusal != 0) {
        *number = t->refusal;
        return 0;
    }
    if (t->entry == SAVE || t->entry == SAVE_ON) {
        *number = size < t->full ? 41 : 256 * (uint64_t)t->full;
        return size < t->full ? 0 : t->full;
    }
    size_t fit = whole_lines(t->due, t->full, size);
    *number = (2 * (uint64_t)fit + (fit < t->full)) * (t->entry == LOAD ? 256 : 1);
    return fit;
}

/* One call with an area of `size` bytes; 1 if it is right. */
static int run(const struct trial *t, size_t size) {
    uint8_t *file = lend(FRONT + t->file_len), *in = lend(FRONT + t->len), *out = lend(FRONT + size);
    memcpy(file + FRONT, t->file, t->file_len);
    memcpy(in + FRONT, t->sheet, t->len);
    for (size_t i = 0; i < FRONT + size; i++)
        out[i] = pattern(i);
    uint64_t got = call(t, file + FRONT, in + FRONT, out + FRONT, size);
    uint64_t number;
    size_t fit = due(t, size, &number);
    const char *wrong = NULL;
    if (got != number)
        wrong = "the number given back";
    else if (memcmp(out + FRONT, t->due, fit) != 0)
        wrong = "what was written";
    else if (memcmp(in + FRONT, t->sheet, t->len) != 0)
        wrong = "the sheet was written to";
    else if (memcmp(file + FRONT, t->file, t->file_len) != 0)
        wrong = "the file was written to";
    for (size_t i = 0; i < FRONT + size && wrong == NULL; i++)
        if ((i < FRONT || FRONT + fit <= i) && out[i] != pattern(i))
            wrong = "a byte outside what was written has changed";
    if (wrong != NULL)
        printf("every_length: %s, area of %zu bytes: %s (%llu, due %llu)\n", t->name, size, wrong, (unsigned long long)got,
               (unsigned long long)number);
    take_back(file, FRONT + t->file_len);
    take_back(in, FRONT + t->len);
    take_back(out, FRONT + size);
    return wrong == NULL;
}

static int every(const struct trial *t, size_t step) {
    for (size_t size = 0; size <= t->full + 3; size += size + step < t->full ? step : 1)
        if (!run(t, size))
            return 0;
    return 1;
}

/* Sheets that are not stored. Both numbers that `no 52` gives are named here once more, without a computation. */
static int others(size_t step) {
    static uint8_t sheet[SCREEN_SHEET_LIMIT + 1];
    const uint8_t *no52 = (const uint8_t *)"no 52\n";
    int right = 1;
    for (size_t i = 0; i < sizeof sheet; i++)
        sheet[i] = (uint8_t)"left\n"[i % 5];
    struct trial long_one = {"a byte too many", RUN, no52, 0, sheet, sizeof sheet, no52, 6, 0};
    right &= every(&long_one, 1);
    long_one.entry = SAVE;
    long_one.refusal = 52;
    right &= every(&long_one, 1);
    for (size_t size = 0; size <= 8; size++) {
        uint8_t area[8];
        uint64_t got = screen_run(sheet, sizeof sheet, area, size);
        if (got != (size < 6 ? 1u : 12u)) {
            printf("every_length: no 52 in %zu bytes gives %llu\n", size, (unsigned long long)got);
            right = 0;
        }
        got = screen_run(sheet, 0, area, size);
        if (got != 0) {
            printf("every_length: an empty sheet gives %llu\n", (unsigned long long)got);
            right = 0;
        }
    }
    struct trial empty = {"an empty sheet", RUN, no52, 0, sheet, 0, no52, 0, 0};
    struct trial blank = {"an empty sheet, saved", SAVE, no52, 0, sheet, 0, no52, 0, 31};
    for (size_t size = 0; size <= 64; size += step)
        right &= run(&empty, size) & run(&blank, size);
    return right;
}

static void usage(void) {
    fputs("usage: every_length STEP [[load FILE] SHEET ANSWERS | save SHEET FILE | save-on OLD SHEET FILE | refused FILE N]\n", stderr);
    exit(2);
}

static uint8_t *contents(const char *path, size_t most, size_t *len) {
    uint8_t *p = block(most);
    FILE *f = fopen(path, "rb");
    if (f == NULL) {
        fprintf(stderr, "every_length: %s cannot be read\n", path);
        exit(2);
    }
    *len = fread(p, 1, most, f);
    fclose(f);
    return p;
}

/* The trial that the words name, with what is to be written in the last one. */
static struct trial named(int words, char **word) {
    static const uint8_t nothing[1];
    struct trial t = {word[words - 1], RUN, nothing, 0, nothing, 0, nothing, 0, 0};
    int at = 0;
    if (words > 2) {
        static const struct {
            const char *word;
            enum entry entry;
            int words;
        } tasks[] = {{"load", LOAD, 4}, {"save", SAVE, 3}, {"save-on", SAVE_ON, 4}, {"refused", SAVE_ON, 3}};
        size_t task = 0;
        while (task < 4 && strcmp(word[0], tasks[task].word) != 0)
            task++;
        if (task == 4 || words != tasks[task].words)
            usage();
        t.entry = tasks[task].entry;
        at = 1;
    }
    if (t.entry == LOAD || t.entry == SAVE_ON)
        t.file = contents(word[at++], SCREEN_SHEET_LIMIT, &t.file_len);
    if (at == words - 2)
        t.sheet = contents(word[at++], SCREEN_SHEET_LIMIT + 1, &t.len);
    else
        t.refusal = (unsigned)strtoul(word[at], NULL, 10);
    if (t.refusal == 0)
        t.due = contents(word[at], MOST_ANSWERS, &t.full);
    return t;
}

int main(int argc, char **argv) {
    size_t step = argc > 1 ? (size_t)strtoul(argv[1], NULL, 10) : 0;
    if (argc == 3 || argc > 6 || step == 0)
        usage();
    if (argc == 2)
        return others(step) ? 0 : 1;
    struct trial t = named(argc - 2, argv + 2);
    int right = every(&t, step);
    if (t.refusal != 0) {
        t.entry = LOAD;
        right &= every(&t, step);
    }
    return right ? 0 : 1;
}

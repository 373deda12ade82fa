/* Measures the proved manager beside the baseline, on the same areas and requests in one run. Before a row is timed both answer it on copies:
   numbers, places and every word of the flash must be the same. Random requests with random power, on sound and on crafted areas, are compared
   as well. With -DBEFORE a third manager is measured, whose functions begin with before_.

   bench smoke | rows | growth, and then optionally the number of live entries above which nothing is measured. */
#include <stdint.h>
#include <stdio.h>
#include <stdlib.h>
#include <string.h>
#include <time.h>

#define LENGTH(array) (sizeof(array) / sizeof *(array))

enum { BLANK = 0xFFFFFFFF, SEAL = 0x7FFFFFFF, META0 = 0x10100408, HIGHEST = 0x7EFF, ENOUGH = 0xFFFFFFFF };
enum { MOST_WORDS = 256 * 1024, MOST_DATA = 40, MOST_BEFORE = 5000 };

/* ---- the managers */

struct manager {
    const char *name;
    uint32_t (*format)(uint32_t *, uint64_t, uint64_t, uint64_t, uint32_t, uint32_t *);
    uint32_t (*recover)(uint32_t *, uint64_t, uint64_t, uint64_t, uint32_t, uint32_t *);
    uint32_t (*write)(uint32_t *, uint64_t, uint64_t, uint64_t, uint16_t, const uint32_t *, uint64_t, uint32_t, uint32_t *);
    uint32_t (*delete)(uint32_t *, uint64_t, uint64_t, uint64_t, uint16_t, uint32_t, uint32_t *);
    uint32_t (*read)(const uint32_t *, uint64_t, uint64_t, uint64_t, uint16_t, uint64_t *, uint64_t *);
    uint32_t (*search)(const uint32_t *, uint64_t, uint64_t, uint64_t, uint16_t, uint16_t, uint64_t, uint64_t *);
};

#define DECLARE(prefix)                                                                                                                        \
    uint32_t prefix##_format(uint32_t *, uint64_t, uint64_t, uint64_t, uint32_t, uint32_t *);                                                  \
    uint32_t prefix##_recover(uint32_t *, uint64_t, uint64_t, uint64_t, uint32_t, uint32_t *);                                                 \
    uint32_t prefix##_write(uint32_t *, uint64_t, uint64_t, uint64_t, uint16_t, const uint32_t *, uint64_t, uint32_t, uint32_t *);             \
    uint32_t prefix##_delete(uint32_t *, uint64_t, uint64_t, uint64_t, uint16_t, uint32_t, uint32_t *);                                        \
    uint32_t prefix##_read(const uint32_t *, uint64_t, uint64_t, uint64_t, uint16_t, uint64_t *, uint64_t *);                                  \
    uint32_t prefix##_search(const uint32_t *, uint64_t, uint64_t, uint64_t, uint16_t, uint16_t, uint64_t, uint64_t *);
#define MANAGER(name, prefix) {name, prefix##_format, prefix##_recover, prefix##_write, prefix##_delete, prefix##_read, prefix##_search}

DECLARE(asterhinge)
DECLARE(baseline)
#ifdef BEFORE
DECLARE(before)
#endif
uint32_t baseline_scan(const uint32_t *, uint64_t);

static const struct manager managers[] = {
    MANAGER("ours", asterhinge),
    MANAGER("baseline", baseline),
#ifdef BEFORE
    MANAGER("before", before),
#endif
};

/* ---- areas and requests */

struct area {
    uint64_t length, pages, words;
};

enum kind { FORMAT, RECOVER, WRITE, DELETE, READ, SEARCH, KINDS };

struct request {
    enum kind kind;
    uint16_t handle, mask, pattern;
    uint64_t start;
    uint32_t count, power;
    uint32_t data[MOST_DATA];
};

struct outcome {
    uint64_t number, stores, place, count;
};

static struct outcome ask(const struct manager *m, uint32_t *flash, struct area a, const struct request *r) {
    struct outcome o = {0};
    uint32_t stores = 0;
    switch (r->kind) {
    case FORMAT: o.number = m->format(flash, a.length, a.pages, a.words, r->power, &stores); break;
    case RECOVER: o.number = m->recover(flash, a.length, a.pages, a.words, r->power, &stores); break;
    case WRITE: o.number = m->write(flash, a.length, a.pages, a.words, r->handle, r->data, r->count, r->power, &stores); break;
    case DELETE: o.number = m->delete(flash, a.length, a.pages, a.words, r->handle, r->power, &stores); break;
    case READ: o.number = m->read(flash, a.length, a.pages, a.words, r->handle, &o.place, &o.count); break;
    default: o.number = m->search(flash, a.length, a.pages, a.words, r->mask, r->pattern, r->start, &o.place);
    }
    o.stores = stores;
    return o;
}

/* ---- the same answers and the same flash */

static unsigned long checks;
static unsigned long numbers[16];
static uint32_t copies[LENGTH(managers)][MOST_WORDS];

static int differ(const struct outcome *a, const struct outcome *b) { return memcmp(a, b, sizeof *a) != 0; }

/* Asks all managers, each on its copy of the flash, the first `count` of them; the answer and the flash of the first are left in the first copy. */
static struct outcome compare(const uint32_t *flash, struct area a, const struct request *r, size_t count) {
    struct outcome first = {0};
    for (size_t m = 0; m < count; m++) {
        memcpy(copies[m], flash, a.length * 4);
        struct outcome o = ask(&managers[m], copies[m], a, r);
        if (m == 0) first = o;
        if (differ(&first, &o) || memcmp(copies[0], copies[m], a.length * 4)) {
            printf("bench: %s differs from %s: request %d, handle %04X, %u words, power %u, start %lu, on %lu pages of %lu words\n", managers[m].name, managers[0].name,
                   r->kind, r->handle, r->count, r->power, (unsigned long)r->start, (unsigned long)a.pages, (unsigned long)a.words);
            printf("bench: number %lu and %lu, stores %lu and %lu, place %lu and %lu, count %lu and %lu\n", (unsigned long)first.number, (unsigned long)o.number,
                   (unsigned long)first.stores, (unsigned long)o.stores, (unsigned long)first.place, (unsigned long)o.place, (unsigned long)first.count, (unsigned long)o.count);
            exit(1);
        }
    }
    checks++;
    numbers[first.number & 15]++;
    return first;
}

/* ---- numbers that look random, and are the same in each run */

static uint64_t seed = 0x9E3779B97F4A7C15;

static uint32_t any(uint32_t below) {
    seed ^= seed << 13;
    seed ^= seed >> 7;
    seed ^= seed << 17;
    return (uint32_t)(seed >> 20) % below;
}

static int one_in(uint32_t n) { return any(n) == 0; }

/* handles of which many have the same last 10 bits, and some that no entry has */
static uint16_t any_handle(void) {
    static const uint16_t edges[] = {0, 1, HIGHEST, HIGHEST + 1, 0x7FFF, 0xFFFF};
    if (one_in(12)) return edges[any(LENGTH(edges))];
    return (uint16_t)(1 + any(3) + 1024 * any(3));
}

static struct request any_request(struct area a) {
    struct request r = {.kind = (enum kind)any(KINDS), .handle = any_handle(), .count = any(12), .power = ENOUGH};
    if (r.kind == FORMAT && !one_in(16)) r.kind = WRITE;
    if (one_in(3)) r.kind = WRITE;
    if (one_in(4)) r.count = any(MOST_DATA);
    for (uint32_t i = 0; i < r.count; i++) r.data[i] = one_in(4) ? (one_in(2) ? (uint32_t)SEAL : (uint32_t)BLANK) : any(5);
    if (one_in(2)) r.power = one_in(2) ? any(6) : any(3 * (uint32_t)a.words);
    r.mask = (uint16_t)(one_in(2) ? 0 : any(0x10000));
    r.pattern = any_handle();
    r.start = one_in(3) ? 0 : one_in(8) ? ~0ull - any(3) : any((uint32_t)a.length + 2);
    return r;
}

static uint32_t scratch[MOST_WORDS];

static struct area any_area(void) {
    static const uint64_t sizes[] = {64, 64, 256, 1024};
    struct area a = {.pages = 1 + any(4), .words = sizes[any(LENGTH(sizes))]};
    a.length = (a.pages + 1) * a.words;
    return a;
}

/* requests one after the other, from a format on */
static void compare_session(int requests) {
    struct area a = any_area();
    for (uint64_t i = 0; i < a.length; i++) scratch[i] = any(0x10000);
    struct request r = {.kind = FORMAT, .power = ENOUGH};
    for (int i = 0; i < requests; i++) {
        struct outcome o = compare(scratch, a, &r, LENGTH(managers));
        memcpy(scratch, copies[0], a.length * 4);
        r = any_request(a);
        if ((o.number == 3 || o.number == 8) && one_in(2)) r = (struct request){.kind = RECOVER, .power = one_in(3) ? any(20) : ENOUGH};
        if (o.number == 0 && o.place && one_in(2)) r = (struct request){.kind = SEARCH, .mask = (uint16_t)(one_in(2) ? 0 : 0x3FF), .pattern = any_handle(), .start = o.place};
    }
}

static uint32_t any_header(void) { return (uint32_t)(one_in(4) ? 0 : any_handle()) << 16 | (one_in(20) ? any(40) : 1 + any(9)); }

/* a page of entries up to some place, with what may stand behind them */
static void any_page(uint32_t *page, struct area a, uint32_t index) {
    memset(page, 0xFF, a.words * 4);
    page[0] = META0;
    page[1] = 0xFFFF0000u + 256 * index + (uint32_t)a.pages;
    uint32_t last = (uint32_t)a.words - 1, end = any(last), at = 2;
    while (at < end) {
        uint32_t header = any_header(), length = header & 0xFFFF;
        if (at + length > last && !one_in(30)) break;
        page[at] = header;
        for (uint32_t i = 1; i < length && at + i <= last; i++) page[at + i] = any(9);
        at += length ? length : 1;
    }
    if (at <= last && !one_in(5)) page[at] = SEAL;
    if (one_in(30)) page[any(last + 1)] &= any(0x10000) << 16 | any(0x10000);
}

/* requests on areas put together word by word: torn, doubled, damaged, with R in any state */
static void compare_crafted(int requests) {
    struct area a = any_area();
    for (uint32_t index = 0; index < a.pages; index++) any_page(scratch + index * a.words, a, index);
    uint32_t *r = scratch + a.pages * a.words;
    if (one_in(2)) memset(r, 0xFF, a.words * 4);
    else any_page(r, a, any((uint32_t)a.pages + 1));
    if (one_in(3)) r[1] = BLANK;
    if (one_in(8)) r[a.words - 1] = any(9);
    for (int i = 0; i < requests; i++) {
        struct request request = any_request(a);
        if (one_in(2)) request.kind = RECOVER;
        struct outcome o = compare(scratch, a, &request, LENGTH(managers));
        if (request.kind == RECOVER && o.number == 0 && one_in(2)) memcpy(scratch, copies[0], a.length * 4);
    }
}

/* wrong geometries */
static void compare_geometry(void) {
    struct area a = any_area();
    struct area wrong[] = {{a.length - 1, a.pages, a.words}, {a.length, a.pages + 1, a.words}, {a.length, 0, a.words}, {a.length, a.pages, a.words + 1},
                           {128, 1, 64 + 64}, {64 * 4, 3, 63}, {257 * 64, 256, 64}, {0, ~0ull, 64}, {0, 1ull << 58, 64}, {64, 0, 64}, {0, 0, 0}};
    for (size_t i = 0; i < LENGTH(wrong); i++) {
        struct request r = any_request(a);
        compare(scratch, wrong[i], &r, LENGTH(managers));
    }
}

static void compare_random(int rounds) {
    for (int i = 0; i < rounds; i++) {
        compare_session(200);
        compare_crafted(20);
        if (i % 8 == 0) compare_geometry();
    }
    printf("random requests:");
    static const char *names[] = {"DONE", "GEOMETRY", "DAMAGED", "UNREADY", "BADHANDLE", "BADLENGTH", "NOTFOUND", "NOROOM", "CUT", "BADPLACE"};
    for (size_t i = 0; i < LENGTH(names); i++) printf(" %lu %s", numbers[i], names[i]);
    printf("\n\n");
}

/* ---- areas to measure on */

static uint16_t handles[HIGHEST];

enum order { ORDERED, SHUFFLED, SPREAD };
static const char *const orders[] = {"ordered", "shuffled", "spread"};

/* the first `count` handles of an order: 1 and on, the same shuffled, or any ones */
static void choose(uint32_t count, enum order order) {
    for (uint32_t i = 0; i < HIGHEST; i++) handles[i] = (uint16_t)(i + 1);
    uint32_t mixed = order == ORDERED ? 0 : order == SHUFFLED ? count : HIGHEST;
    for (uint32_t i = mixed; i > 1; i--) {
        uint32_t j = any(i);
        uint16_t h = handles[i - 1];
        handles[i - 1] = handles[j];
        handles[j] = h;
    }
}

static uint32_t flash[MOST_WORDS];

/* lays entries of `length` words evenly over the pages; where it is full, invalidated ones behind them up to each page's end */
static void lay(struct area a, uint32_t count, uint32_t length, int full) {
    memset(flash, 0xFF, a.length * 4);
    uint32_t next = 0;
    for (uint32_t index = 0; index < a.pages; index++) {
        uint32_t *page = flash + index * a.words;
        uint32_t at = 2, last = (uint32_t)a.words - 1;
        page[0] = META0;
        page[1] = 0xFFFF0000u + 256 * index + (uint32_t)a.pages;
        for (; next < (uint64_t)count * (index + 1) / a.pages; next++, at += length) {
            page[at] = (uint32_t)handles[next] << 16 | length;
            for (uint32_t i = 1; i < length; i++) page[at + i] = handles[next] * 0x10001u + i;
        }
        while (full && at < last) {
            uint32_t dead = last - at < 33 ? last - at : 33;
            page[at] = dead;
            for (uint32_t i = 1; i < dead; i++) page[at + i] = i;
            at += dead;
        }
        page[at] = SEAL;
    }
}

/* where the entry of a handle begins, of an area laid so */
static uint64_t place_of(struct area a, uint16_t handle, uint32_t length) {
    uint64_t i = a.pages * a.words;
    while (flash[--i] != ((uint32_t)handle << 16 | length)) {}
    return i;
}

/* gives the last entry the handle of the middle one */
static void double_middle(struct area a, uint32_t count, uint32_t length) {
    flash[place_of(a, handles[count - 1], length)] = (uint32_t)handles[count / 2] << 16 | length;
}

/* ---- times */

static double batch_seconds = 200e-6;
static int batches = 15;

/* of the processor, so that what else the machine does counts little */
static double now(void) {
    struct timespec t;
    clock_gettime(CLOCK_PROCESS_CPUTIME_ID, &t);
    return (double)t.tv_sec + 1e-9 * (double)t.tv_nsec;
}

/* what a request changed, to put it back */
static struct change {
    uint32_t at, word;
} changes[MOST_WORDS];
static uint32_t changed;

static void note_changes(const uint32_t *after, struct area a) {
    changed = 0;
    for (uint32_t i = 0; i < a.length; i++)
        if (flash[i] != after[i]) changes[changed++] = (struct change){i, flash[i]};
}

__attribute__((noinline)) static void put_back(void) {
    for (uint32_t i = 0; i < changed; i++) flash[changes[i].at] = changes[i].word;
}

static volatile uint32_t kept;

/* seconds of `times` turns, of putting back alone where there is no manager, of a scan where there is no request */
static double turns(const struct manager *m, struct area a, const struct request *r, long times) {
    double start = now();
    for (long i = 0; i < times; i++) {
        if (!r) kept = baseline_scan(flash, a.length);
        else if (m) ask(m, flash, a, r);
        if (r) put_back();
    }
    return now() - start;
}

/* the least seconds of a turn of each of some managers, which take their batches by turns */
static void least_seconds(const struct manager *const *m, size_t count, struct area a, const struct request *r, double *least) {
    long times[LENGTH(managers) + 1];
    for (size_t i = 0; i < count; i++) {
        least[i] = turns(m[i], a, r, 1);
        times[i] = least[i] < batch_seconds ? (long)(batch_seconds / (least[i] + 20e-9)) + 1 : 1;
    }
    for (int batch = 0; batch < batches; batch++)
        for (size_t i = 0; i < count; i++) {
            if (batch > 0 && least[i] > 0.5) continue;
            double t = turns(m[i], a, r, times[i]) / (double)times[i];
            if (t < least[i]) least[i] = t;
        }
}

/* how many managers answer an area of so many entries */
static size_t measured(uint32_t count) { return LENGTH(managers) > 2 && count > MOST_BEFORE ? 2 : LENGTH(managers); }

static double times[LENGTH(managers)];

/* compares, and takes the microseconds of a request on the flash as it is, without those of putting back what it changed */
static void time_all(struct area a, const struct request *r, uint32_t count) {
    const struct manager *list[LENGTH(managers) + 1] = {NULL};
    double least[LENGTH(managers) + 1];
    size_t some = measured(count);
    for (size_t m = 0; m < some; m++) list[m + 1] = &managers[m];
    compare(flash, a, r, some);
    note_changes(copies[0], a);
    least_seconds(list, some + 1, a, r, least);
    for (size_t m = 0; m < LENGTH(managers); m++) times[m] = m < some ? 1e6 * (least[m + 1] - (changed ? least[0] : 0)) : 0;
}

static double scan_microseconds(struct area a) {
    const struct manager *none = NULL;
    double least;
    least_seconds(&none, 1, a, NULL, &least);
    return 1e6 * least;
}

/* ---- the rows */

static struct request to_write(uint16_t handle, uint32_t length) {
    struct request r = {.kind = WRITE, .handle = handle, .count = length - 1, .power = ENOUGH};
    for (uint32_t i = 0; i < r.count; i++) r.data[i] = 0xA5A5A5A5u - i;
    return r;
}

static void say_header(void) {
    printf("%-50s", "area and request, times in microseconds");
    for (size_t m = 0; m < LENGTH(managers); m++) printf(" %10s", managers[m].name);
    printf(" %8s %9s %9s\n", "ratio", "scan", "ours/scan");
}

static void say_row(struct area a, uint32_t count, const char *order, const char *name, const struct request *r, double scan) {
    time_all(a, r, count);
    char label[80];
    snprintf(label, sizeof label, "%lu x %lu, %u %s: %s", (unsigned long)a.pages, (unsigned long)a.words, count, order, name);
    printf("%-50s", label);
    for (size_t m = 0; m < LENGTH(managers); m++)
        if (times[m] > 0) printf(" %10.2f", times[m]);
        else printf(" %10s", "-");
    printf(" %8.2f %9.2f %9.2f\n", times[0] / times[1], scan, times[0] / scan);
    fflush(stdout);
}

static void say_area(uint64_t pages, uint64_t words, uint32_t count, uint32_t length, enum order order) {
    struct area a = {(pages + 1) * words, pages, words};
    choose(count, order);
    uint16_t middle = handles[count / 2], absent = handles[count];
    const char *name = orders[order];
    lay(a, count, length, 0);
    double scan = scan_microseconds(a);
    say_row(a, count, name, "read", &(struct request){.kind = READ, .handle = middle}, scan);
    say_row(a, count, name, "read of none", &(struct request){.kind = READ, .handle = absent}, scan);
    struct request write = to_write(middle, length);
    say_row(a, count, name, "write", &write, scan);
    say_row(a, count, name, "delete", &(struct request){.kind = DELETE, .handle = middle, .power = ENOUGH}, scan);
    say_row(a, count, name, "search", &(struct request){.kind = SEARCH}, scan);
    say_row(a, count, name, "search, last step", &(struct request){.kind = SEARCH, .start = place_of(a, handles[count - 2], length)}, scan);
    say_row(a, count, name, "recover", &(struct request){.kind = RECOVER, .power = ENOUGH}, scan);
    double_middle(a, count, length);
    say_row(a, count, name, "recover, one double", &(struct request){.kind = RECOVER, .power = ENOUGH}, scan);
    lay(a, count, length, 1);
    say_row(a, count, name, "write, compacting", &write, scan);
}

static const struct set {
    uint64_t pages, words;
    uint32_t many, length;
} sets[] = {{1, 1024, 320, 3}, {15, 1024, 4500, 3}, {255, 1024, 30000, 7}, {255, 64, 2295, 3}, {255, 256, 15300, 3}};

static void say_rows(size_t count, uint32_t most) {
    say_header();
    for (size_t i = 0; i < count; i++) {
        say_area(sets[i].pages, sets[i].words, 8, sets[i].length, ORDERED);
        for (int order = ORDERED; order <= SPREAD && sets[i].many <= most; order++) say_area(sets[i].pages, sets[i].words, sets[i].many, sets[i].length, (enum order)order);
    }
    printf("\n");
}

static void say_growth(uint32_t most) {
    struct area a = {256 * 1024, 255, 1024};
    printf("255 pages of 1024 words; microseconds of a request, and nanoseconds of it for each live entry\n%-26s", "live entries, request");
    for (size_t m = 0; m < LENGTH(managers); m++) printf(" %12s %9s", managers[m].name, "an entry");
    printf("\n");
    for (int order = ORDERED; order <= SPREAD; order++)
        for (uint32_t count = 1000; count <= 32000 && count <= most; count *= 2)
            for (int kind = 0; kind < 2; kind++) {
                choose(count, (enum order)order);
                lay(a, count, 6, 0);
                struct request r = kind ? to_write(handles[count / 2], 6) : (struct request){.kind = READ, .handle = handles[count / 2]};
                time_all(a, &r, count);
                printf("%6u %-9s %-9s", count, orders[order], kind ? "write" : "read");
                for (size_t m = 0; m < LENGTH(managers); m++)
                    if (times[m] > 0) printf(" %12.2f %9.2f", times[m], 1000 * times[m] / count);
                    else printf(" %12s %9s", "-", "-");
                printf("\n");
                fflush(stdout);
            }
    printf("\n");
}

int main(int argc, char **argv) {
    const char *what = argc > 1 ? argv[1] : "rows";
    uint32_t most = argc > 2 ? (uint32_t)atoi(argv[2]) : HIGHEST;
    int smoke = strcmp(what, "smoke") == 0;
    if (smoke) {
        batch_seconds = 20e-6;
        batches = 2;
    }
    compare_random(smoke ? 500 : 2000);
    if (strcmp(what, "growth") == 0) say_growth(most);
    else say_rows(smoke ? 1 : LENGTH(sets), most);
    printf("bench: %lu checks passed\n", checks);
    return 0;
}

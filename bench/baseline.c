/* The manager of document 01 in C, written for speed under the same rules: it keeps nothing between requests, asks for no memory, has no array
   of more than 128 bytes, and makes the same checks and the same stores in the same order. It is what the proved manager is measured against. A
   request looks at the area in one pass, which finds all that it needs: what each page is, whether the handle has an entry, the live words, the
   page with room and the page to compact. Assumes that the run is not shared, and nothing of what it holds. */

typedef unsigned char u8;
typedef unsigned short u16;
typedef unsigned int u32;
typedef unsigned long long u64;

enum { DONE, GEOMETRY, DAMAGED, UNREADY, BADHANDLE, BADLENGTH, NOTFOUND, NOROOM, CUT, BADPLACE };
enum { FREE, UNFINISHED, COMMITTED, STRANGE };

#define BLANK 0xFFFFFFFFu
#define SEAL 0x7FFFFFFFu
#define META0 0x10100408u
#define SPECIAL 0x7F00u
#define LONGEST 33u
#define NONE 0xFFFFFFFFu
#define WINDOWS 32u

#define INLINE static inline __attribute__((always_inline))

/* ---- stores, which end with the power */

struct run {
    u32 *flash;
    u32 left;
    u32 cut;
};

INLINE void store(struct run *run, u32 at, u32 word) {
    if (run->left == 0) {
        run->cut = 1;
        return;
    }
    run->flash[at] &= word;
    run->left--;
}

INLINE void erase(struct run *run, u32 at, u32 words) {
    if (run->left == 0) {
        run->cut = 1;
        return;
    }
    for (u32 i = 0; i < words; i++) run->flash[at + i] = BLANK;
    run->left--;
}

INLINE u32 answer(const struct run *run, u32 power, u32 *stores) {
    *stores = power - run->left;
    return run->cut ? CUT : DONE;
}

INLINE u32 refuse(u32 number, u32 *stores) {
    *stores = 0;
    return number;
}

/* ---- one page */

INLINE u32 meta1(u32 pages, u32 index) { return 0xFFFF0000u + 256 * index + pages; }

INLINE int blank(const u32 *words, u32 count) {
    u32 all = BLANK;
    for (u32 i = 0; i < count; i++) all &= words[i];
    return all == BLANK;
}

/* the length of the entry whose header a word is, 0 if it is none; last is the last place at which a seal can stand */
INLINE u32 entry(u32 word, u32 at, u32 last) {
    u32 length = word & 0xFFFF;
    return word < SPECIAL << 16 && length - 1 < LONGEST && at + length <= last ? length : 0;
}

/* where the walk stops */
INLINE u32 stop(const u32 *page, u32 words) {
    u32 at = 2;
    for (u32 length; (length = entry(page[at], at, words - 1)); at += length) {}
    return at;
}

static u32 recovery_kind(const u32 *page, u32 pages, u32 words) {
    if (blank(page, words)) return FREE;
    if (page[1] == BLANK) return UNFINISHED;
    u32 index = page[1] >> 8 & 0xFF;
    if (page[0] != META0 || index >= pages || page[1] != meta1(pages, index)) return STRANGE;
    u32 at = stop(page, words);
    return page[at] == SEAL && blank(page + at + 1, words - at - 1) ? COMMITTED : STRANGE;
}

/* ---- the area in one pass */

/* what is looked for; constants in each call, so that a pass has just what it needs */
struct sought {
    u32 handle; /* the entry of this handle */
    u32 need;   /* the length of a new entry: the page with room and the page to compact */
    u32 filter, mask, pattern, start; /* the next match behind a place */
};

struct survey {
    u32 number; /* DONE where the area is ready */
    u32 recovery, named; /* what R is, and the page that a committed one names */
    u32 torn;   /* the number of torn pages */
    u32 suspect; /* the windows of handles in which one may be live twice */
    u32 place, length; /* the entry found, or the match */
    u32 start_right;   /* whether an entry begins at the start */
    u32 live;   /* live words */
    u32 room, seal; /* the page with room, and where its seal is in the run */
    u32 compact;    /* the page to compact */
};

/* A live handle that finds the bit of its last 10 bits taken, and is not above all before it, makes its window suspect. A handle that is live
   twice always does. */
INLINE void note(u64 *map, u32 *highest, u32 *suspect, u32 handle) {
    u64 bit = 1ull << (handle & 63);
    u64 *part = &map[handle >> 6 & 15];
    if (handle > *highest) *highest = handle;
    else if (*part & bit) *suspect |= 1u << (handle >> 10);
    *part |= bit;
}

INLINE u32 look_at_pages(const u32 *flash, u32 pages, u32 words, struct sought what, struct survey *found) {
    u64 map[16] = {0};
    u32 highest = 0, suspect = 0, torn = 0, live = 0;
    u32 last = words - 1;
    for (u32 index = 0; index < pages; index++) {
        if (index == found->named) continue;
        const u32 *page = flash + index * words;
        if (page[0] != META0 || page[1] != meta1(pages, index)) return DAMAGED;
        u32 at = 2, own = 0, word;
        for (u32 length; (length = entry(word = page[at], at, last)); at += length) {
            u32 handle = word >> 16;
            if (what.filter && index * words + at == what.start) found->start_right = 1;
            if (handle == 0) continue;
            own += length;
            note(map, &highest, &suspect, handle);
            if (what.handle && handle == what.handle) {
                found->place = index * words + at;
                found->length = length;
            }
            if (what.filter && !found->place && index * words + at > what.start && ((handle ^ what.pattern) & what.mask) == 0) found->place = index * words + at;
        }
        if (word != SEAL && word != BLANK) return DAMAGED;
        if (!blank(page + at + 1, last - at)) return DAMAGED;
        if (word == BLANK) torn++;
        live += own;
        if (what.need && found->room == NONE && at + what.need <= last) {
            found->room = index;
            found->seal = index * words + at;
        }
        if (what.need && found->compact == NONE && own + what.need <= words - 3) found->compact = index;
    }
    found->live = live;
    found->torn = torn;
    found->suspect = suspect;
    return DONE;
}

/* whether a handle of a window is live twice, where all pages are sound; with it, in map, the last 10 bits of those that are */
static u32 twice_in(const u32 *flash, u32 pages, u32 words, u32 window, u64 *map) {
    u64 seen[16] = {0};
    u32 twice = 0;
    for (u32 index = 0; index < pages; index++) {
        const u32 *page = flash + index * words;
        u32 at = 2, word;
        for (u32 length; (length = entry(word = page[at], at, words - 1)); at += length) {
            u32 handle = word >> 16;
            if (handle == 0 || handle >> 10 != window) continue;
            u64 bit = 1ull << (handle & 63);
            u64 *part = &seen[handle >> 6 & 15];
            if (*part & bit) {
                map[handle >> 6 & 15] |= bit;
                twice = 1;
            }
            *part |= bit;
        }
    }
    return twice;
}

/* of the suspect windows those in which a handle is live twice, and in map the last 10 bits of these handles */
static u32 doubled(const u32 *flash, u32 pages, u32 words, u32 suspect, u64 *map) {
    u32 windows = 0;
    for (u32 window = 0; window < WINDOWS; window++)
        if (suspect >> window & 1 && twice_in(flash, pages, words, window, map)) windows |= 1u << window;
    return windows;
}

INLINE int wrong_geometry(u64 length, u64 pages, u64 words) {
    return pages - 1 >= 255 || (words != 64 && words != 256 && words != 1024) || length != (pages + 1) * words;
}

/* GEOMETRY, DAMAGED or DONE, and what was found */
INLINE u32 look(const u32 *flash, u64 length, u64 pages, u64 words, struct sought what, struct survey *found) {
    *found = (struct survey){.named = NONE, .room = NONE, .compact = NONE};
    if (wrong_geometry(length, pages, words)) return GEOMETRY;
    const u32 *r = flash + pages * words;
    found->recovery = recovery_kind(r, pages, words);
    if (found->recovery == STRANGE) return DAMAGED;
    if (found->recovery == COMMITTED) found->named = r[1] >> 8 & 0xFF;
    return look_at_pages(flash, pages, words, what, found);
}

/* the same, and UNREADY */
INLINE u32 look_ready(const u32 *flash, u64 length, u64 pages, u64 words, struct sought what, struct survey *found) {
    u32 number = look(flash, length, pages, words, what, found);
    if (number != DONE) return number;
    if (found->recovery != FREE || found->torn) return UNREADY;
    if (!found->suspect) return DONE;
    u64 map[16] = {0};
    return doubled(flash, pages, words, found->suspect, map) ? UNREADY : DONE;
}

INLINE int bad_handle(u32 handle) { return handle == 0 || handle >= SPECIAL; }

/* ---- requests that only read */

u32 baseline_read(const u32 *flash, u64 length, u64 pages, u64 words, u16 handle, u64 *place, u64 *count) {
    struct survey found;
    *place = *count = 0;
    u32 number = look_ready(flash, length, pages, words, (struct sought){.handle = handle}, &found);
    if (number != DONE) return number;
    if (bad_handle(handle)) return BADHANDLE;
    if (!found.place) return NOTFOUND;
    *place = found.place;
    *count = found.length - 1;
    return DONE;
}

u32 baseline_search(const u32 *flash, u64 length, u64 pages, u64 words, u16 mask, u16 pattern, u64 start, u64 *place) {
    struct survey found;
    *place = 0;
    u32 inside = start < length ? start : NONE;
    u32 number = look_ready(flash, length, pages, words, (struct sought){.filter = 1, .mask = mask, .pattern = pattern, .start = inside}, &found);
    if (number != DONE) return number;
    if (start != 0 && !found.start_right) return BADPLACE;
    if (!found.place) return NOTFOUND;
    *place = found.place;
    return DONE;
}

/* ---- requests that store */

u32 baseline_format(u32 *flash, u64 length, u64 pages, u64 words, u32 power, u32 *stores) {
    if (wrong_geometry(length, pages, words)) return refuse(GEOMETRY, stores);
    struct run run = {flash, power, 0};
    erase(&run, pages * words, words);
    for (u32 index = 0; index < pages && !run.cut; index++) {
        u32 base = index * words;
        erase(&run, base, words);
        store(&run, base, META0);
        store(&run, base + 1, meta1(pages, index));
        store(&run, base + 2, SEAL);
    }
    return answer(&run, power, stores);
}

u32 baseline_delete(u32 *flash, u64 length, u64 pages, u64 words, u16 handle, u32 power, u32 *stores) {
    struct survey found;
    u32 number = look_ready(flash, length, pages, words, (struct sought){.handle = handle}, &found);
    if (number != DONE) return refuse(number, stores);
    if (bad_handle(handle)) return refuse(BADHANDLE, stores);
    if (!found.place) return refuse(NOTFOUND, stores);
    struct run run = {flash, power, 0};
    store(&run, found.place, found.length);
    return answer(&run, power, stores);
}

/* from R to the page that it is for: the words of its entries and the seal, then the metadata; R is erased */
static void copy_back(struct run *run, u32 pages, u32 words, u32 index, u32 seal) {
    u32 r = pages * words, base = index * words;
    erase(run, base, words);
    for (u32 at = 2; at <= seal && !run->cut; at++) store(run, base + at, run->flash[r + at]);
    store(run, base, META0);
    store(run, base + 1, meta1(pages, index));
    erase(run, r, words);
}

/* the page's live entries alone, by way of R; gives where its seal is then, and moves the place of the entry of a handle along */
static u32 compact(struct run *run, u32 pages, u32 words, u32 index, u32 handle, u32 *place) {
    u32 r = pages * words, base = index * words, to = 2;
    u32 word;
    for (u32 at = 2, length; (length = entry(word = run->flash[base + at], at, words - 1)); at += length) {
        if (word >> 16 == 0) continue;
        if (word >> 16 == handle) *place = base + to;
        for (u32 i = 0; i < length; i++) store(run, r + to + i, run->flash[base + at + i]);
        to += length;
    }
    store(run, r + to, SEAL);
    store(run, r, META0);
    store(run, r + 1, meta1(pages, index));
    if (!run->cut) copy_back(run, pages, words, index, to);
    return base + to;
}

INLINE int same(const u32 *a, const u32 *b, u32 count) {
    u32 apart = 0;
    for (u32 i = 0; i < count; i++) apart |= a[i] ^ b[i];
    return apart == 0;
}

u32 baseline_write(u32 *flash, u64 length, u64 pages, u64 words, u16 handle, const u32 *data, u64 count, u32 power, u32 *stores) {
    struct survey found;
    u32 need = count <= 32 ? count + 1 : LONGEST;
    u32 number = look_ready(flash, length, pages, words, (struct sought){.handle = handle, .need = need}, &found);
    if (number != DONE) return refuse(number, stores);
    if (bad_handle(handle)) return refuse(BADHANDLE, stores);
    if (count > 32) return refuse(BADLENGTH, stores);
    if (found.place && found.length == need && same(flash + found.place + 1, data, count)) return refuse(DONE, stores);
    if (found.live + need > pages * (words - 3 - LONGEST)) return refuse(NOROOM, stores);
    struct run run = {flash, power, 0};
    u32 seal = found.seal, old = found.place;
    if (found.room == NONE) seal = compact(&run, pages, words, found.compact, handle, &old);
    store(&run, seal, (u32)handle << 16 | need);
    for (u32 i = 0; i < count; i++) store(&run, seal + 1 + i, data[i]);
    store(&run, seal + need, SEAL);
    if (found.place) store(&run, old, found.length);
    return answer(&run, power, stores);
}

/* a torn page: its last entry to its bare length, and a seal behind it */
static void mend(struct run *run, u32 base, u32 words) {
    u32 at = 2, before = 0;
    const u32 *page = run->flash + base;
    for (u32 length; (length = entry(page[at], at, words - 1)); at += length) before = at;
    if (page[at] != BLANK) return;
    if (before && page[before] >> 16) store(run, base + before, page[before] & 0xFFFF);
    store(run, base + at, SEAL);
}

/* whether a live entry of a handle comes behind a place of a page */
static int later(const u32 *flash, u32 pages, u32 words, u32 index, u32 at, u32 handle) {
    for (; index < pages; index++, at = 2) {
        const u32 *page = flash + index * words;
        for (u32 length; (length = entry(page[at], at, words - 1)); at += length)
            if (page[at] >> 16 == handle) return 1;
    }
    return 0;
}

/* each live entry with a later one of its handle goes to its bare length */
static void drop_doubles(struct run *run, u32 pages, u32 words, u32 suspect) {
    u64 map[16] = {0};
    u32 windows = doubled(run->flash, pages, words, suspect, map);
    if (!windows) return;
    for (u32 index = 0; index < pages && !run->cut; index++) {
        u32 base = index * words, word;
        for (u32 at = 2, length; (length = entry(word = run->flash[base + at], at, words - 1)); at += length) {
            u32 handle = word >> 16;
            if (handle == 0 || !(windows >> (handle >> 10) & 1) || !(map[handle >> 6 & 15] >> (handle & 63) & 1)) continue;
            if (later(run->flash, pages, words, index, at + length, handle)) store(run, base + at, length);
        }
    }
}

u32 baseline_recover(u32 *flash, u64 length, u64 pages, u64 words, u32 power, u32 *stores) {
    struct survey found;
    u32 number = look(flash, length, pages, words, (struct sought){0}, &found);
    if (number != DONE) return refuse(number, stores);
    struct run run = {flash, power, 0};
    if (found.recovery == UNFINISHED) erase(&run, pages * words, words);
    if (found.recovery == COMMITTED) copy_back(&run, pages, words, found.named, stop(flash + pages * words, words));
    for (u32 index = 0; found.torn && index < pages && !run.cut; index++) mend(&run, index * words, words);
    if (!run.cut && (found.torn || found.recovery != FREE)) look(flash, length, pages, words, (struct sought){0}, &found);
    if (!run.cut && found.suspect) drop_doubles(&run, pages, words, found.suspect);
    return answer(&run, power, stores);
}

/* ---- what it takes to read the run at all */

u32 baseline_scan(const u32 *flash, u64 length) {
    u32 all = 0;
    for (u64 i = 0; i < length; i++) all ^= flash[i];
    return all;
}

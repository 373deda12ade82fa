"""A model of the flash manager and of its console, after the rules of document 01.

`console` is a function from a console's input bytes to its output bytes. Every request is first
worked out as the whole list of its stores, from nothing but the words on the flash; then as many
of them are made as there is power for. It assumes an input that is all there from the start.
"""

import re
from collections import namedtuple

# ---- Words, pages, area

BLANK = 0xFFFFFFFF
SEAL = 0x7FFFFFFF
MARK = 0x10100408
FIRST = 2                       # the walk of a page begins here
LONGEST = 33                    # words of an entry, header included
HANDLES = range(0x0001, 0x7F00)

# A word store, or the erase of the page that begins at `place` if `word` is None. `step` names the
# part of document 01's list that it belongs to; it changes nothing and is there to be counted.
Store = namedtuple("Store", "step place word")

# `place` counts from the start of the page or of the run, as its user says.
Entry = namedtuple("Entry", "place handle length")


class Page:
    """What the walk of one page finds."""

    def __init__(self, words):
        self.words = words
        self.entries, self.end = walk(words)
        self.blank_behind = all_blank(words[self.end + 1:])
        self.live = [entry for entry in self.entries if entry.handle in HANDLES]
        self.live_words = sum(entry.length for entry in self.live)

    def ends_with(self, word):
        return self.words[self.end] == word and self.blank_behind


class Area:
    """N pages and the recovery page R behind them, at the start of a run of words."""

    def __init__(self, words, count, size):
        self.words = words
        self.count = count      # N
        self.size = size        # P
        self.walked = {}        # the pages walked since they were last changed

    def page(self, index):
        if index not in self.walked:
            start = self.start(index)
            self.walked[index] = Page(self.words[start:start + self.size])
        return self.walked[index]

    def pages(self):
        return [self.page(index) for index in range(self.count)]

    def recovery_page(self):
        return self.page(self.count)

    def start(self, index):
        return index * self.size

    def make(self, stores):
        for store in stores:
            self.walked.pop(store.place // self.size, None)
            if store.word is None:
                self.words[store.place:store.place + self.size] = [BLANK] * self.size
            else:
                self.words[store.place] &= store.word

    def after(self, stores):
        """The area as it would be with these stores made."""
        later = Area(self.words[:], self.count, self.size)
        later.walked = dict(self.walked)
        later.make(stores)
        return later


def all_blank(words):
    return words == [BLANK] * len(words)


def data_words(area):
    """D, the words of a page open to entries."""
    return area.size - 3


def quota(area):
    return area.count * (data_words(area) - LONGEST)


def metadata(area, index):
    return [MARK, 0xFFFF0000 + 256 * index + area.count]


def header(handle, length):
    return 65536 * handle + length


def entry_at(words, place):
    """The entry whose header is at this place of a page, or None if there is none."""
    handle, length = words[place] >> 16, words[place] & 0xFFFF
    known = handle == 0 or handle in HANDLES
    if known and 1 <= length <= LONGEST and place + length - 1 <= len(words) - 2:
        return Entry(place, handle, length)
    return None


def walk(words):
    """The entries of a page by their lengths, and the place where they end."""
    entries, place = [], FIRST
    entry = entry_at(words, place)
    while entry:
        entries.append(entry)
        place += entry.length
        entry = entry_at(words, place)
    return entries, place


def is_sealed(area, index):
    page = area.page(index)
    return page.words[:2] == metadata(area, index) and page.ends_with(SEAL)


def is_torn(area, index):
    page = area.page(index)
    return page.words[:2] == metadata(area, index) and page.ends_with(BLANK)


def is_free(page):
    return all_blank(page.words)


def is_unfinished(page):
    return page.words[1] == BLANK and not is_free(page)


def named_by_recovery_page(area):
    """The index of the page that a committed R names, or None if R is not committed."""
    page = area.recovery_page()
    for index in range(area.count):
        if page.words[:2] == metadata(area, index) and page.ends_with(SEAL):
            return index
    return None


def is_damaged(area):
    recovery, named = area.recovery_page(), named_by_recovery_page(area)
    if not is_free(recovery) and not is_unfinished(recovery) and named is None:
        return True
    return not all(is_sealed(area, index) or is_torn(area, index)
                   for index in range(area.count) if index != named)


def is_ready(area):
    """Of an undamaged area."""
    handles = [entry.handle for page in area.pages() for entry in page.live]
    return (is_free(area.recovery_page())
            and all(is_sealed(area, index) for index in range(area.count))
            and len(handles) == len(set(handles)))


def live_entries(area):
    """The live entries of the pages 0 to N - 1 in area order, places counted in the run."""
    return [entry._replace(place=area.start(index) + entry.place)
            for index, page in enumerate(area.pages()) for entry in page.live]


def live_words(area):
    return sum(page.live_words for page in area.pages())


def find(area, handle):
    """The one live entry of a handle in a ready area, or None."""
    for index, page in enumerate(area.pages()):
        for entry in page.live:
            if entry.handle == handle:
                return entry._replace(place=area.start(index) + entry.place)
    return None


def data_of(area, entry):
    return area.words[entry.place + 1:entry.place + entry.length]


# ---- Refusal numbers

DONE, GEOMETRY, DAMAGED, UNREADY, BADHANDLE, BADLENGTH, NOTFOUND, NOROOM, CUT = range(9)
BADFRAME = 0x0A


def state_refusal(area):
    if is_damaged(area):
        return DAMAGED
    return DONE if is_ready(area) else UNREADY


def handle_refusal(area, handle):
    return state_refusal(area) or (DONE if handle in HANDLES else BADHANDLE)


# ---- The lists of stores

def bare(step, entry):
    """The header's word becomes its bare length."""
    return Store(step, entry.place, header(0, entry.length))


def format_list(area):
    stores = [Store("format", area.start(area.count), None)]
    for index in range(area.count):
        start, (word_0, word_1) = area.start(index), metadata(area, index)
        stores += [Store("format", start, None),
                   Store("format", start, word_0),
                   Store("format", start + 1, word_1),
                   Store("format", start + FIRST, SEAL)]
    return stores


def delete_list(area, handle):
    return [bare("delete", find(area, handle))]


def lowest_page_with_room(area, length):
    for index, page in enumerate(area.pages()):
        if page.end + length <= area.size - 1:
            return index
    return None


def lowest_page_to_compact(area, length):
    for index, page in enumerate(area.pages()):
        if page.live_words + length <= data_words(area):
            return index
    raise ValueError("no page to compact within the quota")


def copied(target, start, words, meta):
    """The words of entries, the seal, word 0 and word 1, stored in this order to one page."""
    seal = start + FIRST + len(words)
    return ([Store("entries to " + target, start + FIRST + at, word) for at, word in enumerate(words)]
            + [Store("seal to " + target, seal, SEAL),
               Store("word 0 to " + target, start, meta[0]),
               Store("word 1 to " + target, start + 1, meta[1])])


def compaction_list(area, index):
    page, meta = area.page(index), metadata(area, index)
    words = [word for entry in page.live
             for word in page.words[entry.place:entry.place + entry.length]]
    page_start, recovery_start = area.start(index), area.start(area.count)
    return (copied("R", recovery_start, words, meta)
            + [Store("erase page", page_start, None)]
            + copied("page", page_start, words, meta)
            + [Store("erase R", recovery_start, None)])


def append_list(area, handle, data):
    """The stores of a write for which a page has room."""
    length = len(data) + 1
    index = lowest_page_with_room(area, length)
    place = area.start(index) + area.page(index).end
    old = find(area, handle)
    return ([Store("header", place, header(handle, length))]
            + [Store("data", place + 1 + at, word) for at, word in enumerate(data)]
            + [Store("new seal", place + length, SEAL)]
            + ([bare("old header", old)] if old else []))


def write_list(area, handle, data):
    length = len(data) + 1
    if lowest_page_with_room(area, length) is not None:
        return append_list(area, handle, data)
    compaction = compaction_list(area, lowest_page_to_compact(area, length))
    return compaction + append_list(area.after(compaction), handle, data)


def restore_list(area):
    """Step (a) of recover."""
    recovery, recovery_start = area.recovery_page(), area.start(area.count)
    if is_unfinished(recovery):
        return [Store("(a) erase unfinished R", recovery_start, None)]
    named = named_by_recovery_page(area)
    if named is None:
        return []
    return ([Store("(a) erase page", area.start(named), None)]
            + copied("page of (a)", area.start(named), recovery.words[FIRST:recovery.end],
                     recovery.words[:2])
            + [Store("(a) erase committed R", recovery_start, None)])


def mend_list(area):
    """Step (b) of recover."""
    stores = []
    for index in range(area.count):
        if is_torn(area, index):
            page, start = area.page(index), area.start(index)
            last = page.entries[-1] if page.entries else None
            if last and last.handle != 0:
                stores.append(bare("(b) header", last._replace(place=start + last.place)))
            stores.append(Store("(b) seal", start + page.end, SEAL))
    return stores


def single_list(area):
    """Step (c) of recover."""
    entries = live_entries(area)
    last = {entry.handle: entry.place for entry in entries}
    return [bare("(c) header", entry) for entry in entries if entry.place != last[entry.handle]]


def recover_list(area):
    stores = []
    for step in (restore_list, mend_list, single_list):
        part = step(area)
        area = area.after(part)
        stores += part
    return stores


# ---- The requests: a refusal number and an empty list, or DONE and the list

def plan_write(area, handle, data):
    refusal = handle_refusal(area, handle)
    if refusal:
        return refusal, []
    if len(data) + 1 > LONGEST:
        return BADLENGTH, []
    old = find(area, handle)
    if old and data_of(area, old) == data:
        return DONE, []
    if live_words(area) + len(data) + 1 > quota(area):
        return NOROOM, []
    return DONE, write_list(area, handle, data)


def plan_delete(area, handle):
    refusal = handle_refusal(area, handle)
    if refusal:
        return refusal, []
    if find(area, handle) is None:
        return NOTFOUND, []
    return DONE, delete_list(area, handle)


def plan_recover(area):
    if is_damaged(area):
        return DAMAGED, []
    return DONE, recover_list(area)


def make_within(area, stores, power):
    """Make the first stores of a list, up to the power; the number and the stores made."""
    made = stores[:power]
    area.make(made)
    return DONE if len(made) == len(stores) else CUT, len(made)


def read(area, handle):
    """The number and the data."""
    refusal = handle_refusal(area, handle)
    if refusal:
        return refusal, []
    entry = find(area, handle)
    return (DONE, data_of(area, entry)) if entry else (NOTFOUND, [])


def search(area, mask, pattern):
    """The number and the handles of all matches."""
    refusal = state_refusal(area)
    if refusal:
        return refusal, []
    handles = [entry.handle for entry in live_entries(area)
               if entry.handle & mask == pattern & mask]
    return (DONE, handles) if handles else (NOTFOUND, [])


# ---- The console

LIMIT = 65536
RUN = 16 * 1024
SIZES = (64, 256, 1024)
COUNTS = range(1, 16)
ENOUGH = RUN

WORD = rb"[0-9A-F]{8}"
FOUR = rb"([0-9A-F]{4})"
TWO = rb"([0-9A-F]{2})"
FRAMES = {
    1: re.compile(rb"01" + FOUR + rb"((?:" + WORD + rb"){0,40})"),
    2: re.compile(rb"02" + FOUR),
    3: re.compile(rb"03" + FOUR),
    4: re.compile(rb"04" + FOUR + FOUR),
    5: re.compile(rb"05"),
    6: re.compile(rb"06" + FOUR),
    7: re.compile(rb"07" + TWO + TWO),
}
SPENDING = (1, 3, 5)

# What one line came to: its kind (None for BADFRAME), its line, the power lent to it (None if it
# has power enough), the number answered, the whole list of stores and how many of them were made.
Event = namedtuple("Event", "kind line power number stores made tail")


def parse(line):
    """The kind and the fields of a frame, or None and no fields."""
    for kind, pattern in FRAMES.items():
        match = pattern.fullmatch(line)
        if match:
            return kind, match.groups()
    return None, ()


def words_in(digits):
    return [int(digits[at:at + 8], 16) for at in range(0, len(digits), 8)]


def lines_in(data):
    lines = data[:LIMIT].split(b"\n")
    return lines if lines[-1] else lines[:-1]


class Console:
    """The flash, the area that was last formatted, and the power not yet spent."""

    def __init__(self, watch):
        self.words = [BLANK] * RUN
        self.area = None
        self.power = None
        self.watch = watch

    def answer(self, line):
        kind, fields = parse(line)
        power = self.power
        if kind in SPENDING:
            self.power = None
        number, stores, made, tail = self.request(kind, fields, power)
        self.watch(Event(kind, line, power, number, stores, made, tail))
        return "%02X%04X%s\n" % (number, made, tail)

    def request(self, kind, fields, power):
        """The number, the list of stores, the stores made and the text behind them."""
        if kind is None:
            return BADFRAME, [], 0, ""
        if kind == 7:
            return self.format(int(fields[0], 16), int(fields[1], 16))
        if kind == 6:
            self.power = int(fields[0], 16)
            return DONE, [], 0, ""
        if self.area is None:
            return GEOMETRY, [], 0, ""
        if kind in SPENDING:
            return self.change(kind, fields, ENOUGH if power is None else power)
        return self.look(kind, fields)

    def format(self, count, size):
        if count not in COUNTS or size >= len(SIZES):
            return GEOMETRY, [], 0, ""
        self.area = Area(self.words, count, SIZES[size])
        stores = format_list(self.area)
        number, made = make_within(self.area, stores, ENOUGH)
        return number, stores, made, ""

    def change(self, kind, fields, power):
        if kind == 1:
            number, stores = plan_write(self.area, int(fields[0], 16), words_in(fields[1]))
        elif kind == 3:
            number, stores = plan_delete(self.area, int(fields[0], 16))
        else:
            number, stores = plan_recover(self.area)
        if number != DONE:
            return number, [], 0, ""
        number, made = make_within(self.area, stores, power)
        return number, stores, made, ""

    def look(self, kind, fields):
        if kind == 2:
            number, words = read(self.area, int(fields[0], 16))
            return number, [], 0, "".join("%08X" % word for word in words)
        number, handles = search(self.area, int(fields[0], 16), int(fields[1], 16))
        return number, [], 0, "".join("%04X" % handle for handle in handles)


def console(data, watch=lambda event: None):
    """The output of a console for its input; `watch` is called with the event of every line."""
    session = Console(watch)
    return "".join(session.answer(line) for line in lines_in(data)).encode()

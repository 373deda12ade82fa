"""The inputs on which the console and its model are compared, made from fixed seeds.

`all_inputs` gives pairs of a name and a function that makes the input's bytes. The same name always
gives the same bytes. The cuts ask the model how long a list of stores is; nothing else does.
"""

import random
from functools import partial

import model

QUOTA_A_PAGE = (28, 220, 988)
SPECIAL_WORDS = (0x7FFFFFFF, 0xFFFFFFFF, 0x00000000, 0x00120002, 0x00000001, 0x10100408, 0xFFFF0001,
                 0x7FFF0001, 0x7EFF0021)
SPECIAL_HANDLES = (0x0001, 0x7EFF, 0x0012, 0x0113, 0x0100, 0x00FF, 0x5555, 0x4000)
BAD_HANDLES = (0x0000, 0x7F00, 0x7FFF, 0x8000, 0x8012, 0xFF00, 0xFFFF)

# ---- Frames

RECOVER = "05"
LIST_ALL = "0400000000"


def write(handle, words=()):
    return "01%04X" % handle + "".join("%08X" % word for word in words)


def read(handle):
    return "02%04X" % handle


def delete(handle):
    return "03%04X" % handle


def search(mask, pattern):
    return "04%04X%04X" % (mask, pattern)


def power(stores):
    return "06%04X" % stores


def form(count, size):
    return "07%02X%02X" % (count, size)


def text(lines):
    return "".join(line + "\n" for line in lines).encode("latin-1")


def counting(first, length):
    """Words that differ from each other and from those of another start."""
    return [first + at for at in range(length)]


# ---- Random sessions

class Session:
    """Random frames over one area, with a guess of what it holds."""

    def __init__(self, rng, count, size, handles, lengths):
        self.rng = rng
        self.quota = count * QUOTA_A_PAGE[size]
        self.handles = handles
        self.lengths = lengths
        self.held = {}
        self.lines = [form(count, size)]

    def add(self, *lines):
        self.lines += lines

    def handle(self):
        if self.rng.random() < 0.03:
            return self.rng.choice(BAD_HANDLES)
        return self.rng.choice(self.handles)

    def words(self, length):
        return [self.rng.choice(SPECIAL_WORDS) if self.rng.random() < 0.3 else self.rng.getrandbits(32)
                for _ in range(length)]

    def length(self):
        chance = self.rng.random()
        if chance < 0.03:
            return self.rng.randint(33, 40)
        if chance < 0.15:
            room = self.quota - sum(len(words) + 1 for words in self.held.values())
            return min(max(room - 1 + self.rng.randint(-1, 1), 0), 32)
        return self.rng.randint(*self.lengths)

    def change(self):
        """A write or a delete, as one frame."""
        handle, chance = self.handle(), self.rng.random()
        if chance < 0.2:
            self.held.pop(handle, None)
            return delete(handle)
        if chance < 0.3 and handle in self.held:
            return write(handle, self.held[handle])
        words = self.words(self.length())
        live = sum(len(words) + 1 for words in self.held.values())
        if len(words) <= 32 and live + len(words) + 1 <= self.quota:
            self.held[handle] = words
        return write(handle, words)

    def places(self):
        """A power, mostly small."""
        return self.rng.choice((self.rng.randint(0, 5), self.rng.randint(0, 40),
                                self.rng.randint(0, 100), self.rng.randint(0, 400)))

    def cut_change(self):
        change = self.change()
        self.add(power(self.places()), change)
        while self.rng.random() < 0.4:
            self.add(self.rng.choice((read(self.handle()), LIST_ALL, self.change())))
        while self.rng.random() < 0.4:
            self.add(power(self.places() // 2), RECOVER)
        if self.rng.random() < 0.95:
            self.add(RECOVER)
        if self.rng.random() < 0.6:
            self.add(change)

    def look(self):
        chance = self.rng.random()
        if chance < 0.5:
            self.add(read(self.handle()))
        elif chance < 0.7:
            self.add(LIST_ALL)
        else:
            mask = self.rng.choice((0xFFFF, 0xFF00, 0x00FF, 0x0001, 0x8000, self.rng.getrandbits(16)))
            self.add(search(mask, self.rng.choice((0, self.handle(), self.rng.getrandbits(16)))))

    def odd(self):
        self.add(self.rng.choice(("", "0", "05 ", "0b", "06", "070000", "071000", "070103", "08", "FF",
                                  RECOVER, power(0), power(3), power(0xFFFF), power(1) + "\r",
                                  read(0x12) + "0", write(0x12) + "0000", write(1, [0] * 41))))

    def step(self):
        chance = self.rng.random()
        if chance < 0.5:
            self.add(self.change())
        elif chance < 0.65:
            self.cut_change()
        elif chance < 0.95:
            self.look()
        else:
            self.odd()

    def close(self):
        self.add(RECOVER, RECOVER, LIST_ALL)
        self.add(*(read(handle) for handle in self.handles))


def session(seed):
    """Mostly small areas of few handles, with lengths that fill them."""
    rng = random.Random("session %d" % seed)
    shape = rng.random()
    if shape < 0.6:
        count, size = rng.randint(1, 3), 0
    elif shape < 0.8:
        count, size = rng.randint(1, 15), 0
    elif shape < 0.92:
        count, size = rng.randint(1, 15), 1
    else:
        count, size = rng.randint(1, 15), 2
    handles = rng.sample(SPECIAL_HANDLES, rng.randint(1, 6))
    handles += [rng.randint(0x0001, 0x7EFF) for _ in range(rng.randint(0, 2 * count))]
    lengths = rng.choice(((0, 1), (0, 3), (1, 6), (3, 12), (8, 20), (15, 32), (0, 32)))
    frames = Session(rng, count, size, handles, lengths)
    for _ in range(rng.randint(60, 260)):
        frames.step()
    frames.close()
    return text(frames.lines)


def busy(seed):
    """Pages that are filled several times over, of the middle and the large size too."""
    rng = random.Random("busy %d" % seed)
    count, size = rng.choice(((1, 1), (2, 1), (3, 1), (5, 1), (1, 2), (2, 2), (9, 0), (15, 0)))
    handles = rng.sample(range(0x0001, 0x7F00), rng.choice((3, 8, 20)) * (size + 1))
    frames = Session(rng, count, size, handles, rng.choice(((10, 32), (28, 32), (0, 32))))
    while sum(len(line) + 1 for line in frames.lines) < 55000:
        frames.step()
    frames.close()
    return text(frames.lines)


def large(seed):
    """Fifteen large pages, some 300 entries, and lists of all sorts."""
    rng = random.Random("large %d" % seed)
    handles = rng.sample(range(0x0001, 0x7F00), 300)
    frames = Session(rng, 15, 2, handles, (0, 12))
    for handle in handles:
        frames.add(write(handle, frames.words(rng.randint(0, 14))))
    frames.add(LIST_ALL)
    for _ in range(250):
        frames.step()
        frames.look()
    frames.add(RECOVER, LIST_ALL)
    frames.add(*(delete(handle) for handle in handles[:150]))
    frames.add(LIST_ALL, search(0x0003, 0x0002), search(0xFFFF, 0x0000))
    return text(frames.lines)


def bare_writes(count, size, entries):
    """Many entries of no data, and filters over them."""
    rng = random.Random("bare %d" % entries)
    handles = rng.sample(range(0x0001, 0x7F00), entries)
    lines = [form(count, size)] + [write(handle) for handle in handles]
    lines += [LIST_ALL, delete(handles[0]), write(handles[1]), write(handles[2], [7]), LIST_ALL]
    lines += [search(rng.getrandbits(16), rng.getrandbits(16)) for _ in range(20)]
    lines += [search(1 << bit, 1 << bit) for bit in range(16)]
    return text(lines)


def growing_lists(first, last):
    """Lists that grow by a handle each."""
    lines = [form(3, 2)] + [write(handle) for handle in range(1, first)]
    for handle in range(first, last + 1):
        lines += [write(handle), LIST_ALL]
    return text(lines)


def much_output(look):
    """Megabytes of output: a look at an area of 100 entries of 32 words, again and again."""
    lines = [form(4, 2)] + [write(handle, counting(handle << 8, 32)) for handle in range(1, 101)]
    return text(lines + [look] * ((model.LIMIT - 27200) // (len(look) + 1)))


# ---- Filling every shape to its quota

def full(count, size):
    """Live words up to the quota and one more; then rewrites until every page was compacted."""
    quota = count * QUOTA_A_PAGE[size]
    lengths = [33] * (quota // 33) + ([quota % 33] if quota % 33 else [])
    last, rest = len(lengths), lengths[-1]
    lines = [form(count, size)]
    for handle, length in enumerate(lengths[:-1], 1):
        lines.append(write(handle, counting(handle << 16, length - 1)))
    lines += [write(last, counting(last << 16, rest)), write(last, counting(last << 16, rest - 1)),
              write(0x7EFF), write(last, counting(last << 16, rest - 1)), write(last, [5]), LIST_ALL]
    for turn in range(2 * count + 8):
        handle = 1 + turn * 5 % last
        words = counting(turn + 1 + (handle << 16), lengths[handle - 1])
        lines += [delete(handle), write(handle, words), write(handle, words[:-1]), read(handle), LIST_ALL]
    lines += [delete(last), write(last + 1, counting(9, rest - 2)), write(last + 2), write(last + 3)]
    return text(lines + [LIST_ALL] + [read(handle) for handle in range(1, last + 4)][:40])


# ---- Cuts at every place

def stores_of(lines):
    """The stores that the model's last answer carries."""
    return int(model.console(text(lines)).splitlines()[-1][2:6], 16)


def cut_block(start, request, handles, cut, recovery_cuts):
    """A fresh area, a cut request, cut recoveries, a full one, and the request again."""
    looks = [LIST_ALL] + [read(handle) for handle in handles]
    lines = start + [power(cut), request, read(handles[0])]
    for recovery_cut in recovery_cuts:
        lines += [power(recovery_cut), RECOVER, looks[0]]
    return lines + [RECOVER] + looks + [request] + looks


def some(places, most, rng):
    """All places, or this many of them with both ends among them."""
    if len(places) <= most:
        return list(places)
    return sorted({places[0], places[-1], *rng.sample(places, most - 2)})


def cut_blocks(start, request, handles, cuts, most, rng):
    for cut in cuts:
        recovery = stores_of(start + [power(cut), request, RECOVER])
        for recovery_cut in some(range(recovery + 1), most, rng):
            yield cut_block(start, request, handles, cut, [recovery_cut])
        yield cut_block(start, request, handles, cut,
                        [rng.randint(0, recovery), rng.randint(0, recovery)])


def all_cuts(start, request):
    return range(stores_of(start + [request]) + 1)


def gathered(blocks):
    """Blocks of lines gathered to inputs within the console's limit."""
    inputs, lines, size = [], [], 0
    for block in blocks:
        added = sum(len(line) + 1 for line in block)
        if size + added > model.LIMIT:
            inputs.append(text(lines))
            lines, size = [], 0
        lines, size = lines + block, size + added
    return inputs + [text(lines)]


def rewritten(handle, times, length):
    """Different values to one handle."""
    return [write(handle, counting(value << 8, length)) for value in range(times)]


# The name of a scene, its area and what is written before, the request that is cut, the handles in
# play (the request's first), and the most cuts tried of its recoveries; the request is cut everywhere.
SCENES = (
    ("first write of no words", [form(1, 0)], write(0x12), [0x12], 99),
    ("first write of seals and blanks", [form(1, 0)],
     write(0x12, [0x7FFFFFFF, 0xFFFFFFFF, 0x00000000, 0x00010001]), [0x12], 99),
    ("write behind another", [form(1, 0), write(1, [0x7FFFFFFF])], write(2, [1, 2]), [2, 1], 99),
    ("write that ends a page", [form(2, 0)] + rewritten(1, 2, 20) + [write(2, counting(1, 8))],
     write(3, counting(0x30, 9)), [3, 1, 2], 99),
    ("overwrite", [form(1, 0), write(0x12, [0xA1B2C3D4])], write(0x12, [5]), [0x12], 99),
    ("overwrite by none", [form(1, 0), write(0x12, [0xA1B2C3D4])], write(0x12), [0x12], 99),
    ("overwrite among others", [form(3, 0), write(1, [1]), write(2, [2, 0x7FFFFFFF]), write(3)],
     write(2, [0xFFFFFFFF, 4]), [2, 1, 3], 99),
    ("overwrite on a higher page", [form(2, 0)] + rewritten(1, 2, 20), write(1, counting(0x90, 19)),
     [1], 99),
    ("overwrite on a lower page", [form(2, 0)] + rewritten(1, 2, 20) + [write(2, counting(1, 19))],
     write(2, [0x22, 0x23]), [2, 1], 99),
    ("delete", [form(1, 0), write(1, [1]), write(2, [2]), write(3)], delete(2), [2, 1, 3], 99),
    ("delete on a higher page", [form(2, 0)] + rewritten(1, 2, 20) + [write(2, counting(1, 19))],
     delete(2), [2, 1], 99),
    ("held data", [form(1, 0), write(1, [1])], write(1, [1]), [1], 99),
    ("compacting overwrite", [form(1, 0)] + rewritten(0x12, 5, 10), write(0x12, counting(0xF00, 10)),
     [0x12], 99),
    ("compaction of no live words", [form(1, 0)] + rewritten(7, 4, 13) + [delete(7)],
     write(7, [0x7FFFFFFF, 2, 3, 4, 5, 6]), [7], 99),
    ("compacting first write", [form(1, 0), write(1, [0x7FFFFFFF])] + rewritten(2, 5, 9),
     write(3, counting(0x33, 9)), [3, 1, 2], 99),
    ("compaction of a higher page",
     [form(3, 0), write(1, counting(0x10, 32)), write(2, counting(0x20, 6))] + rewritten(3, 1, 15)
     + [write(5, counting(0x50, 5))] + rewritten(3, 7, 15)[1:],
     write(3, counting(0xF00, 21)), [3, 1, 2, 5], 6),
    ("compaction apart from the old entry",
     [form(2, 0)] + rewritten(1, 2, 20) + [write(2, counting(1, 8))] + rewritten(3, 5, 10),
     write(3, counting(0xF00, 12)), [3, 1, 2], 6),
    ("compaction of many entries",
     [form(2, 0)] + [write(handle, [handle]) for handle in range(1, 17)]
     + [delete(handle) for handle in range(2, 17, 3)] + rewritten(0x20, 12, 6),
     write(0x21, counting(0x40, 13)), [0x21, 0x20, 1, 16], 6),
    ("compaction of a page of the middle size",
     [form(1, 1), write(1, counting(1, 32))] + rewritten(2, 6, 32),
     write(2, counting(0xF00, 31)), [2, 1], 2),
)


def scene(seed):
    """A random scene: a short random history, then a write or a delete of it cut at some places."""
    rng = random.Random("scene %d" % seed)
    count = rng.randint(1, 3)
    handles = rng.sample(SPECIAL_HANDLES, rng.randint(1, 3))
    frames = Session(rng, count, 0, handles, rng.choice(((0, 3), (2, 9), (6, 14))))
    for _ in range(rng.randint(3, 10 * count)):
        frames.add(frames.change())
    requests = [delete(handles[0])] + [write(handles[0], frames.words(length)) for length in (0, 2, 9)]
    blocks = []
    for request in requests:
        cuts = some(all_cuts(frames.lines, request), 7, rng)
        blocks += cut_blocks(frames.lines, request, handles, cuts, 7, rng)
    return gathered(blocks)[0]


def cut_inputs():
    for name, start, request, handles, most in SCENES:
        blocks = cut_blocks(start, request, handles, all_cuts(start, request), most, random.Random(name))
        for part, made in enumerate(gathered(blocks), 1):
            yield "cuts:%s:%d" % (name.replace(" ", "-"), part), partial(bytes, made)


# ---- The rules of power

POWER = {
    "before-format": [power(1), form(1, 0), write(1, [1]), RECOVER, write(1, [1]), read(1)],
    "replaced": [form(1, 0), power(0), power(2), write(1, [1]), RECOVER, power(1), power(0xFFFF),
                 write(1, [2]), power(5), power(0), delete(1), delete(1)],
    "spent-by-badhandle": [form(1, 0), power(0), write(0), write(1), power(0), delete(0x7F00), delete(1)],
    "spent-by-badlength": [form(1, 0), power(0), write(1, [0] * 33), write(1), power(0),
                           write(1, [0] * 40), write(1, [3])],
    "spent-by-notfound": [form(1, 0), power(0), delete(1), write(1), read(1)],
    "spent-by-noroom": [form(1, 0), power(0), write(1, [0] * 28), write(1, [4]), read(1)],
    "spent-by-unready": [form(1, 0), power(1), write(1, [1]), power(0), write(1), RECOVER, power(1),
                         write(1, [1]), power(0), delete(1), RECOVER, write(1), read(1)],
    "spent-by-held-data": [form(1, 0), write(1, [1]), power(0), write(1, [1]), write(1, [2]), read(1)],
    "spent-by-ready-recover": [form(1, 0), power(0), RECOVER, write(1, [1]), read(1)],
    "spent-when-enough": [form(1, 0), power(9), write(1, [1]), write(2, counting(1, 12)), read(2),
                          power(0xFFFF), delete(1), write(1, counting(1, 9)), read(1)],
    "spent-by-recover": [form(1, 0), power(1), write(1, [1]), power(9), RECOVER, write(1, counting(1, 9)),
                         power(2), write(1, [1]), power(1), RECOVER, RECOVER, RECOVER, LIST_ALL],
    "spent-before-format": [power(0), write(1), form(1, 0), write(1), power(0), delete(1), form(1, 0),
                            write(1), read(1)],
    "spent-by-delete-before-format": [power(0), delete(1), form(1, 0), write(1), read(1)],
    "spent-by-recover-before-format": [power(0), RECOVER, form(1, 0), write(1), read(1)],
    "kept-before-format": [power(1), read(1), LIST_ALL, form(0, 0), form(1, 3), "", "01", form(2, 1),
                           write(1, [1]), RECOVER],
    "kept-by-others": [form(1, 0), write(1, [1]), power(2), read(1), read(2), read(0), LIST_ALL,
                       search(0xFFFF, 9), form(1, 0), form(0, 0), form(1, 9), "", "05 ", "08",
                       write(1, [7] * 41), write(1, [2]), RECOVER, read(1)],
    "kept-by-badframes": [form(1, 0), power(0), "03001", write(1)],
    "kept-by-bad-power": [form(1, 0), power(0), "06", "060", "06000", "0600001", "06000G", "06ffff",
                          write(1), read(1)],
    "kept-over-format": [form(1, 0), power(1), form(2, 0), write(1), RECOVER, read(1), write(1), read(1)],
    "kept-while-unready": [form(1, 0), power(1), write(1, [1]), power(1), read(1), LIST_ALL, RECOVER,
                           RECOVER, read(1)],
    "only-next": [form(1, 0), power(1), write(1, [1]), RECOVER, write(1, [1]), read(1)],
    "exact": [form(1, 0), power(3), write(1, [1]), power(4), write(1, [2]), power(1), delete(1),
              power(2), write(1), power(2), write(1, [5]), power(2), RECOVER, read(1)],
    "highest": [form(15, 2), power(0xFFFF), write(1, counting(1, 32)), power(0xFFFF), delete(1),
                power(0xFFFF), RECOVER, power(0x0100), write(2), power(0x1000), delete(2)],
    "none": [form(1, 0), power(0), write(1), LIST_ALL, power(0), delete(1), write(1), power(0),
             delete(1), read(1), LIST_ALL, power(0), RECOVER],
}

# ---- Lines that are no frames

GOOD = (write(0x12), write(0x12, [0xABCDEF01]), read(0x12), delete(0x13), search(0xFF00, 0x0100),
        RECOVER, power(9), form(1, 0))


def every_byte():
    """Every byte but the newline in every place of some frames, and alone, before and behind."""
    lines = [form(1, 0), write(0x12, [1])]
    for byte in map(chr, (byte for byte in range(256) if byte != 10)):
        lines += [byte, byte + byte, RECOVER + byte, byte + RECOVER, byte + "5", "0" + byte,
                  read(0x12) + byte, "0200" + byte + "2", "02" + byte + "012", "06000" + byte,
                  byte + power(1), "0701" + byte + "0", "04000" + byte + "0000", "040000000" + byte,
                  "010012" + byte, "0100120000000" + byte, "01" + byte + "0120000000F"]
    return text(lines)


def every_kind():
    """Every pair of digits as a kind, with fields of many lengths."""
    lines = [form(1, 0), write(0x12, [1])]
    fields = ("", "0", "00", "0012", "00120", "00120000", "001200000001", "0012" + "F" * 16)
    for kind in range(256):
        lines += ["%02X" % kind + field for field in fields]
        lines += ["%02x" % kind, "%02x0012" % kind]
    return text(lines)


def every_length():
    """Every kind with every count of digits."""
    lines = [form(1, 0), write(0x12, [1])]
    for kind in "234567":
        lines += ["0" + kind + "0001000000000000"[:digits] for digits in range(17)]
    lines += [RECOVER, form(15, 2)]
    lines += ["01" + "0012" + "1" * digits for digits in list(range(180)) + list(range(250, 350))]
    return text(lines)


def word_counts():
    """Writes of 0 to 45 words and of many more, and of whole words plus or minus a digit."""
    lines = [form(15, 1)]
    for count in list(range(46)) + [63, 64, 65, 80, 127, 128, 255, 256, 257]:
        frame = write(0x12, counting(1, count))
        lines += [frame, read(0x12), frame[:-1], frame + "0", LIST_ALL]
    return text(lines)


def altered(seed):
    """Good frames with one thing changed, kept power between them."""
    rng = random.Random("altered %d" % seed)
    lines = [form(rng.randint(1, 3), 0)]
    for _ in range(600):
        frame = rng.choice(GOOD + (write(rng.randint(1, 4), counting(rng.getrandbits(31), 3)), LIST_ALL))
        place = rng.randint(0, len(frame))
        change = rng.choice((frame, frame, frame[:-1], frame + rng.choice("0F \r\t\0\x85"), frame[1:],
                             frame[:place] + rng.choice("0aF gG:/@-+x\0\xFF\r") + frame[place + 1:],
                             frame[:place] + frame[place + 1:], frame.lower(), " " + frame, ""))
        lines.append(change)
    return text(lines)


def noise(seed):
    """Bytes of no order, from all of them or from few."""
    rng = random.Random("noise %d" % seed)
    alphabet = rng.choice((bytes(range(256)), b"01234567\n", b"0123456789ABCDEF\n\n", b"05\n", b"\r\n 05"))
    return bytes(form(1, 0) + "\n", "ascii") + bytes(rng.choices(alphabet, k=rng.randint(100, 6000)))


ODD = {
    "nothing": b"",
    "one-newline": b"\n",
    "newlines": b"\n" * 500,
    "only-newlines-to-the-limit": b"\n" * 65536,
    "only-newlines-past-the-limit": b"\n" * 70000,
    "one-byte": b"0",
    "one-frame-without-newline": b"05",
    "no-newline-at-the-end": b"070100\n0100010000000A\n020001",
    "broken-end": b"070100\n0100010000000A\n02000",
    "empty-last-line": b"070100\n\n",
    "carriage-returns": b"070100\r\n05\r\n070100\n05\r\n\r\n05\r05\n\r05\n05\n",
    "carriage-returns-alone": b"070100\r05\r020001\r",
    "nuls": b"\0\n070100\0\n070100\n\0\n05\0\n\x0005\n05\n0200\x0001\n020001\n\0",
    "blanks": b" \n 05\n05 \n0 5\n070100\n02 0012\n\t05\n05\t\n05\x0b\n05\x0c\n05\n",
    "lower-case": b"070100\n01000a\n01000A\n02000a\n02000A\n04000f000a\n04000F000A\n06000f\n07010a\n03000a\n",
    "high-bytes": b"070100\n\xff\n\x8005\n05\x80\n\xb0\xb5\n\xef\xbc\x90\xef\xbc\x95\n\xef\xbb\xbf05\n"
                  b"05\xc2\x85\n05\n",
    "other-line-ends": b"070100\n05\x0b05\x0c05\x1c05\x1d05\x1e05\x85\n05\xe2\x80\xa8\n05\n",
    "signs": b"070100\n+5\n-5\n06+001\n06-001\n0x05\n060x01\n06_001\n0600_1\n07+100\n05;\n05,05\n#05\n05\n",
    "before-format": text([write(1), write(0), write(1, [0] * 40), write(1, [0] * 41), read(1), read(0),
                           delete(1), delete(0), LIST_ALL, RECOVER, power(1), "", "08", form(0, 0),
                           read(1), form(1, 0), read(1)]),
}


# ---- The limit of 64 KiB

def filled(start, behind, room):
    """Start, then one long line that leaves this room before the limit, then what comes behind."""
    head = text(start)
    return head + b"0" * (65536 - room - len(head) - 1) + b"\n" + behind


def frames_to_the_limit(more):
    """Short frames up to the limit and over it."""
    head = text([form(1, 0), write(0x12, [1])])
    return head + (text([read(0x12), delete(0x12), write(0x12, [2])]) * 2400)[:65536 - len(head) + more]


START = [form(1, 0), write(0x12, [1])]
LIMITS = {
    "exact-with-newline": filled(START, b"020012\n", 7),
    "exact-without-newline": filled(START, b"020012", 6),
    "newline-past-it": filled(START, b"020012\n020012\n", 6),
    "newline-last-inside": filled(START, b"020012\n020012\n", 7),
    "one-byte-inside": filled(START, b"020012\n05", 8),
    "two-bytes-inside": filled(START, b"020012\n05\n", 9),
    "newline-and-more-inside": filled(START, b"020012\n05\n05\n", 10),
    "cut-line-is-a-frame": filled(START, b"0200129999\n", 6),
    "cut-line-is-no-frame": filled(START, b"020012\n", 5),
    "cut-write-is-a-frame": filled(START, b"0100120000000500000006\n020012\n", 14),
    "cut-write-is-no-frame": filled(START, b"0100120000000500000006\n020012\n", 15),
    "cut-write-of-41-words-is-a-frame": filled(START, text([write(0x12, counting(1, 41))]), 326),
    "cut-list-is-no-frame": filled(START, text([LIST_ALL, LIST_ALL]), 9),
    "cut-to-recover": filled(START + [power(1), write(0x12, [2])], b"05\n05\n020012\n", 2),
    "cut-to-nothing": filled(START, b"05\n", 0),
    "far-past-it": filled(START, text([read(0x12)]) * 5000, 70),
    "a-mebibyte": filled(START, b"020012\n" * 150000, 7),
    "one-line-to-it": b"0" * 65536,
    "one-line-past-it": b"0" * 65537,
    "one-line-far-past-it": b"05" * 100000,
    "long-write": text(START) + b"01" + b"0" * 65500 + b"\n" + text([read(0x12)]),
    "long-lines": text(START + [write(0x12, [3] * 2000), read(0x12), write(0x12, [3] * 4000), RECOVER]),
    "frames-to-it": frames_to_the_limit(0),
    "frames-one-short": frames_to_the_limit(-1),
    "frames-one-over": frames_to_the_limit(1),
    "frames-far-over": frames_to_the_limit(2000),
}


# ---- Formats

def every_count():
    """Every N with some sizes and every size with some N; what was written before stays or is gone."""
    lines = []
    for count in range(256):
        for size in (0, 1, 2, 3, 0xFF):
            lines += [form(count, size), read(1)] + ([write(1)] if size == 2 else [])
    for size in range(256):
        lines += [form(count, size) for count in (0, 1, 15, 16, 255)]
    return text(lines)


def shapes(seed):
    """All 45 shapes in random order, each used, with refused formats between."""
    rng = random.Random("shapes %d" % seed)
    lines = []
    for count, size in rng.sample([(count, size) for count in range(1, 16) for size in range(3)], 45):
        handles = rng.sample(range(1, 0x20), 6)
        lines += [form(count, size), LIST_ALL, write(handles[0]),
                  form(rng.choice((0, 16, 255, count)), rng.choice((3, 255)))]
        lines += [write(handle, counting(rng.getrandbits(30), rng.randint(0, 25))) for handle in handles]
        lines += [LIST_ALL] + [read(handle) for handle in handles] + [power(3), write(handles[0], [1, 2])]
    return text(lines)


FORMATS = {
    "refused-first": [form(0, 0), form(16, 0), form(1, 3), form(255, 255), read(1), write(1), RECOVER,
                      LIST_ALL, delete(1), form(1, 0), read(1), write(1), read(1)],
    "refused-between": [form(1, 0), write(1, [1]), form(0, 0), read(1), form(16, 2), read(1), form(1, 3),
                        LIST_ALL, form(255, 0), form(15, 255), read(1), write(2, [2]), LIST_ALL],
    "again": [form(2, 0), write(1, [1]), form(2, 0), LIST_ALL, read(1), write(2), LIST_ALL],
    "another-shape": [form(15, 2), write(1, counting(1, 32)), form(1, 0), LIST_ALL, write(2, [2]),
                      form(3, 1), LIST_ALL, read(2), write(3, [3]), form(15, 2), LIST_ALL, read(3)],
    "of-an-unready-area": [form(1, 0), power(1), write(1, [1]), read(1), form(1, 0), read(1), LIST_ALL,
                           power(2), write(1, [1]), form(0, 0), read(1), form(2, 1), LIST_ALL, write(1)],
    "of-a-cut-compaction": [form(1, 0)] + rewritten(1, 5, 10)
    + [power(20), write(1, counting(0x99, 10)), LIST_ALL, form(1, 0), LIST_ALL, write(1, [1]), read(1)],
    "of-a-smaller-one": [form(1, 0)] + rewritten(1, 5, 10) + [power(20), write(1, counting(0x99, 10)),
                         form(15, 0), LIST_ALL, write(1, [1]), read(1), RECOVER, form(1, 2), LIST_ALL],
}


# ---- All of them

def seeded(kind, maker, seeds):
    return [("%s:%d" % (kind, seed), partial(maker, seed)) for seed in range(1, seeds + 1)]


def named(kind, table, make):
    return [("%s:%s" % (kind, name), partial(make, value)) for name, value in table.items()]


def all_inputs():
    return (seeded("session", session, 300)
            + seeded("busy", busy, 16)
            + seeded("large", large, 3)
            + seeded("scene", scene, 40)
            + seeded("altered", altered, 12)
            + seeded("noise", noise, 20)
            + seeded("shapes", shapes, 4)
            + list(cut_inputs())
            + named("power", POWER, text)
            + named("odd", ODD, bytes)
            + named("limit", LIMITS, bytes)
            + named("format", FORMATS, text)
            + [("full:%d:%d" % (count, size), partial(full, count, size))
               for size, most in enumerate((15, 15, 6)) for count in range(1, most + 1)]
            + [("bare:600", partial(bare_writes, 15, 1, 600)),
               ("bare:1000", partial(bare_writes, 2, 2, 1000)),
               ("lists:1018-1030", partial(growing_lists, 1018, 1030)),
               ("lists:2046-2049", partial(growing_lists, 2046, 2049)),
               ("output:reads", partial(much_output, read(0x64))),
               ("output:lists", partial(much_output, LIST_ALL)),
               ("lines:every-byte", every_byte),
               ("lines:every-kind", every_kind),
               ("lines:every-length", every_length),
               ("lines:word-counts", word_counts),
               ("formats:every-count", every_count)])

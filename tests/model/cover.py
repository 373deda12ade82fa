"""What the inputs have to lead to, so that a comparison on them says something.

`notes` names all that one line of a console is an example of, `input_notes` the same of a whole
input, and `needed` gives the names of all that has to be met at least once.
"""

import model

REFUSALS = {1: (1, 3, 4, 5, 7), 2: (1, 3, 4, 6), 3: (1, 3, 4, 6), 4: (1, 3, 6), 5: (1,), 7: (1,)}
COMPACTION = ("entries to R", "seal to R", "word 0 to R", "word 1 to R", "erase page", "entries to page",
              "seal to page", "word 0 to page", "word 1 to page", "erase R")
APPENDING = ("header", "data", "new seal", "old header")
RECOVERY = ("(a) erase unfinished R", "(a) erase page", "entries to page of (a)", "seal to page of (a)",
            "word 0 to page of (a)", "word 1 to page of (a)", "(a) erase committed R", "(b) header",
            "(b) seal", "(c) header")


def answer_note(kind, number):
    return "%s answers %02X" % ("no frame" if kind is None else "%02X" % kind, number)


def notes(event):
    """The names of all that this event is an example of."""
    steps = [store.step for store in event.stores]
    yield answer_note(event.kind, event.number)
    if event.number == model.CUT:
        yield from cut_notes(event, steps)
    elif event.kind in (1, 3) and event.number == model.DONE:
        yield from change_notes(event, steps)
    elif event.kind == 5 and event.number == model.DONE:
        yield from recovery_notes(steps)
    elif event.kind == 7 and event.number == model.DONE:
        yield "format of %s" % event.line[2:].decode()
    if event.power is not None:
        yield from power_notes(event)
    yield from length_notes(event)


def cut_notes(event, steps):
    after = "after a compaction " if "erase R" in steps[:event.made] else ""
    yield "cut %sbefore %s" % (after, steps[event.made])
    places = {store.step: store.place for store in event.stores}
    if steps[event.made] == "old header" and places["header"] < places["old header"]:
        yield "cut with the old entry behind the new one"


def change_notes(event, steps):
    if event.kind == 1 and not steps:
        yield "held data"
    if "erase R" in steps:
        yield "compaction"
        first_page = any(store.step == "erase page" and store.place == 0 for store in event.stores)
        yield "compaction of page 0" if first_page else "compaction of a higher page"
        if "entries to R" not in steps:
            yield "compaction of no live words"
    words = [store.word for store in event.stores if store.step == "data"]
    if model.SEAL in words:
        yield "a data word like the seal"
    if model.BLANK in words:
        yield "a blank data word"


def recovery_notes(steps):
    if not steps:
        yield "recovery of a ready area"
    if "(a) erase unfinished R" in steps:
        yield "recovery from unfinished R"
    if "(a) erase committed R" in steps:
        yield "recovery from committed R"
    if "(b) header" in steps:
        yield "recovery of a torn page, last entry live"
    elif "(b) seal" in steps:
        yield "recovery of a torn page, last entry bare"
    if "(c) header" in steps:
        yield "recovery of doubles"


def power_notes(event):
    if event.kind not in model.SPENDING:
        kept = "power kept by " + answer_note(event.kind, event.number)
        yield "power replaced" if event.kind == 6 else kept
    elif event.number not in (model.DONE, model.CUT):
        yield "power spent by " + answer_note(event.kind, event.number)
    elif event.stores and event.power == len(event.stores):
        yield "power just enough for %02X" % event.kind
    elif not event.stores and event.power == 0:
        yield "no power and no stores in %02X" % event.kind


def length_notes(event):
    words, digits = divmod(len(event.line) - 6, 8)
    if event.line[:2] == b"01" and digits == 0 and words in (0, 32, 33, 40, 41):
        yield "write of %d words answers %02X" % (words, event.number)
    if len(event.tail) > 8192:
        yield "an answer of more than 8,192 digits"


def input_notes(data):
    if not data:
        yield "no input"
    elif not data.endswith(b"\n"):
        yield "no newline at the end"
    if len(data) == model.LIMIT:
        yield "input of the limit's length"
    if len(data) > model.LIMIT:
        last = model.lines_in(data)[-1]
        cut = data[model.LIMIT - 1] != 10 and data[model.LIMIT] != 10
        kind = model.parse(last)[0]
        yield "input past the limit"
        if cut:
            yield "limit leaves no frame" if kind is None else "limit leaves a frame"


def needed():
    """The names of all that has to be met at least once.

    A torn page of no entries, DAMAGED and BADPLACE are not among them: no input leads there.
    """
    yield answer_note(None, model.BADFRAME)
    for kind in range(1, 8):
        yield answer_note(kind, model.DONE)
    for kind, numbers in REFUSALS.items():
        yield from (answer_note(kind, number) for number in numbers)
        if kind in model.SPENDING:
            yield answer_note(kind, model.CUT)
            yield "power just enough for %02X" % kind
            yield from ("power spent by " + answer_note(kind, number) for number in numbers)
        else:
            yield from ("power kept by " + answer_note(kind, number) for number in (0,) + numbers)
    yield "power kept by " + answer_note(None, model.BADFRAME)
    yield "power replaced"
    yield "no power and no stores in 01"
    yield "no power and no stores in 05"
    yield from ("cut before " + step for step in COMPACTION + APPENDING + RECOVERY + ("delete",))
    yield from ("cut after a compaction before " + step for step in APPENDING)
    yield "cut with the old entry behind the new one"
    yield from ("compaction", "compaction of page 0", "compaction of a higher page",
                "compaction of no live words", "held data", "a data word like the seal",
                "a blank data word")
    yield from ("recovery of a ready area", "recovery from unfinished R", "recovery from committed R",
                "recovery of a torn page, last entry live", "recovery of a torn page, last entry bare",
                "recovery of doubles")
    yield from ("format of %02X%02X" % (count, size) for count in range(1, 16) for size in range(3))
    yield from ("write of %d words answers %02X" % pair for pair in
                ((0, 0), (32, 0), (33, 5), (40, 5), (41, 10)))
    yield "an answer of more than 8,192 digits"
    yield from ("no input", "no newline at the end", "input of the limit's length",
                "input past the limit", "limit leaves a frame", "limit leaves no frame")

#!/usr/bin/env python3
"""inputs.py FOLDER: writes the console inputs that take longest, each of at most 65,536 bytes, all on the largest area that a frame can format."""
import random
import sys

LIMIT = 65536
FORMAT = '070F02\n'


def filled(frames):
    """As many of the frames as the limit leaves room for, behind a format."""
    text = FORMAT
    for frame in frames:
        if len(text) + len(frame) > LIMIT:
            break
        text += frame
    return text


def shuffled(handles):
    handles = list(handles)
    random.Random(1).shuffle(handles)
    return handles


def one_word(handles):
    return ['01%04X%08X\n' % (handle, handle * 0x10001) for handle in handles]


def bare(handles):
    return ['01%04X\n' % handle for handle in handles]


HANDLES = range(1, 0x7F00)
WORD_WRITES = (LIMIT - len(FORMAT)) // len('0100010000FFFF\n')
HALF = range(1, LIMIT // 2 // len('010001\n') + 1)

INPUTS = {
    'words-ascending': one_word(HANDLES),
    'words-shuffled': one_word(shuffled(range(1, WORD_WRITES + 1))),
    'bare-ascending': bare(HANDLES),
    'bare-shuffled-recovers': bare(shuffled(HALF)) + ['05\n'] * LIMIT,
    'bare-shuffled-reads': bare(shuffled(HALF)) + ['02%04X\n' % handle for handle in HALF],
    'bare-shuffled-lists': bare(shuffled(HALF)) + ['0400000000\n'] * LIMIT,
}

for name, frames in INPUTS.items():
    with open(f'{sys.argv[1]}/{name}', 'w') as file:
        file.write(filled(frames))

"""The listing of document 01 and its worked cases, as far as a console can show them.

Each case is a table: a frame on the left and the line that the console prints on the right, written
out by hand from document 01. Both the model and the program are held against it.
"""


def run_of(count):
    """This many words in digits: 00000001, 00000002 and so on."""
    return "".join("%08X" % word for word in range(1, count + 1))


def tens(value):
    """Ten equal words in digits."""
    return ("%08X" % value) * 10


CASES = {
    "listing": """
        070100           000005
        010012A1B2C3D4   000003
        020012           000000A1B2C3D4
        060002           000000
        01001200000005   080002
        020012           030000
        05               000002
        020012           000000A1B2C3D4
        030012           000001
        020012           060000
        """,
    "1, format": """
        070100           000005
        0400000000       060000
        020012           060000
        05               000000
        """,
    "2, write": """
        070100           000005
        010012A1B2C3D4   000003
        020012           000000A1B2C3D4
        0400000000       0000000012
        """,
    "3, overwrite": """
        070100           000005
        010012A1B2C3D4   000003
        01001200000005   000004
        020012           00000000000005
        0400000000       0000000012
        """,
    "4, cut at 2": """
        070100           000005
        010012A1B2C3D4   000003
        060002           000000
        01001200000005   080002
        0400000000       030000
        05               000002
        020012           000000A1B2C3D4
        05               000000
        """,
    "5, cut at 3": """
        070100           000005
        010012A1B2C3D4   000003
        060003           000000
        01001200000005   080003
        0400000000       030000
        05               000001
        020012           00000000000005
        05               000000
        """,
    "3, power for all 4": """
        070100           000005
        010012A1B2C3D4   000003
        060004           000000
        01001200000005   000004
        020012           00000000000005
        """,
    "6, 27 words": f"""
        070100                000005
        010012{run_of(27)}    00001D
        020012                000000{run_of(27)}
        """,
    "6, 28 words": f"""
        070100                000005
        010012{run_of(28)}    070000
        020012                060000
        """,
    "6, 33 words": f"""
        070100                000005
        010012{run_of(33)}    050000
        020012                060000
        """,
    "7, 32 words on two pages": f"""
        070200                000009
        010012{run_of(32)}    000022
        020012                000000{run_of(32)}
        """,
    "8, handles": """
        070100           000005
        010000           040000
        017F00           040000
        010001           000002
        017EFF           000002
        020000           040000
        027F00           040000
        020001           000000
        027EFF           000000
        030000           040000
        037F00           040000
        030001           000001
        037EFF           000001
        """,
    "9, filter": """
        070100           000005
        010012           000002
        010113           000002
        04FF000100       0000000113
        0400000000       00000000120113
        04FFFF0000       060000
        """,
    "10, six values of ten words": f"""
        070100              000005
        010012{tens(1)}     00000C
        010012{tens(2)}     00000D
        010012{tens(3)}     00000D
        010012{tens(4)}     00000D
        010012{tens(5)}     00000D
        010012{tens(6)}     00002B
        020012              000000{tens(6)}
        010012{tens(7)}     00000D
        010012{tens(8)}     00000D
        010012{tens(9)}     00000D
        010012{tens(10)}    00002B
        """,
    "10, the seal at 57 leaves room for 5 words": f"""
        070100              000005
        010012{tens(1)}     00000C
        010012{tens(2)}     00000D
        010012{tens(3)}     00000D
        010012{tens(4)}     00000D
        010012{tens(5)}     00000D
        010012{run_of(5)}   000008
        020012              000000{run_of(5)}
        """,
    "10, the seal at 57 leaves no room for 6 words": f"""
        070100              000005
        010012{tens(1)}     00000C
        010012{tens(2)}     00000D
        010012{tens(3)}     00000D
        010012{tens(4)}     00000D
        010012{tens(5)}     00000D
        010012{run_of(6)}   000027
        020012              000000{run_of(6)}
        """,
    "11, held data": """
        070100           000005
        010012A1B2C3D4   000003
        010012A1B2C3D4   000000
        060000           000000
        010012A1B2C3D4   000000
        020012           000000A1B2C3D4
        """,
}


def case(name):
    """The input and the output of a case, as bytes."""
    pairs = [line.split() for line in CASES[name].split("\n") if line.strip()]
    return tuple("".join(column + "\n" for column in columns).encode() for columns in zip(*pairs))

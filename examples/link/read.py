"""Reads a certificate file, judges its claim, writes the file anew and answers it whole: read.py LIBRARY CERTIFICATE"""
import ctypes
import sys

STATES, ACTIONS, BRANCHES = 20000, 100000, 1000000
U8, U32, U64 = ctypes.c_uint8, ctypes.c_uint32, ctypes.c_uint64


def lent(tables, counts):
    """Each table as its pointer and its length."""
    return [x for table, count in zip(tables, counts) for x in (table, ctypes.c_size_t(count))]


def room():
    """Tables 1 to 8 at document 01's limits."""
    counts = [(U8, STATES), (U32, STATES + 1), (U32, ACTIONS + 1), (U32, BRANCHES),
              (U32, BRANCHES), (U32, STATES), (U64, STATES), (U32, STATES)]
    return [(entry * count)() for entry, count in counts]


def read(library, file):
    """The number that comes back, the header, and tables 1 to 8."""
    tables = room()
    header = (U32 * 6)()
    given = (U8 * len(file)).from_buffer_copy(file)
    everything = [given, header] + tables
    number = library.vartrymoy_read(*lent(everything, map(len, everything)))
    return number, header, tables


def claimed(header):
    """The kind and the scales, and how many entries tables 1 to 8 have."""
    kind, d, c, n, m, b = header
    costs = n if kind >= 5 else 0
    ranks = n if kind in (2, 4, 7, 8) else 0
    return [U32(kind), U32(d), U32(c)], [n, n + 1, m + 1, b, b, costs, n, ranks]


def check(library, header, tables):
    """The answer in four numbers, and the choices, empty if there are none."""
    scales, counts = claimed(header)
    choices = (U32 * (header[3] if header[0] in (3, 4, 6, 8) else 0))()
    answer = (U32 * 4)()
    number = library.vartrymoy_check(*scales, *lent(tables + [choices, answer], counts + [len(choices), 4]))
    return answer, choices if number == 0 else []


def write(library, header, tables, length):
    """0 and the file's length, or number and place of the refusal; and the buffer, of the length given."""
    scales, counts = claimed(header)
    buffer = (U8 * length)()
    result = (U64 * 2)()
    library.vartrymoy_write(*scales, *lent(tables + [buffer, result], counts + [length, 2]))
    return result, bytes(buffer)


def answer_whole(library, file):
    """What is printed for a file."""
    given = (U8 * len(file)).from_buffer_copy(file)
    choices, text, result = (U32 * STATES)(), (U8 * (64 + 32 * STATES))(), (U64 * 2)()
    everything = [given] + room() + [choices, text, result]
    library.vartrymoy_answer(*lent(everything, map(len, everything)))
    return bytes(text[:result[1]]).decode()


def judge(library, file, header, tables):
    """Prints the answer in numbers, and what came of writing the file anew."""
    answer, choices = check(library, header, tables)
    print("answer", *answer)
    if answer[0] == 0:
        print("choices", *choices)
    result, written = write(library, header, tables, len(file))
    print("written", *result)
    if result[0] == 0:
        print("same bytes" if result[1] == len(file) and written == file else "other bytes")


def main():
    library = ctypes.CDLL(sys.argv[1])
    for name in ("read", "check", "write", "answer"):
        getattr(library, "vartrymoy_" + name).restype = U32
    with open(sys.argv[2], "rb") as opened:
        file = opened.read()
    number, header, tables = read(library, file)
    print("read", number)
    if number == 0:
        judge(library, file, header, tables)
    print(answer_whole(library, file), end="")


main()

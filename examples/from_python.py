"""Dorrivand from Python. What is called is a shared object, made in the repository by

    gcc -shared -fPIC -Iinclude examples/words.c -Wl,--whole-archive target/staticlib/libdoor.a -Wl,--no-whole-archive \\
        -o target/libdorrivand.so
    python3 examples/from_python.py target/libdorrivand.so
"""
import ctypes
import sys

Cell, Cells, Length = ctypes.c_uint32, ctypes.POINTER(ctypes.c_uint32), ctypes.c_size_t
Signed, Answer = ctypes.c_int32, ctypes.c_int64
END, WORK, BITS_16, SIGNED_16 = 1, 2, 4, 6
REFUSED = 1 << 32

library = ctypes.CDLL(sys.argv[1])
library.words.argtypes, library.words.restype = [Cell], ctypes.c_char_p
library.dorrivand_tables_length.restype = Length
store, tables = (Cell * 1024)(), (Cell * library.dorrivand_tables_length())()


class Refused(Exception):
    pass


def call(word, *arguments):
    """The number with which a call is done. A name is bytes, all else are numbers, of which those below zero are signed. Every
    answer fits into a signed one of 64 bits."""
    values = [(Cells, store), (Length, len(store)), (Cells, tables), (Length, len(tables))]
    for argument in arguments:
        if isinstance(argument, bytes):
            values += [(ctypes.c_char_p, argument), (Length, len(argument))]
        else:
            values += [(Signed if argument < 0 else Cell, argument)]
    function = getattr(library, "dorrivand_" + word)
    function.argtypes, function.restype = [kind for kind, _ in values], Answer
    answer = function(*[value for _, value in values])
    if answer >= REFUSED:
        raise Refused(library.words(answer - REFUSED).decode())
    return answer


def run(word, user, entry, pointer, cells):
    """How many cells a run left or filled, and the words of what stopped it, or None."""
    place = Cell()
    function = getattr(library, "dorrivand_" + word)
    function.argtypes = [Cells, Length, Cells, Length, Cell, Cell, Cell, Cells, Length, Cells]
    function.restype = Length
    count = function(store, len(store), tables, len(tables), user, entry, pointer, cells, len(cells), place)
    return count, library.words(place.value).decode() if place.value else None


call("fresh")
call("new", 2, 0, BITS_16)
for fault in 301, 417:
    call("write", 2, 0, END, fault)
call("rename", 2, 0, b"lift 7")
call("close", 2, 0)
call("read", 2, 0, b"lift 7")
try:
    while True:
        print(call("next", 2, 0, WORK))
except Refused as why:
    print("refused:", why)
try:
    call("read", 5, 0, b"lift 7")
except Refused as why:
    print("refused:", why)
print("free segments:", call("free", 2))

readings, places = (Cell * 40)(*range(200, 240)), (Cell * 50)()
call("new", 2, 1, BITS_16)
print("left:", *run("write_run", 2, 1, END, readings))
print("filled:", *run("fill_run", 2, 1, WORK, places))
print("as delivered:", places[:40] == readings[:] and places[40:] == [0] * 10)

call("new", 2, 2, SIGNED_16)
try:
    for degrees in 3, -5, -32768, -32769:
        call("write_signed", 2, 2, END, degrees)
except Refused as why:
    print(degrees, "refused:", why)
print("degrees:", *[call("next_signed", 2, 2, WORK) for _ in range(3)])

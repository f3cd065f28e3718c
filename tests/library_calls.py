"""Rows of the library's calls, made by images that are written as bytes: what each call gives, stores, writes and takes.

A row's program makes calls one after the other and ends with the number of those that gave another result than they should. What is in
memory shows by `write`. What is wanted comes from C11, POSIX and glibc, and for sizes, addresses and the heap from this project's table.
"""

DATA, STACK, HEAP, END = 1_048_576, 5_242_880, 9_437_184, 17_825_792
BELOW = 65_535  # the last address that is never valid
MINUS_ONE = 2**64 - 1
NO_LIMIT = 2**64 - 1
OVERFLOW = b"*** buffer overflow detected ***: terminated\n"
BAD = 139  # the status after a bad address, and after a bad format
SENT = b"abcdefg"

# in the order of their numbers; a checked form, as memcpy_chk, has 64 more
NAMES = """exit abort malloc calloc realloc free memcpy memmove mempcpy memset bzero explicit_bzero memcmp strcpy stpcpy strncpy strcat
strncat strlen strcmp strchr printf puts putchar dprintf sprintf snprintf read write getchar note""".split()

CONST, ADD, DIFFERS, ARGUMENT, RETURN, HOST = 0, 3, 20, 37, 39, 40


def numbers(*values):
    return b"".join(value.to_bytes(4, "little") for value in values)


def instruction(number, width=0, a=0, b=0, c=0):
    return bytes([number, width, 0, 0]) + numbers(a, b, c)


def image(*code, params=0, frame=0, data=b""):
    """An image of one function, which has three registers."""
    return b"FC3IMAGE" + numbers(1, 1, len(code), len(data), 0, 0, 0, params, 3, 4096, frame) + b"".join(code) + data


def const(register, number):
    number %= 2**64
    return instruction(CONST, a=register, b=number % 2**32, c=number >> 32)


def made(name, wanted, *arguments):
    """The instructions of one call. r2 counts the results that are not as wanted; None is any."""
    for slot, number in enumerate(arguments):
        yield from (const(0, number), instruction(ARGUMENT, a=0, b=slot))
    call = NAMES.index(name.removesuffix("_chk")) + 64 * name.endswith("_chk")
    yield instruction(HOST, a=0, b=call, c=len(arguments))
    if wanted is not None:
        yield from (const(1, wanted), instruction(DIFFERS, a=0, b=0, c=1), instruction(ADD, a=2, b=2, c=0))


def program(calls, data=b""):
    code = [part for call in calls for part in made(*call)]
    return image(*code, instruction(RETURN, a=2), data=data)


def texts(*parts):
    """The data section with a text at every 64th byte."""
    return b"".join(part.ljust(64, b"\0") for part in parts)


def shown(address, count):
    return ("write", count, 1, address, count)


class Calls:
    """Adds rows to a table of runs."""

    def __init__(self, table):
        self.table = table

    def row(self, name, *calls, data=b"", status=0, err=b"", given=SENT, **how):
        files = {b"a.img": program(calls, data)}
        self.table.row(f"call: {name}", (status, err), [b"exec", b"a.img"], files, given=given, **how)

    def overflows(self, name, *calls, **how):
        self.row(name, *calls, status=134, err=OVERFLOW, **how)

    def fails(self, name, *calls, **how):
        """A bad address or a bad format: the run ends, and the call writes nothing."""
        self.row(name, *calls, status=BAD, **how)


def ends(add):
    add.row("exit takes the low byte", ("exit", None, 259), status=3)
    add.row("exit of -1", ("exit", None, MINUS_ONE), status=255)
    add.row("abort says nothing", ("abort", None), status=134)


def writes(add):
    data = texts(b"hello")
    add.row("write on standard output", ("write", 5, 1, DATA, 5), data=data, out=b"hello")
    add.row("write on standard error", ("write", 5, 2, DATA, 5), data=data, err=b"hello")
    add.row("write elsewhere reads nothing", ("write", MINUS_ONE, 0, 0, 5), ("write", MINUS_ONE, 3, 0, 5))
    add.row("write of no bytes touches none", ("write", 0, 1, 0, 0))
    add.row("write of the last byte of memory", shown(END - 1, 1), out=b"\0")
    add.row("write of the first valid byte", shown(BELOW + 1, 1), out=b"p")
    add.fails("write past the end of memory", ("write", None, 1, END - 1, 2))
    add.fails("write from below", ("write", None, 1, BELOW, 2))
    add.fails("write of the most bytes", ("write", None, 1, DATA, NO_LIMIT))
    add.row("puts", ("puts", 6, DATA), data=data, out=b"hello\n")
    add.row("puts of an empty text", ("puts", 1, DATA + 64), data=data, out=b"\n")
    add.fails("puts of a text without end", ("memset", END - 1, END - 1, 120, 1), ("puts", None, END - 1))
    add.row("putchar", ("putchar", 65, 321), ("putchar", 255, MINUS_ONE), out=b"A\xff")


def reads(add):
    add.row("read", ("read", 5, 0, STACK, 5), shown(STACK, 6), out=b"abcde\0", taken=5)
    add.row("read to the end", ("read", 7, 0, STACK, 9), ("read", 0, 0, STACK, 9), shown(STACK, 8), out=b"abcdefg\0", taken=7)
    add.row("read of no bytes", ("read", 0, 0, 0, 0))
    add.row("read elsewhere", ("read", MINUS_ONE, 1, 0, 5))
    add.fails("read past the end of memory takes nothing", ("read", None, 0, END - 1, 2))
    add.fails("read below memory takes nothing", ("read", None, 0, BELOW, 2))
    add.row("read_chk of its size", ("read_chk", 4, 0, STACK, 4, 4), shown(STACK, 5), out=b"abcd\0", taken=4)
    add.overflows("read_chk over its size takes nothing", ("read_chk", None, 0, STACK, 5, 4))
    add.overflows("read_chk over its size at a bad address", ("read_chk", None, 0, 0, 5, 4))
    add.row("read_chk elsewhere", ("read_chk", MINUS_ONE, 7, 0, 4, 4))
    add.overflows("read_chk elsewhere over its size", ("read_chk", None, 7, 0, 5, 4))
    add.row("getchar", ("getchar", 255), ("getchar", 122), ("getchar", MINUS_ONE), ("getchar", MINUS_ONE), given=b"\xffz", taken=2)


FORMATS = [  # C11 7.21.6.1; the text "text" stands at TEXT
    (b"plain", [], b"plain"),
    (b"", [], b""),
    (b"%%", [], b"%"),
    (b"%d %i", [5, -5], b"5 -5"),
    (b"%d", [2**31], b"-2147483648"),
    (b"%u", [MINUS_ONE], b"4294967295"),
    (b"%hhd %hd", [0x1FF, 0x18000], b"-1 -32768"),
    (b"%hhu %hu", [0x1FF, 0x18001], b"255 32769"),
    (b"%ld %lld %zd", [-1, -(2**63), 7], b"-1 -9223372036854775808 7"),
    (b"%lu %llu %zu", [MINUS_ONE, 2**63, 7], b"18446744073709551615 9223372036854775808 7"),
    (b"%x %X %o", [0xABC, 0xABC, 8], b"abc ABC 10"),
    (b"%lx %lo", [2**64 - 1, 2**63], b"ffffffffffffffff 1000000000000000000000"),
    (b"[%5d][%-5d][%05d]", [42, -42, -42], b"[   42][-42  ][-0042]"),
    (b"[%-05d][%0-5d]", [42, 42], b"[42   ][42   ]"),
    (b"[%2d]", [12345], b"[12345]"),
    (b"%c%c", [0x141, 0], b"A\0"),
    (b"[%3c][%-3c]", [97, 98], b"[  a][b  ]"),
    (b"[%s][%8s][%-8s]", ["text"] * 3, b"[text][    text][text    ]"),
    (b"[%.2s][%.s][%.9s][%6.1s]", ["text"] * 4, b"[te][][text][     t]"),
    (b"%.0s", [0], b""),
    (b"%4095d", [1], b" " * 4094 + b"1"),
    (b"%d", [1, 2], b"1"),
    (b"%d" * 28, [7] * 63, b"7" * 28),
]

MALFORMED = [  # no formats, or with too few arguments
    (b"x%", []), (b"x%q", [1]), (b"x%5%", []), (b"x%05s", ["text"]), (b"x%--5d", [1]), (b"x%4096d", [1]), (b"x%.3d", [1]), (b"x%ls", ["text"]),
    (b"x%.4096s", ["text"]), (b"x%+d", [1]), (b"x%f", [1]), (b"x%d %d", [1]), (b"x%s", []),
]

TEXT = DATA + 64


def operands(arguments):
    return [TEXT if argument == "text" else argument for argument in arguments]


def prints(add):
    for form, arguments, text in FORMATS:
        name = f"printf {form.decode()!r}" if len(form) < 40 else "printf of 28 conversions and 63 arguments"
        add.row(name, ("printf", len(text), DATA, *operands(arguments)), data=texts(form, b"text"), out=text)
    for form, arguments in MALFORMED:
        add.fails(f"printf {form.decode()!r}", ("printf", None, DATA, *operands(arguments)), data=texts(form, b"text"))
    data = texts(b"a%sb", b"text")
    add.fails("printf of a text at a bad address", ("printf", None, DATA, 0), data=data)
    add.fails("printf of a format at a bad address", ("printf", None, BELOW))
    last = ("memset", END - 3, END - 3, 120, 3)
    add.row("printf of a text that ends with its precision", last, ("printf", 3, DATA, END - 3), data=texts(b"%.3s"), out=b"xxx")
    add.fails("printf of a text without end", last, ("printf", None, DATA, END - 3), data=texts(b"%.4s"))
    add.fails("printf of a format without end", last, ("printf", None, END - 3))
    add.row("dprintf on standard output", ("dprintf", 6, 1, DATA, TEXT), data=data, out=b"atextb")
    add.row("dprintf on standard error", ("dprintf", 6, 2, DATA, TEXT), data=data, err=b"atextb")
    add.row("dprintf elsewhere reads nothing", ("dprintf", MINUS_ONE, 0, 0), ("dprintf", MINUS_ONE, 3, DATA), data=data)
    add.fails("dprintf of too few arguments", ("dprintf", None, 2, DATA), data=data)


def prints_into_memory(add):
    data = texts(b"<%s>", b"text")
    whole = dict(data=data, out=b"<text>\0xx")
    begun = ("memset", STACK, STACK, 120, 9)
    add.row("sprintf", begun, ("sprintf", 6, STACK, DATA, TEXT), shown(STACK, 9), **whole)
    add.row("sprintf_chk of its size", begun, ("sprintf_chk", 6, STACK, 7, DATA, TEXT), shown(STACK, 9), **whole)
    add.row("sprintf_chk without a limit", begun, ("sprintf_chk", 6, STACK, NO_LIMIT, DATA, TEXT), shown(STACK, 9), **whole)
    add.overflows("sprintf_chk over its size", ("sprintf_chk", None, STACK, 6, DATA, TEXT), data=data)
    add.overflows("sprintf_chk over its size at a bad address", ("sprintf_chk", None, 0, 6, DATA, TEXT), data=data)
    add.fails("sprintf_chk of too few arguments, with no room", ("sprintf_chk", None, STACK, 0, DATA), data=data)
    add.fails("sprintf to a bad address", ("sprintf", None, BELOW, DATA, TEXT), data=data)
    add.fails("sprintf past the end of memory", ("sprintf", None, END - 6, DATA, TEXT), data=data)
    add.fails("sprintf over the text that it reads", ("sprintf", None, TEXT, DATA, TEXT), data=data)
    add.fails("sprintf over its format", ("sprintf", None, DATA, DATA, TEXT), data=data)
    for count, stored in [(0, b"xxxxxxxxx"), (1, b"\0xxxxxxxx"), (3, b"<t\0xxxxxx"), (6, b"<text\0xxx"), (7, b"<text>\0xx"), (9, b"<text>\0xx")]:
        add.row(f"snprintf of {count}", begun, ("snprintf", 6, STACK, count, DATA, TEXT), shown(STACK, 9), data=data, out=stored)
    add.row("snprintf of none to a bad address", ("snprintf", 6, 0, 0, DATA, TEXT), data=data)
    add.fails("snprintf of one to a bad address", ("snprintf", None, 0, 1, DATA, TEXT), data=data)
    add.row("snprintf_chk of its size", begun, ("snprintf_chk", 6, STACK, 4, 4, DATA, TEXT), shown(STACK, 9), data=data, out=b"<te\0xxxxx")
    add.overflows("snprintf_chk over its size, whatever is printed", ("snprintf_chk", None, STACK, 100, 99, DATA, TEXT), data=data)
    add.overflows("snprintf_chk over its size, at a bad format", ("snprintf_chk", None, STACK, 5, 4, 0), data=data)


def notes(add):
    add.row("note", ("note", None, 12, 3, 1, 40), err=b"size 12:3 mode 1 = 40\n")
    add.row("note of the greatest size", ("note", None, 1, 1, 2, NO_LIMIT), err=b"size 1:1 mode 2 = 18446744073709551615\n")


STORES = [  # a call that stores, its result and what then stands there, and how many bytes it wants; "hello" is at DATA
    ("memcpy", (STACK, DATA, 5), STACK, b"hello", 5),
    ("memmove", (STACK, DATA, 5), STACK, b"hello", 5),
    ("mempcpy", (STACK, DATA, 5), STACK + 5, b"hello", 5),
    ("memset", (STACK, 0x178, 5), STACK, b"xxxxx", 5),
    ("bzero", (STACK, 5), None, b"\0" * 5, 5),
    ("explicit_bzero", (STACK, 5), None, b"\0" * 5, 5),
    ("strcpy", (STACK, DATA), STACK, b"hello\0", 6),
    ("stpcpy", (STACK, DATA), STACK + 5, b"hello\0", 6),
    ("strncpy", (STACK, DATA, 8), STACK, b"hello\0\0\0", 8),
    ("strncpy", (STACK, DATA, 3), STACK, b"helzz", 3),
    ("strcat", (STACK, DATA), STACK, b"zzhello\0", 8),
    ("strncat", (STACK, DATA, 3), STACK, b"zzhel\0", 6),
    ("strncat", (STACK, DATA, 9), STACK, b"zzhello\0", 8),
]


def stores(add):
    for name, arguments, result, left, request in STORES:
        # z twice and a NUL before a call that appends, z's alone before another
        begun = ("memset", STACK, STACK, 122, 2 if name in ("strcat", "strncat") else 9)
        how = dict(data=texts(b"hello"), out=left)
        at = f"{name} of {arguments[-1]}" if name.startswith("strn") else name
        add.row(at, begun, (name, result, *arguments), shown(STACK, len(left)), **how)
        for size in (request, NO_LIMIT):
            add.row(f"{at}, checked, size {size}", begun, (f"{name}_chk", result, *arguments, size), shown(STACK, len(left)), **how)
        add.overflows(f"{at}, one over its size", begun, (f"{name}_chk", None, *arguments, request - 1), data=texts(b"hello"))
        add.fails(f"{at}, to below memory", (name, None, BELOW, *arguments[1:]), data=texts(b"hello"))
        add.fails(f"{at}, to the end of memory", (name, None, END, *arguments[1:]), data=texts(b"hello"))
        if name not in ("memset", "bzero", "explicit_bzero"):
            add.fails(f"{at}, from below memory", (name, None, STACK, BELOW, *arguments[2:]))
    add.row("memmove forth over itself", ("memmove", DATA + 1, DATA + 1, DATA, 5), shown(DATA, 6), data=texts(b"hello"), out=b"hhello")
    add.row("memmove back over itself", ("memmove", DATA, DATA, DATA + 1, 4), shown(DATA, 5), data=texts(b"hello"), out=b"elloo")
    for name in ("memcpy", "memmove", "mempcpy", "memset"):
        add.row(f"{name} of no bytes touches none", (name, 0, 0, 0, 0))
    add.overflows("memset_chk over its size at a bad address", ("memset_chk", None, 0, 0, 1, 0))
    add.overflows("strcat_chk with no end within its size", ("memset", STACK, STACK, 122, 4), ("strcat_chk", None, STACK, DATA, 4))


def looks(add):
    data = texts(b"hello", b"help", b"\xff", b"\x01")
    add.row("memcmp", ("memcmp", 0, DATA, TEXT, 3), ("memcmp", MINUS_ONE, DATA, TEXT, 4), ("memcmp", 1, TEXT, DATA, 4), data=data)
    add.row("memcmp of unsigned bytes", ("memcmp", 1, DATA + 128, DATA + 192, 1), data=data)
    add.row("memcmp of no bytes touches none", ("memcmp", 0, 0, 0, 0))
    add.fails("memcmp past the end of memory", ("memcmp", None, DATA, END - 1, 2), data=data)
    add.row("strlen", ("strlen", 5, DATA), ("strlen", 0, DATA + 5), data=data)
    add.fails("strlen of a text without end", ("memset", END - 3, END - 3, 122, 3), ("strlen", None, END - 3))
    add.fails("strlen at the end of memory", ("strlen", None, END))
    add.row("strcmp", ("strcmp", 0, DATA, DATA), ("strcmp", MINUS_ONE, DATA, TEXT), ("strcmp", 1, TEXT, DATA), data=data)
    add.row("strcmp of unsigned bytes", ("strcmp", 1, DATA + 128, DATA + 192), data=data)
    add.fails("strcmp at a bad address", ("strcmp", None, DATA, BELOW), data=data)
    add.row("strchr", ("strchr", DATA + 2, DATA, 0x16C), ("strchr", DATA + 5, DATA, 0), ("strchr", 0, DATA, 122), data=data)
    add.fails("strchr at a bad address", ("strchr", None, 0, 104))


MOST = 8_388_607  # the largest block


def heap(add):
    add.row("malloc takes from the front", ("malloc", HEAP, 10), ("malloc", HEAP + 16, 15), ("malloc", HEAP + 32, 16), ("malloc", HEAP + 64, 0))
    add.row("malloc of all", ("malloc", HEAP, MOST), ("malloc", 0, 0))
    add.row("malloc of one byte more", ("malloc", 0, MOST + 1), ("malloc", 0, NO_LIMIT), ("malloc", HEAP, 0))
    three = [("malloc", HEAP + k * 32, 31) for k in range(3)]
    add.row("the first hole that fits", *three, ("free", None, HEAP), ("malloc", HEAP + 96, 32), ("malloc", HEAP, 3), ("malloc", HEAP + 16, 15))
    add.row("holes grow together", *three, ("free", None, HEAP), ("free", None, HEAP + 64), ("free", None, HEAP + 32), ("malloc", HEAP, MOST))
    dirty = [("malloc", HEAP, 32), ("memset", HEAP, HEAP, 120, 32), ("free", None, HEAP)]
    add.row("calloc clears", *dirty, ("calloc", HEAP, 4, 8), ("memcmp", 0, HEAP, DATA, 32), data=bytes(32))
    add.row("malloc clears nothing", *dirty, ("malloc", HEAP, 4), shown(HEAP, 4), out=b"xxxx")
    add.row("calloc of a product over 64 bits", ("calloc", 0, 2**32, 2**32), ("calloc", 0, 3, 2**63), ("calloc", HEAP, 0, NO_LIMIT))
    filled = [("malloc", HEAP, 8), ("memcpy", HEAP, HEAP, DATA, 8)]
    how = dict(data=b"abcdefgh")
    add.row("realloc to more", *filled, ("realloc", HEAP + 16, HEAP, 40), shown(HEAP + 16, 8), ("malloc", HEAP, 1), out=b"abcdefgh", **how)
    add.row("realloc to less", *filled, ("realloc", HEAP + 16, HEAP, 3), shown(HEAP + 16, 4), out=b"abc\0", **how)
    add.row("realloc of nothing", ("realloc", HEAP, 0, 5))
    add.row("realloc without room", *filled, ("realloc", 0, HEAP, MOST), shown(HEAP, 8), ("free", None, HEAP), out=b"abcdefgh", **how)
    add.row("free of nothing", ("free", None, 0))
    add.fails("free where no block was", ("free", None, HEAP))
    add.fails("free within a block", ("malloc", HEAP, 64), ("free", None, HEAP + 16))
    add.fails("free beside a place", ("malloc", HEAP, 64), ("free", None, HEAP + 1))
    add.fails("free twice", ("malloc", HEAP, 8), ("free", None, HEAP), ("free", None, HEAP))
    add.fails("free below the heap", ("free", None, STACK))
    add.fails("free past the heap", ("free", None, END))
    add.fails("realloc of a dead block", ("malloc", HEAP, 8), ("free", None, HEAP), ("realloc", None, HEAP, 9))
    add.fails("realloc within a block", ("malloc", HEAP, 64), ("realloc", None, HEAP + 16, 9))


def streams_fail(add):
    data = texts(b"text")
    fault = dict(status=119, err=b"fortc: output fault\n", redirect=">/dev/full", data=data)
    for call in [("write", None, 1, DATA, 4), ("puts", None, DATA), ("putchar", None, 65), ("printf", None, DATA), ("dprintf", None, 1, DATA)]:
        add.row(f"{call[0]}: standard output is full", call, **fault)
    fault = dict(status=120, redirect="2>/dev/full", data=data)
    for call in [("write", None, 2, DATA, 4), ("dprintf", None, 2, DATA), ("note", None, 1, 1, 0, 4), ("memset_chk", None, STACK, 0, 2, 1)]:
        add.row(f"{call[0]}: standard error is full", call, **fault)
    add.row("no bytes on a full output", ("write", 0, 1, DATA, 0), ("printf", 0, DATA + 4), data=data, redirect=">/dev/full")
    fault = dict(status=118, err=b"fortc: input fault\n", redirect="<.")
    for call in [("read", None, 0, STACK, 4), ("read_chk", None, 0, STACK, 4, 4), ("getchar", None)]:
        add.row(f"{call[0]}: standard input is a folder", call, **fault)
    add.row("read of no bytes of a folder", ("read", 0, 0, STACK, 0), redirect="<.")


def calls(table):
    add = Calls(table)
    for part in (ends, writes, reads, prints, prints_into_memory, notes, stores, looks, heap, streams_fail):
        part(add)

"""Inputs that are meant to be dear: recipes whose tables, and tables whose bytes, come up to the limit. A name says what is in one.

Each maker gets the limit, or a length below it. Of the calls, check and build take a recipe; accept, read, read_out and record_at take a
table.
"""
import math
import random
import struct

# the longest table
LIMIT = 67108864
# up to here a PPTT has 4,096 marks at most, and one that is longer has 65,536
LONG = 1048576
# what a full processor has
FULL = 58
# the most initiators of a matrix, and the most targets
MOST = 4096

# ---- recipes: pieces are pairs of a record's bytes and of how long it makes the table


def head(code):
    return bytes([1, code]) + bytes(26)


def processor(parent=0, caches=()):
    resources = [number for c in caches for number in (17, c)]
    return struct.pack("<BIII" + "BI" * len(caches), 16, 2, parent, 7, *resources), 20 + 4 * len(caches)


def cache(next_level=0):
    return struct.pack("<BBIIIBBHI", 18, 255, next_level, 1 << 15, 64, 8, 10, 64, 7), 28


def size(i, t):
    """That of a matrix in a table."""
    return 32 + 4 * (i + t) + 2 * i * t


def matrix(i, t, settings=b""):
    return struct.pack("<BBBBQBB", 49, 0, 1, 0, 100, i, t) + settings, size(i, t)


def wide(i, t, settings=b""):
    return struct.pack("<BBBBQHH", 55, 0, 1, 0, 100, i, t) + settings, size(i, t)


def every(i, t, kind=49):
    """Of a matrix of this kind every value, and every cell."""
    value, cell = ("<BBI", "<BBBH") if kind == 49 else ("<BHI", "<BHHH")
    sides = [struct.pack(value, kind + 1, k, k + 1) for k in range(i)] + [struct.pack(value, kind + 2, k, k + 1) for k in range(t)]
    return sides, [struct.pack(cell, kind + 3, k // t, k % t, k % 1000) for k in range(i * t)]


def values(i, t, step=1, kind=49):
    """All of them, in order or in reverse."""
    sides, cells = every(i, t, kind)
    return b"".join((sides + cells)[::step])


def square(left, most=MOST):
    """How many initiators, and as many targets, the largest matrix has that takes no more than so many bytes."""
    # 32 + 8 n + 2 n n is up to left where (n + 2)^2 is up to left / 2 - 12
    return min(most, math.isqrt(left // 2 - 12) - 2)


def targets(left, i):
    """How many targets a matrix of i initiators has that takes no more than so many bytes; -1 where none does."""
    return min(MOST, (left - 32 - 4 * i) // (4 + 2 * i)) if left >= size(i, 0) else -1


def side(handles=0):
    return struct.pack("<BIQI", 53, 1, 1 << 30, 0) + b"\x36\x01\x00" * handles, 32 + 2 * handles


def bridge():
    return struct.pack("<BIBQ", 64, 1, 1, 1 << 32), 32


def window(code, ways):
    target = struct.pack("<BI", 66, 7)
    return struct.pack("<BQQBBBBH", 65, 1 << 32, 1 << 28, code, 0, 0, 4, 0) + target * ways, 36 + 4 * ways


def maths(maps=0):
    return struct.pack("<BB", 67, 0) + struct.pack("<BQ", 68, 5) * maps, 8 + 8 * maps


def recipe(code, first, more, limit, last=b""):
    """The first pieces, then one piece again and again, or more(k) for k = 0, 1, .., as long as the table keeps within the limit, then the
    bytes of the last record."""
    out, length = [head(code)], [36, 48, 40, 36][code]
    for piece, n in first:
        out.append(piece)
        length += n
    k = 0
    if isinstance(more, tuple):
        piece, n = more
        return b"".join(out) + piece * max(0, (limit - length) // n) + last
    while True:
        piece, n = more(k)
        if limit < length + n:
            break
        out.append(piece)
        length += n
        k += 1
    if code == 0:
        # what is left is filled with the shortest nodes
        out += [processor()[0]] * ((limit - length) // 20)
    return b"".join(out) + last


def naming(first, ordinals, parent=0):
    """Full processors that name these ordinals in turn, behind some first nodes."""
    def piece(k):
        return processor(parent, [ordinals[(FULL * k + j) % len(ordinals)] for j in range(FULL)])
    return lambda limit: recipe(0, first, piece, limit)


def jumps(nodes, count=4096):
    return [random.Random(nodes).randrange(nodes) + 1 for _ in range(count)]


def behind(nodes, filler):
    """One cache behind so many other nodes, the last of which is a short processor: the target of all that follow, and their parent."""
    first = [filler] * (nodes - 2) + [processor(), cache()]
    return naming(first, [nodes], nodes - 1)


def front_of_caches(nodes, ordinals):
    return naming([cache()] * nodes, ordinals)


def chain(make, names):
    """Nodes that each name an earlier one."""
    rng = random.Random(1)
    return lambda limit: recipe(0, [], lambda k: make(names(k, rng) if k else 0), limit)


def near(limit):
    """A cache, then a full processor that names it, over and over."""
    def piece(k):
        c, n = cache()
        p, m = processor(0, [2 * k + 1] * FULL)
        return c + p, n + m
    return recipe(0, [], piece, limit)


def srat(kind):
    bodies = {
        32: (struct.pack("<BIQQB", 32, 1, 1 << 32, 1 << 32, 7), 40),
        33: (struct.pack("<BIQIB", 33, 1, 5, 6, 3), 32),
        34: (struct.pack("<BIHBBBB", 34, 1, 2, 3, 31, 7, 3), 32),
        36: (struct.pack("<BIIBI", 36, 1, 2, 1, 3), 20),
    }
    return lambda limit: recipe(1, [], bodies[kind], limit)


def hmat(piece):
    return lambda limit: recipe(2, [], piece, limit)


def cedt(piece):
    return lambda limit: recipe(3, [], piece, limit)


def settings(i, t, run, made=matrix):
    """One matrix, and a run of settings over and over: the recipe, not its table, comes to the limit."""
    def make(limit):
        start = head(2) + made(i, t)[0]
        return start + run * ((limit - len(start)) // len(run))
    return make


def largest(limit):
    """The counts of the largest square matrix, and of a matrix that fills what it leaves."""
    n = square(limit - 40)
    t = targets(limit - 40 - size(n, n), n)
    return [(n, n)] + ([(n, t)] if t >= 0 else [])


def wide_unset(limit):
    return head(2) + b"".join(wide(i, t)[0] for i, t in largest(limit))


def wide_set(step):
    """Wide matrices, up to 600 by 600, every value and cell set, as many as fit."""
    def make(limit):
        n = square(limit - 40, 600)
        return recipe(2, [], wide(n, n, values(n, n, step, 55)), limit)
    return make


def wide_row(limit):
    """The largest square matrix, its first row of cells set over and over: the recipe comes to the limit too."""
    n = square(limit - 40)
    return settings(n, n, b"".join(struct.pack("<BHHH", 58, 0, t, t) for t in range(n)), wide)(limit)


def wide_column(limit):
    """The same of the first column."""
    n = square(limit - 40)
    return settings(n, n, b"".join(struct.pack("<BHHH", 58, i, 0, i) for i in range(n)), wide)(limit)


def refused(make, last):
    """A recipe with one record more, which is refused."""
    return lambda limit: make(limit) + last


def half_caches(ordinals):
    """Full processors behind caches that fill half of the table, naming ordinals(nodes) of them in turn."""
    def make(limit):
        nodes = limit // 2 // 28
        return front_of_caches(nodes, ordinals(nodes))(limit)
    return make


VALUE = struct.pack("<BBI", 50, 0, 9)
TARGET = struct.pack("<BBI", 51, 0, 9)
CELL = struct.pack("<BBBH", 52, 0, 0, 9)
WIDE_VALUE = struct.pack("<BHI", 56, 0, 9)
WIDE_TARGET = struct.pack("<BHI", 57, 0, 9)
WIDE_CELL = struct.pack("<BHHH", 58, 0, 0, 9)
SHORT = processor()
THICK = processor(0, [1] * FULL)
ALONE = chain(processor, lambda k, rng: 0)
BEHIND_16 = behind(16, SHORT)

RECIPES = {
    "a PPTT's head alone": lambda limit: head(0),
    "an SRAT's head alone": lambda limit: head(1),
    "an HMAT's head alone": lambda limit: head(2),
    "one short processor": lambda limit: head(0) + SHORT[0],
    "short processors": ALONE,
    "short processors, parent the first": chain(processor, lambda k, rng: 1),
    "short processors, parent the one before": chain(processor, lambda k, rng: k),
    "short processors, parent at random": chain(processor, lambda k, rng: rng.randrange(k) + 1),
    "short processors, parents from both ends in turn": chain(processor, lambda k, rng: 1 if k % 2 else k),
    "caches, next level the first": chain(cache, lambda k, rng: 1),
    "caches, next level the one before": chain(cache, lambda k, rng: k),
    "caches, next level at random": chain(cache, lambda k, rng: rng.randrange(k) + 1),
    "full processors, each naming the cache before it": near,
    "full processors, all naming the first cache": front_of_caches(1, [1]),
    "full processors, all naming the cache behind 15 short nodes": BEHIND_16,
    "full processors, all naming the cache behind 31 short nodes": behind(32, SHORT),
    "full processors, all naming the cache behind 63 short nodes": behind(64, SHORT),
    "full processors, all naming the cache behind 1,023 short nodes": behind(1024, SHORT),
    "full processors, all naming the cache behind 8,191 short nodes": behind(8192, SHORT),
    "full processors, all naming the cache behind 26,000 short nodes": behind(26000, SHORT),
    "full processors, all naming the cache behind full ones": naming([cache()] + [THICK] * 1006 + [cache()], [1008]),
    "full processors, naming 2,000 caches at random": front_of_caches(2000, jumps(2000)),
    "full processors, naming 16,000 caches at random": front_of_caches(16000, jumps(16000)),
    "full processors, naming the last caches of groups of 16": front_of_caches(16000, [16 * k for k in range(1, 1000)]),
    "full processors, naming both ends of 16,000 caches in turn": front_of_caches(16000, [1, 16000]),
    "full processors, naming the ends of 16,000 caches and the middle in turn": front_of_caches(16000, [16000, 1, 8000, 2]),
    "full processors, naming the caches of the first half at random": half_caches(jumps),
    "full processors, naming the last of groups of 64 in the first half": half_caches(lambda nodes: list(range(64, nodes + 1, 64)) or [nodes]),
    "full processors, naming both ends of the first half in turn": half_caches(lambda nodes: [1, nodes]),
    "full processors, at the end a kind that there is not": refused(BEHIND_16, b"\x63"),
    "full processors, at the end one that is cut": refused(BEHIND_16, b"\x10\x00"),
    "short processors, at the end a parent that is a later node": refused(ALONE, processor(1 << 31)[0]),
    "short processors, at the end a resource that is no cache": refused(ALONE, struct.pack("<BI", 17, 26000)),
    "short processors, at the end one too many": refused(ALONE, processor()[0]),
    "memory ranges": srat(32),
    "initiators, ACPI": srat(33),
    "initiators, PCI": srat(34),
    "RINTC": srat(36),
    "RINTC, at the end one with a bad flag": refused(srat(36), struct.pack("<BIIBI", 36, 1, 2, 2, 3)),
    "RINTC, at the end one of the kind that is retired": refused(srat(36), struct.pack("<BIBI", 35, 1, 1, 2)),
    "domains": hmat((struct.pack("<BII", 48, 1, 2), 40)),
    "matrices of 0 by 0": hmat(matrix(0, 0)),
    "matrices of 1 by 1, set": hmat(matrix(1, 1, values(1, 1))),
    "matrices of 1 by 255, set": hmat(matrix(1, 255, values(1, 255))),
    "matrices of 255 by 255, unset": hmat(matrix(255, 255)),
    "matrices of 255 by 255 and one of 255 by 238, unset": lambda limit: recipe(2, [matrix(255, 238)], matrix(255, 255), limit),
    "matrices of 255 by 255, set in order": hmat(matrix(255, 255, values(255, 255))),
    "matrices of 255 by 255, set in reverse": hmat(matrix(255, 255, values(255, 255, -1))),
    "one cell, set over and over": settings(1, 1, CELL),
    "one initiator's value, set over and over": settings(1, 1, VALUE),
    "values and cells in turn": settings(1, 1, VALUE + CELL + TARGET + CELL),
    "a value and two cells in turn": settings(1, 1, VALUE + CELL + CELL),
    "values, at the end one with a bad index": refused(settings(1, 1, VALUE), struct.pack("<BBI", 50, 1, 9)),
    "wide matrices of 0 by 0": hmat(wide(0, 0)),
    "wide matrices of 1 by 1, set": hmat(wide(1, 1, values(1, 1, 1, 55))),
    "wide matrices of 0 by 256, unset": hmat(wide(0, 256)),
    "the largest wide matrices, up to 4,096 by 4,096, unset": wide_unset,
    "wide matrices of up to 600 by 600, set in order": wide_set(1),
    "wide matrices of up to 600 by 600, set in reverse": wide_set(-1),
    "the largest wide matrix, its first row set over and over": wide_row,
    "the largest wide matrix, its first column set over and over": wide_column,
    "one wide cell, set over and over": settings(1, 1, WIDE_CELL, wide),
    "one initiator's value of a wide matrix, set over and over": settings(1, 1, WIDE_VALUE, wide),
    "a wide value and two wide cells in turn": settings(1, 1, WIDE_VALUE + WIDE_CELL + WIDE_CELL, wide),
    "wide values, at the end one of the other width": refused(settings(1, 1, WIDE_VALUE + WIDE_TARGET, wide), VALUE),
    "side caches": hmat(side()),
    "side caches of one handle": hmat(side(1)),
    "side caches of 65,535 handles": hmat(side(65535)),
    "one side cache of 65,535 handles, at the end one too many": refused(lambda limit: head(2) + side(65535)[0], b"\x36\x01\x00"),
    "a CEDT's head alone": lambda limit: head(3),
    "bridges": cedt(bridge()),
    "windows of one way": cedt(window(0, 1)),
    "windows of 16 ways": cedt(window(4, 16)),
    "windows of 16 ways, at the end one without targets": lambda limit: cedt(window(4, 16))(limit - 100) + window(4, 0)[0],
    "maths without maps": cedt(maths()),
    "maths of 255 maps": cedt(maths(255)),
    "maths of 255 maps, at the end one too many": lambda limit: cedt(maths(255))(limit - 8) + maths(1)[0][2:],
}

# ---- tables


def table(sign, records, revision=None, sum_off=0):
    """The table of some records, with its sum; off by so much."""
    code = [b"PPTT", b"SRAT", b"HMAT", b"CEDT"].index(sign)
    front = [b"", struct.pack("<IQ", 1, 0), struct.pack("<I", 0), b""][code]
    out = bytearray(sign + bytes(32) + front + records)
    struct.pack_into("<IB", out, 4, len(out), [3, 3, 1, 1][code] if revision is None else revision)
    out[9] = (sum_off - sum(out)) % 256
    return bytes(out)


def repeated(sign, record, **more):
    def make(limit):
        left = limit - {b"PPTT": 36, b"SRAT": 48, b"HMAT": 40, b"CEDT": 36}[sign]
        return table(sign, record * (left // len(record)), **more)
    return make


def unknown(ty, length=2):
    return bytes([ty, length]) + bytes(length - 2)


def unknown_hmat(ty, length=8):
    return struct.pack("<HHI", ty, 0, length) + bytes(length - 8)


def unknown_cedt(ty):
    return struct.pack("<BBH", ty, 0, 4)


def processor_at(parent=0, caches=()):
    return struct.pack("<BBHIIII", 0, 20 + 4 * len(caches), 0, 2, parent, 7, len(caches)) + struct.pack("<%dI" % len(caches), *caches)


def cache_at(next_level=0):
    return struct.pack("<BBHIIIIBBHI", 1, 28, 0, 255, next_level, 1 << 15, 64, 8, 10, 64, 7)


def pptt(first, more, limit, last=b"", less=0, filled=False, **other):
    """The first records, then more(k) as long as there is room, short processors, and the last; so many bytes less than the limit.
    Filled up with an unknown record, if asked for: else with some bytes less than that."""
    out, left = [first], limit - less - 36 - len(first) - len(last)
    k = 0
    while True:
        record = more(k)
        if left < len(record):
            break
        out.append(record)
        left -= len(record)
        k += 1
    out.append(processor_at() * (left // 20))
    if filled and left % 20 > 1:
        out.append(unknown(9, left % 20))
    return table(b"PPTT", b"".join(out) + last, **other)


def referring(first, places, parent=0, **other):
    """Full processors that name these places in turn, behind some first records."""
    def record(k):
        return processor_at(parent, [places[(FULL * k + j) % len(places)] for j in range(FULL)])
    return lambda limit: pptt(first, record, limit, **other)


def short_front(end, **other):
    """Records of 2 bytes up to a place, the last two of which all that follow name: a type is enough, of the length nothing is asked."""
    caches = unknown(1) * ((end - 36) // 2 - 2)
    return referring(caches + unknown(0) + unknown(1), [end - 2], end - 4, filled=True, **other)


def both_ends(end):
    return referring(unknown(1) * ((end - 36) // 2), [36, end - 2], filled=True)


def short_jumps(end, count=4096):
    rng = random.Random(end)
    return referring(unknown(1) * ((end - 36) // 2), [36 + 2 * rng.randrange((end - 36) // 2) for _ in range(count)], filled=True)


def known_front(nodes):
    """Short processors, then a cache, as the target of all that follow."""
    place = 36 + 20 * nodes
    return referring(processor_at() * nodes + cache_at(), [place], place - 20)


def cache_front(nodes, numbers):
    return referring(cache_at() * nodes, [36 + 28 * k for k in numbers])


def chained(make, size, names):
    rng = random.Random(1)
    return lambda limit: pptt(b"", lambda k: make(36 + size * names(k, rng) if k else 0), limit)


def matrix_at(i, t, value=0, cell=65535):
    cells = struct.pack("<H", cell) * (i * t)
    start = struct.pack("<HHIBBBBIIIQ", 1, 0, 32 + 4 * (i + t) + 2 * i * t, 0, 1, 0, 0, i, t, 0, 100)
    return start + struct.pack("<I", value) * (i + t) + cells


def side_at(handles=0):
    return struct.pack("<HHIIIQIHH", 2, 0, 32 + 2 * handles, 1, 0, 1 << 30, 0, 0, handles) + b"\x01\x00" * handles


def window_at(code, ways):
    return struct.pack("<BBHIQQBBHIHH", 1, 0, 36 + 4 * ways, 0, 1 << 32, 1 << 28, code, 0, 0, 0, 4, 0) + struct.pack("<I", 7) * ways


def maths_at(maps=0):
    return struct.pack("<BBHHBB", 2, 0, 8 + 8 * maps, 0, 0, maps) + struct.pack("<Q", 5) * maps


def largest_at(value, cell):
    return lambda limit: table(b"HMAT", b"".join(matrix_at(i, t, value, cell) for i, t in largest(limit)))


def half(make):
    """A table whose first half is a front of 2-byte records."""
    return lambda limit: make(limit // 2)(limit)


BRIDGE = struct.pack("<BBHIIIQQ", 0, 0, 32, 1, 1, 0, 1 << 32, 0x10000)
RINTC = struct.pack("<BBHIIII", 7, 20, 0, 1, 2, 1, 3)
OLD_RINTC = struct.pack("<BBHIII", 7, 16, 0, 2, 1, 3)
MEMORY = struct.pack("<BBIHQQIIQ", 1, 40, 1, 0, 1 << 32, 1 << 32, 0, 7, 0)
PCI = struct.pack("<BBBBIHBB12xII", 5, 32, 0, 1, 1, 2, 3, 255, 3, 0)
ACPI = struct.pack("<BBBBIQI4xII", 5, 32, 0, 0, 1, 5, 6, 3, 0)
DOMAIN = struct.pack("<HHIHHII20x", 0, 0, 40, 1, 0, 1, 2)

TABLES = {
    "a PPTT without records": lambda limit: table(b"PPTT", b""),
    "an SRAT without records": lambda limit: table(b"SRAT", b""),
    "an HMAT without records": lambda limit: table(b"HMAT", b""),
    "a PPTT of one record": lambda limit: table(b"PPTT", processor_at()),
    "PPTT of 2-byte records of no known type": repeated(b"PPTT", unknown(2)),
    "PPTT of 2-byte records of a processor's type": repeated(b"PPTT", unknown(0)),
    "PPTT of 2-byte records of a cache's type": repeated(b"PPTT", unknown(1)),
    "PPTT of 2-byte records, at the end one past the table": lambda limit: table(b"PPTT", unknown(1) * ((limit - 38) // 2) + b"\x01\x05"),
    "PPTT of 2-byte records, the sum off by one": repeated(b"PPTT", unknown(1), sum_off=1),
    "PPTT of 2-byte records, at the end a processor whose parent is inside of one": lambda limit: table(b"PPTT", unknown(0) * ((limit - 56) // 2) + processor_at(limit - 23)),
    "PPTT of 2-byte records, then a parent where no mark is": lambda limit: table(b"PPTT", unknown(1) * 200000 + unknown(9, 255) * 100 + processor_at(36 + 400000 + 255 * 50 + 130)),
    "PPTT of short processors": repeated(b"PPTT", processor_at()),
    "PPTT of short processors, parent the first": chained(processor_at, 20, lambda k, rng: 0),
    "PPTT of short processors, parent the one before": chained(processor_at, 20, lambda k, rng: k - 1),
    "PPTT of short processors, parent at random": chained(processor_at, 20, lambda k, rng: rng.randrange(k)),
    "PPTT of caches, next level the one before": chained(cache_at, 28, lambda k, rng: k - 1),
    "PPTT of caches, next level at random": chained(cache_at, 28, lambda k, rng: rng.randrange(k)),
    "full processors, all naming a 2-byte record behind 500 bytes of such": short_front(512),
    "full processors, all naming a 2-byte record behind 1,000 bytes of such": short_front(1024),
    "full processors, all naming a 2-byte record behind 1,000 bytes of such, one byte less": short_front(1024, less=1),
    "full processors, all naming a 2-byte record behind 4,000 bytes of such": short_front(4096),
    "full processors, all naming a 2-byte record behind 65,000 bytes of such": short_front(65536),
    "full processors, all naming a 2-byte record behind 500,000 bytes of such": short_front(524288),
    "full processors, naming both ends of 65,000 bytes of 2-byte records": both_ends(65536),
    "full processors, naming both ends of 500,000 bytes of 2-byte records": both_ends(524288),
    "full processors, naming 2-byte records at random, in 65,000 bytes": short_jumps(65536),
    "full processors, naming 2-byte records at random, in 500,000 bytes": short_jumps(524288),
    "full processors, all naming a 2-byte record behind half a table of such": half(short_front),
    "full processors, naming both ends of half a table of 2-byte records": half(both_ends),
    "full processors, naming 2-byte records at random, in half a table": half(short_jumps),
    "full processors, all naming the first cache": referring(cache_at(), [36]),
    "full processors, all naming the cache behind 22 short processors": known_front(22),
    "full processors, all naming the cache behind 48 short processors": known_front(48),
    "full processors, all naming the cache behind 200 short processors": known_front(200),
    "full processors, all naming the cache behind 3,000 short processors": known_front(3000),
    "full processors, all naming the cache behind 26,000 short processors": known_front(26000),
    "full processors, naming 2,000 caches at random": cache_front(2000, [k - 1 for k in jumps(2000)]),
    "full processors, naming 16,000 caches at random": cache_front(16000, [k - 1 for k in jumps(16000)]),
    "full processors, naming both ends of 16,000 caches in turn": cache_front(16000, [0, 15999]),
    "full processors over 2-byte records, at the end a bad place": short_front(1024, last=processor_at(1023)),
    "full processors over 2-byte records, at the end one with a bad count": short_front(1024, last=processor_at()[:16] + b"\x01\x00\x00\x00"),
    "full processors over short ones, at the end an unknown record": referring(processor_at() * 48 + cache_at(), [36 + 960], 36 + 940, last=unknown(9)),
    "full processors over 2-byte records, revision 4": short_front(1024, revision=4),
    "SRAT of 2-byte records": repeated(b"SRAT", unknown(7)),
    "SRAT of RINTC of 16 bytes": repeated(b"SRAT", OLD_RINTC),
    "SRAT of RINTC of 16 bytes, at the end an unknown record": lambda limit: table(b"SRAT", OLD_RINTC * ((limit - 50) // 16) + unknown(9)),
    "SRAT of RINTC of 20 bytes": repeated(b"SRAT", RINTC),
    "SRAT of RINTC of 20 bytes, at the end one of 16": lambda limit: table(b"SRAT", RINTC * ((limit - 64) // 20) + OLD_RINTC),
    "SRAT of memory ranges": repeated(b"SRAT", MEMORY),
    "SRAT of PCI initiators": repeated(b"SRAT", PCI),
    "SRAT of ACPI initiators": repeated(b"SRAT", ACPI),
    "HMAT of 8-byte records": repeated(b"HMAT", unknown_hmat(9)),
    "HMAT of 8-byte records of a matrix's type": repeated(b"HMAT", unknown_hmat(1)),
    "HMAT of domains": repeated(b"HMAT", DOMAIN),
    "HMAT of matrices of 0 by 0": repeated(b"HMAT", matrix_at(0, 0)),
    "HMAT of matrices of 1 by 1, set": repeated(b"HMAT", matrix_at(1, 1, 5, 5)),
    "HMAT of matrices of 255 by 255, unset": repeated(b"HMAT", matrix_at(255, 255)),
    "HMAT of matrices of 255 by 255, set": repeated(b"HMAT", matrix_at(255, 255, 5, 5)),
    "HMAT of matrices of 0 by 256, unset": repeated(b"HMAT", matrix_at(0, 256)),
    "HMAT of matrices of 1 by 256, set": repeated(b"HMAT", matrix_at(1, 256, 5, 5)),
    "HMAT of the largest matrices, up to 4,096 by 4,096, unset": largest_at(0, 65535),
    "HMAT of the largest matrices, up to 4,096 by 4,096, set": largest_at(5, 5),
    "HMAT of side caches": repeated(b"HMAT", side_at()),
    "HMAT of side caches of 65,535 handles": repeated(b"HMAT", side_at(65535)),
    "HMAT of 8-byte records, at the end a cut one": lambda limit: table(b"HMAT", unknown_hmat(9) * ((limit - 48) // 8) + b"\x00" * 7),
    "a CEDT without records": lambda limit: table(b"CEDT", b""),
    "CEDT of 4-byte records": repeated(b"CEDT", unknown_cedt(3)),
    "CEDT of 4-byte records of a window's type": repeated(b"CEDT", unknown_cedt(1)),
    "CEDT of bridges": repeated(b"CEDT", BRIDGE),
    "CEDT of windows of one way": repeated(b"CEDT", window_at(0, 1)),
    "CEDT of windows of 16 ways": repeated(b"CEDT", window_at(4, 16)),
    "CEDT of maths without maps": repeated(b"CEDT", maths_at()),
    "CEDT of maths of 255 maps": repeated(b"CEDT", maths_at(255)),
}

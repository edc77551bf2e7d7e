"""Seeded generators of recipes and tables, good and damaged."""
import itertools
import random
from model import *

CREATOR = b'RVAT' + bytes([0, 0, 0, 1])  # the creator fields of the crate acpi_tables
KINDS = {0: (16, 17, 18), 1: (32, 33, 34, 36), 2: (48, 49, 50, 51, 52, 53, 54, 55, 56, 57, 58), 3: (64, 65, 66, 67, 68)}
TABLES = [0, 0, 1, 1, 2, 2, 3, 3]  # how often each is drawn
CELLS = (52, 58)
# It was the limit of a table once, and about so long are the longest PPTTs, SRATs and CEDTs here: their recipes are nearly as long as they
# are. What passes the limit in these is tried by the library's tests; here matrices alone do, whose recipes are short.
OLD_LIMIT = 1 << 20


def num(R, k):
    """a number of k bytes, edges often"""
    m = 256 ** k - 1
    c = R.random()
    if c < .25:
        return 0
    if c < .35:
        return m
    if c < .55:
        return R.randrange(min(m, 8) + 1)
    if c < .65:
        return 1 << R.randrange(8 * k)
    return R.randrange(m + 1)


def head(R, t):
    c = R.random()
    rest = bytes(26) if c < .3 else bytes(R.randrange(256) for _ in range(26))
    return bytes([1, t]) + rest


def g_proc(R, ref):
    return bytes([16]) + by(num(R, 4), 4) + by(ref, 4) + by(num(R, 4), 4)


def g_res(R, ref):
    return bytes([17]) + by(ref, 4)


def g_cache(R, ref):
    flags = R.choice([0, 255, R.randrange(256), R.randrange(256), 1 << R.randrange(8), 255 ^ (1 << R.randrange(8))])
    v = [num(R, 4), num(R, 4), num(R, 1), R.randrange(3), R.randrange(3), R.randrange(2), num(R, 2), num(R, 4)]
    v = [x if flags >> i & 1 else 0 for i, x in enumerate(v)]
    return (bytes([18, flags]) + by(ref, 4) + by(v[0], 4) + by(v[1], 4) + bytes([v[2], v[3] | v[4] << 2 | v[5] << 4])
            + by(v[6], 2) + by(v[7], 4))


def g_srat(R, k):
    if k == 32:
        return bytes([32]) + by(num(R, 4), 4) + by(num(R, 8), 8) + by(num(R, 8), 8) + bytes([R.randrange(8)])
    if k == 33:
        return bytes([33]) + by(num(R, 4), 4) + by(num(R, 8), 8) + by(num(R, 4), 4) + bytes([R.randrange(4)])
    if k == 34:
        return (bytes([34]) + by(num(R, 4), 4) + by(num(R, 2), 2)
                + bytes([R.randrange(256), R.choice([0, 31, R.randrange(32)]), R.choice([0, 7, R.randrange(8)]), R.randrange(4)]))
    rest = by(num(R, 4), 4) + bytes([R.randrange(2)]) + by(num(R, 4), 4)
    # of the domain R knows nothing: a seed draws what it drew before RINTCs had one, and stored samples stay
    return bytes([36]) + by(num(random.Random(rest), 4), 4) + rest


def g_retired(R):
    """a record of the kind that is retired: whole, cut, with a bad flag"""
    record = bytes([35]) + by(num(R, 4), 4) + bytes([R.choice([0, 1, 1, 2, 255])]) + by(num(R, 4), 4)
    return record[:R.choice([10, 10, 10, 1, R.randrange(1, 10)])]


def counted(kind, I, T):
    """the counts of a matrix of kind 49 or 55 as it has them"""
    return by(I, WIDTH[kind]) + by(T, WIDTH[kind])


def setting(kind, indices, value):
    """what sets the place of these indices: of a value there is one, of a cell there are two"""
    return bytes([kind]) + b''.join(by(i, WIDTH[kind]) for i in indices) + by(value, 2 if kind in CELLS else 4)


def g_matrix(R, I, T, kind=49):
    return bytes([kind, R.randrange(256) & 0x33, R.randrange(6), R.randrange(12)]) + by(num(R, 8), 8) + counted(kind, I, T)


def index(R, count):
    """below the count; where that is above what a byte holds, the edges often"""
    return R.randrange(count) if count <= 255 else R.choice([0, 254, 255, 256 % count, count - 1, R.randrange(count)])


def g_setting(R, I, T, kind=49):
    """of a matrix of this kind"""
    opts = [1] * (I > 0) + [2] * (T > 0) + [3, 3, 3] * (I > 0 and T > 0)
    if not opts:
        return None
    sort = R.choice(opts)
    if sort < 3:
        return setting(kind + sort, [index(R, (I, T)[sort - 1])], num(R, 4))
    v = R.choice([0xFFFF, 0, 0xFF, 0xFF00, R.randrange(65536), R.randrange(65536)])
    return setting(kind + 3, [index(R, I), index(R, T)], v)


def set_again(R, last, other):
    """the place of the last setting, with the value of another or unset"""
    wide = 2 if last[0] in CELLS else 4
    value = other[-wide:]
    if R.random() < .3:
        value = b'\xff\xff' if wide == 2 else bytes(4)
    return last[:-wide] + value


def g_counts(R, kind):
    """those of a matrix; of kind 55 sometimes one above 255, and the other so small that the table is short"""
    I, T = R.choice([0, 1, 2, 3, 4, 5]), R.choice([0, 1, 2, 3, 4, 5])
    if R.random() < .05:
        I, T = R.choice([(0, 7), (9, 0), (12, 1), (1, 12)])
    if kind == 55 and R.random() < .5:
        I, T = R.choice([(255, 1), (1, 255), (256, 0), (0, 256), (256, 1), (1, 256), (257, 1), (1, 257), (300, 2), (2, 300), (600, 0), (0, 4096)])
    return I, T


def matrix_records(R, kind):
    """a matrix, and settings, some of which set a place again"""
    I, T = g_counts(R, kind)
    out = [g_matrix(R, I, T, kind)]
    for _ in range(R.choice([0, 0, 1, 2, 4, 8])):
        s = g_setting(R, I, T, kind)
        if s is None:
            break
        if len(out) > 1 and R.random() < .25:
            s = set_again(R, out[-1], s)
        out.append(s)
    return out


def g_side(R):
    a = R.randrange(4) | R.randrange(4) << 4 | R.randrange(3) << 8 | R.randrange(3) << 12 | num(R, 2) << 16
    return bytes([53]) + by(num(R, 4), 4) + by(num(R, 8), 8) + by(a, 4)


def g_bridge(R):
    return bytes([64]) + by(num(R, 4), 4) + bytes([R.randrange(2)]) + by(num(R, 8), 8)


def g_window(R, code, restrictions=None):
    restrictions = R.randrange(32) if restrictions is None else restrictions
    return (bytes([65]) + by(num(R, 8), 8) + by(num(R, 8), 8) + bytes([code, R.randrange(2), R.randrange(7), restrictions])
            + by(num(R, 2), 2))


def g_target(R):
    return bytes([66]) + by(num(R, 4), 4)


def g_targets(R, n):
    return b''.join(g_target(R) for _ in range(n))


def g_maths(R):
    return bytes([67, R.randrange(7)])


def g_map(R):
    return bytes([68]) + by(num(R, 8), 8)


def g_cedt(R, k):
    return {64: g_bridge, 65: lambda R: g_window(R, R.choice(list(WAYS))), 66: g_target, 67: g_maths, 68: g_map}[k](R)


def cedt_records(R, size):
    """the records of a CEDT, all good; every second time without what the crate writes otherwise, bridges and type 3 memory"""
    out, as_crate = [], R.random() < .5
    for _ in range(size):
        k = R.choice([65, 67] if as_crate else [64, 65, 65, 67])
        if k == 64:
            out.append(g_bridge(R))
        elif k == 65:
            code = R.choice([0, 0, 0, 1, 1, 2, 3, 4, 8, 8, 9, 10])
            out.append(g_window(R, code, R.randrange(32) & ~2 if as_crate else None))
            out += [g_target(R) for _ in range(WAYS[code])]
        else:
            out.append(g_maths(R))
            out += [g_map(R) for _ in range(R.choice([0, 0, 1, 2, 3, 6]))]
    return out


def hmat_records(R, size):
    """the records of an HMAT, all good"""
    out = []
    for _ in range(size):
        k = R.choice([48, 49, 49, 53, 55, 55])
        if k == 48:
            out.append(bytes([48]) + by(num(R, 4), 4) + by(num(R, 4), 4))
        elif k == 53:
            out.append(g_side(R))
            for _ in range(R.choice([0, 0, 1, 2, 3, 6])):
                out.append(bytes([54]) + by(num(R, 2), 2))
        else:
            out += matrix_records(R, k)
    return out


def good_records(R, t, size):
    """a list of records (after the head), all good; about `size` nodes"""
    if t == 3:
        return cedt_records(R, size)
    if t == 2:
        return hmat_records(R, size)
    out = []
    if t == 0:
        kinds = []
        while len(kinds) < size:
            own = len(kinds) + 1
            procs = [i + 1 for i, k in enumerate(kinds) if k == 16]
            caches = [i + 1 for i, k in enumerate(kinds) if k == 18]
            if R.random() < .5:
                out.append(g_cache(R, R.choice([0] + caches[-3:] + caches[:2])))
                kinds.append(18)
            else:
                out.append(g_proc(R, R.choice([0] + procs[-3:] + procs[:2])))
                if caches:
                    for _ in range(R.choice([0, 0, 1, 1, 2, 3, 5])):
                        out.append(g_res(R, R.choice(caches)))
                kinds.append(16)
    else:
        for _ in range(size):
            out.append(g_srat(R, R.choice(KINDS[1])))
    return out


def node_size(R):
    return R.choice([0, 1, 1, 2, 2, 3, 3, 4, 5, 6, 8])


def good_recipe(R, t=None, size=None):
    t = R.randrange(4) if t is None else t
    return head(R, t) + b''.join(good_records(R, t, node_size(R) if size is None else size))


def small_pptts(left, nodes):
    """the records of every PPTT of at most so many records, behind so many nodes, with every reference up to the own ordinal"""
    yield b''
    if left == 0:
        return
    for ref in range(nodes + 1):
        for record, more in ((bytes([16]) + by(nodes, 4) + by(ref, 4) + by(7, 4), 1), (bytes([17]) + by(ref, 4), 0),
                             (bytes([18, 0]) + by(ref, 4) + bytes(16), 1)):
            for rest in small_pptts(left - 1, nodes + more):
                yield record + rest


def small_caches():
    """a cache with every set of flags, and every attribute that the flags allow"""
    for flags in range(256):
        v = [x if flags >> i & 1 else 0 for i, x in enumerate((1 << 20, 64, 16, 2, 2, 1, 64, 9))]
        for a, k, w in ((a, k, w) for a in range(v[3] + 1) for k in range(v[4] + 1) for w in range(v[5] + 1)):
            yield bytes([18, flags]) + bytes(4) + by(v[0], 4) + by(v[1], 4) + bytes([v[2], a | k << 2 | w << 4]) + by(v[6], 2) + by(v[7], 4)


def small_rintc(domain=1, uid=2, flags=1, clock=3):
    return bytes([36]) + by(domain, 4) + by(uid, 4) + bytes([flags]) + by(clock, 4)


def small_srats():
    """each record with every value of its small fields; every SRAT of up to three records"""
    for flags in range(8):
        yield bytes([32]) + by(1, 4) + by(2, 8) + by(3, 8) + bytes([flags])
    for flags in range(4):
        yield bytes([33]) + by(1, 4) + b'HIDHIDHI' + b'UID0' + bytes([flags])
        for device in range(32):
            for function in range(8):
                yield bytes([34]) + by(1, 4) + by(258, 2) + bytes([3, device, function, flags])
    for flags in range(2):
        yield small_rintc(0x01020304, 0x05060708, flags, 0x090a0b0c)
    records = [bytes([32]) + by(1, 4) + by(2, 8) + by(3, 8) + bytes([7]), bytes([33]) + by(4, 4) + b'HIDHIDHI' + b'UID0' + bytes([3]), small_rintc(5)]
    for n in range(4):
        yield from map(b''.join, itertools.product(records, repeat=n))


def small_matrix(I, T, kind=49, flags=0, data=1, size=0):
    return bytes([kind, flags, data, size]) + by(1000, 8) + counted(kind, I, T)


def small_matrices(kind):
    """a matrix with every value of its small fields, and every cell of the square ones up to 3 by 3 set, alone and after another"""
    for fields in itertools.product((f for f in range(64) if f & 0x0C == 0), range(6), range(12)):
        yield small_matrix(1, 1, kind, *fields)
    for n in range(1, 4):
        matrix = small_matrix(n, n, kind)
        cells = [setting(kind + 3, [i, t], 100 * i + t) for i in range(n) for t in range(n)]
        values = [setting(kind + side, [i], 77 + i) for side in (1, 2) for i in range(n)]
        for one in cells + values:
            yield matrix + one
            for other in cells + values:
                yield matrix + one + other


def small_hmats():
    """a domain; matrices of both widths; side caches"""
    yield bytes([48]) + by(1, 4) + by(2, 4)
    yield from small_matrices(49)
    yield from small_matrices(55)
    for levels, level, ways, policy in ((a, b, c, d) for a in range(4) for b in range(4) for c in range(3) for d in range(3)):
        side = bytes([53]) + by(1, 4) + by(1 << 33, 8) + by(levels | level << 4 | ways << 8 | policy << 12 | 64 << 16, 4)
        for n in range(3):
            yield side + b''.join(bytes([54]) + by(4096 + h, 2) for h in range(n))


def small_window(code, *fields):
    """a window of arithmetic, granularity and restrictions, 0 where not given, with its targets"""
    window = bytes([65]) + by(1 << 32, 8) + by(1 << 28, 8) + bytes([code, *fields]).ljust(4, b'\0') + by(5, 2)
    return window + b''.join(bytes([66]) + by(7 + i, 4) for i in range(WAYS[code]))


def small_cedts():
    """every CEDT of up to four records, the windows of which have one way or two; every value of the small fields; many maps"""
    bridges = [bytes([64]) + by(9, 4) + bytes([version]) + by(1 << 40, 8) for version in (0, 1)]
    windows = [small_window(code)[:23] for code in (0, 1)]
    maths, xor_map = bytes([67, 1]), bytes([68]) + by(0x2121, 8)
    for n in range(5):
        yield from map(b''.join, itertools.product([bridges[0], *windows, bytes([66]) + by(7, 4), maths, xor_map], repeat=n))
    yield bridges[1]
    for fields in itertools.product((0, 1), range(7), range(32)):
        yield small_window(0, *fields)
    for code in WAYS:
        yield small_window(code) + small_window(code, 1, 6, 0x1D)
    for granularity in range(7):
        for n in (0, 1, 2, 254, 255, 256):
            yield bytes([67, granularity]) + xor_map * n


def small():
    """every small recipe, with the crate's creator fields"""
    for t, records in ((0, small_pptts(4, 0)), (0, small_caches()), (1, small_srats()), (2, small_hmats()), (3, small_cedts())):
        for r in records:
            yield bytes([1, t]) + b'OEMOEMTABLETAB' + by(1, 4) + CREATOR + r


def largest():
    """recipes as long as the program calls takes them, or with tables as long as it gives them, with the crate's creator fields: tables of
    nearly 1,048,576 bytes, 58 resources, 65,535 handles; of windows just as many bytes, and as many full maths as it takes; matrices of
    600 by 600, of which every third cell is set, and of 4,096 by 127"""
    cache, memory = bytes([18, 0]) + bytes(20), bytes([32]) + by(5, 4) + by(6, 8) + by(7, 8) + bytes([3])
    matrix = bytes([49, 0, 0, 0]) + by(1, 8) + bytes([255, 255])
    cells = b''.join(bytes([52, c // 255, c % 255]) + by(c, 2) for c in range(255 * 255))
    wide, thirds = small_matrix(600, 600, 55), b''.join(setting(58, [c // 600, c % 600], c % 65536) for c in range(0, 360000, 3))
    for t, records in ((0, (bytes([16]) + by(1, 4) + by(0, 4) + by(2, 4)) * 52427), (0, (cache + bytes([16]) + bytes(12) + bytes([17, 1, 0, 0, 0]) * 58)),
                       (0, bytes([16]) + bytes(12) + (bytes([16]) + by(9, 4) + by(1, 4) + by(3, 4)) * 52426), (1, memory * 26213),
                       (1, small_rintc() * 52426),
                       (2, matrix + cells), (2, matrix * 7), (2, wide), (2, wide + thirds), (2, small_matrix(4096, 127, 55)),
                       (2, bytes([53]) + bytes(16) + bytes([54, 1, 2]) * 65535), (2, (bytes([48]) + by(1, 4) + by(2, 4)) * 26213),
                       (3, small_window(4) * 10485 + small_window(0)), (3, (bytes([67, 1]) + (bytes([68]) + by(3, 8)) * 255) * 485)):
        yield bytes([1, t]) + b'OEMOEMTABLETAB' + by(1, 4) + CREATOR + records


def rand_record(R, t):
    """one record of table t, by itself, fields good if they can be"""
    k = R.choice(KINDS[t])
    if k == 16:
        return g_proc(R, R.choice([0, 1, 2, 3]))
    if k == 17:
        return g_res(R, R.choice([0, 1, 2, 3]))
    if k == 18:
        return g_cache(R, R.choice([0, 0, 1, 2]))
    if t == 1:
        return g_srat(R, k)
    if t == 3:
        return g_cedt(R, k)
    if k == 48:
        return bytes([48]) + by(num(R, 4), 4) + by(num(R, 4), 4)
    if k in (49, 55):
        return g_matrix(R, R.randrange(4), R.randrange(4), k)
    if k in CELLS:
        return setting(k, [R.randrange(3), R.randrange(3)], num(R, 2))
    if k in WIDTH:
        return setting(k, [R.randrange(3)], num(R, 4))
    if k == 53:
        return g_side(R)
    return bytes([54]) + by(num(R, 2), 2)


def or_one(at, *values):
    """ways to make the field at this byte bad: a bit or two more"""
    return [((at, 0, v),) for v in values]


def set_one(at, *values):
    """ways to make the field at this byte bad: another value"""
    return [((at, 255, v),) for v in values]


def set_two(at, *values):
    """ways to make the field of two bytes bad that begins at this one: another value"""
    return [((at, 255, v % 256), (at + 1, 255, v // 256)) for v in values]


def not_given(bit, at, width):
    """ways to make a cache's field bad: a byte of it that is not 0, and its flag off"""
    return [((1, bit, 0), (at + i, 0, v)) for v in (1, 128) for i in range(width)]


# kind: for each of its fields that have a rule, in body order, the ways to make it bad: bytes of the record, bits off, bits on
SPOILS = {
    1: [set_one(1, 4, 5, 128, 255)],
    18: [not_given(1, 6, 4), not_given(2, 10, 4), not_given(4, 14, 1),
         or_one(15, 32, 64, 128)                                            # the rest 0
         + [((1, 0, 8), (15, 0, 3)), ((1, 8, 0), (15, 3, 1)), ((1, 8, 0), (15, 3, 2))]          # allocation
         + [((1, 0, 16), (15, 0, 12)), ((1, 16, 0), (15, 12, 4)), ((1, 16, 0), (15, 12, 8))]    # type
         + [((1, 32, 0), (15, 0, 16))],                                     # policy
         not_given(64, 16, 2), not_given(128, 18, 4)],
    32: [or_one(21, 8, 16, 32, 64, 128)],
    33: [or_one(17, 4, 8, 16, 32, 64, 128)],
    34: [or_one(8, 32, 64, 128), or_one(9, 8, 16, 32, 64, 128), or_one(10, 4, 8, 16, 32, 64, 128)],
    36: [or_one(9, 2, 4, 8, 16, 32, 64, 128)],
    49: [or_one(1, 4, 8, 64, 128), set_one(2, 6, 7, 8, 255), set_one(3, 12, 13, 16, 255)],
    50: [set_one(1, 2, 3, 4, 5, 6, 255)],
    51: [set_one(1, 3, 2, 4, 5, 6, 255)],
    52: [set_one(1, 2, 3, 4, 5, 6, 255), set_one(2, 3, 2, 4, 5, 6, 255)],
    53: [or_one(13, 4, 8, 64, 128) + or_one(14, 3, 4, 8, 48, 64, 128)],     # both levels, associativity and policy
    55: [or_one(1, 4, 8, 64, 128), set_one(2, 6, 7, 8, 255), set_one(3, 12, 13, 16, 255),
         set_two(12, 4097, 65535, 4098, 4352, 8192, 32768), set_two(14, 4097, 65535, 4098, 4352, 8192, 32768)],
    56: [set_two(1, 2, 3, 255, 256, 257, 258, 65535)],
    57: [set_two(1, 3, 4, 255, 256, 257, 258, 65535)],
    58: [set_two(1, 2, 3, 255, 256, 257, 258, 65535), set_two(3, 3, 4, 255, 256, 257, 258, 65535)],
    64: [set_one(5, 2, 3, 128, 255)],
    65: [set_one(17, *(code for code in range(256) if code not in WAYS)), set_one(18, 2, 3, 128, 255), set_one(19, 7, 8, 128, 255),
         or_one(20, 32, 64, 128)],
    67: [set_one(1, 7, 8, 128, 255)],
}


def spoiled(rec, ways):
    b = bytearray(rec)
    for way in ways:
        for at, off, on in way:
            b[at] = b[at] & ~off | on
    return bytes(b)


def spoil_field(R, rec):
    """a record with one to three fields outside their rules, if the kind has such"""
    if not rec or len(rec) != 1 + BODY.get(rec[0], -1) or rec[0] not in SPOILS:
        return rec
    if rec[0] == 18 and R.random() < .2:      # other flags for the fields that there are
        return rec[:1] + bytes([R.choice([0, R.randrange(256)])]) + rec[2:]
    fields = SPOILS[rec[0]]
    return spoiled(rec, [R.choice(ways) for ways in R.sample(fields, min(len(fields), R.choice([1, 1, 2, 3])))])


REF = {16: 5, 17: 1, 18: 2}         # where a record's reference stands
NAMED = {16: 16, 17: 18, 18: 18}   # the kind that it names


def with_ref(rec, ref):
    at = REF[rec[0]]
    return rec[:at] + by(ref, 4) + rec[at + 4:]


def spoil_ref(R, rec, own, kinds):
    """a record with another reference; own is its ordinal, kinds those of all nodes"""
    if not rec or rec[0] not in REF:
        return rec
    others = [n + 1 for n, k in enumerate(kinds[:max(own - 1, 0)]) if k != NAMED[rec[0]]]
    if others and R.random() < .5:
        return with_ref(rec, R.choice(others))
    return with_ref(rec, R.choice([own, own + 1, max(own - 1, 0), max(own - 2, 0), len(kinds), 0, 1, 2, 3, own + 256, 256, 1 << 24,
                                   0xFFFFFFFF, 65536 + 1]))


def node_kinds(recs):
    return [r[0] for r in recs if r and r[0] in (16, 18)]


def ordinals(recs):
    out, c = [], 0
    for r in recs:
        if r and r[0] in (16, 18):
            c += 1
        out.append(c)
    return out


def spoil_window(R, recs):
    """another number of ways for a window, or another record among its targets; recs is changed"""
    windows = [i for i, r in enumerate(recs) if len(r) == 23 and r[0] == 65]
    if not windows:
        return
    i = R.choice(windows)
    if R.random() < .4:
        recs[i] = spoiled(recs[i], set_one(17, R.choice(list(WAYS))))
    else:
        other = rand_record(R, 3)
        recs.insert(i + R.randrange(1, 4), R.choice([other, other, spoil_field(R, other), other[:-1], g_target(R), g_target(R)[:3],
                                                    bytes([R.choice([0, 63, 69, 200])]), head(R, 3)]))


def other_width(rec):
    """a matrix with its counts, or a setting with its indices, in two bytes each where it was one; or in one, cut to what a byte holds"""
    kind = rec[0] + 6 if rec[0] < 55 else rec[0] - 6
    at, n = (12, 2) if kind in (49, 55) else (1, 2 if kind in CELLS else 1)
    old, new = WIDTH[rec[0]], WIDTH[kind]
    numbers = [le(rec[at + old * i:at + old * (i + 1)]) for i in range(n)]
    return bytes([kind]) + rec[1:at] + b''.join(by(v % 256 ** new, new) for v in numbers) + rec[at + old * n:]


def spoil_width(R, recs):
    """a matrix or a setting in the other width, all from one on, all settings, or all that there are; recs is changed"""
    ours = [i for i, r in enumerate(recs) if r and r[0] in WIDTH and len(r) == 1 + BODY[r[0]]]
    if not ours:
        return
    one = R.choice(ours)
    for i in R.choice([[one], [one], [i for i in ours if i >= one], [i for i in ours if recs[i][0] not in (49, 55)], ours]):
        recs[i] = other_width(recs[i])


def joining(R, k):
    """a record of a kind that joins a node"""
    if k == 17:
        return g_res(R, R.choice([0, 1, 2]))
    if k == 54:
        return bytes([54]) + by(num(R, 2), 2)
    if k in WIDTH:
        return setting(k, [0, 0] if k in CELLS else [0], num(R, 2))
    return g_cedt(R, k)


def damage_recipe(R, t, h, recs):
    """one damage on the head and the list of records; gives (h, recs) or bytes"""
    recs = list(recs)
    c = R.randrange(20)
    i = R.randrange(len(recs)) if recs else 0
    if c == 0:      # any byte of a record
        if recs:
            b = bytearray(recs[i])
            b[R.randrange(len(b))] = R.choice([0, 255, 1, R.randrange(256)])
            recs[i] = bytes(b)
    elif c == 1:    # cut
        whole = h + b''.join(recs)
        return whole[:R.choice([R.randrange(len(whole) + 1), max(len(whole) - R.randrange(1, 6), 0), R.randrange(28, len(whole) + 1)])]
    elif c == 2:    # a kind of another table
        recs.insert(R.randrange(len(recs) + 1), rand_record(R, R.choice([x for x in KINDS if x != t])))
    elif c == 3:    # unknown kinds, the edges of the ranges
        k = R.choice([0, 2, 15, 19, 20, 31, 35, 37, 47, 59, 60, 63, 64, 68, 69, 80, 96, 255, 128 + 16, R.randrange(256)])
        recs.insert(R.randrange(len(recs) + 1), bytes([k]) + bytes(R.randrange(0, 24)))
    elif c == 4:    # second head, whole or cut
        recs.insert(R.randrange(len(recs) + 1), head(R, R.randrange(5))[:R.choice([28, 28, 1, 5])])
    elif c in (5, 6):   # misplaced joined record
        joined = [k for k in KINDS[t] if k in BEHIND]
        if joined:
            recs.insert(R.randrange(len(recs) + 1), joining(R, R.choice(joined)))
        elif len(recs) > 1:
            j = R.randrange(len(recs))
            recs[i], recs[j] = recs[j], recs[i]
    elif c in (7, 8, 9):   # a field
        if recs:
            recs[i] = spoil_field(R, recs[i])
    elif c in (10, 11, 12) and t == 3:     # the ways of a window
        spoil_window(R, recs)
    elif c in (10, 11, 12) and t == 2:     # the width of counts and indices
        spoil_width(R, recs)
    elif c in (10, 11, 12) and t == 1:     # the kind that is retired
        recs.insert(R.randrange(len(recs) + 1), g_retired(R))
    elif c in (10, 11, 12):  # a reference
        if recs:
            withref = [j for j, r in enumerate(recs) if r and r[0] in (16, 17, 18)]
            if withref:
                i = R.choice(withref)
            recs[i] = spoil_ref(R, recs[i], ordinals(recs)[i], node_kinds(recs))
    elif c == 13:   # table code, or the first byte
        if R.random() < .6:
            h = h[:1] + bytes([R.choice([4, 5, 255, 128, (t + 1) % 4])]) + h[2:]
        else:
            h = bytes([R.choice([0, 2, 16, 17, 48, 255, 32])]) + h[1:]
    elif c == 14 and len(recs) > 1:   # swap
        j = R.randrange(len(recs))
        recs[i], recs[j] = recs[j], recs[i]
    elif c == 15 and recs:            # drop one
        del recs[i]
    elif c == 16 and recs:            # once more
        recs.insert(i, recs[i])
    elif c == 17:
        return h[:R.randrange(29)]
    elif c == 18:                     # fields and reference of one cache
        caches = [j for j, r in enumerate(recs) if r and r[0] == 18]
        if caches:
            i = R.choice(caches)
            recs[i] = spoil_ref(R, spoil_field(R, recs[i]), ordinals(recs)[i], node_kinds(recs))
    else:
        whole = bytearray(h + b''.join(recs))
        for _ in range(R.choice([1, 1, 2, 3])):
            whole[R.randrange(len(whole))] = R.randrange(256)
        return bytes(whole)
    return h, recs


def full_recipe(R, n):
    """n resources on one processor, perhaps with things before and after"""
    before = [g_cache(R, 0)] + R.choice([[], [g_cache(R, 1)], [g_proc(R, 0)], [g_proc(R, 0), g_cache(R, 1)]])
    own = len(before) + 1
    r = head(R, 0) + b''.join(before) + g_proc(R, 0)
    for j in range(n):
        r += g_res(R, 1)
    if R.random() < .5:     # one more, of which the reference may be bad too; or another record, good or bad
        r += R.choice([g_res(R, ref) for ref in (0, 1, 2, 2, own, own + 1, 9)]
                      + [g_proc(R, 0), g_proc(R, 1), g_cache(R, 1), g_cache(R, own), spoil_field(R, g_cache(R, own)), b'\x11\x01'])
        if R.random() < .3:
            r += R.choice([g_cache(R, 0), g_res(R, 1), g_res(R, 0)])
    return r


def full_cedt(R):
    """as many targets on a window as it has ways, or as many maps on maths as are counted; one less and more, and other records behind"""
    if R.random() < .6:
        code = R.choice(list(WAYS))
        node = g_window(R, code) + g_targets(R, WAYS[code] + R.choice([-1, 0, 0, 1]))
    else:
        node = g_maths(R) + g_map(R) * R.choice([254, 255, 255, 256])
    other = rand_record(R, 3)
    behind = R.choice([b'', b'', g_target(R), g_target(R)[:4], g_map(R), g_map(R)[:5], other, spoil_field(R, other), other[:-1],
                       bytes([R.randrange(256)]), head(R, 3)])
    return head(R, 3) + R.choice([b'', g_bridge(R), g_maths(R), g_window(R, 0) + g_target(R)]) + node + behind


def cedt_below(left, h=bytes([1, 3]) + bytes(26)):
    """a CEDT so many bytes below the old limit, a multiple of 4: of bridges, maths without maps and perhaps a window of two ways"""
    fill, window = OLD_LIMIT - FRONT[3] - left, b''
    if fill % 8:
        fill, window = fill - 44, small_window(1)
    return h + window + (bytes([64]) + bytes(13)) * (fill // 32) + bytes([67, 0]) * (fill % 32 // 8)


def long_cedt(R):
    """a CEDT that comes to the old limit with some of the records behind it, which are of every sort"""
    code, left = R.choice(list(WAYS)), R.choice([0, 4, 8, 28, 32, 36, 40, 44, 96, 100])
    window = g_window(R, code)
    return cedt_below(left, head(R, 3)) + R.choice([
        b'', g_bridge(R), g_maths(R), g_map(R), g_target(R), window, window + g_targets(R, WAYS[code]), spoil_field(R, window),
        window + g_targets(R, WAYS[code] + 1), window + g_target(R)[:2], window + g_bridge(R), g_maths(R) + g_map(R) * 3])


def handles_recipe(R):
    """as many handles on one side cache as its count holds, and one more"""
    n = R.choice([65534, 65535, 65535, 65536, 65536])
    return head(R, 2) + g_side(R) + (bytes([54]) + by(num(R, 2), 2)) * n + R.choice([b'', b'', bytes([48]) + bytes(8), b'\x36'])


def matrix_size(I, T):
    """how long it is in a table"""
    return 32 + 4 * I + 4 * T + 2 * I * T


def filling(R, size):
    """few records of an HMAT, of so many bytes in the table, an even number from 9,000 on: large matrices, one of 2,048 initiators, a side
    cache, which has a handle where the bytes left are no multiple of 4, and a matrix without initiators"""
    out = []
    while size > matrix_size(2048, 4096) + 9000:
        I, T = 2048, 4096
        if size > matrix_size(4096, 4096) + 9000:
            I, T = (R.choice([4096, R.randrange(3000, 4097)]) for _ in range(2))
        out.append(g_matrix(R, I, T, 55))
        size -= matrix_size(I, T)
    T = min(4096, (size - 100 - matrix_size(2048, 0)) // (matrix_size(2048, 1) - matrix_size(2048, 0)))
    out.append(g_matrix(R, 2048, T, 55))
    size -= matrix_size(2048, T)
    out.append(g_side(R) + bytes([54, 1, 2]) * (size % 4 // 2))
    size -= 32 + size % 4
    return out + [g_matrix(R, 0, (size - 32) // 4, 55)]


def hmat_below(left):
    """an HMAT so many bytes below the limit, an even number; its last record is a wide matrix that has targets alone"""
    return bytes([1, 2]) + bytes(26) + b''.join(filling(random.Random(left), LIMIT - FRONT[2] - left))


def long_recipe(R):
    """lengths about the limit, with few records"""
    recs = filling(R, LIMIT - FRONT[2] + R.choice([0, 0, 2, -2, 4, 40, -40, 1000]))
    R.shuffle(recs)
    wide = g_matrix(R, 4096, 4096, 55)
    return head(R, 2) + b''.join(recs) + R.choice([
        b'', b'', setting(50, [0], 7), setting(56, [0], 7), setting(57, [0], 7), bytes([54]) + by(3, 2), g_side(R), bytes([48]) + bytes(8), b'\x30', wide,
        g_matrix(R, 255, 255), small_matrix(0, 0, 55), spoil_field(R, wide), spoil_field(R, g_matrix(R, 255, 255)), spoil_field(R, g_side(R)),
        spoil_field(R, setting(52, [0, 0], 7)), spoil_field(R, setting(58, [0, 0], 7))])


def long_pptt(R):
    """a PPTT that comes to the old limit with three resources, and records of every sort behind it"""
    r = head(R, 0) + g_proc(R, 0) + (bytes([18]) + bytes(21)) * 37446 + g_proc(R, 1) + g_res(R, 2) * R.choice([0, 2, 3, 3])
    own = 37449
    refs = [0, 1, 2, own - 1, own, own + 1]
    return r + R.choice([g_res(R, ref) for ref in refs] + [g_proc(R, ref) for ref in refs] + [g_cache(R, ref) for ref in refs]
                        + [spoil_field(R, g_cache(R, ref)) for ref in refs])


def recipe(R):
    if R.random() < .0003:
        return handles_recipe(R)
    if R.random() < .0006:
        return R.choice([long_pptt, long_cedt])(R)
    c = R.random()
    if c < .01:
        return R.choice([b'', b'\x01', bytes([R.randrange(256)]), b'\x01\x04', bytes(28), bytes([1, 4]) + bytes(26)])
    if c < .03:
        return full_recipe(R, R.choice([57, 58, 58, 59, 59, 60]))
    if c < .05:
        return full_cedt(R)
    if c < .07:
        return long_recipe(R)
    t = R.choice(TABLES)
    h, recs = head(R, t), good_records(R, t, node_size(R))
    if c < .40:
        return h + b''.join(recs)
    for _ in range(R.choice([1, 1, 1, 2, 3])):
        x = damage_recipe(R, t, h, recs)
        if isinstance(x, bytes):
            return x
        h, recs = x
    return h + b''.join(recs)


def every_fault(rec):
    """the record with every set of its fields bad, and each field in all its ways"""
    for some in range(1, 1 << len(SPOILS[rec[0]])):
        fields = [ways for i, ways in enumerate(SPOILS[rec[0]]) if some >> i & 1]
        for way in range(max(map(len, fields))):
            yield spoiled(rec, [ways[way % len(ways)] for ways in fields])


def every_kind():
    """each byte as the kind of the first record behind each head, whole and cut"""
    for t in KINDS:
        for k in range(256):
            record = bytes([k]) + bytes(BODY.get(k, 30))
            yield from (bytes([1, t]) + bytes(26) + record, bytes([1, t]) + bytes(26) + record[:-1])


def cedt_faults():
    """every set of bad fields, and the largest good ones; windows with targets from none to one too many, maths with many maps, the head and
    a bridge, and behind each the end or a record of every sort; CEDTs at the old limit and past it"""
    h = bytes([1, 3]) + bytes(26)
    bridge, window, target, maths, xor_map = (bytes([k]) + bytes(BODY[k]) for k in KINDS[3])
    for rec in (bridge, window, maths):
        yield from (h + bad for bad in every_fault(rec))
    yield h + small_window(10, 1, 6, 31) + spoiled(bridge, set_one(5, 1)) + spoiled(maths, set_one(1, 6))
    bad = [spoiled(rec, SPOILS[rec[0]][0][:1]) for rec in (bridge, window, maths)]
    whole = [b'', h, bridge, window, target, maths, xor_map, bytes([16]) + bytes(12)]
    behind = whole + bad + [rec[:-1] for rec in whole[1:]] + [bytes([k]) for k in (0, 1, 63, 64, 65, 66, 68, 69, 200)]
    for code, ways in WAYS.items():
        for n in range(ways + 2):
            yield from (h + spoiled(window, set_one(17, code)) + target * n + other for other in behind)
    for node in [b'', bridge] + [maths + xor_map * n for n in (0, 1, 254, 255, 256)]:
        yield from (h + node + other for other in behind)
    for left, rest in ((32, bridge), (28, bridge), (36, window + target), (8, maths + xor_map)):
        yield cedt_below(left) + rest


def srat_below(left):
    """an SRAT so many bytes below the old limit, a multiple of 4: of memory, and up to four initiators and a RINTC"""
    fill = OLD_LIMIT - FRONT[1] - left
    rintcs = fill % 8 // 4
    initiators = next(n for n in range(5) if (fill - 20 * rintcs - 32 * n) % 40 == 0)
    memory = (fill - 20 * rintcs - 32 * initiators) // 40
    return bytes([1, 1]) + bytes(26) + (bytes([32]) + bytes(21)) * memory + (bytes([33]) + bytes(17)) * initiators + small_rintc() * rintcs


def rintc_faults():
    """the kind that is retired in each table, whole and cut, with each value of its flags, before and behind records good and bad; the
    RINTC with its domain cut, and in other tables; both at the old limit"""
    heads = [bytes([1, t]) + bytes(26) for t in KINDS]
    srat, rintc, memory = heads[1], small_rintc(), bytes([32]) + bytes(21)
    retired, bad = bytes([35]) + rintc[5:], small_rintc(flags=2)
    yield from (h + record[:n] for h in heads for record in (retired, rintc) for n in range(1, len(record) + 1))
    yield from (srat + retired[:5] + bytes([flags]) + retired[6:] for flags in range(256))
    others = [b'', memory, rintc, bad, memory[:-1] + b'\x08', memory[:-1], b'\x01', bytes([31]), bytes([37]), retired, retired[:1], bytes([200])]
    for before in [b'', memory, rintc, bad, retired]:
        yield from (srat + before + record + behind for record in (retired, retired[:1], rintc, rintc[:1], bad) for behind in others)
    yield heads[3] + bytes([65]) + bytes(22) + retired      # an incomplete window comes first
    for left in (16, 20):
        yield from (srat_below(left) + record for record in (retired, rintc))


def every_order(h):
    """one to three records of an HMAT, of every kind in every order"""
    records = [small_matrix(2, 3, k) if k in (49, 55) else bytes([k]) + bytes(BODY[k]) for k in KINDS[2]]
    for n in (1, 2, 3):
        yield from (h + b''.join(some) for some in itertools.product(records, repeat=n))


def edges(count):
    """indices about the count, and about what a byte holds"""
    return sorted({0, 1, 254, 255, 256, 257, 65535} | {i for i in (count - 1, count, count + 1, count + 255, count + 256) if i >= 0})


def index_faults(h):
    """settings of both widths with indices about the counts and about 256, on matrices of both widths"""
    for I, T in ((0, 0), (2, 3), (0, 256), (256, 0), (255, 256), (256, 255), (600, 300), (1, 4096), (4096, 1), (4096, 4096)):
        wide = h + small_matrix(I, T, 55)
        yield from (wide + setting(56, [i], 9) for i in edges(I))
        yield from (wide + setting(57, [t], 9) for t in edges(T))
        yield from (wide + setting(58, place, 9) for place in itertools.product(edges(I), edges(T)))
    for matrix, kind in itertools.product((49, 55), (50, 51, 52, 56, 57, 58)):
        places = itertools.product((0, 1, 2, 3, 255), repeat=2 if kind in CELLS else 1)
        yield from (h + small_matrix(2, 3, matrix) + setting(kind, place, 9) for place in places)


def corners(I, T, kind=55):
    """what sets the ends of a matrix and the places about 256, the last first"""
    rows, columns = (sorted({i for i in (0, 255, 256, n - 1) if 0 <= i < n}, reverse=True) for n in (I, T))
    cells = [setting(kind + 3, [i, t], (7 * i + t) % 65536) for i in rows for t in columns]
    return b''.join(cells + [setting(kind + 2, [t], t + 1) for t in columns] + [setting(kind + 1, [i], i + 1) for i in rows])


def wide_matrices(h=bytes([1, 2]) + bytes(26)):
    """matrices with counts about those of row 6 and of row 12, and of neither, unset and set at the corners"""
    for I, T in itertools.product((0, 1, 255, 256, 600, 4096), repeat=2):
        yield from (h + small_matrix(I, T, 55), h + small_matrix(I, T, 55) + corners(I, T))
    yield h + small_matrix(255, 255) + corners(255, 255, 49)
    yield h + small_matrix(2, 3) + corners(2, 3, 49) + small_matrix(256, 1, 55) + corners(256, 1) + small_matrix(3, 2, 55) + corners(3, 2)


def full_hmats():
    """HMATs that come to the limit with a record of each kind that makes them longer, or pass it; other faults of such a record, and settings"""
    domain, side, handle = (bytes([k]) + bytes(BODY[k]) for k in (48, 53, 54))
    for need, record in ((40, domain), (32, side), (34, side + handle), (36, side + handle * 2), (32, small_matrix(0, 0)), (132122, small_matrix(255, 255)),
                         (32, small_matrix(0, 0, 55)), (1056, small_matrix(256, 0, 55)), (33587232, small_matrix(4096, 4096, 55))):
        yield from (hmat_below(left) + record for left in (need, need - 2, need + 2))
    wide = small_matrix(4096, 4096, 55)
    yield from (hmat_below(0) + record for record in (wide[:-1], wide[:-1] + b'\x11', spoiled(wide, SPOILS[55][0][:1]), handle, setting(50, [0], 7)))
    yield from (hmat_below(0) + record for record in (b'', setting(57, [0], 7), setting(56, [0], 7), setting(57, [0], 7) + setting(57, [4096], 7)))


def matrix_faults():
    """of wide matrices every set of bad fields, and counts about the most; the order of records, indices, sizes and the limit"""
    h = bytes([1, 2]) + bytes(26)
    yield from (h + bad for bad in every_fault(small_matrix(2, 3, 55)))
    yield from (h + small_matrix(I, T, 55) for I, T in itertools.product((0, 1, 4095, 4096, 4097, 4352, 65535), repeat=2))
    for k in (56, 57, 58):
        yield from (h + small_matrix(2, 3, 55) + bad for bad in every_fault(bytes([k]) + bytes(BODY[k])))
    yield from every_order(h)
    yield from index_faults(h)
    yield from wide_matrices(h)
    yield from full_hmats()


def faults():
    """small recipes with one bad record: every set of bad fields of each kind, with references good and bad; every sort of reference;
    every kind in every table; nodes that are too full or not full enough; the kind that is retired; matrices of both widths"""
    heads = [bytes([1, t]) + bytes(26) for t in range(3)]
    cache, processor, resource = bytes([18]) + bytes(21), bytes([16]) + bytes(12), bytes([17]) + bytes(4)
    nodes = heads[0] + cache + processor     # nodes 1 and 2, and the record behind them is node 3
    yield from every_fault(heads[0])
    for full in (cache, bytes([18, 255]) + bytes(4) + bytes([1] * 9 + [0] + [1] * 6)):
        for ref in (0, 1, 2, 3):
            for bad in every_fault(full):
                yield nodes + with_ref(bad, ref)
    for ref in (0, 1, 2, 3, 4, 5, 257, 1 << 24, 2 ** 32 - 1):
        for before, rec in ((b'', cache), (b'', processor), (processor, resource), (processor + with_ref(resource, 1) * 58, resource)):
            yield nodes + before + with_ref(rec, ref) + cache
    for rec in [bytes([k]) + bytes(BODY[k]) for k in KINDS[1]]:
        for bad in every_fault(rec):
            yield heads[1] + bad
    matrix = bytes([49]) + bytes(11) + bytes([2, 3])
    for rec in [matrix, bytes([53]) + bytes(16)]:
        for bad in every_fault(rec):
            yield heads[2] + bad
    for k in (50, 51, 52):
        for bad in every_fault(bytes([k]) + bytes(BODY[k])):
            yield heads[2] + matrix + bad
    yield heads[2] + bytes([53]) + bytes(16) + bytes([54, 0, 0]) * 65536
    yield heads[0][:27]
    yield from every_kind()
    yield from rintc_faults()
    yield from cedt_faults()
    yield from matrix_faults()


def outside(recipe):
    """a recipe that meets one of the differences of docs/DIFFERENCES.md; the RINTC's is made good by with_domains"""
    at, oblong = 28, False
    while at < len(recipe):
        kind = recipe[at]
        end = at + 1 + BODY[kind]
        if kind == 64 or (kind in CELLS and oblong) or (kind == 65 and recipe[at + 20] & 2):
            return True
        if kind in (49, 55):
            half = at + 12 + WIDTH[kind]
            oblong = recipe[at + 12:half] != recipe[half:end]
        at = end
    return recipe[1] == 0 and len(recipe) == 28


def has_rintc(recipe):
    """of a recipe that builds"""
    at = 28
    while at < len(recipe) and recipe[at] != 36:
        at += 1 + BODY[recipe[at]]
    return at < len(recipe)


def with_domains(recipe, tab):
    """the crate's SRAT of this recipe with what its RINTCs lack, the domain behind the four bytes of their frame, and the table's length for it"""
    at, p, parts = 28, FRONT[1], [tab[:FRONT[1]]]
    while at < len(recipe):
        kind, size = recipe[at], {32: 40, 33: 32, 34: 32, 36: 16}[recipe[at]]
        parts += [tab[p:p + 4], recipe[at + 1:at + 5] if kind == 36 else b'', tab[p + 4:p + size]]
        at, p = at + 1 + BODY[kind], p + size
    assert le(tab[4:8]) == p == len(tab)
    return set_length(b''.join(parts))


# ---------------------------------------------------------------- tables

def frames(tab):
    """places of the records of a good table (by its own frames), with lengths"""
    t = NAMES.index(tab[:4])
    p, out = FRONT[t], []
    own = tab[:le(tab[4:8])]
    try:
        while p < len(own):
            _, s = framed(t, own, p)
            out.append((p, s))
            p += s
    except Stop:
        pass
    return t, out


def set_length(tab):
    b = bytearray(tab)
    if len(b) >= 8:
        b[4:8] = by(len(b), 4)
    return bytes(b)


def cedt_record(typ, body, reserved=0):
    return bytes([typ, reserved]) + by(4 + len(body), 2) + body


def window_record(code, targets):
    """a window with so many bytes behind its 36"""
    return cedt_record(1, bytes(20) + bytes([code]) + bytes(11) + bytes(targets))


def maths_record(count, maps):
    return cedt_record(2, bytes([0, 0, 6, count]) + bytes(8 * maps))


def odd_record(R, t):
    """a record of an unknown type or length"""
    if t == 2:
        typ = R.choice([0, 1, 2, 3, 4, 255, 256, 257, 258, 65535])
        n = R.choice([8, 9, 12, 20, 31, 32, 33, 36, 39, 40, 41, 44])
        body = bytearray(bytes(R.choice([0, 0, 0, R.randrange(256)]) for _ in range(n - 8)))
        if typ == 1 and n >= 20 and R.random() < .6:
            body[4:8] = by(R.choice([256, 0, 1, 255, 4096, 4097, 65536, 1 << 24]), 4)
            body[8:12] = by(R.choice([256, 0, 1, 255, 4096, 4097, 65536, 1 << 31]), 4)
        return by(typ, 2) + by(R.choice([0, 0, 0, 1, 256]), 2) + by(n, 4) + bytes(body)
    if t == 3:
        typ = R.choice([0, 0, 1, 1, 2, 2, 3, 3, 4, 255, R.randrange(256)])
        n = R.choice([4, 5, 7, 8, 9, 15, 16, 17, 24, 31, 32, 33, 36, 37, 38, 39, 40, 41, 44, 48, 300, R.randrange(4, 60)])
        return cedt_record(typ, bytes(R.choice([0, 0, 0, R.randrange(256)]) for _ in range(n - 4)), R.choice([0, 0, 0, 1, 255]))
    typ = R.choice([0, 0, 1, 1, 2, 3, 5, 7, 255, R.randrange(256)])
    n = R.choice([2, 3, 4, 8, 16, 17, 18, 19, 20, 21, 22, 24, 27, 28, 29, 32, 33, 40, 44, R.randrange(2, 60)])
    return bytes([typ, n]) + bytes(R.choice([0, 0, 0, R.randrange(256)]) for _ in range(n - 2))


def rintc_record(n, flags=1, zeros=0):
    """of so many bytes; without a domain where there are 16"""
    fields = by(zeros, 2) + (b'' if n <= 16 else by(0x01020304, 4)) + by(0x05060708, 4) + by(flags, 4) + by(0x090a0b0c, 4)
    return bytes([7, n]) + fields.ljust(n - 2, b'\0')[:n - 2]


def with_rintcs(R, tab):
    """an SRAT with some RINTCs more, of 16 bytes most of them, which no recipe builds, of 20, and of other lengths"""
    for _ in range(R.choice([1, 1, 2, 3])):
        at = R.choice([p for p, _ in frames(tab)[1]] + [len(tab)])
        n = R.choice([16, 16, 16, 16, 20, 20, R.choice([15, 17, 19, 21, 4, 24])])
        tab = tab[:at] + rintc_record(n, R.choice([0, 1, 1, 1, 1, 1, 2]), R.choice([0] * 15 + [1])) + tab[at:]
    return mend(set_length(tab))


def matrix_record(I, T, size=None, behind=None):
    """of so many bytes, all that it should have if not said; behind its 32 it has these, if not said nothing set"""
    behind = bytes(4 * (I + T)) + b'\xff\xff' * (I * T) if behind is None else behind
    size = 32 + len(behind) if size is None else size
    fields = bytes([0x33, 5, 11, 0]) + by(I, 4) + by(T, 4) + bytes(4) + by(5, 8)
    return (by(1, 2) + bytes(2) + by(size, 4) + fields + behind).ljust(size, b'\0')[:size]


def g_matrix_record(R):
    """with counts about what the rows of matrices tell apart, set or not"""
    I, T = R.choice([(256, 0), (0, 256), (256, 1), (255, 0), (0, 255), (1, 256), (255, 2), (4096, 0), (0, 4096), (4097, 0), (0, 4097), (3, 300), (1, 4096)])
    return matrix_record(I, T, behind=R.choice([None, None, bytes(4 * I + 4 * T + 2 * I * T), b'\xff' * (4 * I + 4 * T + 2 * I * T)]))


def crowded_record(R):
    """a window of 16 targets or of one too many, maths of 255 maps or of one too many"""
    more = R.randrange(2)
    return R.choice([window_record(4, 64 + 4 * more), maths_record(R.choice([255, 255 + more & 255]), 255 + more)])


# of a row: bytes that are zeros, and of a bridge the length that its version settles
ZEROS = {0: [2, 3], 1: [2, 3], 2: [6, 7, 24, 25, 26, 27, 32, 33, 35, 39], 3: [2, 28, 29, 31], 4: [2, 3], 11: [2, 3],
         5: [2, 3, 10, 11, 20, 21, 30, 39], 6: [2, 3, 11, 20, 21, 23], 7: [2, 3, 12, 15, 28, 29],
         8: [1, 12, 15, 24, 25, 26, 28, 31], 9: [1, 4, 7, 26, 27], 10: [1, 4, 5]}


def row_here(t, typ, n):
    """the row of a type; of a RINTC the length tells which, and a wide matrix is laid out as the others are"""
    return {(0, 0): 0, (0, 1): 1, (1, 1): 2, (1, 5): 3, (1, 7): 4 if n < 20 else 11, (2, 0): 5, (2, 1): 6, (2, 2): 7,
            (3, 0): 8, (3, 1): 9, (3, 2): 10}.get((t, typ))


def damage_table(R, tab):
    """one damage; the sum is not mended here"""
    b = bytearray(tab)
    if len(tab) < 48 or tab[:4] not in NAMES:
        return bytes(b)
    t, fs = frames(tab)
    c = R.randrange(24)
    p, n = R.choice(fs) if fs else (None, None)
    wide, at, length_wide, least = FRAME[t]
    row = None if p is None else row_here(t, le(tab[p:p + wide]), n)
    if c == 0:      # the table's length
        v = R.choice([len(b) - 1, len(b) + 1, FRONT[t] - 1, FRONT[t], 0, 36, 35, LIMIT, LIMIT + 1, 0xFFFFFFFF, len(b) - 2, len(b) - 4,
                      R.randrange(len(b) + 40)])
        b[4:8] = by(max(v, 0), 4)
    elif c == 1 and p is not None:   # a record's length
        d = R.choice([-4, -2, -1, 1, 2, 4, 8, -8, 16])
        v = R.choice([n + d, n + d, 0, 1, 2, 3, 4, 7, 8, 16, 20, 255, n + 256, 252, 256])
        b[p + at:p + at + length_wide] = by(v % 256 ** length_wide, length_wide)
    elif c == 2:     # cut, the length following
        return set_length(tab[:R.randrange(36, len(tab) + 1)])
    elif c == 3:     # cut, the length not following
        return tab[:R.choice([R.randrange(len(tab) + 1), R.randrange(0, 49), 35, 36, len(tab) - 1])]
    elif c in (4, 5, 6) and t == 0 and fs:   # a reference
        cands = []
        for q, m in fs:
            if m < 20:
                continue
            cands.append((q, q + 8))
            if tab[q] == 0:
                cands += [(q, q + 20 + 4 * i) for i in range((m - 20) // 4)]
        if cands:
            q, at = R.choice(cands)
            others = [x for x, _ in fs]
            earlier = [x for x in others if x < q] or [0]
            v = R.choice([R.choice(others), R.choice(earlier), R.choice(earlier) + R.choice([1, -1, 4]), q, 0, 36, len(tab), 1,
                          R.choice(earlier) + 256, R.choice(earlier) + (1 << 24), 0xFFFFFFFF])
            b[at:at + 4] = by(v & 0xFFFFFFFF, 4)
    elif c in (7,):   # revision
        b[8] = R.choice([0, 1, 2, 3, 4, 255, R.randrange(256)])
    elif c in (8, 9) and p is not None:  # counts
        if row == 0:
            v = R.choice([0, 1, 2, 58, 59, (n - 20) // 4 + 1, max((n - 20) // 4 - 1, 0), 256, (n - 20) // 4 + 256, (n - 20) // 4 + (1 << 24)])
            b[p + 16:p + 20] = by(max(v, 0), 4)
        elif row == 6 and n >= 32:
            at = R.choice([12, 16])
            o = le(b[p + at:p + at + 4])
            v = R.choice([o + 1, max(o - 1, 0), 255, 256, 257, 4095, 4096, 4097, o + 256, o + 4096, o + 65536, o + (1 << 24), 0])
            b[p + at:p + at + 4] = by(v & 0xFFFFFFFF, 4)
            if R.random() < .3:
                b[p + 12:p + 16], b[p + 16:p + 20] = b[p + 16:p + 20], b[p + 12:p + 16]
        elif row == 7 and n >= 32:
            o = le(b[p + 30:p + 32])
            b[p + 30:p + 32] = by(R.choice([(o + 1) & 65535, max(o - 1, 0), (o + 256) & 65535, 0, 65535]), 2)
        elif row == 9 and n > 24:
            b[p + 24] = R.choice([*WAYS, *WAYS, 5, 7, 11, 16, 255, R.randrange(256)])
        elif row == 10 and n >= 8:
            b[p + 7] = (b[p + 7] + R.choice([1, 2, 255])) % 256
    elif c in (10, 11) and p is not None and row is not None:  # zeros
        z = [x for x in ZEROS[row] if x < n]
        if row == 3:
            z += [20, 21, 23] if n > 3 and tab[p + 3] == 0 else [12, 13, 20, 23]
        z = [x for x in z if x < n]
        if z:
            b[p + R.choice(z)] = R.choice([1, 128, 255])
    elif c in (12, 13, 14) and p is not None and row is not None:   # ranges and bit rules
        spots = {0: [(1, 1), (16, 4)], 1: [(4, 4), (5, 1), (7, 1), (25 - 4, 1), (12, 4), (16, 4), (20, 1), (21, 1), (22, 2), (24, 4)],
                 2: [(28, 4), (29, 1), (31, 1)], 3: [(3, 1), (24, 4), (25, 1), (27, 1)], 4: [(8, 4), (9, 1), (11, 1)],
                 11: [(12, 4), (13, 1), (15, 1)], 5: [(8, 2), (8, 1), (9, 1)], 6: [(8, 1), (9, 1), (10, 1)], 7: [(24, 4), (24, 1), (25, 1), (26, 1)],
                 8: [(8, 4), (8, 1), (9, 1), (11, 1)], 9: [(24, 1), (25, 1), (28, 4), (28, 1), (29, 1), (31, 1), (32, 2), (32, 1), (33, 1)],
                 10: [(6, 1), (7, 1)]}[row]
        at, w = R.choice(spots)
        if at + w <= n:
            b[p + at:p + at + w] = by(R.choice([0, 1, 2, 3, 4, 5, 6, 7, 8, 11, 12, 15, 16, 32, 64, 128, 255, num(R, w)]) & (256 ** w - 1), w)
    elif c in (15, 16):   # unknown records put in
        at = R.choice([q for q, _ in fs] + [len(tab)])
        rec = odd_record(R, t)
        return set_length(tab[:at] + rec + tab[at:])
    elif c == 17:    # signature
        i = R.randrange(4)
        b[i] = R.choice([b[i] ^ 32, 0, R.randrange(256)])
        if R.random() < .3:
            b[:4] = R.choice([b'TTPP', b'FACP', b'PPTU', b'srat', b'SRAS', b'CEDU', *NAMES])
    elif c == 18:    # trailing bytes
        return tab + bytes(R.randrange(256) for _ in range(R.choice([1, 2, 7, 40])))
    elif c == 19 and FRONT[t] > 36:    # front
        b[R.randrange(36, FRONT[t])] = R.choice([0, 1, 2, 255])
    elif c == 20 and p is not None:   # any byte of a record
        b[p + R.randrange(n)] = R.choice([0, 1, 255, R.randrange(256)])
    elif c == 21:    # rest too short
        return set_length(tab + bytes(R.randrange(1, least + 1)))
    elif c == 22:    # type
        if p is not None:
            b[p] = R.choice([0, 1, 2, 3, 5, 6, 7, 255])
            if t in (2, 3) and R.random() < .3:     # a wider type, or the frame's reserved byte
                b[p + 1] = R.choice([1, 255])
    elif c == 23:
        if fs and R.random() < .5:    # two records in the other order
            q, m = R.choice(fs)
            return set_length(tab[:q] + tab[q + m:])
        b[9] = (b[9] + R.choice([1, 128, 255])) % 256
    return bytes(b)


def lent_table(R):
    """bytes lent to the reader"""
    c = R.random()
    if c < .01:
        return R.choice([b'', b'P', b'PPTT', bytes(35), bytes(36), b'SRAT' + by(36, 4) + bytes(28), b'HMAT' + by(39, 4) + bytes(31),
                         b'CEDT' + by(35, 4) + bytes(28)])
    t = R.choice(TABLES)
    r = full_recipe(R, R.choice([57, 58])) if t == 0 and R.random() < .01 else good_recipe(R, t)
    tab = table(r)
    if not tab:
        tab = table(good_recipe(R, t))
    if t == 1 and R.random() < .5:
        tab = with_rintcs(R, tab)
    if c < .25:
        return tab
    if c < .28 and t in (2, 3):
        return mend(set_length(tab + (g_matrix_record(R) if t == 2 else crowded_record(R))))
    for _ in range(R.choice([1, 1, 1, 2, 2, 3])):
        tab = damage_table(R, tab)
    if R.random() < .88:
        tab = mend(tab)
    if R.random() < .15:
        tab = tab + bytes(R.randrange(256) for _ in range(R.choice([1, 3, 20])))
    return tab


ROWS = (1 << 13) - 1    # the mask of every row
RINTCS = 1 << 4 | 1 << 11
MATRICES = 1 << 6 | 1 << 12


def mask(R):
    return R.choice([ALL, ALL, ROWS, ROWS, 255, 0, R.randrange(ROWS + 1), R.randrange(ROWS + 1), 1 << R.randrange(13), ROWS ^ (1 << R.randrange(13)),
                     R.randrange(1 << 32), ALL ^ ROWS, ALL ^ (1 << R.randrange(13)), RINTCS, ROWS ^ RINTCS, ROWS ^ 1 << 11, ROWS ^ 1 << 4,
                     MATRICES, ROWS ^ MATRICES, ROWS ^ 1 << 12, ROWS ^ 1 << 6])


def table_of_each():
    """small tables of which each has records of all rows of its own; an SRAT with the RINTC that no recipe builds too"""
    cache, processor, resource = (bytes([18, 255]) + by(0, 4) + by(4096, 4) + by(64, 4) + bytes([8, 26]) + by(64, 2) + by(5, 4),
                                  bytes([16]) + by(2, 4) + by(0, 4) + by(7, 4), bytes([17]) + by(1, 4))
    srat = bytes([32]) + by(1, 4) + by(2, 8) + by(3, 8) + b'\7' + bytes([33]) + by(1, 4) + b'ACPI0017' + by(9, 4) + b'\3'
    srat += bytes([34]) + by(1, 4) + by(258, 2) + bytes([3, 31, 7, 3]) + small_rintc()
    hmat = bytes([48]) + by(1, 4) + by(2, 4) + bytes([49, 0x33, 5, 11]) + by(1000, 8) + b'\1\2' + bytes([53]) + by(4, 4) + by(5, 8) + by(0x402211, 4)
    cedt = b''.join(bytes([64]) + by(9, 4) + bytes([version]) + by(1 << 40, 8) for version in (0, 1)) + small_window(1, 1, 6, 31)
    for t, records in enumerate((cache + processor + resource, srat, hmat + bytes([54, 1, 2]), cedt + bytes([67, 6]) + (bytes([68]) + by(5, 8)) * 2)):
        yield table(bytes([1, t]) + bytes(26) + records)
    yield srat_of(rintc_record(16), rintc_record(20))
    yield hmat_of(matrix_record(0, 256), matrix_record(1, 2), matrix_record(4097, 0, 40))


def hmat_of(*records, revision=1):
    empty = table(bytes([1, 2]) + bytes(26))
    return mend(set_length(empty[:8] + bytes([revision]) + empty[9:] + b''.join(records)))


def hmat_tables_at_edges():
    """HMATs of one matrix with every two counts about those that rows tell apart, in 32 bytes, and whole where it is short; longer and
    shorter than it should be, with counts changed for each other, with values and cells set; beside a matrix of the other row; at other
    revisions"""
    most = (0, 1, 255, 256, 257, 4095, 4096, 4097, 4352, 65535, 65536, 65792, 1 << 24, 1 << 31)
    yield from (hmat_of(matrix_record(I, T, n, b'')) for I, T in itertools.product(most, repeat=2) for n in (31, 32))
    some = [(0, 0), (2, 3), (255, 0), (0, 255), (256, 0), (0, 256), (257, 1), (1, 257), (300, 3), (3, 300), (4096, 0), (0, 4096), (4097, 0), (0, 4097)]
    for I, T in some:
        n = matrix_size(I, T)
        yield from (hmat_of(matrix_record(I, T, n + more)) for more in (0, -4, -2, -1, 1, 2, 4, 256) if n + more >= 32)
        yield from (hmat_of(record) for record in (matrix_record(T, I, n), matrix_record(I, T, n, b''), matrix_record(I, T, n, b'\1\2\3\4\0\0\0\5')))
        yield from (hmat_of(*records) for records in itertools.permutations([matrix_record(I, T), matrix_record(1, 1), matrix_record(1, 256)], 2))
        yield from (hmat_of(matrix_record(I, T), revision=revision) for revision in (0, 2, 255))
    yield from (hmat_of(matrix_record(I, T)) for I, T in ((255, 255), (255, 256), (256, 255), (256, 256), (1, 4096), (4096, 1), (1, 4097), (4097, 1)))


def srat_of(*records, revision=3):
    empty = table(bytes([1, 1]) + bytes(26))
    return mend(set_length(empty[:8] + bytes([revision]) + empty[9:] + b''.join(records)))


def srat_tables_at_edges():
    """SRATs of one RINTC in every small length and with each value of its flags; of one to three records, of which some are no RINTC, unknown
    or refused, so that a RINTC without domain stands before and behind each; of other revisions"""
    for n in range(2, 45):
        yield from (srat_of(rintc_record(n, flags, zeros)) for flags in (0, 1, 2) for zeros in (0, 1, 256))
    for n in (16, 20):
        yield from (srat_of(rintc_record(n, flags)) for flags in (3, 4, 128, 255, 256, 1 << 16, 1 << 24, 1 << 31))
    memory, unknown = bytes([1, 40]) + by(1, 4) + bytes(34), bytes([0, 16]) + bytes(14)
    sorts = [rintc_record(16), rintc_record(16, 0), rintc_record(20), rintc_record(17), unknown, memory, rintc_record(16, 2), rintc_record(20, 2)]
    for n in (2, 3):
        yield from (srat_of(*some) for some in itertools.product(sorts, repeat=n))
    for revision in (0, 1, 2, 4, 255):
        yield from (srat_of(*some, revision=revision) for n in (1, 2) for some in itertools.product(sorts, repeat=n))
    yield from (srat_of(rintc_record(16)) + behind for behind in (b'\0', rintc_record(16), unknown))
    yield from (srat_of(rintc_record(16), bytes([7, n])) for n in (0, 1, 2, 3, 16, 20, 255))


def touched(tab):
    """the table with each byte behind the header other than it was, and the sum mended; of a long table the first bytes, since those behind
    them are a matrix's values"""
    for at in range(36, min(len(tab), 200)):
        for v in {0, 1, 255, tab[at] ^ 128, (tab[at] + 1) % 256} - {tab[at]}:
            yield mend(tab[:at] + bytes([v]) + tab[at + 1:])


def cedt_records_at_edges():
    """records of each type in every small length, windows of every code, and counts, targets and maps that do not go together"""
    for typ in range(5):
        for n in range(41):
            yield from (cedt_record(typ, bytes(n), reserved) for reserved in (0, 1))
    for code in range(256):
        yield from (window_record(code, 4 * n) for n in {1, 2, WAYS.get(code, 16)})
    for code, ways in WAYS.items():
        yield from (window_record(code, 4 * ways + d) for d in (-4, -1, 1, 4))
    yield window_record(4, 68)
    for maps in (1, 254, 255, 256):
        yield from (maths_record(count, maps) for count in (0, 1, 2, 254, 255))
    yield from (cedt_record(typ, bytes(n - 4)) for typ in (0, 1, 2, 3) for n in (256, 288, 296, 65535))


def cedt_of(records, revision=1):
    empty = table(bytes([1, 3]) + bytes(26))
    return mend(set_length(empty[:8] + bytes([revision]) + empty[9:] + records))


def cedt_tables_at_edges():
    """CEDTs of one such record, alone and behind a bridge; of frames that do not hold; of other revisions, under which nothing is known"""
    bridge = cedt_record(0, bytes(20) + by(0x2000, 8))
    for record in cedt_records_at_edges():
        yield cedt_of(record)
    for typ in range(4):
        yield from (cedt_of(bridge + bytes([typ, 0]) + by(n, 2) + bytes(28)) for n in (0, 1, 2, 3, 33, 34, 65535))
        yield from (cedt_of(bridge + bytes([typ, 0, 4, 0])[:n]) for n in range(1, 5))
    for revision in (0, 2, 3, 255):
        yield from (cedt_of(records, revision) for records in (b'', bridge, bridge + window_record(5, 4), window_record(4, 4), bytes([1, 0, 3, 0])))


def faulty_tables():
    """tables of every row, good and with each byte of their records changed; HMATs, SRATs and CEDTs at the edges of their rows"""
    for tab in table_of_each():
        yield tab
        yield from touched(tab)
    yield from hmat_tables_at_edges()
    yield from srat_tables_at_edges()
    yield from cedt_tables_at_edges()


if __name__ == '__main__':
    from collections import Counter
    R = random.Random(1)
    cb, cr, co, places, words = Counter(), Counter(), Counter(), {}, Counter()
    szs = []
    few = list(faults())
    for i in range(3200 + len(few)):
        r = few[i - 3200] if i >= 3200 else recipe(R)
        a = build(r, 10 ** 7)
        room = R.choice([a[1] - 1, a[1], a[1] + 5, 0, 10**7]) if a[0] == 'given' else 1000
        a = build(r, max(room, 0))
        cb[a[1] if a[0] == 'refused' else 0] += 1
        if a[0] == 'refused':
            places.setdefault(a[1], set()).add(a[2])
        if a[:2] == ('refused', 5):
            words[named(r, a[2]).split(' at ')[0]] += 1
        if a[0] == 'given' and a[1] < 800000:
            t = table(r)
            assert recipe_of(t) == normal(r), r.hex()
            assert table(normal(r)) == t
            assert read_out(t, 10 ** 7)[0] == 'given'
        szs.append(len(r))
    print('build', sorted(cb.items()), sum(szs) / len(szs), max(szs))
    print('fields', sorted(words.items()))
    szs = []
    few = list(faulty_tables())
    for i in range(3200 + len(few)):
        t = few[i - 3200] if i >= 3200 else lent_table(R)
        szs.append(len(t))
        m = mask(R)
        full = read(t, m, 0)
        cnt = full[1] if full[0] == 'given' else 0
        a = read(t, m, R.choice([0, R.randrange(cnt + 1), R.randrange(cnt + 2)]))
        cr[a[1] if a[0] == 'refused' else 'u' if a[5] is None else 'row%d' % a[5]] += 1
        if a[0] == 'refused':
            places.setdefault(a[1], set()).add(a[2])
        a = read_out(t, 10 ** 7)
        room = R.choice([a[1] - 1, a[1], a[1] + 5, 0, 10**7]) if a[0] == 'given' else 1000
        a = read_out(t, room)
        co[a[1] if a[0] == 'refused' else 0] += 1
        if a[0] == 'refused':
            places.setdefault(a[1], set()).add(a[2])
        if a[0] == 'given':
            r = recipe_of(t)
            n = le(t[4:8])
            assert table(r) == t[:n] and normal(r) == r
    print('read', sorted(cr.items(), key=str), sum(szs) / len(szs), max(szs))
    print('out', sorted(co.items()))
    print({k: len(v) for k, v in sorted(places.items())})

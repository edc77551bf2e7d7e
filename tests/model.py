"""A reading of documents 01 and 02 in another language: pure functions on bytes, sharing no code with the crates. Of document 02: orders 1 to 6."""
LIMIT = 1 << 26
NAMES = (b'PPTT', b'SRAT', b'HMAT', b'CEDT')
FRONT = (36, 48, 40, 36)
REV = (3, 3, 1, 1)
TAIL = (b'', b'\x01\0\0\0' + bytes(8), bytes(4), b'')
# of a record's frame: the type's width, where the length stands and its width, and the least length
FRAME = ((1, 1, 1, 2), (1, 1, 1, 2), (2, 4, 4, 8), (1, 2, 2, 4))
BODY = {1: 27, 16: 12, 17: 4, 18: 21, 32: 21, 33: 17, 34: 10, 36: 13,
        48: 8, 49: 13, 50: 5, 51: 5, 52: 4, 53: 16, 54: 2, 55: 15, 56: 6, 57: 6, 58: 6,
        64: 13, 65: 22, 66: 4, 67: 1, 68: 8}
RETIRED = (35,)     # a kind of SRAT once: the RINTC without its domain
# a record that joins a node: the kinds that it may stand directly behind
BEHIND = {17: (16, 17), 50: (49, 50, 51, 52), 51: (49, 50, 51, 52), 52: (49, 50, 51, 52), 54: (53, 54),
          56: (55, 56, 57, 58), 57: (55, 56, 57, 58), 58: (55, 56, 57, 58), 66: (65, 66), 68: (67, 68)}
# a matrix and what is set in it: how many bytes a count or an index takes
WIDTH = {49: 1, 50: 1, 51: 1, 52: 1, 55: 2, 56: 2, 57: 2, 58: 2}
# the most initiators of a matrix, and the most targets
MOST_COUNTED = 4096
# a window's code and its number of ways
WAYS = {0: 1, 1: 2, 2: 4, 3: 8, 4: 16, 8: 3, 9: 6, 10: 12}
# a bridge's version and the length of its registers
REGISTERS = {0: 0x2000, 1: 0x10000}
ALL = 0xFFFFFFFF


def le(b):
    return int.from_bytes(b, 'little')


def by(n, k):
    return n.to_bytes(k, 'little')


def table_of_kind(k):
    if 16 <= k <= 18:
        return 0
    if 32 <= k <= 36:
        return 1
    if 48 <= k <= 58:
        return 2
    if 64 <= k <= 68:
        return 3
    return None


# ---------------------------------------------------------------- field rules

def cache_attr_ok(a, on):
    """on: whether allocation, type and policy are given"""
    parts = a & 3, a >> 2 & 3, a >> 4 & 1
    return a >> 5 == 0 and parts[0] <= 2 and parts[1] <= 2 and all(v == 0 or f for v, f in zip(parts, on))


def side_ok(a):
    return (a & 15) <= 3 and (a >> 4 & 15) <= 3 and (a >> 8 & 15) <= 2 and (a >> 12 & 15) <= 2


def rules(r, last=None):
    """the fields of a record that have a rule, in body order: where each begins in the record r, whose kind byte is at 0, and
    whether it is good; last is the matrix that a value or a cell joins"""
    k = r[0]
    if k == 1:
        return [(1, r[1] <= 3)]
    if k == 18:      # a field whose bit is off is 0
        on = [r[1] >> i & 1 for i in range(8)]
        return [(6, on[0] or le(r[6:10]) == 0),
                (10, on[1] or le(r[10:14]) == 0),
                (14, on[2] or r[14] == 0),
                (15, cache_attr_ok(r[15], on[3:6])),
                (16, on[6] or le(r[16:18]) == 0),
                (18, on[7] or le(r[18:22]) == 0)]
    if k == 32:
        return [(21, r[21] <= 7)]
    if k == 33:
        return [(17, r[17] <= 3)]
    if k == 34:
        return [(8, r[8] <= 31), (9, r[9] <= 7), (10, r[10] <= 3)]
    if k == 36:
        return [(9, r[9] <= 1)]
    w = WIDTH.get(k)
    if k in (49, 55):
        return [(1, r[1] & ~0x33 == 0), (2, r[2] <= 5), (3, r[3] <= 11)] + [(at, le(r[at:at + w]) <= MOST_COUNTED) for at in (12, 12 + w)]
    if k in (50, 56):
        return [(1, le(r[1:1 + w]) < last['I'])]
    if k in (51, 57):
        return [(1, le(r[1:1 + w]) < last['T'])]
    if k in (52, 58):
        return [(1, le(r[1:1 + w]) < last['I']), (1 + w, le(r[1 + w:1 + 2 * w]) < last['T'])]
    if k == 53:
        return [(13, side_ok(le(r[13:17])))]
    if k == 64:
        return [(5, r[5] in REGISTERS)]
    if k == 65:
        return [(17, r[17] in WAYS), (18, r[18] <= 1), (19, r[19] <= 6), (20, r[20] <= 31)]
    if k == 67:
        return [(1, r[1] <= 6)]
    return []


def good(r):
    return all(fine for _, fine in rules(r))


# ---------------------------------------------------------------- build

class Stop(Exception):
    def __init__(self, number, place):
        self.number, self.place = number, place


def cut(b, *sizes):
    out, at = [], 0
    for s in sizes:
        out.append(le(b[at:at + s]))
        at += s
    assert at == len(b)
    return out


def judge_fields(r, p, last=None):
    """5 at the first bad field of the record r, which begins at p"""
    for at, fine in rules(r, last):
        if not fine:
            raise Stop(5, p + at)


def judge_ref(ref, kind, own, nodes, p):
    """6 and 10: a reference, where 0 is not allowed, to a node of this kind below the ordinal own, in the record at p"""
    if ref == 0 or ref >= own:
        raise Stop(6, p)
    if nodes[ref - 1]['kind'] != kind:
        raise Stop(10, p)


def judge_window(nodes, following):
    """11: the newest node is a window that lacks targets, and the byte that follows, if any, is not the kind of one"""
    last = nodes[-1] if nodes else None
    if last and last['kind'] == 65 and len(last['targets']) < WAYS[last['ways']] and following != bytes([66]):
        raise Stop(11, last['start'])


def parse(r):
    """recipe -> (table code, head bytes, nodes); nodes: dicts. Raises Stop."""
    if len(r) == 0 or r[0] != 1:
        raise Stop(1, 0)
    if len(r) < 28:
        raise Stop(3, 0)
    judge_fields(r[:28], 0)
    t, head = r[1], r[2:28]
    nodes = []
    total = FRONT[t]
    p = 28
    prev = 1                      # the kind of the record before
    while p < len(r):
        judge_window(nodes, r[p:p + 1])
        k = r[p]
        if table_of_kind(k) != t:
            raise Stop(2, p)
        if k in RETIRED:
            raise Stop(12, p)
        e = p + 1 + BODY[k]
        if e > len(r):
            raise Stop(3, p)
        b = r[p + 1:e]
        if k in BEHIND and prev not in BEHIND[k]:
            raise Stop(4, p)
        last = nodes[-1] if nodes else None
        own = len(nodes) + 1      # ordinal of the node to come
        judge_fields(r[p:e], p, last)
        grow = 0
        new = None
        if k == 16:
            flags, parent, ident = cut(b, 4, 4, 4)
            if parent != 0:
                judge_ref(parent, 16, own, nodes, p)
            new = dict(kind=16, flags=flags, parent=parent, id=ident, res=[])
            grow = 20
        elif k == 17:
            (ref,) = cut(b, 4)
            judge_ref(ref, 18, own - 1, nodes, p)     # its own ordinal is its processor's
            if len(last['res']) >= 58:
                raise Stop(7, p)
            grow = 4
        elif k == 18:
            flags, nxt = cut(b[:5], 1, 4)
            if nxt != 0:
                judge_ref(nxt, 18, own, nodes, p)
            new = dict(kind=18, flags=flags, next=nxt, rest=b[5:])
            grow = 28
        elif k == 32:
            dom, base, length, flags = cut(b, 4, 8, 8, 1)
            new = dict(kind=32, dom=dom, base=base, length=length, flags=flags)
            grow = 40
        elif k == 33:
            dom, hid, uid, flags = cut(b, 4, 8, 4, 1)
            new = dict(kind=33, dom=dom, hid=hid, uid=uid, flags=flags)
            grow = 32
        elif k == 34:
            dom, seg, bus, dev, fun, flags = cut(b, 4, 2, 1, 1, 1, 1)
            new = dict(kind=34, dom=dom, seg=seg, bus=bus, dev=dev, fun=fun, flags=flags)
            grow = 32
        elif k == 36:
            dom, uid, flags, clock = cut(b, 4, 4, 1, 4)
            new = dict(kind=36, dom=dom, uid=uid, flags=flags, clock=clock)
            grow = 20
        elif k == 48:
            ini, mem = cut(b, 4, 4)
            new = dict(kind=48, ini=ini, mem=mem)
            grow = 40
        elif k in (49, 55):
            flags, dt, ts, unit, I, T = cut(b, 1, 1, 1, 8, WIDTH[k], WIDTH[k])
            # a matrix is a matrix, in however many bytes its counts were written
            new = dict(kind=49, flags=flags, dt=dt, ts=ts, unit=unit, I=I, T=T,
                       iv={}, tv={}, cells={})
            grow = 32 + 4 * I + 4 * T + 2 * I * T
        elif k in (50, 51, 56, 57):
            idx, val = cut(b, WIDTH[k], 4)
        elif k in (52, 58):
            i, t2, val = cut(b, WIDTH[k], WIDTH[k], 2)
        elif k == 53:
            dom, size, attr = cut(b, 4, 8, 4)
            new = dict(kind=53, dom=dom, size=size, attr=attr, hs=[])
            grow = 32
        elif k == 54:
            (h,) = cut(b, 2)
            if len(last['hs']) >= 65535:
                raise Stop(7, p)
            grow = 2
        elif k == 64:
            uid, version, base = cut(b, 4, 1, 8)
            new = dict(kind=64, uid=uid, version=version, base=base)
            grow = 32
        elif k == 65:
            base, size, ways, arithmetic, granularity, restrictions, qtg = cut(b, 8, 8, 1, 1, 1, 1, 2)
            new = dict(kind=65, start=p, base=base, size=size, ways=ways, arithmetic=arithmetic, granularity=granularity,
                       restrictions=restrictions, qtg=qtg, targets=[])
            grow = 0x24 + 4 * WAYS[ways]
        elif k == 66:
            (target,) = cut(b, 4)
            if len(last['targets']) >= WAYS[last['ways']]:
                raise Stop(7, p)
        elif k == 67:
            (granularity,) = cut(b, 1)
            new = dict(kind=67, granularity=granularity, maps=[])
            grow = 8
        elif k == 68:
            (xor_map,) = cut(b, 8)
            if len(last['maps']) >= 255:
                raise Stop(7, p)
            grow = 8
        if total + grow > LIMIT:
            raise Stop(8, p)
        # taken
        if new is not None:
            new['at'] = total
            nodes.append(new)
        elif k == 17:
            last['res'].append(ref)
        elif k in (50, 56):
            last['iv'][idx] = val
        elif k in (51, 57):
            last['tv'][idx] = val
        elif k in (52, 58):
            last['cells'][i, t2] = val
        elif k == 54:
            last['hs'].append(h)
        elif k == 66:
            last['targets'].append(target)
        elif k == 68:
            last['maps'].append(xor_map)
        total += grow
        prev = k
        p = e
    judge_window(nodes, b'')
    return t, head, nodes, total


def matrix_values(n):
    """the values of a matrix, 0 where none is set, and its cells, 0xFFFF where none is set: few are, of many"""
    I, T = n['I'], n['T']
    sides, cells = bytearray(4 * (I + T)), bytearray(b'\xff\xff' * (I * T))
    for i, v in n['iv'].items():
        sides[4 * i:4 * i + 4] = by(v, 4)
    for t, v in n['tv'].items():
        sides[4 * (I + t):4 * (I + t) + 4] = by(v, 4)
    for (i, t), v in n['cells'].items():
        at = 2 * (i * T + t)
        cells[at:at + 2] = by(v, 2)
    return bytes(sides + cells)


def node_bytes(n, nodes):
    def place(ref):
        return 0 if ref == 0 else nodes[ref - 1]['at']
    k = n['kind']
    if k == 16:
        c = len(n['res'])
        return (bytes([0, 20 + 4 * c, 0, 0]) + by(n['flags'], 4) + by(place(n['parent']), 4)
                + by(n['id'], 4) + by(c, 4) + b''.join(by(place(x), 4) for x in n['res']))
    if k == 18:
        return bytes([1, 28, 0, 0]) + by(n['flags'], 4) + by(place(n['next']), 4) + n['rest']
    if k == 32:
        return (bytes([1, 40]) + by(n['dom'], 4) + bytes(2) + by(n['base'], 8) + by(n['length'], 8)
                + bytes(4) + by(n['flags'], 4) + bytes(8))
    if k == 33:
        return (bytes([5, 32, 0, 0]) + by(n['dom'], 4) + by(n['hid'], 8) + by(n['uid'], 4) + bytes(4)
                + by(n['flags'], 4) + bytes(4))
    if k == 34:
        return (bytes([5, 32, 0, 1]) + by(n['dom'], 4) + by(n['seg'], 2)
                + bytes([n['bus'], n['dev'] * 8 + n['fun']]) + bytes(12)
                + by(n['flags'], 4) + bytes(4))
    if k == 36:
        return bytes([7, 20, 0, 0]) + by(n['dom'], 4) + by(n['uid'], 4) + by(n['flags'], 4) + by(n['clock'], 4)
    if k == 48:
        return (by(0, 2) + bytes(2) + by(40, 4) + by(1, 2) + bytes(2) + by(n['ini'], 4)
                + by(n['mem'], 4) + bytes(20))
    if k == 49:
        vals = matrix_values(n)
        return (by(1, 2) + bytes(2) + by(32 + len(vals), 4) + bytes([n['flags'], n['dt'], n['ts'], 0])
                + by(n['I'], 4) + by(n['T'], 4) + bytes(4) + by(n['unit'], 8) + vals)
    if k == 53:
        hs = n['hs']
        return (by(2, 2) + bytes(2) + by(32 + 2 * len(hs), 4) + by(n['dom'], 4) + bytes(4)
                + by(n['size'], 8) + by(n['attr'], 4) + bytes(2) + by(len(hs), 2)
                + b''.join(by(h, 2) for h in hs))
    if k == 64:
        return (bytes([0, 0]) + by(32, 2) + by(n['uid'], 4) + by(n['version'], 4) + bytes(4)
                + by(n['base'], 8) + by(REGISTERS[n['version']], 8))
    if k == 65:
        return (bytes([1, 0]) + by(0x24 + 4 * len(n['targets']), 2) + bytes(4) + by(n['base'], 8) + by(n['size'], 8)
                + bytes([n['ways'], n['arithmetic']]) + bytes(2) + by(n['granularity'], 4) + by(n['restrictions'], 2) + by(n['qtg'], 2)
                + b''.join(by(x, 4) for x in n['targets']))
    if k == 67:
        maps = n['maps']
        return (bytes([2, 0]) + by(8 + 8 * len(maps), 2) + bytes(2) + bytes([n['granularity'], len(maps)])
                + b''.join(by(x, 8) for x in maps))
    raise AssertionError(k)


def build(r, room):
    try:
        _, _, _, total = parse(r)
    except Stop as s:
        return ('refused', s.number, s.place)
    if room < total:
        return ('refused', 9, total)
    return ('given', total)


def mend(table):
    """the table with its checksum byte made right for its own length field"""
    b = bytearray(table)
    n = min(le(b[4:8]), len(b))
    if len(b) > 9:
        b[9] = 0
        b[9] = -sum(b[:n]) % 256
    return bytes(b)


def table(r):
    try:
        t, head, nodes, total = parse(r)
    except Stop:
        return b''
    b = (NAMES[t] + by(total, 4) + bytes([REV[t], 0]) + head + TAIL[t]
         + b''.join(node_bytes(n, nodes) for n in nodes))
    assert len(b) == total
    s = -sum(b) % 256
    return b[:9] + bytes([s]) + b[10:]


def built(r, buf):
    a = build(r, len(buf))
    if a[0] == 'refused':
        return bytes(buf)
    return table(r) + bytes(buf[a[1]:])


def matrix_recipe(n):
    """kind 49 and its settings where both counts are up to 255, else kind 55 and its settings"""
    k, w = (49, 1) if n['I'] <= 255 and n['T'] <= 255 else (55, 2)
    o = [bytes([k, n['flags'], n['dt'], n['ts']]) + by(n['unit'], 8) + by(n['I'], w) + by(n['T'], w)]
    o += [bytes([k + 1]) + by(i, w) + by(v, 4) for i, v in sorted(n['iv'].items()) if v != 0]
    o += [bytes([k + 2]) + by(t, w) + by(v, 4) for t, v in sorted(n['tv'].items()) if v != 0]
    o += [bytes([k + 3]) + by(i, w) + by(t, w) + by(v, 2) for (i, t), v in sorted(n['cells'].items()) if v != 0xFFFF]
    return b''.join(o)


def node_recipe(n):
    k = n['kind']
    if k == 16:
        return (bytes([16]) + by(n['flags'], 4) + by(n['parent'], 4) + by(n['id'], 4)
                + b''.join(bytes([17]) + by(x, 4) for x in n['res']))
    if k == 18:
        return bytes([18, n['flags']]) + by(n['next'], 4) + n['rest']
    if k == 32:
        return bytes([32]) + by(n['dom'], 4) + by(n['base'], 8) + by(n['length'], 8) + bytes([n['flags']])
    if k == 33:
        return bytes([33]) + by(n['dom'], 4) + by(n['hid'], 8) + by(n['uid'], 4) + bytes([n['flags']])
    if k == 34:
        return (bytes([34]) + by(n['dom'], 4) + by(n['seg'], 2)
                + bytes([n['bus'], n['dev'], n['fun'], n['flags']]))
    if k == 36:
        return bytes([36]) + by(n['dom'], 4) + by(n['uid'], 4) + bytes([n['flags']]) + by(n['clock'], 4)
    if k == 48:
        return bytes([48]) + by(n['ini'], 4) + by(n['mem'], 4)
    if k == 49:
        return matrix_recipe(n)
    if k == 53:
        return (bytes([53]) + by(n['dom'], 4) + by(n['size'], 8) + by(n['attr'], 4)
                + b''.join(bytes([54]) + by(h, 2) for h in n['hs']))
    if k == 64:
        return bytes([64]) + by(n['uid'], 4) + bytes([n['version']]) + by(n['base'], 8)
    if k == 65:
        return (bytes([65]) + by(n['base'], 8) + by(n['size'], 8)
                + bytes([n['ways'], n['arithmetic'], n['granularity'], n['restrictions']]) + by(n['qtg'], 2)
                + b''.join(bytes([66]) + by(x, 4) for x in n['targets']))
    if k == 67:
        return bytes([67, n['granularity']]) + b''.join(bytes([68]) + by(x, 8) for x in n['maps'])
    raise AssertionError(k)


def normal(r):
    try:
        t, head, nodes, _ = parse(r)
    except Stop:
        return b''
    return bytes([1, t]) + head + b''.join(node_recipe(n) for n in nodes)


# ---------------------------------------------------------------- reading

def matrix_row(I, T):
    """6 where both counts are up to 255, 12 where one is above that and both are up to the most"""
    if I <= 255 and T <= 255:
        return 6
    return 12 if I <= MOST_COUNTED and T <= MOST_COUNTED else None


def row_of(t, rev, typ, b, mask):
    """the known row that the record b matches, or None"""
    if rev != REV[t]:
        return None
    n = len(b)
    row = None
    if t == 0:
        if typ == 0 and 20 <= n <= 252 and n % 4 == 0:
            row = 0
        elif typ == 1 and n == 28:
            row = 1
    elif t == 1:
        if typ == 1 and n == 40:
            row = 2
        elif typ == 5 and n == 32:
            row = 3
        elif typ == 7 and n == 16:
            row = 4
        elif typ == 7 and n == 20:
            row = 11
    elif t == 2:
        if typ == 0 and n == 40:
            row = 5
        elif typ == 1 and n >= 32:
            row = matrix_row(le(b[12:16]), le(b[16:20]))
        elif typ == 2 and n >= 32:
            row = 7
    else:
        if typ == 0 and n == 32:
            row = 8
        elif typ == 1 and n >= 40:     # no code stands for 0 ways
            row = 9
        elif typ == 2 and n >= 8:
            row = 10
    if row is None or not mask >> row & 1:
        return None
    return row


def fields_of(row, b):
    """(fine, fields) of a record of that row"""
    n = len(b)
    if row == 0:
        z, flags, parent, ident, c = (le(b[2:4]), le(b[4:8]), le(b[8:12]), le(b[12:16]), le(b[16:20]))
        return z == 0 and n == 20 + 4 * c, [flags, parent, ident, c]
    if row == 1:
        z, flags, *rest = cut(b[2:], 2, 4, 4, 4, 4, 1, 1, 2, 4)
        return z == 0 and flags <= 255 and good(bytes([18, b[4]]) + b[8:]), [flags] + rest
    if row == 2:
        dom, z1, base, length, z2, flags, z3 = cut(b[2:], 4, 2, 8, 8, 4, 4, 8)
        return z1 == z2 == z3 == 0 and flags <= 7, [dom, base, length, flags]
    if row == 3:
        z, ht, dom = cut(b[2:8], 1, 1, 4)
        h = b[8:24]
        flags, z2 = cut(b[24:], 4, 4)
        ok = z == 0 and z2 == 0 and flags <= 3
        if ht == 0:
            return ok and le(h[12:]) == 0, [ht, dom, le(h[:8]), le(h[8:12]), flags]
        if ht == 1:
            return ok and le(h[4:]) == 0, [ht, dom, le(h[:2]), h[2], h[3] >> 3, h[3] & 7, flags]
        return False, []
    if row == 4:
        z, uid, flags, clock = cut(b[2:], 2, 4, 4, 4)
        return z == 0 and flags <= 1, [uid, flags, clock]
    if row == 11:
        z, dom, uid, flags, clock = cut(b[2:], 2, 4, 4, 4, 4)
        return z == 0 and flags <= 1, [dom, uid, flags, clock]
    z0 = le(b[2:4])
    if row == 5:
        f, z, ini, mem, z2 = cut(b[8:], 2, 2, 4, 4, 20)
        return z0 == 0 and f == 1 and z == 0 and z2 == 0, [ini, mem]
    if row in (6, 12):
        flags, dt, ts, z, I, T, z2, unit = cut(b[8:32], 1, 1, 1, 1, 4, 4, 4, 8)
        ok = (z0 == 0 and z == 0 and z2 == 0 and good(b'\x31' + b[8:11])
              and n == 32 + 4 * I + 4 * T + 2 * I * T)
        return ok, [flags, dt, ts, I, T, unit]
    if row == 7:
        dom, z, size, attr, z2, c = cut(b[8:32], 4, 4, 8, 4, 2, 2)
        return z0 == 0 and z == 0 and z2 == 0 and side_ok(attr) and n == 32 + 2 * c, [dom, size, attr, c]
    z0 = b[1]        # the frame of a CEDT has one reserved byte
    if row == 8:
        uid, version, z, base, length = cut(b[4:], 4, 4, 4, 8, 8)
        return z0 == 0 and z == 0 and length == REGISTERS.get(version), [uid, version, base]
    if row == 9:
        z, base, size, ways, arithmetic, z2, granularity, restrictions, qtg = cut(b[4:36], 4, 8, 8, 1, 1, 2, 4, 2, 2)
        ok = (z0 == 0 and z == 0 and z2 == 0 and ways in WAYS and arithmetic <= 1 and granularity <= 6 and restrictions <= 31
              and n == 0x24 + 4 * WAYS[ways])
        return ok, [base, size, ways, arithmetic, granularity, restrictions, qtg]
    if row == 10:
        z, granularity, c = cut(b[4:8], 2, 1, 1)
        return z0 == 0 and z == 0 and granularity <= 6 and n == 8 + 8 * c, [granularity, c]
    raise AssertionError(row)


def framed(t, tab, p):
    """type and length of the record at p, by its frame; 25 where there is none"""
    width, at, wide, least = FRAME[t]
    typ, size = le(tab[p:p + width]), le(tab[p + at:p + at + wide])
    if len(tab) - p < least or size < least or p + size > len(tab):
        raise Stop(25, p)
    return typ, size


def judge(lent, mask):
    """(table code, revision, length, records) or Stop; a record is (type, place, length, row, fields)"""
    if len(lent) < 36:
        raise Stop(20, 0)
    if lent[:4] not in NAMES:
        raise Stop(21, 0)
    t = NAMES.index(lent[:4])
    n = le(lent[4:8])
    if n < FRONT[t] or n > len(lent) or n > LIMIT:
        raise Stop(22, 0)
    tab = lent[:n]
    if sum(tab) % 256:
        raise Stop(23, 0)
    if tab[36:FRONT[t]] != TAIL[t]:
        raise Stop(24, 0)
    rev = tab[8]
    recs = []
    starts = {}
    p = FRONT[t]
    while p < n:
        typ, size = framed(t, tab, p)
        b = tab[p:p + size]
        row = row_of(t, rev, typ, b, mask)
        fields = []
        if row is not None:
            fine, fields = fields_of(row, b)
            if not fine:
                raise Stop(26, p)
            if row == 0:
                if fields[1] != 0 and starts.get(fields[1]) != 0:
                    raise Stop(27, p)
                for i in range(fields[3]):
                    if starts.get(le(b[20 + 4 * i:24 + 4 * i])) != 1:
                        raise Stop(27, p)
            elif row == 1:
                if fields[1] != 0 and starts.get(fields[1]) != 1:
                    raise Stop(27, p)
        recs.append((typ, p, size, row, fields))
        starts[p] = typ
        p += size
    return t, rev, n, recs


def read(lent, mask, n):
    try:
        t, rev, length, recs = judge(lent, mask)
    except Stop as s:
        return ('refused', s.number, s.place)
    if n >= len(recs):
        return ('refused', 28, len(recs))
    typ, p, size, row, fields = recs[n]
    return ('given', len(recs), typ, p, size, row, fields)


def part(lent, mask, n):
    a = read(lent, mask, n)
    if a[0] == 'refused':
        return b''
    _, _, _, p, size, row, _ = a
    b = lent[p:p + size]
    if row is None:
        return b
    start = {0: 20, 6: 32, 7: 32, 9: 36, 10: 8, 12: 32}.get(row)
    return b'' if start is None else b[start:]


# ---------------------------------------------------------------- reading out

def values_out(k, w, b):
    """a record for each value that is not 0"""
    values = [b[q:q + 4] for q in range(0, len(b), 4)]
    return [bytes([k]) + by(i, w) + v for i, v in enumerate(values) if v != bytes(4)]


def cells_out(k, w, i, b):
    """a record for each cell of initiator i that is not 0xFFFF"""
    if b == b'\xff' * len(b):       # a large matrix has many of these
        return []
    cells = [b[q:q + 2] for q in range(0, len(b), 2)]
    return [bytes([k]) + by(i, w) + by(t, w) + v for t, v in enumerate(cells) if v != b'\xff\xff']


def matrix_out(row, fields, b):
    """the records of a matrix; of row 6 with indices of a byte, of row 12 of two"""
    k, w = (49, 1) if row == 6 else (55, 2)
    flags, dt, ts, I, T, unit = fields
    o = [bytes([k, flags, dt, ts]) + by(unit, 8) + by(I, w) + by(T, w)]
    targets, cells = 32 + 4 * I, 32 + 4 * I + 4 * T
    o += values_out(k + 1, w, b[32:targets]) + values_out(k + 2, w, b[targets:cells])
    for i in range(I):
        o += cells_out(k + 3, w, i, b[cells + 2 * T * i:cells + 2 * T * (i + 1)])
    return b''.join(o)


def out(lent):
    t, rev, n, recs = judge(lent, ALL)
    if rev != REV[t]:
        raise Stop(30, 8)
    for _, p, _, row, _ in recs:
        if row is None:
            raise Stop(29, p)
    for _, p, _, row, _ in recs:
        if row == 4:
            raise Stop(32, p)
    ordinal = {0: 0}
    for i, rec in enumerate(recs):
        ordinal[rec[1]] = i + 1
    o = [bytes([1, t]) + lent[10:36]]
    for typ, p, size, row, f in recs:
        b = lent[p:p + size]
        if row == 0:
            o.append(bytes([16]) + by(f[0], 4) + by(ordinal[f[1]], 4) + by(f[2], 4))
            for i in range(f[3]):
                o.append(bytes([17]) + by(ordinal[le(b[20 + 4 * i:24 + 4 * i])], 4))
        elif row == 1:
            o.append(bytes([18, f[0]]) + by(ordinal[f[1]], 4) + b[12:28])
        elif row == 2:
            o.append(bytes([32]) + by(f[0], 4) + by(f[1], 8) + by(f[2], 8) + bytes([f[3]]))
        elif row == 3:
            if f[0] == 0:
                o.append(bytes([33]) + by(f[1], 4) + by(f[2], 8) + by(f[3], 4) + bytes([f[4]]))
            else:
                o.append(bytes([34]) + by(f[1], 4) + by(f[2], 2) + bytes(f[3:7]))
        elif row == 11:
            o.append(bytes([36]) + by(f[0], 4) + by(f[1], 4) + bytes([f[2]]) + by(f[3], 4))
        elif row == 5:
            o.append(bytes([48]) + by(f[0], 4) + by(f[1], 4))
        elif row in (6, 12):
            o.append(matrix_out(row, f, b))
        elif row == 7:
            o.append(bytes([53]) + by(f[0], 4) + by(f[1], 8) + by(f[2], 4))
            for i in range(f[3]):
                o.append(bytes([54]) + b[32 + 2 * i:34 + 2 * i])
        elif row == 8:
            o.append(bytes([64]) + by(f[0], 4) + bytes([f[1]]) + by(f[2], 8))
        elif row == 9:
            o.append(bytes([65]) + by(f[0], 8) + by(f[1], 8) + bytes(f[2:6]) + by(f[6], 2))
            o += [bytes([66]) + b[q:q + 4] for q in range(36, size, 4)]
        elif row == 10:
            o.append(bytes([67, f[0]]))
            o += [bytes([68]) + b[q:q + 8] for q in range(8, size, 8)]
    return b''.join(o)


def recipe_of(lent):
    try:
        return out(lent)
    except Stop:
        return b''


def read_out(lent, room):
    try:
        r = out(lent)
    except Stop as s:
        return ('refused', s.number, s.place)
    if room < len(r):
        return ('refused', 31, len(r))
    return ('given', len(r))


def out_written(lent, buf):
    a = read_out(lent, len(buf))
    if a[0] == 'refused':
        return bytes(buf)
    return recipe_of(lent) + bytes(buf[a[1]:])


# ---------------------------------------------------------------- a field in words

# kind: the record's name, and its fields with their bytes
WORDS = {
    1: ('head', 'table code 1, OEM ID 6, OEM table ID 8, OEM revision 4, creator ID 4, creator revision 4'),
    16: ('processor', 'flags 4, parent 4, processor ID 4'),
    17: ('resource', 'cache 4'),
    18: ('cache', 'flags 1, next level 4, size 4, sets 4, associativity 1, attributes 1, line size 2, ID 4'),
    32: ('memory affinity', 'domain 4, base 8, length 8, flags 1'),
    33: ('generic initiator', 'domain 4, hid 8, uid 4, flags 1'),
    34: ('generic initiator', 'domain 4, segment 2, bus 1, device 1, function 1, flags 1'),
    36: ('RINTC affinity', 'domain 4, uid 4, flags 1, clock domain 4'),
    48: ('proximity domain', 'initiator 4, memory 4'),
    49: ('matrix', 'flags 1, data type 1, transfer size 1, base unit 8, initiators 1, targets 1'),
    50: ('initiator value', 'index 1, value 4'),
    51: ('target value', 'index 1, value 4'),
    52: ('cell', 'initiator 1, target 1, value 2'),
    53: ('side cache', 'domain 4, size 8, attributes 4'),
    54: ('SMBIOS handle', 'handle 2'),
    55: ('matrix', 'flags 1, data type 1, transfer size 1, base unit 8, initiators 2, targets 2'),
    56: ('initiator value', 'index 2, value 4'),
    57: ('target value', 'index 2, value 4'),
    58: ('cell', 'initiator 2, target 2, value 2'),
    64: ('CXL host bridge', 'uid 4, version 1, base 8'),
    65: ('CXL window', 'base 8, size 8, ways 1, arithmetic 1, granularity 1, restrictions 1, QTG 2'),
    66: ('target of a CXL window', 'uid 4'),
    67: ('XOR maths', 'granularity 1'),
    68: ('XOR map', 'map 8'),
}


def record_at(r, place):
    """where the record that holds this byte of a recipe begins, if those before it are whole"""
    p = 0
    while p + BODY[r[p]] < place:
        p += 1 + BODY[r[p]]
    return p


def named(r, place):
    """the field that begins at this byte of a recipe, in words"""
    p = record_at(r, place)
    record, words = WORDS[r[p]]
    at = p + 1
    for field in words.split(', '):
        name, width = field.rsplit(' ', 1)
        if at == place:
            return '%s of the %s at %d' % (name, record, p)
        at += int(width)
    raise AssertionError('no field begins at %d' % place)


# ---------------------------------------------------------------- listtab

def listing(whole):
    lent = whole[:65536]
    try:
        t, rev, n, recs = judge(lent, ALL)
    except Stop as s:
        return b'refused %d %d\n' % (s.number, s.place)
    o = [b'%s %d %d %d\n' % (NAMES[t], rev, n, len(recs))]
    for typ, p, size, row, _ in recs:
        o.append(b'%d %d %d %s\n' % (p, typ, size, b'unknown' if row is None else b'known'))
    return b''.join(o)


# ---------------------------------------------------------------- the sum, and sumtab

def total(b):
    """the plain sum of the bytes"""
    return sum(b)


def checked(b):
    """what sumtab says of the checksum, as lines; the table is as long as it says, and bytes may stand behind it"""
    length = le(b[4:8])
    if len(b) < 36 or not 36 <= length <= len(b):
        return [b'no whole table']
    said = [b'checksum wrong' if total(b[:length]) % 256 else b'checksum right']
    if length < len(b):
        said.append(b'bytes behind the table %d' % (len(b) - length))
    return said


def summed(b):
    n = total(b)
    return b''.join(line + b'\n' for line in [b'sum %d' % n, b'remainder %d' % (n % 256)] + checked(b))

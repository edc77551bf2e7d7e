"""The protocol of the program calls (docs/CALLS.md) over the model: a request's answer, and requests from their parts."""
import model

MOST = 1114112  # bytes that calls lends, and takes in a request
LINE = 2 * MOST + 64  # characters of the longest line


def hexed(b):
    return b.hex() if b else '-'


def request(call, *parts):
    return ' '.join([call] + [hexed(p) if isinstance(p, bytes) else str(p) for p in parts])


def number(word, most):
    if not word or any(c not in '0123456789' for c in word) or int(word) > most:
        raise ValueError(word)
    return int(word)


def data(word):
    if word == '-':
        return b''
    if not word or len(word) % 2 or any(c not in '0123456789abcdef' for c in word):
        raise ValueError(word)
    return bytes.fromhex(word)


def written(a, whole):
    if a[0] == 'refused':
        return 'refused %d %d kept' % a[1:]
    return 'ok %d %s kept' % (a[1], hexed(whole()))


def seen(table, mask, n):
    a = model.read(table, mask, n)
    if a[0] == 'refused':
        return 'refused %d %d kept' % a[1:]
    _, count, kind, place, length, row, fields = a
    row, values = ('-', '-') if row is None else (row, ','.join(map(str, fields)))
    return 'record %d %d %d %d %s %s %s' % (count, kind, place, length, row, values, hexed(model.part(table, mask, n)))


def answer(line):
    """the line that calls answers"""
    if len(line) > LINE:
        return 'too long'
    words = line.split(' ')
    try:
        if words[0] in ('build', 'out') and len(words) == 3:
            room, b = min(number(words[1], 2 ** 64 - 1), MOST), data(words[2])
            if len(b) > MOST:
                return 'too long'
            if words[0] == 'build':
                return written(model.build(b, room), lambda: model.table(b))
            return written(model.read_out(b, room), lambda: model.recipe_of(b))
        if words[0] == 'read' and len(words) == 4:
            mask, n, b = number(words[1], 2 ** 32 - 1), number(words[2], 2 ** 64 - 1), data(words[3])
            return 'too long' if len(b) > MOST else seen(b, mask, n)
        if words[0] == 'sum' and len(words) == 2:
            b = data(words[1])
            return 'too long' if len(b) > MOST else 'sum %d' % model.total(b)
    except ValueError:
        pass
    return 'what?'

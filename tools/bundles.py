"""Bundles and their listing, written from document 01 (docs/01-scope.md) and, for loose spans and the distance bits of 000, document 02: none of the proved code is used.

Trees are built from bytes by the functions below; `listing` is the lister's text for any run of bytes."""

MAX = 2**32 - 1

# ---- writing


def le(n, size=4):
    return n.to_bytes(size, "little")


def span(index, start, length, extra=0, form=None):
    """A span in the smallest form that fits, or in the longer one of 8 or 12 bytes that is asked for."""
    fits = 4 if index < 16 and length < 256 and start < 2**17 else 8 if index < 2**15 and length < 2**18 and start < 2**27 else 12
    form = max(form or fits, fits)
    assert index < 2**28
    first = extra + 4 * (index % 16) + 64 * (length % 256) + 2**14 * (form > 4) + 2**15 * (start % 2**17)
    if form == 4:
        return le(first)
    if form == 8:
        return le(first) + le(2 * (index >> 4) + 2**12 * (length >> 8) + 2**22 * (start >> 17))
    rest = (index >> 4) + 2**24 * (length >> 8) + 2**48 * (start >> 17)
    return le(first) + le(1 + 2 * (rest >> 32)) + le(rest % 2**32)


def symbol(index, tag=0, size=None):
    size = size or (1 if index < 64 else 2 if index < 8192 else 4)
    if size == 1:
        return bytes([4 * index + tag])
    low = bytes([4 * (index % 64) + 2 + tag])
    if size == 2:
        return low + bytes([2 * (index // 64)])
    return low + bytes([2 * (index // 64 % 128) + 1]) + le(index // 8192, 2)


def punct(part, start, char, spacing=0, length=1, form=None):
    if ord(char) < 128:
        return span(part, start, length, 1 + 2 * (spacing // 2), form) + bytes([2 * ord(char) + spacing % 2])
    return span(part, start, length, 0, form) + bytes([6 + 8 * spacing]) + le(ord(char))


def ident(part, start, length, name, raw=0, form=None):
    return span(part, start, length, 2, form) + symbol(name, raw)


def literal(part, start, length, text, kind, raw_count=0, suffix=0, form=None):
    short = {(4, 0): 3, (5, 0): 4, (5, 1): 11, (2, 0): 12}.get((kind, raw_count))
    head = span(part, start, length, 0, form)
    if short and suffix < 16:
        return head + bytes([short + 16 * suffix]) + symbol(text)
    count = bytes([raw_count]) if kind in (5, 7, 9) else b""
    return head + bytes([7 + 8 * kind]) + count + bytes([suffix]) + symbol(text)


def trees(children):
    return sum(1 + c[1] for c in children)


def packed(children):
    return b"".join(c[0] for c in children)


def leaf(b):
    return (b, 0)


def subtree(part, start, close, kind, children, length=1, close_part=None, close_length=None, form=None, open_form=None, close_form=None):
    """A subtree in the first of the forms 000, 001, 010, 101 that fits, or in the one that is asked for; its spans as `span` makes them."""
    close_part = part if close_part is None else close_part
    close_length = length if close_length is None else close_length
    count, kids, away = trees(children), packed(children), close - start
    same = close_length == length and away >= 0
    if form is None:
        if same and close_part == part and count < 256 and len(kids) < 256 and length == 1 and away < 2048:
            form = 0
        elif same and close_part == part and count < 256 and len(kids) < 256 and away < 8:
            form = 1
        elif same and close_part < 128 and count < 256 and len(kids) < 4096 and away < 256:
            form = 2
        else:
            form = 5
    if form == 0:
        head = span(part, start, away, 0, open_form) + bytes([8 * kind + 32 * (away // 256), count, len(kids)])
    elif form == 1:
        head = span(part, start, length, 0, open_form) + bytes([1 + 8 * kind + 32 * away, count, len(kids)])
    elif form == 2:
        head = span(part, start, length, 0, open_form) + bytes([2 + 8 * kind + 32 * (close_part % 8), away, count])
        head += le(16 * len(kids) + close_part // 8, 2)
    else:
        head = span(part, start, length, 0, open_form) + bytes([5 + 8 * kind])
        head += span(close_part, close, close_length, 0, close_form) + le(count) + le(len(kids))
    return (head + kids, count)


def root(parts, children, kind=3, opening=(0, 0), closing=(0, 0), count=None, size=None):
    count = trees(children) if count is None else count
    size = len(packed(children)) if size is None else size
    head = span(parts - 2, *opening, 0, 12) + bytes([5 + 8 * kind]) + span(parts - 1, *closing, 0, 12)
    return head + le(count) + le(size) + packed(children)


def part_record(file, ast=0, context=0):
    return b"SP" + le(file) + le(ast) + le(context)


def symbol_record(value):
    return b"SY" + le(value)


def last_record(count, b):
    return b"BT" + le(count) + le(len(b)) + b


def bundle(parts, symbols, count, b):
    return b"".join(part_record(*p) for p in parts) + b"".join(map(symbol_record, symbols)) + last_record(count, b)


# ---- reading


class Refused(Exception):
    pass


def word(b, p, n=4):
    if len(b) < p + n:
        raise Refused(7)
    return int.from_bytes(b[p : p + n], "little")


def read_span(b, p):
    """part index, start, length, extra bits, next place"""
    w = word(b, p)
    index, length, start, extra = w >> 2 & 15, w >> 6 & 255, w >> 15, w & 3
    if not w >> 14 & 1:
        return index, start, length, extra, p + 4
    v = word(b, p + 4)
    if not v & 1:
        return index + 16 * (v >> 1 & 2047), start + 2**17 * (v >> 22), length + 256 * (v >> 12 & 1023), extra, p + 8
    rest = (v >> 1) * 2**32 + word(b, p + 8)
    return index + 16 * (rest % 2**24), start + 2**17 * (rest >> 48), length + 256 * (rest >> 24 & 2**24 - 1), extra, p + 12


def is_loose(index, start, length, size):
    """Whether a span that was read from so many bytes fits fewer."""
    if size == 8:
        return index < 16 and start < 131072 and length < 256
    return size == 12 and index < 32768 and start < 134217728 and length < 262144


def read_symbol(b, p):
    c = word(b, p, 1)
    if not c & 2:
        return c >> 2, c & 1, p + 1
    d = word(b, p + 1, 1)
    index = (c >> 2) + 64 * (d >> 1)
    if not d & 1:
        return index, c & 1, p + 2
    return index + 8192 * word(b, p + 2, 2), c & 1, p + 4


def read_tree(b, first):
    """sort, spans as (part, start, length), symbol or None, descendants, children bytes, fields in range, loose spans stored, next place"""
    part, start, length, extra, p = read_span(b, first)
    here, loose = [(part, start, length)], int(is_loose(part, start, length, p - first))
    if extra & 1:
        c = word(b, p, 1)
        return "punct", here, None, 0, 0, c % 2 + extra // 2 * 2 <= 2, loose, p + 1
    if extra & 2:
        name, _, p = read_symbol(b, p)
        return "ident", here, name, 0, 0, True, loose, p
    c = word(b, p, 1)
    p += 1
    low = c & 7
    if low == 6:
        char = word(b, p)
        return "punct", here, None, 0, 0, c >> 3 <= 2 and (char < 0xD800 or 0xDFFF < char < 0x110000), loose, p + 4
    if low in (3, 4):
        name, _, p = read_symbol(b, p)
        return "literal", here, name, 0, 0, True, loose, p
    if low == 7:
        kind = c >> 3
        if kind > 10:
            raise Refused(2)
        p += kind in (5, 7, 9)
        word(b, p, 1)
        name, _, p = read_symbol(b, p + 1)
        return "literal", here, name, 0, 0, True, loose, p
    if low == 5:
        other, close, close_length, _, q = read_span(b, p)
        loose += is_loose(other, close, close_length, q - p)
        count, kids = word(b, q), word(b, q + 4)
        return "subtree", here + [(other, close, close_length)], None, count, kids, c >> 3 <= 3, loose, q + 8
    if low == 2:
        away, count, size = word(b, p, 1), word(b, p + 1, 1), word(b, p + 2, 2)
        other = size % 16 * 8 + (c >> 5)
        return "subtree", here + [(other, start + away, length)], None, count, size >> 4, True, loose, p + 4
    count, kids = word(b, p, 1), word(b, p + 1, 1)
    if low == 1:
        return "subtree", here + [(part, start + (c >> 5), length)], None, count, kids, True, loose, p + 2
    return "subtree", [(part, start, 1), (part, start + length, 1)], None, count, kids, c >> 5 == length >> 8, loose, p + 2


def judged(b, n, p, parts, symbols):
    sort, spans, name, count, kids, fine, loose, next_place = read_tree(b, p)
    if n == 0 and next_place - p != 33:
        raise Refused(2)
    if not fine or any(start + length > MAX for _, start, length in spans):
        raise Refused(2)
    used = [part for part, _, _ in spans]
    if used != [parts - 2, parts - 1] if n == 0 else max(used) + 2 >= parts:
        raise Refused(8)
    if name is not None and name >= symbols:
        raise Refused(8)
    return sort, count, kids, loose, next_place


def refusal(number, tree):
    return f"refused {number} at {tree}\n"


def checked(b, k, parts, symbols):
    if not (1 <= k <= 2**20 and 2 <= parts <= 2**21 and symbols <= 2**20):
        return refusal(1, 0)
    found, below, p = [], 0, 0
    for n in range(k):
        try:
            sort, count, kids, loose, q = judged(b, n, p, parts, symbols)
        except Refused as r:
            return refusal(r.args[0], n)
        found.append((p, q, sort, count, kids))
        below += loose if n else 0
        p = q
    if p != len(b):
        return refusal(9, k)
    ends, lines = [], []
    if found[0][2] != "subtree" or found[0][3] != k - 1:
        return refusal(3, 0)
    for n, (p, q, sort, count, kids) in enumerate(found):
        while ends and ends[-1] <= n:
            ends.pop()
        lines.append(f"{n} {p} {len(ends) + 1} {sort}\n")
        if sort == "subtree":
            if ends and ends[-1] < n + 1 + count:
                return refusal(3, n)
            if len(ends) == 256:
                return refusal(4, n)
            ends.append(n + 1 + count)
    places = [f[0] for f in found] + [len(b)]
    for n, (p, q, sort, count, kids) in enumerate(found):
        if sort == "subtree" and q + kids != places[n + 1 + count]:
            return refusal(9, n)
    return f"trees {k} bytes {len(b)} parts {parts} symbols {symbols} loose {below}\n" + "".join(lines)


def listing(data):
    if len(data) > 65536:
        return refusal(1, 0)
    parts = symbols = p = 0
    while True:
        mark = data[p : p + 2]
        if mark == b"SP" and p + 14 <= len(data):
            parts, p = parts + 1, p + 14
        elif mark == b"SY" and p + 6 <= len(data):
            symbols, p = symbols + 1, p + 6
        elif mark == b"BT" and p + 10 <= len(data) and p + 10 + int.from_bytes(data[p + 6 : p + 10], "little") == len(data):
            return checked(data[p + 10 :], int.from_bytes(data[p + 2 : p + 6], "little"), parts, symbols)
        else:
            return refusal(1, 0)

"""The definitions of a patch in crates/fz_laws/specs, line by line in Python, over those of the crates below it.

    patched.py FILE.jsonl ...      compares them with cases of `patch`
"""
import sys, json, base64, zlib, re
from functools import lru_cache
cached = lru_cache(maxsize=4096)

# ---------------------------------------------------------------- fz_base
class Fault(Exception):
    def __init__(self, hdu, place, kind): self.t = (hdu, place, kind)
    def __repr__(self): return repr(self.t)
def refusal(hdu, place, kind): return (hdu, place, kind)
def first_refusal(checks):
    for c in checks:
        cond, fault = c() if callable(c) else c
        if cond: return fault
    return None
def overwrite(at, b, contents):
    if not b: return contents
    return contents[:at] + bytes(max(0, at - len(contents))) + b + contents[at + len(b):]
def buffer_bound(H, n, W): return 2 * H + 5760 + 2 * W * (16 * n + 64) + 65536
def slots_buffers(n, slots): return [8 * n, 8 * n + 64] * slots
def piled(live, asks):
    out = []
    for a in asks: out.append((live, a)); live += a
    return out
def first_past(limit, takings):
    for live, asked in takings:
        if limit < live + asked: return (live, asked)
    return None

# ---------------------------------------------------------------- fz_card
def padded(name): return name.ljust(8)
def card_name(card): return card[:8]
def has_value_indicator(card): return card[8:10] == b'= '
def value_field(card): return card[10:]
def plain_text(field): return field.split(b'/')[0].strip(b' ')
@cached
def integer_of(card):
    if not has_value_indicator(card): return None
    t = plain_text(value_field(card))
    d = t[1:] if t[:1] in (b'+', b'-') else t
    if not re.fullmatch(rb'[0-9]{1,18}', d): return None
    return -int(d) if t[:1] == b'-' else int(d)
def logical_of(card):
    if not has_value_indicator(card): return None
    return {b'T': True, b'F': False}.get(plain_text(value_field(card)))
@cached
def text_of(card):
    if not has_value_indicator(card): return None
    f = value_field(card).lstrip(b' ')
    if f[:1] != b"'": return None
    out, i = bytearray(), 1
    while True:
        if i >= len(f): return None
        if f[i:i + 1] == b"'":
            if f[i + 1:i + 2] == b"'": out.append(0x27); i += 2; continue
            break
        out.append(f[i]); i += 1
    if plain_text(f[i + 1:]) != b'': return None
    return bytes(out).rstrip(b' ')
def zero_of(card):
    if not has_value_indicator(card): return None
    t = plain_text(value_field(card))
    if t == b'': return None
    return bool(re.fullmatch(rb'[+-]?(0+\.?0*|\.0+)([ED][+-]?[0-9]+)?', t))
def numbered_name(stem, i): return padded(stem + str(i).encode())
def value_card(name, field): return (name + b'= ' + field).ljust(80)
def int_card_bytes(name, v): return value_card(name, str(v).encode().rjust(20))
def text_card_bytes(name, text): return value_card(name, b"'" + text.ljust(8) + b"'")
def number_card(word, v): return int_card_bytes(padded(word), v)
def numbered_word_card(stem, i, text): return text_card_bytes(numbered_name(stem, i), text)
def number_behind(stem, name):
    d = name[len(stem):].rstrip(b' ')
    if re.fullmatch(rb'[0-9]+', d) and int(d) > 0 and name == numbered_name(stem, int(d)): return int(d)
    return None
def up_to(last, n): return n if n is not None and n <= last else None

# ---------------------------------------------------------------- fz_block
class Header:
    def __init__(self, **k): self.__dict__.update(k)
def card_at(header, i): return header[80 * i:80 * i + 80]
def is_named(name, card): return card_name(card) == padded(name)
def is_set(name, card): return is_named(name, card) and (logical_of(card) or False)
@cached
def end_of(header):
    for i in range(len(header) // 80):
        if header[80 * i:80 * i + 8] == b'END     ': return i
    return None
@cached
def cards_of(header): return [card_at(header, i) for i in range(end_of(header) or 0)]
def size_in(v): return 0 if v is None else abs(v)
def size_at(header, i): return size_in(integer_of(card_at(header, i)))
def whole_blocks_of(n): return (n + 2879) // 2880 * 2880
def data_start_of(h): return h.start + 2880 * h.blocks
def next_start_of(h): return data_start_of(h) + whole_blocks_of(h.data_len)
def pcount_index(header): return 3 + size_at(header, 2)
def product(ns):
    r = 1
    for n in ns: r *= n
    return r
def axes_of(header): return [size_at(header, 3 + i) for i in range(size_at(header, 2))]
def facts_of(k, start, header):
    pc = 0 if k == 0 else size_at(header, pcount_index(header))
    gc = 1 if k == 0 else size_at(header, 4 + size_at(header, 2))
    dl = 0 if size_at(header, 2) == 0 else size_at(header, 1) // 8 * (gc * (pc + product(axes_of(header))))
    t = text_of(card_at(header, 0))
    sort = 'Primary' if k == 0 else {b'IMAGE': 'Image', b'BINTABLE': 'BinTable'}.get(t, 'Other')
    b = integer_of(card_at(header, 1))
    return Header(hdu=k, start=start, cards=end_of(header) or 0, blocks=len(header) // 2880, sort=sort,
                  bitpix=0 if b is None else b, axes=axes_of(header), pcount=pc, gcount=gc, data_len=dl)
def header_room(start, file): return file[start:start + 2880 * min(256, max(0, len(file) - start) // 2880)]
def header_blocks_of(k, start, file):
    """(blocks, None) or (None, fault)"""
    e = end_of(header_room(start, file))
    F = len(file)
    f = first_refusal([
        (65536 <= k, refusal(k, ('byte', start), 'Limit')),
        (0 < k and file[start:start + 8] != b'XTENSION', refusal(k, ('byte', start), 'TrailingBytes')),
        (F < start + 2880, refusal(k, ('byte', F), 'Truncated')),
        lambda: (k == 0 and not is_set(b'SIMPLE', file[start:start + 80]), refusal(k, ('card', 0), 'NotFits')),
        (e is None and start + 737280 <= F, refusal(k, ('byte', start), 'LongHeader')),
        (e is None, refusal(k, ('byte', F), 'Truncated'))])
    return (None, f) if f else (e // 36 + 1, None)
def header_checks(k, start, F, header):
    bad = lambda i, ok: (not ok, refusal(k, ('card', i), 'BadCard'))
    size = lambda c: integer_of(c) is not None and integer_of(c) >= 0
    C = lambda i: card_at(header, i)
    out = []
    if k > 0: out.append(lambda: bad(0, is_named(b'XTENSION', C(0)) and text_of(C(0)) is not None))
    out.append(lambda: bad(1, is_named(b'BITPIX', C(1)) and integer_of(C(1)) in (8, 16, 32, 64, -32, -64)))
    out.append(lambda: bad(2, is_named(b'NAXIS', C(2)) and size(C(2))))
    out.append(lambda: (9 < size_at(header, 2), refusal(k, ('card', 2), 'Limit')))
    n = min(10, size_at(header, 2))
    for i in range(1, n + 1):
        out.append(lambda i=i: bad(2 + i, card_name(C(2 + i)) == numbered_name(b'NAXIS', i) and size(C(2 + i))))
        out.append(lambda i=i: (2147483647 < size_at(header, 2 + i), refusal(k, ('card', 2 + i), 'Limit')))
    if k > 0:
        p = pcount_index(header)
        out.append(lambda: bad(p, is_named(b'PCOUNT', C(p)) and size(C(p))))
        out.append(lambda: bad(p + 1, is_named(b'GCOUNT', C(p + 1)) and size(C(p + 1))))
    if k == 0:
        def groups():
            g = next((i for i, c in enumerate(cards_of(header)) if is_set(b'GROUPS', c)), None)
            return (0 < size_at(header, 2) and size_at(header, 3) == 0 and g is not None, refusal(0, ('card', g or 0), 'Groups'))
        out.append(groups)
    def end(): return start + len(header) + whole_blocks_of(facts_of(k, start, header).data_len)
    out.append(lambda: (2 ** 62 < end(), refusal(k, ('card', 2), 'Limit')))
    out.append(lambda: (F < end(), refusal(k, ('byte', F), 'Truncated')))
    return out
def hdu_at(k, start, file):
    blocks, f = header_blocks_of(k, start, file)
    if f: raise Fault(*f)
    header = file[start:start + 2880 * blocks]
    f = first_refusal(header_checks(k, start, len(file), header))
    if f: raise Fault(*f)
    return facts_of(k, start, header)
def unjudged(h): return False
def walk_of(judge, most, file):
    """the headers and whether the judge stopped"""
    k, start, out = 0, 0, []
    while True:
        if k == most: raise Fault(k, ('byte', start), 'Limit')
        h = hdu_at(k, start, file)
        stop = judge(h)
        out.append(h)
        if stop: return out, True
        if next_start_of(h) == len(file): return out, False
        k, start = k + 1, next_start_of(h)
def walk_takings(judge, live, most, file):
    k, start, out = 0, 0, []
    while k < most:
        blocks, f = header_blocks_of(k, start, file)
        if f: return out
        out.append((live, 2880 * blocks))
        try:
            h = hdu_at(k, start, file)
            if judge(h): return out
        except Fault: return out
        if next_start_of(h) == len(file): return out
        k, start = k + 1, next_start_of(h)
    return out
def reached(judge, most, file):
    k, start, out = 0, 0, []
    while k < most:
        out.append((k, start))
        try:
            h = hdu_at(k, start, file)
            if judge(h): return out
        except Fault: return out
        if next_start_of(h) == len(file): return out
        k, start = k + 1, next_start_of(h)
    return out
def header_in(file, h): return file[h.start:h.start + 2880 * h.blocks]
def payload_of(file, h): return file[data_start_of(h):data_start_of(h) + whole_blocks_of(h.data_len)]

# ---------------------------------------------------------------- fz_table
@cached
def first_named(name, header):
    return next((i for i, c in enumerate(cards_of(header)) if card_name(c) == name), None)
def integer_at(header, i): return None if i is None else integer_of(card_at(header, i))
def text_at(header, i): return None if i is None else text_of(card_at(header, i))
def tform_card(header, i): return first_named(numbered_name(b'TFORM', i), header)
def ttype_card(header, i): return first_named(numbered_name(b'TTYPE', i), header)
def field_count(header): return size_in(integer_at(header, first_named(padded(b'TFIELDS'), header)))
def elements_len(letter, count):
    for letters, one in ((b'LBA', 1), (b'I', 2), (b'JE', 4), (b'KDCP', 8), (b'MQ', 16)):
        if letter in letters: return one * count
    return (count + 7) // 8 if letter in b'X' else None
def first_digits(text): return re.match(rb'[0-9]*', text).group()
class Form: pass
def form_in(text):
    if text is None: return None
    d = first_digits(text)
    if len(d) > 9: return None
    rest = text[len(d):]
    if not rest: return None
    repeat = int(d) if d else 1
    n = elements_len(rest[0], repeat)
    if n is None or (rest[0] in b'PQ' and repeat > 1): return None
    f = Form(); f.repeat, f.letter, f.len, f.element = repeat, rest[0], n, rest[1] if len(rest) > 1 else None
    return f
@cached
def form_of(header, i): return form_in(text_at(header, tform_card(header, i)))
def title_of(header, i): return text_at(header, ttype_card(header, i))
def is_called(name, title): return title is not None and title.upper() == name.upper()
@cached
def columns_len(header, i):
    fs = [form_of(header, j) for j in range(1, i + 1)]
    return sum(f.len if f else 0 for f in fs)
def describes(letters, f):
    return f is not None and f.letter in b'PQ' and f.repeat == 1 and f.element is not None and f.element in letters
class Column: pass
@cached
def column_called(name, header, n):
    for i in range(n, 0, -1):
        if is_called(name, title_of(header, i)):
            c, f = Column(), form_of(header, i)
            c.at = columns_len(header, i - 1)
            c.wide = f is not None and f.letter == ord('Q')
            c.unit = 0 if f is None or f.element is None else (elements_len(f.element, 1) or 0)
            return c
    return None
CODED, STORED, GZIP = b'COMPRESSED_DATA', b'UNCOMPRESSED_DATA', b'GZIP_COMPRESSED_DATA'
def row_len_of(h): return h.axes[0]
def row_count_of(h): return h.axes[1]
def rows_len_of(h): return row_len_of(h) * row_count_of(h)
def theap_card(header): return first_named(padded(b'THEAP'), header)
def heap_start_of(header, h):
    return rows_len_of(h) if theap_card(header) is None else size_in(integer_at(header, theap_card(header)))
def table_checks(header, h):
    bad = lambda i: refusal(h.hdu, ('card', h.cards if i is None else i), 'BadTable')
    frm = lambda lo, hi, v: v is not None and lo <= v <= hi
    yield (h.bitpix != 8, bad(1))
    yield (len(h.axes) != 2, bad(2))
    yield (h.gcount != 1, bad(6))
    tf = first_named(padded(b'TFIELDS'), header)
    yield (not frm(1, 999, integer_at(header, tf)), bad(tf))
    n = field_count(header)
    for i in range(1, n + 1): yield (form_of(header, i) is None, bad(tform_card(header, i)))
    yield (columns_len(header, n) != row_len_of(h), bad(3))
    th = theap_card(header)
    yield (th is not None and not frm(rows_len_of(h), rows_len_of(h) + h.pcount, integer_at(header, th)), bad(th))
    for i in range(1, n + 1):
        for name, letters in ((CODED, b'BIJK'), (STORED, b'BIJK'), (GZIP, b'LXBIJKAEDCM')):
            called = is_called(name, title_of(header, i))
            yield (called and column_called(name, header, i - 1) is not None, bad(ttype_card(header, i)))
            yield (called and not describes(letters, form_of(header, i)), bad(tform_card(header, i)))
class Table: pass
def table_in(header, h):
    t = Table(); n = field_count(header)
    t.row_bytes, t.rows, t.rows_at = row_len_of(h), row_count_of(h), data_start_of(h)
    t.heap_at = data_start_of(h) + heap_start_of(header, h)
    t.heap_len = rows_len_of(h) + h.pcount - heap_start_of(header, h)
    t.coded, t.stored, t.gzip = (column_called(x, header, n) for x in (CODED, STORED, GZIP))
    return t
def big(b): return int.from_bytes(b, 'big')
def described_at(file, t, c, row):
    if c is None: return (0, 0)
    w = 8 if c.wide else 4
    at = t.rows_at + t.row_bytes * row + c.at
    return (big(file[at:at + w]), big(file[at + w:at + 2 * w]))
def row_at(file, t, row): return {c: described_at(file, t, getattr(t, c), row) for c in ('coded', 'stored', 'gzip')}
def descriptor_bytes(wide, count, offset):
    w = 8 if wide else 4
    return count.to_bytes(w, 'big') + offset.to_bytes(w, 'big')
def packed_row(wide, coded, stored): return descriptor_bytes(wide, *coded) + descriptor_bytes(wide, *stored)

# ---------------------------------------------------------------- fz_grid
def tile_counts(array, tile): return [(n + t - 1) // t for n, t in zip(array, tile)]
def coordinates_of(lengths, k):
    out = []
    for n in lengths: out.append(k % n); k //= n
    return out
def place_of(lengths, cs):
    if not lengths or not cs: return 0
    return cs[0] + lengths[0] * place_of(lengths[1:], cs[1:])
def tile_corner(array, tile, t): return [d * x for d, x in zip(coordinates_of(tile_counts(array, tile), t), tile)]
def tile_lengths(array, tile, t): return [min(x, n - c) for n, x, c in zip(array, tile, tile_corner(array, tile, t))]
def box_coordinates(lengths):
    if not lengths: return [[]]
    return [[c] + rest for rest in box_coordinates(lengths[1:]) for c in range(lengths[0])]
def tile_coordinates(array, tile, t):
    corner = tile_corner(array, tile, t)
    return [[o + c for o, c in zip(corner, cs)] for cs in box_coordinates(tile_lengths(array, tile, t))]
def pick_count(lo, hi, step): return (max(0, hi - lo)) // step + 1
def picks_before(lo, hi, step, x): return min((max(0, x - lo) + step - 1) // step, pick_count(lo, hi, step))
def tile_picks(array, tile, lo, hi, step, t):
    return [max(0, picks_before(o, h, s, c + n) - picks_before(o, h, s, c))
            for o, h, s, c, n in zip(lo, hi, step, tile_corner(array, tile, t), tile_lengths(array, tile, t))]
def picked_tiles(array, tile, lo, hi, step):
    return [t for t in range(product(tile_counts(array, tile))) if all(n > 0 for n in tile_picks(array, tile, lo, hi, step, t))]

# ---------------------------------------------------------------- fz_head
def index_of(name, cards): return next((i for i, c in enumerate(cards) if card_name(c) == name), None)
def the_card(name, cards):
    i = index_of(name, cards); return b'' if i is None else cards[i]
def word_in(word, cards): return the_card(padded(word), cards)
def numbered_in(stem, i, cards): return the_card(numbered_name(stem, i), cards)
def size_of(card): return size_in(integer_of(card))
def axis_count(cards): return size_of(word_in(b'ZNAXIS', cards))
def said_axes(cards): return [size_of(numbered_in(b'ZNAXIS', i, cards)) for i in range(1, axis_count(cards) + 1)]
def tile_along(cards, i):
    axis = size_of(numbered_in(b'ZNAXIS', i, cards))
    if index_of(numbered_name(b'ZTILE', i), cards) is not None: return min(size_of(numbered_in(b'ZTILE', i, cards)), axis)
    return axis if i == 1 else 1
def said_tile(cards): return [tile_along(cards, i) for i in range(1, axis_count(cards) + 1)]
def parameter_number(text, cards):
    ns = [up_to(999, number_behind(b'ZNAME', card_name(c))) for c in cards if text_of(c) == text]
    ns = [n for n in ns if n is not None]
    return min(ns) if ns else None
def parameter(text, other, cards):
    i = parameter_number(text, cards)
    return other if i is None else size_of(numbered_in(b'ZVAL', i, cards))
def said_codec(cards): return text_of(word_in(b'ZCMPTYPE', cards))
RICE_NAMES = (b'RICE_1', b'RICE_ONE')
class Plan: pass
def plan_of_cards(cards):
    p, name = Plan(), said_codec(cards)
    if name in RICE_NAMES: p.codec = ('Rice', parameter(b'BLOCKSIZE', 32, cards), parameter(b'BYTEPIX', 4, cards))
    elif name == b'PLIO_1': p.codec = ('Plio',)
    else: p.codec = ('Plain',)
    b = integer_of(word_in(b'ZBITPIX', cards)); p.bitpix = 0 if b is None else b
    p.shape, p.tile = said_axes(cards), said_tile(cards)
    return p
@cached
def plan_of_header(header): return plan_of_cards(cards_of(header))
def plan_in(file, h): return plan_of_header(header_in(file, h))
def image_table(file, h): return table_in(header_in(file, h), h)
def is_packed(header, h): return h.sort == 'BinTable' and any(is_set(b'ZIMAGE', c) for c in cards_of(header))
def refused_at(k, found, kind): return (found is not None, refusal(k, ('card', found or 0), kind))
ONCE_WORDS = [padded(w) for w in b'XTENSION BITPIX NAXIS PCOUNT GCOUNT TFIELDS THEAP ZIMAGE ZCMPTYPE ZBITPIX ZNAXIS ZSIMPLE ZTENSION ZPCOUNT ZGCOUNT'.split()]
ONCE_STEMS = [(b'NAXIS', 999), (b'TTYPE', 999), (b'TFORM', 999), (b'ZNAXIS', 99), (b'ZTILE', 999), (b'ZNAME', 999), (b'ZVAL', 999)]
def first_repeat(cards):
    seen = set()
    counted = lambda n: padded(b'ZSIMPLE') if n == padded(b'ZTENSION') else n
    for i, c in enumerate(cards):
        n = card_name(c)
        once = n in ONCE_WORDS or any(up_to(m, number_behind(s, n)) is not None for s, m in ONCE_STEMS)
        if once and counted(n) in seen: return i
        seen.add(counted(n))
    return None
def at_name(k, name, cards, kind): return refusal(k, ('card', index_of(name, cards) or 0), kind)
def at_word(k, word, cards, kind): return at_name(k, padded(word), cards, kind)
def packed_checks(k, header, after_empty):
    cards = cards_of(header)
    END = refusal(k, ('card', len(cards)), 'BadCard')
    has = lambda w: index_of(padded(w), cards) is not None
    columns = size_of(word_in(b'TFIELDS', cards))
    def scaling(c):
        if is_named(b'ZSCALE', c) or is_named(b'ZZERO', c): return True
        if up_to(columns, number_behind(b'TTYPE', card_name(c))) is None: return False
        t = text_of(c)
        return t is not None and t.upper() in (b'ZSCALE', b'ZZERO', b'ZBLANK', b'NULL_PIXEL_MASK')
    yield refused_at(k, next((i for i, c in enumerate(cards) if scaling(c)), None), 'Quantised')
    name = said_codec(cards)
    yield (not has(b'ZCMPTYPE'), END)
    yield (name is None, at_word(k, b'ZCMPTYPE', cards, 'BadCard'))
    yield (name not in RICE_NAMES + (b'PLIO_1', b'NOCOMPRESS'), at_word(k, b'ZCMPTYPE', cards, 'UnknownCodec'))
    b = integer_of(word_in(b'ZBITPIX', cards))
    yield (not has(b'ZBITPIX'), END)
    yield (b in (-32, -64), at_word(k, b'ZBITPIX', cards, 'Quantised'))
    yield (b not in (8, 16, 32, 64), at_word(k, b'ZBITPIX', cards, 'BadCard'))
    yield (b == 64 and name != b'NOCOMPRESS', at_word(k, b'ZCMPTYPE', cards, 'UnknownCodec'))
    pos = lambda v: v is not None and v > 0
    yield (not has(b'ZNAXIS'), END)
    yield (not pos(integer_of(word_in(b'ZNAXIS', cards))), at_word(k, b'ZNAXIS', cards, 'BadCard'))
    yield (9 < axis_count(cards), at_word(k, b'ZNAXIS', cards, 'Limit'))
    axes = range(1, axis_count(cards) + 1)
    for i in axes:
        n = numbered_name(b'ZNAXIS', i)
        yield (index_of(n, cards) is None, END)
        yield (not pos(integer_of(numbered_in(b'ZNAXIS', i, cards))), at_name(k, n, cards, 'BadCard'))
        yield (2147483647 < size_of(numbered_in(b'ZNAXIS', i, cards)), at_name(k, n, cards, 'Limit'))
    for i in axes:
        n = numbered_name(b'ZTILE', i)
        yield (index_of(n, cards) is not None and not pos(integer_of(numbered_in(b'ZTILE', i, cards))), at_name(k, n, cards, 'BadCard'))
    S, T = said_axes(cards), said_tile(cards)
    count = product(tile_counts(S, T))
    yield (2 ** 40 < product(S) or 2 ** 26 < product(T) or 2147483647 < count, at_word(k, b'ZNAXIS', cards, 'Limit'))
    if name in RICE_NAMES:
        for text, test, eight in ((b'BLOCKSIZE', lambda v: pos(v) and v <= 32767, False), (b'BYTEPIX', lambda v: v in (1, 2, 4), True)):
            i = parameter_number(text, cards)
            if i is None: continue
            zv = numbered_name(b'ZVAL', i)
            yield (index_of(zv, cards) is None, at_name(k, numbered_name(b'ZNAME', i), cards, 'BadCard'))
            v = integer_of(numbered_in(b'ZVAL', i, cards))
            if eight: yield (v == 8, at_name(k, zv, cards, 'UnknownCodec'))
            yield (not test(v), at_name(k, zv, cards, 'BadCard'))
    yield (has(b'ZSIMPLE') and not logical_of(word_in(b'ZSIMPLE', cards)), at_word(k, b'ZSIMPLE', cards, 'BadCard'))
    yield (has(b'ZTENSION') and text_of(word_in(b'ZTENSION', cards)) != b'IMAGE', at_word(k, b'ZTENSION', cards, 'BadCard'))
    yield (has(b'ZSIMPLE') and not after_empty, at_word(k, b'ZSIMPLE', cards, 'MisplacedPrimary'))
    for w, v in ((b'ZPCOUNT', 0), (b'ZGCOUNT', 1)):
        yield (not has(b'ZSIMPLE') and has(w) and integer_of(word_in(w, cards)) != v, at_word(k, w, cards, 'BadCard'))
    z = next((i for i, c in enumerate(cards) if is_named(b'BZERO', c) and zero_of(c) is False), None)
    yield (name == b'PLIO_1' and z is not None, refusal(k, ('card', z or 0), 'PlioOffset'))
    yield (size_at(header, 4) != count, refusal(k, ('card', 4), 'RowCount'))
def packed_card_checks(h, header):
    if h.sort == 'BinTable':
        yield refused_at(h.hdu, next((i for i, c in enumerate(cards_of(header)) if is_set(b'ZTABLE', c)), None), 'CompressedTable')
    yield (not is_packed(header, h), refusal(h.hdu, ('byte', h.start), 'NotPacked'))
    yield refused_at(h.hdu, first_repeat(cards_of(header)), 'Duplicate')
def image_checks(h, header, after_empty):
    yield from table_checks(header, h)
    yield from packed_checks(h.hdu, header, after_empty)
def is_after_empty(file, h): return h.hdu == 1 and size_at(file, 2) == 0
def is_wanted(wanted, header, h): return is_packed(header, h) if wanted is None else h.hdu == wanted
def missing_hdu(wanted, hdus, n): return refusal(hdus if wanted is None else wanted, ('byte', n), 'NotPacked')
def coded_letter(codec): return b'I' if codec[0] == 'Plio' else b'B'
def stored_letter(bitpix): return {8: b'B', 16: b'I', 32: b'J'}.get(bitpix, b'K')
def pixel_len(bitpix): return abs(bitpix) // 8
def coded_unit(codec): return 2 if codec[0] == 'Plio' else 1
def descriptor_form(wide, letter, most): return (b'1Q' if wide else b'1P') + letter + b'(' + str(most).encode() + b')'
def greatest(ns): return max(ns, default=0)
def axis_inside(k, cards, lo, ln, i):
    o, n = (lo[i] if i < len(lo) else 0), (ln[i] if i < len(ln) else 0)
    return (size_of(numbered_in(b'ZNAXIS', i + 1, cards)) < o + n, at_name(k, numbered_name(b'ZNAXIS', i + 1), cards, 'OutOfBox'))
def work_buffers(header_len, translates, tile, W):
    return [header_len] + ([header_len + 2880] if translates else []) + ([] if tile is None else slots_buffers(tile, 2 * W) + [65536])

# ---------------------------------------------------------------- fz_sum
def ones_sum(b):
    b = b + bytes(-len(b) % 4)
    t = sum(int.from_bytes(b[i:i + 4], 'big') for i in range(0, len(b), 4))
    return 0 if t == 0 else (t - 1) % (2 ** 32 - 1) + 1
def characters(s):
    bad = lambda c: 58 <= c <= 64 or 91 <= c <= 96
    def evened(x, y):
        t = 0
        while bad(x + t) or bad(y - t): t += 1
        return [x + t, y - t]
    cs = []
    for byte in (2 ** 32 - 1 - s).to_bytes(4, 'big'):
        q = byte // 4 + 48
        cs.append(evened(q + byte % 4, q) + evened(q, q))
    text = [cs[i][j] for j in range(4) for i in range(4)]
    return bytes(text[15:] + text[:15])
DATASUM, CHECKSUM = padded(b'DATASUM'), padded(b'CHECKSUM')
def datasum_card(s): return text_card_bytes(DATASUM, str(s).encode())
def checksum_card(s): return text_card_bytes(CHECKSUM, characters(s))
BLANK_CHECKSUM = text_card_bytes(CHECKSUM, b'0' * 16)
def with_card(i, card, header): return header[:80 * i] + card + header[80 * (i + 1):]

# ---------------------------------------------------------------- fz_tile, fz_rice, fz_plio
def is_number(bitpix, x): return 0 <= x < 256 if bitpix == 8 else -(1 << bitpix - 1) <= x < 1 << bitpix - 1
def plain_bytes(bitpix, xs): return b''.join((x % (1 << bitpix)).to_bytes(bitpix // 8, 'big') for x in xs)
def stored_pixels(bitpix, n, b):
    w = bitpix // 8
    return [int.from_bytes(b[i * w:i * w + w], 'big', signed=bitpix != 8) for i in range(n)]
ROWS = {8: (3, 5, 7), 16: (4, 13, 15), 32: (5, 24, 26)}
def rice_bytes(w, block, xs):
    idb, most, raw = ROWS[w]
    bits, before, ds = format(xs[0] % 2 ** w, '0%db' % w), xs[0] % 2 ** w, []
    for x in xs:
        d = (x - before) % 2 ** w
        if d >= 1 << w - 1: d -= 2 ** w
        ds.append(2 * d if d >= 0 else -2 * d - 1); before = x
    for a in range(0, len(ds), block):
        vs = ds[a:a + block]; S, m = sum(vs), len(vs)
        if S == 0: bits += format(0, '0%db' % idb); continue
        k = (max(0, S - m // 2 - 1) // m // 2).bit_length()
        if k + 1 < raw:
            bits += format(k + 1, '0%db' % idb) + ''.join('0' * (v >> k) + '1' + (format(v % 2 ** k, '0%db' % k) if k else '') for v in vs)
        else: bits += format(raw, '0%db' % idb) + ''.join(format(v, '0%db' % w) for v in vs)
    bits += '0' * (-len(bits) % 8)
    return int(bits, 2).to_bytes(len(bits) // 8, 'big')
class Ended(Exception): pass
class Unlawful(Exception): pass
def rice_numbers(w, block, n, b):
    idb, most, raw = ROWS[w]
    bits, at = ''.join(format(x, '08b') for x in b), 0
    def take(c):
        nonlocal at
        if at + c > len(bits): raise Ended
        v = int(bits[at:at + c], 2) if c else 0; at += c; return v
    before, out = take(w), []
    while len(out) < n:
        rest = bits[at:at + idb]
        if len(rest) < idb:
            if int(rest.ljust(idb, '0'), 2) > raw: raise Unlawful
            raise Ended
        i = take(idb)
        if i > raw: raise Unlawful
        for _ in range(min(block, n - len(out))):
            if i == 0: v = 0
            elif i == raw: v = take(w)
            else:
                k, z = i - 1, 0
                while True:
                    if z << k >= 2 ** w: raise Unlawful
                    if at >= len(bits): raise Ended
                    if bits[at] == '1': at += 1; break
                    z += 1; at += 1
                v = (z << k) + take(k)
            d = v // 2 if v % 2 == 0 else -(v + 1) // 2
            before = (before + d) % 2 ** w
            out.append(before - 2 ** w if w > 8 and before >= 1 << w - 1 else before)
    return out
def plio_pieces(op, n):
    out = []
    while n > 0: out.append(op << 12 | min(n, 4095)); n -= min(n, 4095)
    return out
def line_list(xs):
    runs, zeros, i = [], 0, 0
    while i < len(xs):
        j = i
        while j < len(xs) and xs[j] == xs[i]: j += 1
        if xs[i] == 0: zeros = j - i
        else: runs.append((zeros, xs[i], j - i)); zeros = 0
        i = j
    body, h = [], 1
    for nz, v, c in runs:
        if c == 1 and nz == 0 and v != h and abs(v - h) < 4096:
            body.append((6 if v > h else 7) << 12 | abs(v - h)); h = v; continue
        if v != h:
            if abs(v - h) > 4095: body += [1 << 12 | v % 4096, v // 4096]
            else: body.append((2 if v > h else 3) << 12 | abs(v - h))
            h = v
        last = (nz - 1) % 4095 + 1
        if c == 1 and nz > 0 and last < 4095: body += [4095] * ((nz - 1) // 4095) + [5 << 12 | last + 1]
        else: body += plio_pieces(0, nz) + plio_pieces(4, c)
    body += plio_pieces(0, zeros)
    L = len(body) + 7
    return b''.join(x.to_bytes(2, 'big') for x in [0, 7, 65436, L % 32768, L // 32768, 0, 0] + body)
def line_numbers(n, b):
    if len(b) % 2 or len(b) < 14: return None
    w = [big(b[i:i + 2]) for i in range(0, len(b), 2)]
    L = w[3] + 32768 * w[4]
    if w[1] != 7 or 0 < w[2] < 32768 or w[3] > 32767 or w[4] > 32767 or L < 7 or L > len(w): return None
    i, h, out = 7, 1, []
    while i < L:
        op, N = w[i] >> 12, w[i] & 4095; i += 1
        if op >= 8: return None
        if op == 0: out += [0] * N
        elif op == 1:
            if i >= L or w[i] > 4095: return None
            h = N + 4096 * w[i]; i += 1
        elif op in (2, 6): h += N
        elif op in (3, 7): h -= N
        elif op == 4: out += [h] * N
        elif op == 5:
            if N == 0: return None
            out += [0] * (N - 1) + [h]
        if not 0 <= h < 2 ** 24: return None
        if op in (6, 7): out.append(h)
        if len(out) > n: return None
    return out + [0] * (n - len(out))
def tile_code(codec, bitpix, xs):
    plain = plain_bytes(bitpix, xs); code = None
    if codec[0] == 'Rice': code = rice_bytes(8 * codec[2], codec[1], xs)
    if codec[0] == 'Plio' and all(0 <= x < 2 ** 24 for x in xs): code = line_list(xs)
    return ('Coded', code) if code is not None and len(code) < len(plain) else ('Stored', plain)

# ---------------------------------------------------------------- fz_files
def pixel_bits(p): return abs(p.bitpix)
def tiles_in(p): return product(tile_counts(p.shape, p.tile))
def pixels_of(p, t): return product(tile_lengths(p.shape, p.tile, t))
def coded_count(p, e): return len(e[1]) // coded_unit(p.codec) if e[0] == 'Coded' else 0
def stored_count(p, e): return 0 if e[0] == 'Coded' else len(e[1]) // pixel_len(p.bitpix)
def row_of(p, wide, offset, e):
    if e[0] == 'Coded': return packed_row(wide, (coded_count(p, e), offset), (0, 0))
    return packed_row(wide, (0, 0), (stored_count(p, e), offset))
def row_numbers(file, h, row):
    """what a row stands for, or its fault"""
    p, t = plan_in(file, h), image_table(file, h)
    n = pixels_of(p, row); bad = lambda kind: Fault(h.hdu, ('row', row), kind)
    r = row_at(file, t, row)
    col = 'coded' if r['coded'][0] > 0 else 'stored'
    if r['coded'][0] == 0 and r['stored'][0] == 0: raise bad('GzipTile' if r['gzip'][0] > 0 else 'TileMissing')
    c = getattr(t, col); total = r[col][0] * (c.unit if c else 0)
    if r[col][1] + total > t.heap_len: raise bad('DescriptorRange')
    plain = col == 'stored' or p.codec[0] == 'Plain'
    if plain and total != pixel_bits(p) // 8 * n: raise bad('TileSize')
    start = t.heap_at + r[col][1]; read = file[start:start + min(total, 8 * n + 64)]
    if plain: xs = stored_pixels(pixel_bits(p), n, read)
    elif p.codec[0] == 'Rice':
        try: xs = rice_numbers(8 * p.codec[2], p.codec[1], n, read)
        except Ended: raise bad('CodeShort' if total <= 8 * n + 64 else 'CodeValue')
        except Unlawful: raise bad('CodeValue')
    else:
        xs = line_numbers(n, read)
        if xs is None: raise bad('LineList')
    if not all(is_number(pixel_bits(p), x) for x in xs): raise bad('PixelRange')
    return xs

# ================================================================ a patch
# ---- Amends
def applied(ws, file):
    for at, b in ws: file = overwrite(at, b, file)
    return file
# ---- Given
class Given: pass
def given_header(patch): return hdu_at(0, 0, patch)
def given_by(patch, job):
    g = Given(); g.corner = job['corner']
    try:
        q = given_header(patch)
        g.lengths = q.axes
        g.numbers = lambda: stored_pixels(abs(q.bitpix), product(q.axes), payload_of(patch, q))
    except Fault: g.lengths, g.numbers = [], lambda: []
    return g
def box_sieve(g):
    n = len(g.corner)
    hi = [o + m - 1 for o, m in zip(g.corner, g.lengths)]
    nine = lambda ns: (ns + [0] * (9 - len(ns)))[:max(n, 0)]
    return nine(list(g.corner)), nine(hi), nine([1] * n)
# ---- NewNumbers
def is_in_box(corner, lengths, cs):
    if not corner: return True
    if not lengths or not cs: return False
    return corner[0] <= cs[0] < corner[0] + lengths[0] and is_in_box(corner[1:], lengths[1:], cs[1:])
def new_number(g, nums, cs, x):
    if is_in_box(g.corner, g.lengths, cs): return nums[place_of(g.lengths, [c - o for o, c in zip(g.corner, cs)])]
    return x
def new_numbers(p, g, t, xs):
    nums = g.numbers()
    return [new_number(g, nums, cs, x) for cs, x in zip(tile_coordinates(p.shape, p.tile, t), xs)]
def box_tiles(p, g): return picked_tiles(p.shape, p.tile, *box_sieve(g))
# ---- Form
def is_wide_column(header, name):
    c = column_called(name, header, field_count(header)); return c is not None and c.wide
def is_wide_table(header): return is_wide_column(header, CODED)
def has_form(header, h, p):
    return (field_count(header) == 2 and is_called(CODED, title_of(header, 1)) and is_called(STORED, title_of(header, 2))
            and describes(coded_letter(p.codec), form_of(header, 1)) and describes(stored_letter(p.bitpix), form_of(header, 2))
            and is_wide_table(header) == is_wide_column(header, STORED)
            and heap_start_of(header, h) == rows_len_of(h)
            and (p.codec[0] != 'Rice' or p.codec[2] == pixel_len(p.bitpix)))
# ---- Checks
def find_hdu_checks(file, h):
    header = header_in(file, h)
    yield from packed_card_checks(h, header)
    yield from image_checks(h, header, is_after_empty(file, h))
def find_judge(wanted, file):
    def judge(h):
        if not is_wanted(wanted, header_in(file, h), h): return False
        f = first_refusal(find_hdu_checks(file, h))
        if f: raise Fault(*f)
        return True
    return judge
def wanted_image(wanted, file):
    hs, stopped = walk_of(find_judge(wanted, file), 65536, file)
    if stopped: return hs[-1]
    raise Fault(*missing_hdu(wanted, len(hs), len(file)))
def may_be_given(p, patch):
    try: q = given_header(patch)
    except Fault: return False
    return q.bitpix == p.bitpix and len(q.axes) == len(p.shape) and all(n >= 1 for n in q.axes)
def own_checks(file, h, job):
    header = header_in(file, h); cards = cards_of(header)
    yield (next_start_of(h) != len(file), refusal(h.hdu, ('byte', next_start_of(h)), 'Unpatchable'))
    yield (not has_form(header, h, plan_in(file, h)), refusal(h.hdu, ('card', 0), 'Unpatchable'))
    yield (len(job['corner']) != axis_count(cards), at_word(h.hdu, b'ZNAXIS', cards, 'OutOfBox'))
def target_checks(file, patch, h, job):
    yield from own_checks(file, h, job)
    yield (not may_be_given(plan_in(file, h), patch), refusal(0, ('byte', 0), 'BadPatch'))
    cards = cards_of(header_in(file, h)); g = given_by(patch, job)
    for i in range(axis_count(cards)): yield axis_inside(h.hdu, cards, g.corner, g.lengths, i)
def patch_target(file, patch, job):
    walk_of(unjudged, 65536, file)
    h = wanted_image(job['wanted'], file)
    f = first_refusal(target_checks(file, patch, h, job))
    if f: raise Fault(*f)
    return h
# ---- Writes
def heap_of(es): return b''.join(e[1] for e in es)
def new_codes(p, g, tiles, olds): return [tile_code(p.codec, pixel_bits(p), new_numbers(p, g, t, xs)) for t, xs in zip(tiles, olds)]
def heap_end(t): return t.heap_at + t.heap_len
def grown_end(h, more): return data_start_of(h) + whole_blocks_of(h.data_len + more)
def code_writes(start, es):
    out = []
    for e in es: out.append((start, e[1])); start += len(e[1])
    return out
def zero_writes(start, end): return [] if start == end else [(start, bytes(end - start))]
def heap_writes(file, h, es):
    start, more = heap_end(image_table(file, h)), len(heap_of(es))
    return code_writes(start, es) + zero_writes(start + more, grown_end(h, more))
def card_write(h, i, card): return (h.start + 80 * i, card)
def pcount_writes(file, h, more): return [card_write(h, pcount_index(header_in(file, h)), number_card(b'PCOUNT', h.pcount + more))]
def number_in_parentheses(b):
    m = re.match(rb'\(([0-9]*)', b)
    if not m: return None
    d, rest = m.group(1), b[m.end():]
    return int(d) if rest[:1] == b')' and 0 < len(d) <= 18 else None
def said_most(header, i):
    text = text_at(header, tform_card(header, i))
    if text is None: return 0
    return number_in_parentheses(text[len(first_digits(text)) + 2:]) or 0
def form_writes(header, h, i, letter, news, others):
    if said_most(header, i) < greatest(news):
        return [card_write(h, tform_card(header, i) or 0, numbered_word_card(b'TFORM', i, descriptor_form(is_wide_table(header), letter, greatest(news + others))))]
    return []
def column_writes(file, h, tiles, es):
    header, p, t = header_in(file, h), plan_in(file, h), image_table(file, h)
    others = [row_at(file, t, r) for r in range(t.rows) if r not in tiles]
    return (form_writes(header, h, 1, coded_letter(p.codec), [coded_count(p, e) for e in es], [r['coded'][0] for r in others])
            + form_writes(header, h, 2, stored_letter(p.bitpix), [stored_count(p, e) for e in es], [r['stored'][0] for r in others]))
def row_writes(t, p, wide, offset, pairs):
    out = []
    for row, e in pairs: out.append((t.rows_at + t.row_bytes * row, row_of(p, wide, offset, e))); offset += len(e[1])
    return out
def header_now(file, h): return facts_of(h.hdu, h.start, header_in(file, h))
def told_sum(name, header):
    cards = cards_of(header); i = index_of(name, cards)
    return i if i is not None and text_of(cards[i]) else None
def data_now(file, h): return payload_of(file, header_now(file, h))
def sum_writes(file, h):
    i = told_sum(DATASUM, header_in(file, h))
    first = [] if i is None else [card_write(h, i, datasum_card(ones_sum(data_now(file, h))))]
    file = applied(first, file)
    i = told_sum(CHECKSUM, header_in(file, h))
    return first + ([] if i is None else [card_write(h, i, checksum_card(ones_sum(with_card(i, BLANK_CHECKSUM, header_in(file, h)) + data_now(file, h))))])
def steps_of(file, h, g, olds):
    p, t = plan_in(file, h), image_table(file, h)
    tiles = box_tiles(p, g); es = new_codes(p, g, tiles, olds)
    s = dict(heap=heap_writes(file, h, es), pcount=pcount_writes(file, h, len(heap_of(es))), forms=column_writes(file, h, tiles, es),
             rows=row_writes(t, p, is_wide_table(header_in(file, h)), t.heap_len, list(zip(tiles, es))))
    s['sums'] = sum_writes(applied(before_sums(s), file), h)
    return s
def before_rows(s): return s['heap'] + s['pcount'] + s['forms']
def before_sums(s): return before_rows(s) + s['rows']
def all_writes(s): return before_sums(s) + s['sums']
# ---- FirstPatchFault
def room_check(file, h, more):
    return ((not is_wide_table(header_in(file, h)) and 2147483647 < h.pcount + more) or 10 ** 18 - 1 < h.pcount + more or 2 ** 62 < grown_end(h, more),
            refusal(h.hdu, ('card', 5), 'Limit'))
def patch_steps(file, patch, job):
    """the header and the steps of a patch, or its first fault"""
    h = patch_target(file, patch, job)
    g, p = given_by(patch, job), plan_in(file, h)
    tiles = box_tiles(p, g)
    olds = [row_numbers(file, h, t) for t in tiles]
    f = first_refusal([room_check(file, h, len(heap_of(new_codes(p, g, tiles, olds))))])
    if f: raise Fault(*f)
    return h, g, olds, steps_of(file, h, g, olds)
# ---- Buffers
def header_len(file, r):
    b, f = header_blocks_of(r[0], r[1], file); return 0 if f else 2880 * b
def patch_takings(file, patch, job):
    out = [(0, 2880)] + walk_takings(unjudged, 2880, 65536, file)
    try: walk_of(unjudged, 65536, file)
    except Fault: return out
    out += walk_takings(find_judge(job['wanted'], file), 2880, 65536, file)
    try: h = wanted_image(job['wanted'], file)
    except Fault: return out
    out.append((2880, 2880 * h.blocks)); live = 2880 + 2880 * h.blocks
    if first_refusal(own_checks(file, h, job)): return out
    b, f = header_blocks_of(0, 0, patch)
    if not f: out.append((live, 2880 * b))
    if first_refusal(target_checks(file, patch, h, job)): return out
    return out + piled(live, work_buffers(0, False, product(plan_in(file, h).tile), 1))
def patch_bound(file, patch, job):
    H = greatest([header_len(file, r) for r in reached(unjudged, 65536, file)]); n = 0
    try:
        walk_of(unjudged, 65536, file)
        h = wanted_image(job['wanted'], file)
        if not first_refusal(own_checks(file, h, job)): H = max(H, header_len(patch, (0, 0)))
        if not first_refusal(target_checks(file, patch, h, job)): n = product(plan_in(file, h).tile)
    except Fault: pass
    return buffer_bound(H, n, 1)

# ================================================================ the words (as far as the cases need them), and the comparison
NUMBER = dict(NotFits=1, Truncated=2, LongHeader=3, BadCard=4, Duplicate=5, HeaderFill=6, DataFill=7, TrailingBytes=8, Reserved=9,
              AlreadyPacked=10, Limit=11, Groups=12, UnknownCodec=13, Quantised=14, CompressedTable=15, BadTable=16, RowCount=17,
              DescriptorRange=18, TileMissing=19, GzipTile=20, CodeShort=21, CodeValue=22, LineList=23, PixelRange=24, TileSize=25,
              MisplacedPrimary=26, NotPacked=27, OutOfBox=28, PlioOffset=29, Unpatchable=31, BadPatch=32)
USAGE = (2, 'usage: fz pack, unpack, cut, verify, list, drill, retile or patch\n')
def words_of(words):
    opts, names, i = {}, [], 1
    only = False
    while i < len(words):
        w = words[i]
        if only or not w.startswith('-') or w == '-': names.append(w)
        elif w == '--': only = True
        else:
            name, eq, value = w.partition('=')
            if name not in ('--hdu', '--at', '--memory') or name in opts: return None
            if not eq:
                i += 1
                if i >= len(words) or words[i].startswith('-'): return None
                value = words[i]
            opts[name] = value
        i += 1
    if len(names) != 2 or '--at' not in opts: return None
    num = lambda t, lo, hi: int(t) if re.fullmatch('[0-9]{1,30}', t) and lo <= int(t) <= hi else None
    at = [num(t, 1, 2147483647) for t in opts['--at'].split(',')]
    hdu = num(opts['--hdu'], 0, 4294967295) if '--hdu' in opts else None
    mem = num(opts['--memory'], 1, 2 ** 62) if '--memory' in opts else 4294967296
    if None in at or len(at) > 9 or ('--hdu' in opts and hdu is None) or mem is None: return None
    return dict(wanted=hdu, corner=[a - 1 for a in at]), mem, names
def answer(words, files):
    got = words_of(words)
    if got is None: return USAGE + ({},)
    job, mem, (pn, fn) = got
    if fn not in files or pn not in files: return 4, 'read fault\n', {}
    file, patch = files[fn], files[pn]
    past = first_past(mem, patch_takings(file, patch, job))
    if past: return 6, 'over limit: live %d asked %d limit %d\n' % (past + (mem,)), {}
    try: h, g, olds, steps = patch_steps(file, patch, job)
    except Fault as x:
        k, (what, n), kind = x.t
        return 3, 'refused: %d %s hdu %d %s %d\n' % (NUMBER[kind], kind, k, what, n), {}
    return 0, '', {fn: applied(all_writes(steps), file)}
def unz(t): return zlib.decompress(base64.b64decode(t))
def cases(path):
    for line in open(path):
        c = json.loads(line)
        yield c, {k: unz(v) for k, v in c['files'].items()}

if __name__ == '__main__':
    good = bad = 0; seen = {}
    for path in sys.argv[1:]:
        for c, files in cases(path):
            status, text, after = answer(c['words'], files)
            why = None
            if (status, text) != (c['status'], c['text']): why = 'answers %r, want %r' % ((status, text), (c['status'], c['text']))
            for name, body in files.items():
                want = unz(c['after'][name]) if name in c.get('after', {}) else body
                if after.get(name, body) != want: why = '%s is another after the patch' % name
            key = c['text'].split(' hdu')[0].strip() or 'done'; seen[key] = seen.get(key, 0) + 1
            if why: bad += 1; print(c['case'], ' '.join(c['words']), why)
            else: good += 1
    for k in sorted(seen): print('%4d  %s' % (seen[k], k))
    print('%d agree, %d differ' % (good, bad))

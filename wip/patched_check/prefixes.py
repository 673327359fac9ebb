"""Tries the statements of the laws: every prefix of the writes of patches, on the cases and on hostile files.

    prefixes.py SECONDS CASES..
"""
import sys, random, time
sys.path.insert(0, __file__.rsplit('/', 1)[0])
from patched import *

def cut_faults(wanted, file, corner, lengths):
    """the header fault of `cut`, or the header that it finds"""
    def judge(h):
        header = header_in(file, h)
        if not is_wanted(wanted, header, h): return False
        cards = cards_of(header)
        def box():
            yield (len(corner) != axis_count(cards), at_word(h.hdu, b'ZNAXIS', cards, 'OutOfBox'))
            for i in range(axis_count(cards)): yield axis_inside(h.hdu, cards, corner, lengths, i)
        f = first_refusal(find_hdu_checks(file, h)) or first_refusal(box())
        if f: raise Fault(*f)
        return True
    try: hs, stopped = walk_of(judge, 65536, file)
    except Fault as x: return x.t, None
    if not stopped: return missing_hdu(wanted, len(hs), len(file)), None
    return None, hs[-1]
def unpack_fault(file):
    def judge(h):
        header = header_in(file, h)
        def checks():
            if h.sort == 'BinTable':
                yield refused_at(h.hdu, next((i for i, c in enumerate(cards_of(header)) if is_set(b'ZTABLE', c)), None), 'CompressedTable')
                yield (is_packed(header, h) and first_repeat(cards_of(header)) is not None, refusal(h.hdu, ('card', 0), 'Duplicate'))
            if is_packed(header, h): yield from image_checks(h, header, is_after_empty(file, h))
        f = first_refusal(checks())
        if f: raise Fault(*f)
        return False
    try: walk_of(judge, 65536, file); return None
    except Fault as x: return x.t
def numbers(file, h, t):
    try: return row_numbers(file, h, t)
    except Fault: return None
def wrong_sum(file, h):
    header, data = header_in(file, h), payload_of(file, h)
    i, j = told_sum(DATASUM, header), told_sum(CHECKSUM, header)
    if i is not None:
        t = text_of(card_at(header, i)).lstrip(b' ')
        if not (t.isdigit() and int(t) < 2 ** 32 and int(t) == ones_sum(data)): return True
    return j is not None and ones_sum(header + data) != 4294967295
def verdicts(file, h):
    """what is said of both sums of an HDU"""
    header, data = header_in(file, h), payload_of(file, h)
    i, j = told_sum(DATASUM, header), told_sum(CHECKSUM, header)
    t = text_of(card_at(header, i)).lstrip(b' ') if i is not None else b''
    return ('Absent' if i is None else 'Right' if t.isdigit() and int(t) == ones_sum(data) else 'Wrong',
            'Absent' if j is None else 'Right' if ones_sum(header + data) == 4294967295 else 'Wrong')
def renewed(v): return 'Right' if v == 'Wrong' else v
def vars_of(h): return {k: v for k, v in h.__dict__.items()}

count = dict(patches=0, prefixes=0, faults=0, hostile=0)
def tries(file, patch, job, every=True):
    """all statements for one patch; the first that fails is an AssertionError"""
    assert first_past(patch_bound(file, patch, job), patch_takings(file, patch, job)) is None, 'bound'
    try: h, g, olds, steps = patch_steps(file, patch, job)
    except Fault as x: count['faults'] += 1; return x.t
    count['patches'] += 1
    p = plan_in(file, h); ws = all_writes(steps); tiles = box_tiles(p, g)
    before = [numbers(file, h, t) for t in range(tiles_in(p))]
    new = {t: new_numbers(p, g, t, before[t]) for t in tiles}
    for t in range(tiles_in(p)):
        if before[t] is not None and t not in tiles: assert new_numbers(p, g, t, before[t]) == before[t], 'others keep'
    n = len(file)
    for at, b in ws:
        assert at <= n and b and at + len(b) <= 2 ** 62, 'order'
        n = max(n, at + len(b))
    whole = [0] * len(p.shape), list(p.shape)
    jobs = [(w, c, l) for w in (None, h.hdu) + tuple(range(h.hdu)) for c, l in (whole, ([x - 1 for x in p.shape], [1] * len(p.shape)), (list(g.corner), list(g.lengths)), ([0], [1]))]
    old_cut = [cut_faults(*((w, file) + (c, l)))[0] for w, c, l in jobs]
    old_unpack = unpack_fault(file)
    touched = bytearray(len(file))
    for at, b in ws: touched[at:min(len(file), at + len(b))] = b'\1' * max(0, min(len(file), at + len(b)) - at)
    now = file
    for i in range(len(ws) + 1):
        if i: now = overwrite(*ws[i - 1], now)
        count['prefixes'] += 1
        hn = header_now(now, h)
        for (w, c, l), f in zip(jobs, old_cut):
            if f is None: assert cut_faults(w, now, c, l)[0] is None, ('cut', i, w)
        f, found = cut_faults(h.hdu, now, *whole)
        assert f is None and vars_of(found) == vars_of(hn), ('found', i, f)
        b = len(before_sums(steps)) - len(steps['rows'])
        key = i in (0, len(steps['heap']), len(steps['heap']) + 1, b, len(ws)) or tiles_in(p) <= 12
        last = [tiles[i - 1 - b]] if b < i <= b + len(tiles) else []
        for t in (range(tiles_in(p)) if key else last + random.sample(range(tiles_in(p)), 6)):
            if before[t] is None: continue
            xs = numbers(now, hn, t)
            assert xs == before[t] or (t in tiles and xs == new[t]), ('tile', i, t)
            if i <= len(before_rows(steps)): assert xs == before[t], ('old', i, t)
        assert len(now) >= len(file) and all(a == b or m for a, b, m in zip(file, now, touched)), ('others', i)
        if i > len(steps['heap']):
            if old_unpack is None: assert unpack_fault(now) is None, ('unpack', i)
            assert vars_of(patch_target(now, patch, job)) == vars_of(hn), ('again', i)
        else:
            assert vars_of(patch_target(now[:len(file)], patch, job)) == vars_of(h), ('back', i)
            assert all(numbers(now[:len(file)], h, t) is not None for t in tiles), ('back numbers', i)
    for t in tiles: assert numbers(now, hn, t) == new[t], 'new'
    assert next_start_of(hn) == len(now), 'ends'
    assert not wrong_sum(now, hn), 'sums'
    assert verdicts(now, hn) == tuple(renewed(v) for v in verdicts(file, h)), ('verdicts', verdicts(file, h), verdicts(now, hn))
    count[verdicts(file, h)] = count.get(verdicts(file, h), 0) + 1
    if all(xs is not None for xs in before):
        array = [None] * product(p.shape)
        for t in range(tiles_in(p)):
            for c, x in zip(tile_coordinates(p.shape, p.tile, t), before[t]): array[place_of(p.shape, c)] = x
        given = g.numbers(); after = [new_number(g, given, c, x) for c, x in zip(box_coordinates(p.shape), array)]
        for t in range(tiles_in(p)):
            assert numbers(now, hn, t) == [after[place_of(p.shape, c)] for c in tile_coordinates(p.shape, p.tile, t)], ('array', t)
        count['arrays'] = count.get('arrays', 0) + 1
    assert plan_in(now, hn).__dict__ == p.__dict__, 'plan'
    return None

# ---- hostile files
def card(t): return t.ljust(80).encode()
def header_of_cards(cs):
    b = b''.join(cs) + b'END'
    return b.ljust(whole_blocks_of(80 * (len(cs) + 1)))
def made(rng):
    """a packed image of some packer, with odd but lawful cards, and a patch that may fit"""
    n = rng.choice((1, 1, 2, 2, 3))
    shape = [rng.randint(1, 6) for _ in range(n)]; tile = [rng.randint(1, s + 1) for s in shape]
    bitpix = rng.choice((8, 16, 32, 64)); wide = rng.random() < 0.4
    codec = rng.choice(('RICE_1', 'RICE_ONE', 'PLIO_1', 'NOCOMPRESS')) if bitpix < 64 else 'NOCOMPRESS'
    block = rng.choice((1, 2, 32)); bytepix = bitpix // 8 if rng.random() < 0.9 else rng.choice((1, 2, 4))
    lo, hi = (0, 255) if bitpix == 8 else (-(1 << bitpix - 1), (1 << bitpix - 1) - 1)
    def number():
        r = rng.random()
        return rng.randint(0, 9) if r < 0.6 else rng.randint(max(lo, -40), min(hi, 40)) if r < 0.9 else rng.choice((lo, hi, rng.randint(lo, hi)))
    xs = [number() for _ in range(product(shape))]
    cut = [min(a, b) for a, b in zip(tile, shape)]
    cd = {'R': ('Rice', block, bytepix), 'P': ('Plio',), 'N': ('Plain',)}[codec[0]]
    unit = 2 if cd[0] == 'Plio' else 1
    codes, heap, rows = [], bytearray(rng.randbytes(rng.choice((0, 0, 3)))), b''
    for t in range(product(tile_counts(shape, cut))):
        ys = [xs[place_of(shape, c)] for c in tile_coordinates(shape, cut, t)]
        e = tile_code(cd, bitpix, ys) if not (cd[0] == 'Rice' and bytepix != bitpix // 8) else ('Stored', plain_bytes(bitpix, ys))
        if cd[0] == 'Plain' and rng.random() < 0.4: e = ('Coded', e[1])
        cc = len(e[1]) // unit if e[0] == 'Coded' else 0; sc = 0 if e[0] == 'Coded' else len(e[1]) * 8 // bitpix
        off = len(heap) if rng.random() < 0.95 else rng.choice((0, 2 ** 31, len(heap) + 1))
        if rng.random() < 0.04: cc, sc = 0, 0
        junk = (0, 0 if rng.random() < 0.8 else 77)
        rows += packed_row(wide, (cc, off if cc else junk[1]), (sc, off if sc or not cc else junk[1]))
        heap += e[1] + rng.randbytes(rng.choice((0, 0, 0, 2)))
    letter = {8: 'B', 16: 'I', 32: 'J', 64: 'K'}[bitpix]
    def form(l):
        pq = 'Q' if wide else 'P'
        return rng.choice(('1%s%s(0)', '1%s%s(4)', '%s%s', '1%s%s', '01%s%s(3)', '1%s%s (9)', '%s%s(x)', '1%s%s(1)z', '1%s%s(999999999999999999)')) % (pq, l)
    q = lambda s: "'%s'" % s.ljust(8)
    low = rng.random() < 0.3
    name = lambda s: s.lower() if low else s
    cs = [card("XTENSION= 'BINTABLE'"), card('BITPIX  = 8'), card('NAXIS   = 2'), card('NAXIS1  = %d' % (32 if wide else 16)),
          card('NAXIS2  = %d / rows' % (len(rows) // (32 if wide else 16))), card('PCOUNT  = %d / heap' % len(heap)), card('GCOUNT  = 1')]
    mid = [card('TFIELDS = 2'), card('TTYPE1  = ' + q(name('COMPRESSED_DATA'))), card('TFORM1  = ' + q(form('I' if unit == 2 else 'B'))),
           card('TTYPE2  = ' + q(name('UNCOMPRESSED_DATA'))), card('TFORM2  = ' + q(form(letter))), card('ZIMAGE  = T'), card('ZCMPTYPE= ' + q(codec)),
           card('ZBITPIX = %d' % bitpix), card('ZNAXIS  = %d' % n)]
    mid += [card('ZNAXIS%d = %d' % (i + 1, v)) for i, v in enumerate(shape)]
    mid += [card('ZTILE%d  = %d' % (i + 1, v)) for i, v in enumerate(tile)]
    if cd[0] == 'Rice':
        mid += [card("ZNAME1  = 'BLOCKSIZE'"), card('ZVAL1   = %d' % block), card("ZNAME2  = 'BYTEPIX '"), card('ZVAL2   = %d' % bytepix)]
    if rng.random() < 0.3: mid.append(card('THEAP   = %d' % (len(rows) if rng.random() < 0.9 else len(rows) + min(1, len(heap)))))
    for w in ('DATASUM', 'CHECKSUM'):
        r = rng.random()
        if r < 0.5: mid.append(card("%-8s= %s" % (w, rng.choice(("''", "'        '", "'0       '", "'abc'", '5', 'T', "'x' / y")))))
        if r < 0.1: mid.append(card("%-8s= '7       '" % w))
    if rng.random() < 0.3: mid.append(card('ZSIMPLE = T'))
    if rng.random() < 0.2: mid.append(card('BZERO   = 0.0'))
    if rng.random() < 0.2: mid += [card('HISTORY %d' % i) for i in range(rng.randint(1, 40))]
    if rng.random() < 0.5: rng.shuffle(mid)
    data = rows + bytes(heap)
    fill = rng.randbytes(-len(data) % 2880) if rng.random() < 0.4 else bytes(-len(data) % 2880)
    header = header_of_cards(cs + mid)
    if rng.random() < 0.2: header = (header.rstrip(b' ') + b'     ').ljust(len(header), b'x')
    # the first HDU: empty, or an image that may be the patch too
    m = [rng.randint(1, s) for s in shape] if rng.random() < 0.9 else [rng.randint(0, 3) for _ in range(rng.randint(0, 3))]
    ys = [number() for _ in range(product(m) if m else 0)]
    if codec == 'PLIO_1' and rng.random() < 0.5: ys = [abs(y) for y in ys]
    image = header_of_cards([card('SIMPLE  = T'), card('BITPIX  = %d' % bitpix), card('NAXIS   = %d' % len(m))] + [card('NAXIS%d  = %d' % (i + 1, v)) for i, v in enumerate(m)])
    body = plain_bytes(bitpix, ys); image += body + bytes(-len(body) % 2880)
    own = rng.random() < 0.25 and not any(c.startswith(b'ZSIMPLE') for c in mid)
    first = image if own else header_of_cards([card('SIMPLE  = T'), card('BITPIX  = 8'), card('NAXIS   = 0')])
    between = b''
    if rng.random() < 0.2: between = header_of_cards([card("XTENSION= 'IMAGE   '"), card('BITPIX  = 8'), card('NAXIS   = 1'), card('NAXIS1  = 3'), card('PCOUNT  = 0'), card('GCOUNT  = 1')]) + b'abc' + bytes(2877)
    after = b''
    if rng.random() < 0.1: after = header_of_cards([card("XTENSION= 'IMAGE   '"), card('BITPIX  = 8'), card('NAXIS   = 0'), card('PCOUNT  = 0'), card('GCOUNT  = 1')])
    file = first + between + header + data + fill + after
    corner = [s - k if rng.random() < 0.4 else rng.randint(0, max(0, s - k)) for s, k in zip(shape, m)] if len(m) == n else [0] * n
    if rng.random() < 0.1: corner = [rng.randint(0, 6) for _ in range(rng.randint(1, 3))]
    return file, (file if own else image + (b'junk' if rng.random() < 0.2 else b'')), dict(wanted=rng.choice((None, None, None, 2 if between else 1, 2 if between else 1, 0, 3)), corner=[max(0, c) for c in corner])

if __name__ == '__main__':
    end = time.process_time() + float(sys.argv[1])
    for path in sys.argv[2:]:
        for c, files in cases(path):
            got = words_of(c['words'])
            if got is None or got[2][1] not in files or got[2][0] not in files: continue
            tries(files[got[2][1]], files[got[2][0]], got[0])
    print('cases', count)
    kinds = {}
    seed = 10 ** 6
    while time.process_time() < end:
        seed += 1; rng = random.Random(seed)
        file, patch, job = made(rng)
        try: f = tries(file, patch, job)
        except AssertionError as x: print('BROKEN seed', seed, x); sys.exit(1)
        kinds[f[2] if f else 'done'] = kinds.get(f[2] if f else 'done', 0) + 1
        count['hostile'] += 1
    print('all', count); print(kinds)

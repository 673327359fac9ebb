"""More patches, and what the definitions in Python answer."""
import sys; sys.path.insert(0, __file__.rsplit('/', 1)[0])
src = open('wip/patched_check/worked.py').read().split("F = lambda n")[0]
exec(src)
F = lambda n: bytes(value(n))
G, z, rice, sumf, past = F('plain_file'), F('six_file'), F('rice_file'), F('sum_file'), F('past_file')
def given(bitpix, axes, xs):
    cs = [b'SIMPLE  =                    T', b'BITPIX  = %20d' % bitpix, b'NAXIS   = %20d' % len(axes)] + [b'NAXIS%d  = %20d' % (i + 1, n) for i, n in enumerate(axes)]
    h = b''.join(c.ljust(80) for c in cs) + b'END'
    d = plain_bytes(bitpix, xs)
    return h.ljust(2880) + d + bytes(-len(d) % 2880)
def run(words, PATCH, FILE):
    status, text, after = answer(['patch'] + words.split() + ['P', 'F'], dict(P=PATCH, F=FILE) if FILE is not None else dict(P=PATCH))
    if status: return text.strip()
    job = words_of(['patch'] + words.split() + ['P', 'F'])[0]
    h, g, olds, s = patch_steps(FILE, PATCH, job)
    return 'done, %d writes, forms %s, sums %s' % (len(all_writes(s)), [(a, b.rstrip().decode()) for a, b in s['forms']], [b.rstrip().decode() for a, b in s['sums']])
def sub(f, old, new):
    old, new = old.encode(), new.encode()
    assert f.count(old) == 1, (old, f.count(old)); n = f.index(old)
    return f[:n] + new.ljust(80) + f[n + 80:]
one99 = given(8, [1, 1], [99]); bare = F('bare_image_cards') if 0 else b''
img = F('longer_file')[8640:]
for name, w, P, Fi in [
    ('G z', '--at 2,2', z, G), ('last pixel', '--at 5,3', one99, G), ('past', '--at 4,2', z, G), ('one axis', '--at 2', z, G), ('three axes', '--at 2,2,2', G, G),
    ('G by G', '--at 2,2', G, G), ('16 bits', '--at 2,2', given(16, [3, 2], [0] * 6), G), ('3 x 0', '--at 2,2', given(8, [3, 0], []), G),
    ('one axis given', '--at 2,2', given(8, [3], [0] * 3), G), ('empty', '--at 2,2', b'', G), ('garbage behind', '--at 2,2', z + b'garbage', G),
    ('IMAGE behind', '--at 2,2', z, G + img), ('hdu 0', '--hdu 0 --at 2,2', z, G), ('hdu 7', '--hdu 7 --at 2,2', z, G), ('small file', '--at 2,2', z, F('small_file')),
    ('HCOMPRESS', '--at 2,2', z, sub(G, "ZCMPTYPE= 'NOCOMPRESS'", "ZCMPTYPE= 'HCOMPRESS_1'")), ('and 10 zeros', '--at 2,2', z, sub(G, "ZCMPTYPE= 'NOCOMPRESS'", "ZCMPTYPE= 'HCOMPRESS_1'") + bytes(10)),
    ('1PI(4)', '--at 2,2', z, sub(G, "TFORM2  = '1PB(4)  '", "TFORM2  = '1PI(4)'")), ('one column', '--at 2', given(16, [1], [1]), F('other_file')),
    ('BYTEPIX 4', '--at 1,2', F('far_file'), sub(rice, 'ZVAL2   =                    2', 'ZVAL2   = 4')),
    ('PB', '--at 2,2', z, sub(G, "TFORM2  = '1PB(4)  '", "TFORM2  = 'PB'")), ('1PB', '--at 2,2', z, sub(G, "TFORM2  = '1PB(4)  '", "TFORM2  = '1PB'")),
    ('1PB (4)', '--at 2,2', z, sub(G, "TFORM2  = '1PB(4)  '", "TFORM2  = '1PB (4)'")),
    ('1PB(1)', '--at 4,3', given(8, [2, 1], [9, 9]), sub(G, "TFORM2  = '1PB(4)  '", "TFORM2  = '1PB(1)'")), ('1PB(1), one', '--at 5,3', one99, sub(G, "TFORM2  = '1PB(4)  '", "TFORM2  = '1PB(1)'")),
    ('lower case', '--at 2,2', z, G.replace(b"'COMPRESSED_DATA'", b"'compressed_data'").replace(b"'UNCOMPRESSED_DATA'", b"'uncompressed_data'")),
    ('exchanged', '--at 2,2', z, sub(sub(G, "TTYPE1  = 'COMPRESSED_DATA'", "TTYPE1  = 'UNCOMPRESSED_DATA'"), "TTYPE2  = 'UNCOMPRESSED_DATA'", "TTYPE2  = 'COMPRESSED_DATA'")),
    ('row 16', '--at 1,2', F('far_file'), rice), ('sums', '--at 2,2', z, sumf),
    ('DATASUM blank', '--at 2,2', z, sub(sumf, "DATASUM = '371075163'", "DATASUM = '         '")), ('DATASUM 5', '--at 2,2', z, sub(sumf, "DATASUM = '371075163'", 'DATASUM = 5')),
    ('row 3 faulty', '--at 2,2', z, past), ('memory 1', '--at 2,2 --memory 1', z, G), ('memory 77312', '--at 2,2 --memory 77312', z, G),
    ('self', '--at 1,1', None, None)]:
    if name == 'self':
        table = G[2880:]; own = z + table.replace(b'ZSIMPLE =                    T', b"ZTENSION= 'IMAGE   '          "); P = Fi = own
    print('%-16s %-22s %s' % (name, w, run(w, P, Fi)))
    if name == 'G z': print('   bound', patch_bound(Fi, P, dict(wanted=None, corner=[1, 1])))

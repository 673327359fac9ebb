"""A given image whose pixels are headers: between the codes and PCOUNT the file has HDUs that nobody wrote."""
import sys; sys.path.insert(0, __file__.rsplit('/', 1)[0])
exec(open('wip/patched_check/prefixes.py').read().split("if __name__")[0])
cs = [card("XTENSION= 'BINTABLE'"), card('BITPIX  = 8'), card('NAXIS   = 2'), card('NAXIS1  = 16'), card('NAXIS2  = 1'), card('PCOUNT  = 9000'), card('GCOUNT  = 1'),
      card('TFIELDS = 2'), card("TTYPE1  = 'COMPRESSED_DATA'"), card("TFORM1  = '1PB(0)'"), card("TTYPE2  = 'UNCOMPRESSED_DATA'"), card("TFORM2  = '1PB(9000)'"),
      card('ZIMAGE  = T'), card("ZCMPTYPE= 'NOCOMPRESS'"), card('ZBITPIX = 8'), card('ZNAXIS  = 1'), card('ZNAXIS1 = 9000'), card('ZTILE1  = 9000')]
first = header_of_cards([card('SIMPLE  = T'), card('BITPIX  = 8'), card('NAXIS   = 0')])
file = first + header_of_cards(cs) + packed_row(False, (0, 0), (9000, 0)) + bytes(9000) + bytes(2504)
fake = header_of_cards([card("XTENSION= 'IMAGE   '"), card('BITPIX  = 8'), card('NAXIS   = 0'), card('PCOUNT  = 0'), card('GCOUNT  = 1')])
pixels = (fake * 3)[:9000 - 2504]
image = header_of_cards([card('SIMPLE  = T'), card('BITPIX  = 8'), card('NAXIS   = 1'), card('NAXIS1  = %d' % len(pixels))]) + pixels
image += bytes(-len(image) % 2880)
job = dict(wanted=None, corner=[2504])
print('statements', tries(file, image, job), count)
h, g, olds, steps = patch_steps(file, image, job)
now = file
for i, w in enumerate(all_writes(steps), 1):
    now = overwrite(*w, now)
    try: patch_target(now, image, job); said = 'passes'
    except Fault as x: said = x.t
    try: n = len(walk_of(unjudged, 65536, now)[0])
    except Fault as x: n = x.t
    print('after write', i, 'length', len(now), 'HDUs', n, 'unpack', unpack_fault(now), 'patch', said)

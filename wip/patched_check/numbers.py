"""Tries the statements on new numbers, by the definitions of parts of tiles."""
import sys, random; sys.path.insert(0, __file__.rsplit('/', 1)[0])
from patched import *
def stepped_places(array, lo, step, counts): return [place_of(array, [o + k * s for o, s, k in zip(lo, step, ks)]) for ks in box_coordinates(counts)]
def first_from(lo, hi, step, corner): return [max(0, o + picks_before(o, h, s, c) * s - c) for o, h, s, c in zip(lo, hi, step, corner)]
def picks_in_tile(array, tile, sv, t):
    lo, hi, st = sv
    return stepped_places(tile_lengths(array, tile, t), first_from(lo, hi, st, tile_corner(array, tile, t)), st, tile_picks(array, tile, lo, hi, st, t))
def picks_in_cutout(array, tile, sv, t):
    lo, hi, st = sv
    before = [picks_before(o, h, s, x) for o, h, s, x in zip(lo, hi, st, tile_corner(array, tile, t))]
    L = [pick_count(o, h, s) for o, h, s in zip(lo, hi, st)]
    return [place_of(L, [o + c for o, c in zip(before, cs)]) for cs in box_coordinates(tile_picks(array, tile, lo, hi, st, t))]
rng = random.Random(5); n = 0
for _ in range(1500):
    d = rng.randint(1, 4)
    p = Plan(); p.shape = [rng.randint(1, 5) for _ in range(d)]; p.tile = [rng.randint(1, s) for s in p.shape]
    g = Given(); g.lengths = [rng.randint(1, s) for s in p.shape]; g.corner = [rng.randint(0, s - m) for s, m in zip(p.shape, g.lengths)]
    nums = [1000 + i for i in range(product(g.lengths))]; g.numbers = lambda: nums
    a = list(range(product(p.shape)))
    whole = [new_number(g, nums, cs, x) for cs, x in zip(box_coordinates(p.shape), a)]
    sv = box_sieve(g); tiles = box_tiles(p, g)
    for t in range(product(tile_counts(p.shape, p.tile))):
        xs = [a[place_of(p.shape, c)] for c in tile_coordinates(p.shape, p.tile, t)]
        new = new_numbers(p, g, t, xs)
        assert new == [whole[place_of(p.shape, c)] for c in tile_coordinates(p.shape, p.tile, t)], 'tiles'
        if t not in tiles: assert new == xs, 'others'; 
        pt, pc = picks_in_tile(p.shape, p.tile, sv, t), picks_in_cutout(p.shape, p.tile, sv, t)
        if t in tiles: assert [new[i] for i in pt] == [nums[i] for i in pc], 'given'
        else: assert not pt and not pc, 'none'
        assert all(new[i] == xs[i] for i in range(len(xs)) if i not in pt), 'stay'
        n += 1
print(n, 'tiles: replaced, others, given, stay hold')

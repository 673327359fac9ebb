#!/usr/bin/env bash
# Times fz_rice and two programs in C at -O2 on this machine: 16M noisy 16-bit pixels in row tiles of
# 4,096. All run in a scratch folder. The condition of `encode` that each number is in range is left
# out of the copy there: its body does not need it, and a proof for the noise would be all of the work.
set -eu
root=$(cd "$(dirname "$0")/../.." && pwd)
scratch=${1:-$(mktemp -d)}
mkdir -p "$scratch/crates/rice_bench/src"
cp -r "$root/crates/fz_bits" "$root/crates/fz_rice" "$scratch/crates/"
printf 'fz_bits:\nfz_rice: fz_bits\nrice_bench: fz_rice\n' > "$scratch/crates.txt"
sed -i '/requires numbers { All/d' "$scratch/crates/fz_rice/src/coder.rt"
cp "$root/bench/rice/main.rt.txt" "$scratch/crates/rice_bench/src/main.rt"
cat > "$scratch/rice.c" <<'END'
#include <stdint.h>
#include <stdio.h>
#include <stdlib.h>
#include <string.h>
#include <time.h>
#define TILE 4096
#define SLOT 8320
#define TILES 4096
#define GROUP 16
#define GROUPS 256
#define PASSES 40
typedef struct { uint8_t *out; size_t len, at; uint64_t pending; uint32_t count; } W;
static inline int put(W *w, uint32_t v, uint32_t width) {
  size_t freeb = w->len - w->at; if (freeb > (1ull<<32)) freeb = 1ull<<32;
  if ((uint64_t)w->count + width > freeb * 8) return 1;
  uint64_t bits = (w->pending << width) | v; uint32_t count = w->count + width;
  if (count < 32) { w->pending = bits; w->count = count; }
  else { uint32_t rest = count - 32; uint32_t word = __builtin_bswap32((uint32_t)(bits >> rest)); memcpy(w->out + w->at, &word, 4); w->at += 4; w->pending = bits & ((1ull << rest) - 1); w->count = rest; }
  return 0; }
static __attribute__((noinline,cold)) int longun(W *w, uint32_t z) { for (uint32_t i = 0; i < z / 32; i++) if (put(w, 0, 32)) return 1; return put(w, 1, z % 32 + 1); }
static inline uint32_t mapped(uint32_t last, uint32_t next) { uint32_t d = (next - last) & 0xffff; return d <= 0x7fff ? 2 * d : 2 * (0xffff - d) + 1; }
static long encode(const int32_t *x, size_t n, uint32_t block, uint8_t *out, size_t len) {
  W w = {out, len, 0, 0, 0}; uint32_t last = x[0] & 0xffff; if (put(&w, last, 16)) return -1;
  for (size_t at = 0; at < n;) { size_t m = n - at < block ? n - at : block; const int32_t *p = x + at;
    uint64_t sum = 0; uint32_t l = last; for (size_t i = 0; i < m; i++) { uint32_t nx = p[i] & 0xffff; sum += mapped(l, nx); l = nx; }
    uint32_t id = 0; if (sum) { uint64_t a = sum > m / 2 ? sum - m / 2 : 0; a = a ? a - 1 : 0; uint64_t q = a / m / 2; uint32_t k = q ? 64 - __builtin_clzll(q) : 0; id = k + 1 < 15 ? k + 1 : 15; }
    if (put(&w, id, 4)) return -1;
    l = last;
    if (id == 15) { for (size_t i = 0; i < m; i++) { uint32_t nx = p[i] & 0xffff; if (put(&w, mapped(l, nx), 16)) return -1; l = nx; } }
    else if (id) { uint32_t k = id - 1; for (size_t i = 0; i < m; i++) { uint32_t nx = p[i] & 0xffff; uint32_t v = mapped(l, nx); l = nx; uint32_t z = v >> k, low = v & ((1u << k) - 1); if (z < 32 - k) { if (put(&w, (1u << k) | low, z + 1 + k)) return -1; } else { if (longun(&w, z) || put(&w, low, k)) return -1; } } }
    last = p[m - 1] & 0xffff; at += m; }
  if (w.count) { uint32_t word = __builtin_bswap32((uint32_t)(w.pending << (32 - w.count))); memcpy(w.out + w.at, &word, (w.count + 7) / 8); w.at += (w.count + 7) / 8; }
  return w.at; }
typedef struct { const uint8_t *code; size_t len, at; uint64_t pending; uint32_t count; } R;
static __attribute__((noinline,cold)) R tail(R r) { while (r.at < r.len) { r.pending = r.pending << 8 | r.code[r.at++]; r.count += 8; } return r; }
static inline void load(R *r, uint32_t w) { if (r->count < w) { if (r->len - r->at >= 4) { uint32_t x; memcpy(&x, r->code + r->at, 4); r->pending = r->pending << 32 | __builtin_bswap32(x); r->at += 4; r->count += 32; } else *r = tail(*r); } }
static inline int get(R *r, uint32_t w, uint32_t *v) { load(r, w); if (r->count < w) return 1; uint32_t rest = r->count - w; *v = r->pending >> rest; r->pending &= (1ull << rest) - 1; r->count = rest; return 0; }
static inline int zeros(R *r, uint32_t max, uint32_t *z) { load(r, 32); if (!r->pending) return 1; uint32_t rest = 63 - __builtin_clzll(r->pending); *z = r->count - 1 - rest; if (*z > max) return 2; r->pending &= (1ull << rest) - 1; r->count = rest; return 0; }
static long decode(const uint8_t *code, size_t len, uint32_t block, int32_t *x, size_t n) {
  R r = {code, len, 0, 0, 0}; uint32_t last; if (get(&r, 16, &last)) return -1;
  for (size_t at = 0; at < n;) { size_t m = n - at < block ? n - at : block; int32_t *p = x + at; uint32_t id; if (get(&r, 4, &id)) return -1;
    if (!id) for (size_t i = 0; i < m; i++) p[i] = (int16_t)last;
    else for (size_t i = 0; i < m; i++) { uint32_t v; if (id == 15) { if (get(&r, 16, &v)) return -1; } else { uint32_t k = id - 1, z, low; if (zeros(&r, 0xffff >> k, &z) || get(&r, k, &low)) return -1; v = z << k | low; }
      uint32_t h = v >> 1; uint32_t d = v & 1 ? 0xffff - h : h; last = (last + d) & 0xffff; p[i] = (int16_t)last; }
    at += m; }
  return r.at; }
/* The algorithm of the C tools, written anew: bytes go out and come in one by one, over shorts. */
typedef struct { uint8_t *at; int bits, room; } Out;
static void out_number(Out *o, int value, int width) {
  int bits = o->bits, room = o->room;
  if (room + width > 32) { bits = (int)((unsigned)bits << room) | ((value >> (width - room)) & ((1 << room) - 1)); *o->at++ = bits & 0xff; width -= room; room = 8; }
  bits = (int)((unsigned)bits << width) | (value & ((1 << width) - 1)); room -= width;
  while (room <= 0) { *o->at++ = (bits >> -room) & 0xff; room += 8; }
  o->bits = bits; o->room = room; }
static long tool_encode(const int16_t *x, int n, int block, uint8_t *out, int len) {
  Out o = {out, 0, 8}; unsigned *diff = malloc(block * sizeof *diff); int16_t last = x[0]; int m = block;
  out_number(&o, x[0], 16);
  for (int i = 0; i < n; i += block) { if (n - i < block) m = n - i;
    double sum = 0; for (int j = 0; j < m; j++) { int16_t next = x[i + j], d = next - last; diff[j] = (unsigned)(d < 0 ? ~((unsigned)d << 1) : (unsigned)d << 1); sum += diff[j]; last = next; }
    double mean = (sum - m / 2 - 1) / m; if (mean < 0) mean = 0; unsigned short half = (unsigned short)mean >> 1; int k; for (k = 0; half > 0; k++) half >>= 1;
    if (k >= 14) { out_number(&o, 15, 4); for (int j = 0; j < m; j++) out_number(&o, diff[j], 16); }
    else if (k == 0 && sum == 0) out_number(&o, 0, 4);
    else { out_number(&o, k + 1, 4); int mask = (1 << k) - 1, bits = o.bits, room = o.room;
      for (int j = 0; j < m; j++) { int v = diff[j], top = v >> k;
        if (room >= top + 1) { bits <<= top + 1; bits |= 1; room -= top + 1; }
        else { bits <<= room; *o.at++ = bits & 0xff; for (top -= room; top >= 8; top -= 8) *o.at++ = 0; bits = 1; room = 7 - top; }
        if (k > 0) { bits <<= k; bits |= v & mask; room -= k; while (room <= 0) { *o.at++ = (bits >> -room) & 0xff; room += 8; } } }
      if (o.at > out + len) { free(diff); return -1; }
      o.bits = bits; o.room = room; } }
  if (o.room < 8) *o.at++ = (o.bits << o.room) & 0xff;
  free(diff); return o.at - out; }
static int top_bit[256];
static int tool_decode(const uint8_t *c, int len, int block, int16_t *x, int n) {
  const uint8_t *end = c + len; unsigned last = c[0] << 8 | c[1]; c += 2; unsigned b = *c++; int have = 8;
  for (int i = 0; i < n;) { have -= 4; while (have < 0) { b = b << 8 | *c++; have += 8; }
    int k = (int)(b >> have) - 1; b &= (1u << have) - 1; int stop = i + block < n ? i + block : n;
    if (k < 0) for (; i < stop; i++) x[i] = last;
    else if (k == 14) for (; i < stop; i++) { int s = 16 - have; unsigned d = b << s; for (s -= 8; s >= 0; s -= 8) { b = *c++; d |= b << s; } if (have > 0) { b = *c++; d |= b >> -s; b &= (1u << have) - 1; } else b = 0; d = d & 1 ? ~(d >> 1) : d >> 1; x[i] = d + last; last = x[i]; }
    else for (; i < stop; i++) { while (!b) { have += 8; b = *c++; } int z = have - top_bit[b]; have -= z + 1; b ^= 1u << have; have -= k; while (have < 0) { b = b << 8 | *c++; have += 8; } unsigned d = (unsigned)z << k | b >> have; b &= (1u << have) - 1; d = d & 1 ? ~(d >> 1) : d >> 1; x[i] = d + last; last = x[i]; }
    if (c > end) return -1; }
  return 0; }
static double now(void) { struct timespec t; clock_gettime(CLOCK_MONOTONIC, &t); return 1e6 * t.tv_sec + 1e-3 * t.tv_nsec; }
static void least(double *least, double taken) { if (taken < *least) *least = taken; }
int main(void) { size_t n = (size_t)TILE * TILES; int32_t *x = malloc(4 * n), *b = calloc(n, 4); int16_t *y = malloc(2 * n), *d = calloc(n, 2);
  uint8_t *c = calloc(TILES, SLOT), *e = calloc(TILES, SLOT); long *l = malloc(8 * TILES), *m = malloc(8 * TILES);
  static double loop_out[GROUPS], loop_in[GROUPS], tool_out[GROUPS], tool_in[GROUPS]; int faults = 0;
  for (int i = 0; i < 256; i++) while (i >> top_bit[i]) top_bit[i]++;
  uint32_t w = 2463534242u; for (size_t i = 0; i < n; i++) { w ^= w << 13; w ^= w >> 17; w ^= w << 5; y[i] = x[i] = 1000 + (w & 31) + (w >> 5 & 31) + (w >> 10 & 31) + ((i / 64) & 1023); }
  for (int g = 0; g < GROUPS; g++) loop_out[g] = loop_in[g] = tool_out[g] = tool_in[g] = 1e9;
  for (int p = 0; p < PASSES; p++) for (int g = 0; g < GROUPS; g++) { size_t from = g * GROUP, to = from + GROUP;
    double a = now(); for (size_t t = from; t < to; t++) l[t] = encode(x + t * TILE, TILE, 32, c + t * SLOT, SLOT);
    least(&loop_out[g], now() - a); a = now(); for (size_t t = from; t < to; t++) faults += decode(c + t * SLOT, l[t], 32, b + t * TILE, TILE) < 0;
    least(&loop_in[g], now() - a); a = now(); for (size_t t = from; t < to; t++) m[t] = tool_encode(y + t * TILE, TILE, 32, e + t * SLOT, SLOT);
    least(&tool_out[g], now() - a); a = now(); for (size_t t = from; t < to; t++) faults += tool_decode(e + t * SLOT, m[t], 32, d + t * TILE, TILE) < 0;
    least(&tool_in[g], now() - a); }
  double s[4] = {0}; for (int g = 0; g < GROUPS; g++) { s[0] += loop_out[g]; s[1] += loop_in[g]; s[2] += tool_out[g]; s[3] += tool_in[g]; }
  int same = !memcmp(x, b, 4 * n) && !memcmp(y, d, 2 * n) && !memcmp(l, m, 8 * TILES); for (size_t t = 0; t < TILES; t++) same = same && !memcmp(c + t * SLOT, e + t * SLOT, l[t]);
  printf("the same loop in C: encode %.0f us, decode %.0f us\nthe C tools' algorithm: encode %.0f us, decode %.0f us\nfaults %d same %d\n", s[0], s[1], s[2], s[3], faults, same); }
END
cc -O2 -o "$scratch/rice_c" "$scratch/rice.c"
cd "$scratch/crates/rice_bench"
rt run > "$scratch/log" 2>&1 || { tail -5 "$scratch/log"; exit 1; }
./out/rice_bench
"$scratch/rice_c"
./out/rice_bench

#!/usr/bin/env bash
# Times fz_plio and a program in C at -O2 on this machine: 4M numbers of three kinds in row tiles of 4,096.
# All run in a scratch folder.
set -eu
root=$(cd "$(dirname "$0")/../.." && pwd)
scratch=${1:-$(mktemp -d)}
mkdir -p "$scratch/crates/plio_bench/src"
cp -r "$root/crates/fz_plio" "$scratch/crates/"
printf 'fz_plio: byteorder\nplio_bench: fz_plio\n' > "$scratch/crates.txt"
cp "$root/bench/plio/main.rt.txt" "$scratch/crates/plio_bench/src/main.rt"
cat > "$scratch/plio.c" <<'C'
#include <stdint.h>
#include <stdio.h>
#include <stdlib.h>
#include <string.h>
#include <time.h>
#define TILE 4096
#define SLOT 8320
#define TILES 1024
#define GROUP 16
#define GROUPS 64
#define PASSES 40
/* The algorithm of the C tools, written anew: one look at each number, a list of short words, whose bytes are
   turned afterwards. */
static int put_pieces(int16_t *list, int op, int left, int code) { for (; left > 0; left -= 4095) list[op++] = (int16_t)((left < 4095 ? left : 4095) + code); return op; }
static int tool_encode(const int32_t *x, int n, int16_t *list) {
  int op = 7, high = 1, from = 0, zeros = 0, value = x[0] > 0 ? x[0] : 0, next = 0;
  list[0] = 0; list[1] = 7; list[2] = -100; list[5] = list[6] = 0;
  for (int i = 0; i < n; i++) {
    if (i < n - 1) { next = x[i + 1] > 0 ? x[i + 1] : 0; if (next == value) continue; if (value == 0) { value = next; from = i + 1; continue; } }
    else if (value == 0) from = n;
    int count = i - from + 1, blank = from - zeros, done = 0;
    if (value > 0) { int step = value - high; if (step) { high = value;
      if (step > 4095 || step < -4095) { list[op++] = (int16_t)((value & 4095) + 4096); list[op++] = (int16_t)(value / 4096); }
      else { list[op++] = (int16_t)(step < 0 ? -step + 12288 : step + 8192); if (count == 1 && blank == 0) { list[op - 1] |= 16384; done = 1; } } } }
    if (!done && blank > 0) { op = put_pieces(list, op, blank, 0); if (count == 1 && value > 0) { list[op - 1] += 20481; done = 1; } }
    if (!done) op = put_pieces(list, op, count, 16384);
    from = zeros = i + 1; value = next; }
  list[3] = (int16_t)(op % 32768); list[4] = (int16_t)(op / 32768);
  return op; }
static void turn(int16_t *list, int n) { for (int i = 0; i < n; i++) list[i] = (int16_t)__builtin_bswap16((uint16_t)list[i]); }
static int tool_decode(const int16_t *list, int32_t *x, int n) {
  int len = list[3] + 32768 * list[4], at = 0, high = 1;
  for (int i = list[1]; i < len; i++) { int word = (uint16_t)list[i], code = word / 4096, data = word & 4095, put = 0, end = 0;
    switch (code) {
      case 0: put = data; break; case 4: put = data; end = data; break; case 5: put = data; end = 1; break;
      case 1: high = ((uint16_t)list[++i] << 12) + data; break; case 2: high += data; break; case 3: high -= data; break;
      case 6: high += data; put = end = 1; break; case 7: high -= data; put = end = 1; break; default: return 1; }
    if (put > n - at) put = n - at;
    for (int j = 0; j < put; j++) x[at + j] = j < put - end ? 0 : high;
    at += put; }
  for (; at < n; at++) x[at] = 0;
  return 0; }
static double now(void) { struct timespec t; clock_gettime(CLOCK_MONOTONIC, &t); return 1e6 * t.tv_sec + 1e-3 * t.tv_nsec; }
static void least(double *least, double taken) { if (taken < *least) *least = taken; }
static void fill(int kind, int32_t *x, size_t n) { uint32_t w = 2463534242u, left = 0; int32_t value = 0;
  for (size_t i = 0; i < n; i++) {
    if (kind == 0) { if (left == 0) { w ^= w << 13; w ^= w >> 17; w ^= w << 5; left = w & 255; value = w >> 8 & 3; } else left--; }
    else if (kind == 1) { w ^= w << 13; w ^= w >> 17; w ^= w << 5; value = w & 4095; }
    else value = 0;
    x[i] = value; } }
int main(void) { size_t n = (size_t)TILE * TILES; int32_t *x = malloc(4 * n), *b = calloc(n, 4); int16_t *c = calloc(TILES, SLOT); int *l = malloc(TILES * sizeof *l);
  const char *names[3] = {"masks", "noise", "empty"}; static double out[GROUPS], in[GROUPS]; int16_t *copy = malloc(SLOT);
  for (int kind = 0; kind < 3; kind++) { int faults = 0; fill(kind, x, n); for (int g = 0; g < GROUPS; g++) out[g] = in[g] = 1e9;
    for (int p = 0; p < PASSES; p++) for (int g = 0; g < GROUPS; g++) { size_t from = g * GROUP, to = from + GROUP;
      double a = now(); for (size_t t = from; t < to; t++) { int16_t *s = c + t * (SLOT / 2); l[t] = tool_encode(x + t * TILE, TILE, s); turn(s, l[t]); }
      least(&out[g], now() - a); a = now();
      for (size_t t = from; t < to; t++) { memcpy(copy, c + t * (SLOT / 2), 2 * l[t]); turn(copy, l[t]); faults += tool_decode(copy, b + t * TILE, TILE); }
      least(&in[g], now() - a); }
    double e = 0, d = 0; long bytes = 0; for (int g = 0; g < GROUPS; g++) { e += out[g]; d += in[g]; } for (int t = 0; t < TILES; t++) bytes += 2 * l[t];
    printf("the C tools' algorithm, %s: encode %.0f us, decode %.0f us, %ld bytes, faults %d, same %d\n", names[kind], e, d, bytes, faults, !memcmp(x, b, 4 * n)); }
  return 0; }
C
cc -O2 -o "$scratch/plio_c" "$scratch/plio.c"
cd "$scratch/crates/plio_bench"
rt run > "$scratch/log" 2>&1 || { tail -5 "$scratch/log"; exit 1; }
./out/plio_bench
"$scratch/plio_c"
./out/plio_bench

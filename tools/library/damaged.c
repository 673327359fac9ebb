/* damaged SEED COUNT: COUNT calls with damaged codes, and some with wild arguments, with a page on both sides of each place that nobody
 * may touch, and nothing that may be written to but the results. Every answer is one of fz.h. It prints how many calls gave each
 * answer and the longest time of one, and fails if that is over 2 seconds. */
#include "fz.h"
#include "guarded.h"

#include <inttypes.h>
#include <time.h>

enum { MOST = 4096 };

static uint64_t state;
static double longest;
static unsigned long counts[256], calls;

static uint64_t any(void) {
    state ^= state << 13;
    state ^= state >> 7;
    state ^= state << 17;
    return state * 0x2545F4914F6CDD1DULL;
}

static uint64_t below(uint64_t most) { return (any() >> 11) % most; }

static double now(void) {
    struct timespec it;
    clock_gettime(CLOCK_THREAD_CPUTIME_ID, &it);
    return it.tv_sec + it.tv_nsec / 1e9;
}

static void took(double from, int32_t answer) {
    double seconds = now() - from;
    int is_known = answer == 0 || (answer <= FZ_CODE_SHORT && answer >= FZ_TILE_SIZE) || (answer <= FZ_NO_CODEC && answer >= FZ_NO_PART);
    if (seconds > longest) longest = seconds;
    must(is_known, "an answer that fz.h does not name");
    counts[-answer]++;
    calls++;
}

/* A tile that can be coded: numbers in the range of bitpix, of several sorts. */
static size_t make_numbers(int32_t bitpix, int codec, int32_t *list) {
    size_t count = below(20) ? 1 + below(300) : 1 + below(MOST), i;
    int64_t lowest = bitpix == 8 || codec == FZ_PLIO ? 0 : bitpix == 16 ? -32768 : INT32_MIN;
    int64_t highest = bitpix == 8 ? 255 : bitpix == 16 ? 32767 : codec == FZ_PLIO ? 16777215 : INT32_MAX;
    int64_t span = highest - lowest + 1, noise = 1 + below(1 + below(span)), base = lowest + below(span);
    unsigned sort = below(4);
    for (i = 0; i < count; i++) {
        int64_t it = sort == 0 ? base : sort == 1 ? base + (int64_t)below(noise) : sort == 2 && below(3) ? 0 : lowest + (int64_t)below(span);
        list[i] = (int32_t)(it > highest ? highest : it < lowest ? lowest : it);
    }
    return count;
}

/* Damages a code of so many bytes, in a place of `room`, and says how many it has then. */
static size_t damage(uint8_t *code, size_t len, size_t room) {
    size_t i, n;
    switch (below(6)) {
    case 0: case 1:
        for (n = 1 + below(3); n && len; n--) i = below(len), code[i] ^= (uint8_t)(1 << below(8));
        return len;
    case 2:
        return below(len + 1);
    case 3:
        for (i = len ? below(len) : 0; i < len; i++) code[i] = (uint8_t)any();
        return len;
    case 4:
        n = below(room + 1);
        for (i = len; i < n; i++) code[i] = (uint8_t)any();
        return n;
    default:
        if (len) i = below(len), code[i] = below(2) ? 0 : 0xFF;
        return len;
    }
}

static struct guarded in, out, small;

static void decode_all(uint32_t codec, uint32_t block, int32_t bitpix, uint32_t column, const uint8_t *code, size_t len, size_t count) {
    int at_front = below(2);
    uint8_t *given = guarded_place(in, len, at_front);
    int32_t *list;
    void *one;
    double from;
    memcpy(given, code, len);
    guarded_lock(in, 1);
    list = guarded_place(out, 4 * count, at_front);
    from = now();
    took(from, fz_decode_tile(codec, block, bitpix / 8, bitpix, column, given, len, len, list, count));
    must(guarded_whole(out, list, 4 * count), "bytes beside out were written");
    one = guarded_place(small, sizeof(uint64_t), at_front);
    from = now();
    if (codec == FZ_PLIO) took(from, fz_plio_decode(given, len, list, count));
    else took(from, fz_rice_decode(8u << below(3), block, given, len, list, count, one));
    must(guarded_whole(out, list, 4 * count) && guarded_whole(small, one, sizeof(uint64_t)), "bytes beside out were written");
    if (below(8) == 0) {
        struct fz_mark *mark = guarded_place(small, sizeof *mark, at_front);
        from = now();
        took(from, fz_first_mark(codec, block, bitpix / 8, bitpix, given, len, mark));
        if (below(2)) mark->bit = below(2) ? below(8 * len + 9) : any(), mark->last = (uint32_t)any();
        from = now();
        took(from, fz_decode_part(codec, block, bitpix / 8, bitpix, given, len, mark, list, count));
        must(guarded_whole(out, list, 4 * count) && guarded_whole(small, mark, sizeof *mark), "bytes beside out were written");
    }
    if (below(8) == 0) {
        uint32_t *total = guarded_place(small, sizeof *total, at_front);
        took(now(), fz_sum((uint32_t)any(), given, len, total));
        must(guarded_whole(small, total, sizeof *total), "bytes beside the sum were written");
    }
    guarded_lock(in, 0);
}

/* Arguments that no tile has, or some, with places that are what they say. */
static void wild(const uint8_t *code, size_t len, size_t count) {
    static const int32_t sizes[] = {8, 16, 32, 64, -32, 0, 24, INT32_MIN};
    uint32_t codec = below(2) ? below(4) : (uint32_t)any(), block = below(2) ? below(34) : (uint32_t)any();
    uint32_t bytepix = below(2) ? below(9) : (uint32_t)any(), column = below(2) ? below(3) : (uint32_t)any();
    int32_t bitpix = sizes[below(8)], *list = guarded_place(out, 4 * count, 0);
    uint64_t total = below(3) ? len : any(), shift = below(64);
    uint8_t *given = guarded_place(in, len, 0);
    struct fz_coded *coded = guarded_place(small, sizeof *coded, 0);
    if (total != len) total >>= shift;
    memcpy(given, code, len);
    took(now(), fz_decode_tile(codec, block, bytepix, bitpix, column, given, len, total, list, count));
    must(guarded_whole(out, list, 4 * count), "bytes beside out were written");
    took(now(), fz_encode_tile(codec, block, bytepix, bitpix, list, count, given, len, coded));
    must(guarded_whole(in, given, len) && guarded_whole(small, coded, sizeof *coded), "bytes beside out were written");
}

int main(int argc, char **words) {
    static int32_t list[MOST];
    static uint8_t code[FZ_TILE_ROOM(MOST)], hurt[FZ_TILE_ROOM(MOST)];
    static const int32_t sizes[] = {8, 16, 32};
    unsigned long wanted, answer;
    must(argc == 3, "usage: damaged SEED COUNT");
    state = strtoull(words[1], NULL, 10) * 2654435761u + 88172645463325252ULL;
    wanted = strtoul(words[2], NULL, 10);
    in = guarded_new(sizeof code);
    out = guarded_new(4 * MOST);
    small = guarded_new(PAGE);
    while (calls < wanted) {
        int32_t bitpix = sizes[below(3)];
        uint32_t codec = below(3), block = below(2) ? 32 : 1 + below(below(4) ? 64 : 32767);
        size_t count = make_numbers(bitpix, codec, list), room = FZ_TILE_ROOM(count), len;
        struct fz_coded coded;
        int turn;
        must(fz_encode_tile(codec, block, bitpix / 8, bitpix, list, count, code, room, &coded) == 0, "a lawful tile was not coded");
        for (turn = 0; turn < 8; turn++) {
            memcpy(hurt, code, coded.len);
            len = damage(hurt, coded.len, room);
            decode_all(codec, block, bitpix, coded.column, hurt, len, count);
        }
        wild(hurt, len, count);
    }
    printf("%lu calls, the longest %.3f ms:", calls, longest * 1e3);
    for (answer = 0; answer < 256; answer++)
        if (counts[answer]) printf(" %s%lu: %lu", answer ? "-" : "", answer, counts[answer]);
    putchar('\n');
    must(longest < 2, "an answer took 2 seconds");
    return 0;
}

/* threads N TURNS: N threads with the smallest stack that the system gives encode and decode the same tiles at once, TURNS times, and
 * find what one thread found. It prints how much of its stack a call used at most. */
#include "fz.h"
#include "guarded.h"

#include <limits.h>
#include <pthread.h>

enum { COUNT = 4096, TILES = 9, STACK = 64 * 1024 };

struct tile {
    uint32_t codec, block;
    int32_t bitpix, numbers[COUNT];
    uint8_t code[FZ_TILE_ROOM(COUNT)];
    struct fz_coded coded;
};

static struct tile tiles[TILES];
static int turns;

static void fill(void) {
    static const int32_t sizes[] = {8, 16, 32};
    uint32_t word = 7;
    int i, k;
    for (i = 0; i < TILES; i++) {
        struct tile *it = &tiles[i];
        it->codec = i % 3;
        it->block = i < 3 ? 32 : 16;
        it->bitpix = sizes[i / 3];
        for (k = 0; k < COUNT; k++) {
            word = word * 1664525 + 1013904223;
            it->numbers[k] = it->codec == FZ_PLIO ? (int32_t)(word >> 29) * 3 : 100 + (int32_t)(word >> 27);
        }
        must(fz_encode_tile(it->codec, it->block, it->bitpix / 8, it->bitpix, it->numbers, COUNT, it->code, sizeof it->code, &it->coded) == 0, "a tile was not coded");
    }
}

/* Encodes and decodes a tile in its own room, and compares. */
static void once(const struct tile *it, uint8_t *code, int32_t *numbers) {
    struct fz_coded coded;
    must(fz_encode_tile(it->codec, it->block, it->bitpix / 8, it->bitpix, it->numbers, COUNT, code, FZ_TILE_ROOM(COUNT), &coded) == 0, "a tile was not coded");
    must(coded.len == it->coded.len && coded.column == it->coded.column && !memcmp(code, it->code, coded.len), "a thread coded otherwise");
    must(fz_decode_tile(it->codec, it->block, it->bitpix / 8, it->bitpix, coded.column, it->code, coded.len, coded.len, numbers, COUNT) == 0, "a tile was not decoded");
    must(!memcmp(numbers, it->numbers, sizeof it->numbers), "a thread decoded otherwise");
}

static void *work(void *room) {
    int i;
    uint8_t *code = room;
    int32_t *numbers = (int32_t *)(code + FZ_TILE_ROOM(COUNT));
    for (i = 0; i < turns * TILES; i++) once(&tiles[i % TILES], code, numbers);
    return NULL;
}

/* How much of a painted stack of so many bytes was used. */
static size_t used(const unsigned char *stack) {
    size_t free = 0;
    while (free < STACK && stack[free] == 0x5A) free++;
    return STACK - free;
}

static void *nothing(void *room) { return room; }

/* Runs a function on a painted stack, and says how much of it was used. */
static size_t stack_of(void *(*function)(void *), void *room) {
    unsigned char *stack = NULL;
    pthread_attr_t how;
    pthread_t it;
    size_t found;
    must(posix_memalign((void **)&stack, PAGE, STACK) == 0, "no memory");
    memset(stack, 0x5A, STACK);
    pthread_attr_init(&how);
    must(pthread_attr_setstack(&how, stack, STACK) == 0, "no stack of this size");
    must(pthread_create(&it, &how, function, room) == 0, "no thread");
    pthread_join(it, NULL);
    found = used(stack);
    pthread_attr_destroy(&how);
    free(stack);
    return found;
}

int main(int argc, char **words) {
    int count, i;
    pthread_t *all;
    pthread_attr_t how;
    size_t size = FZ_TILE_ROOM(COUNT) + 4 * COUNT, calls, none;
    char *rooms;
    must(argc == 3, "usage: threads N TURNS");
    count = atoi(words[1]);
    turns = atoi(words[2]);
    fill();
    all = malloc(count * sizeof *all);
    rooms = malloc(count * size);
    pthread_attr_init(&how);
    must(pthread_attr_setstacksize(&how, PTHREAD_STACK_MIN) == 0, "no stack of this size");
    for (i = 0; i < count; i++) must(pthread_create(&all[i], &how, work, rooms + i * size) == 0, "no thread");
    for (i = 0; i < count; i++) pthread_join(all[i], NULL);
    none = stack_of(nothing, NULL);
    calls = stack_of(work, rooms);
    printf("%d threads, %d calls each, stacks of %ld bytes; a call used at most %zu bytes of stack\n", count, 2 * turns * TILES, (long)PTHREAD_STACK_MIN, calls - none);
    free(all);
    free(rooms);
    return 0;
}

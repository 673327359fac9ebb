/* vectors: makes the calls of fz.h that standard input asks for, a line each, and prints a line with the answer of each: the answer,
 * and after 0 what was written. Each call is made twice, with its places before and after a page that nobody may touch. Bytes are in
 * hexadecimal digits (- if there are none), lists of numbers have their length first.
 *
 *   decode_tile codec block bytepix bitpix column total BYTES count    ->  answer NUMBERS
 *   encode_tile codec block bytepix bitpix NUMBERS [room]              ->  answer column BYTES
 *   rice_decode width block BYTES count                                ->  answer used NUMBERS
 *   rice_encode width block NUMBERS [room]                             ->  answer BYTES
 *   plio_decode BYTES count                                            ->  answer NUMBERS
 *   plio_encode NUMBERS [room]                                         ->  answer BYTES
 *   first_mark codec block bytepix bitpix BYTES                        ->  answer bit last
 *   decode_part codec block bytepix bitpix BYTES bit last count        ->  answer bit last NUMBERS
 *   parts codec block bytepix bitpix BYTES count step                  ->  answer NUMBERS   (step numbers at a time)
 *   sum before BYTES                                                   ->  answer sum
 *   version                                                            ->  version
 *   front_len BYTES start length hdu after_empty                       ->  answer more
 *   hdu BYTES start length hdu after_empty                             ->  answer data_at data_len next_at header_len sort packed bitpix LENGTHS
 *   plan BYTES start length hdu after_empty                            ->  answer PLAN
 *   row PLAN tile BYTES                                                ->  answer start total read column
 *   tile PLAN tile start total read column BYTES count                 ->  answer NUMBERS
 *   box_needs PLAN BOX                                                 ->  answer rows_at rows_len numbers tiles places
 *   box_reads PLAN BOX from BYTES room                                 ->  answer (start total read column) of each record
 *   box PLAN BOX from BYTES at BYTES places room                       ->  answer NUMBERS
 *
 * A PLAN is rows_at heap_at heap_len row_bytes rows, at wide unit of each of three columns, codec block bytepix bitpix primary axes, and
 * then so many lengths and so many of the tile. A BOX is axes, and then so many of first, of last and of step. The BYTES of a header can be its cards, each after a /, with ~ for a blank; after a kind
 * of refusal hdu and plan write at_sort and at of *fault, and where box_reads and box stop at a tile they write its number.
 *
 * Without a room, out has FZ_TILE_ROOM. After another answer than 0 the program ends with a failure if *coded, *used, *mark, *sum or another
 * result is not as it was, and after plio_encode if bytes of out are not that the call leaves as they are.
 */
#include "fz.h"
#include "guarded.h"
#include "words.h"

/* A call: what goes in and what comes out of it, in guarded places. */
struct call {
    struct guarded in_pages, out_pages, small_pages;
    void *in, *out, *small;
    size_t in_size, out_size, small_size;
};

static struct call call_new(const void *in, size_t in_size, size_t out_size, size_t small_size, int at_front) {
    struct call it = {guarded_new(in_size), guarded_new(out_size), guarded_new(small_size), 0, 0, 0, in_size, out_size, small_size};
    it.in = guarded_place(it.in_pages, in_size, at_front);
    memcpy(it.in, in, in_size);
    guarded_lock(it.in_pages, 1);
    it.out = guarded_place(it.out_pages, out_size, at_front);
    it.small = guarded_place(it.small_pages, small_size, at_front);
    return it;
}

/* So many bytes are as guarded_place left them. */
static int is_as_it_was(const void *place, size_t size) {
    const unsigned char *at = place;
    size_t i;
    for (i = 0; i < size; i++)
        if (at[i] != 0xA5) return 0;
    return 1;
}

/* The end of a call that writes one value after 0 only. */
static void answered(struct call it, int32_t answer) {
    must(answer == 0 || is_as_it_was(it.small, it.small_size), "a result was written, and the answer is not 0");
}

static void call_end(struct call it) {
    must(guarded_whole(it.out_pages, it.out, it.out_size), "bytes beside out were written");
    must(guarded_whole(it.small_pages, it.small, it.small_size), "bytes beside a result were written");
    guarded_free(it.in_pages);
    guarded_free(it.out_pages);
    guarded_free(it.small_pages);
}

static void decode_tile(int at_front, int is_shown) {
    uint32_t codec = number(), block = number(), bytepix = number();
    int32_t bitpix = number(), answer;
    uint32_t column = number();
    uint64_t total = number();
    size_t len, count;
    uint8_t *code = bytes(&len);
    struct call it;
    count = number();
    it = call_new(code, len, 4 * count, 0, at_front);
    answer = fz_decode_tile(codec, block, bytepix, bitpix, column, it.in, len, total, it.out, count);
    if (is_shown) printf("%" PRId32, answer);
    if (is_shown && answer == 0) print_numbers(it.out, count);
    call_end(it);
    free(code);
}

static void encode_tile(int at_front, int is_shown) {
    uint32_t codec = number(), block = number(), bytepix = number();
    int32_t bitpix = number(), answer;
    size_t count, room;
    int32_t *list = numbers(&count);
    struct call it;
    struct fz_coded *coded;
    room = room_or(FZ_TILE_ROOM(bitpix == 64 ? count / 2 : count));
    it = call_new(list, 4 * count, room, sizeof *coded, at_front);
    coded = it.small;
    answer = fz_encode_tile(codec, block, bytepix, bitpix, it.in, count, it.out, room, coded);
    answered(it, answer);
    if (is_shown) printf("%" PRId32, answer);
    if (is_shown && answer == 0) {
        printf(" %" PRIu32, coded->column);
        print_bytes(it.out, coded->len);
    }
    call_end(it);
    free(list);
}

static void rice_decode(int at_front, int is_shown) {
    uint32_t width = number(), block = number();
    size_t len, count;
    uint8_t *code = bytes(&len);
    struct call it;
    int32_t answer;
    count = number();
    it = call_new(code, len, 4 * count, sizeof(uint64_t), at_front);
    answer = fz_rice_decode(width, block, it.in, len, it.out, count, it.small);
    answered(it, answer);
    if (is_shown) printf("%" PRId32, answer);
    if (is_shown && answer == 0) {
        printf(" %" PRIu64, *(uint64_t *)it.small);
        print_numbers(it.out, count);
    }
    call_end(it);
    free(code);
}

static void plio_decode(int at_front, int is_shown) {
    size_t len, count;
    uint8_t *code = bytes(&len);
    struct call it;
    int32_t answer;
    count = number();
    it = call_new(code, len, 4 * count, 0, at_front);
    answer = fz_plio_decode(it.in, len, it.out, count);
    if (is_shown) printf("%" PRId32, answer);
    if (is_shown && answer == 0) print_numbers(it.out, count);
    call_end(it);
    free(code);
}

/* rice_encode, and plio_encode if width is 0. */
static void encode(int at_front, int is_shown, uint32_t width, uint32_t block) {
    size_t count, room, used;
    int32_t *list = numbers(&count), answer;
    struct call it;
    room = room_or(FZ_TILE_ROOM(count));
    it = call_new(list, 4 * count, room, sizeof(uint64_t), at_front);
    answer = width ? fz_rice_encode(width, block, it.in, count, it.out, room, it.small) : fz_plio_encode(it.in, count, it.out, room, it.small);
    answered(it, answer);
    used = answer == 0 ? *(uint64_t *)it.small : answer == FZ_NO_ROOM ? room : 0;
    must(used <= room, "more bytes are used than there are");
    must(width || is_as_it_was((uint8_t *)it.out + used, room - used), "bytes after the list were written");
    if (is_shown) printf("%" PRId32, answer);
    if (is_shown && answer == 0) print_bytes(it.out, used);
    call_end(it);
    free(list);
}

static void print_mark(const struct fz_mark *mark) { printf(" %" PRIu64 " %" PRIu32, mark->bit, mark->last); }

static void first_mark(int at_front, int is_shown) {
    uint32_t codec = number(), block = number(), bytepix = number();
    int32_t bitpix = number(), answer;
    size_t len;
    uint8_t *code = bytes(&len);
    struct call it = call_new(code, len, 0, sizeof(struct fz_mark), at_front);
    answer = fz_first_mark(codec, block, bytepix, bitpix, it.in, len, it.small);
    answered(it, answer);
    if (is_shown) printf("%" PRId32, answer);
    if (is_shown && answer == 0) print_mark(it.small);
    call_end(it);
    free(code);
}

/* fz_decode_part, after which the mark must be as it was if the answer is not 0. */
static int32_t part(uint32_t codec, uint32_t block, uint32_t bytepix, int32_t bitpix, struct call it, size_t at, size_t count) {
    struct fz_mark *mark = it.small, before = *mark;
    int32_t answer = fz_decode_part(codec, block, bytepix, bitpix, it.in, it.in_size, mark, (int32_t *)it.out + at, count);
    must(answer == 0 || (mark->bit == before.bit && mark->last == before.last), "the mark was moved, and the answer is not 0");
    return answer;
}

static void decode_part(int at_front, int is_shown) {
    uint32_t codec = number(), block = number(), bytepix = number();
    int32_t bitpix = number(), answer;
    size_t len, count;
    uint8_t *code = bytes(&len);
    struct fz_mark mark;
    struct call it;
    mark.bit = number();
    mark.last = number();
    count = number();
    it = call_new(code, len, 4 * count, sizeof mark, at_front);
    *(struct fz_mark *)it.small = mark;
    answer = part(codec, block, bytepix, bitpix, it, 0, count);
    if (is_shown) printf("%" PRId32, answer);
    if (is_shown && answer == 0) {
        print_mark(it.small);
        print_numbers(it.out, count);
    }
    call_end(it);
    free(code);
}

static void parts(int at_front, int is_shown) {
    uint32_t codec = number(), block = number(), bytepix = number();
    int32_t bitpix = number(), answer;
    size_t len, count, step, at = 0;
    uint8_t *code = bytes(&len);
    struct call it;
    count = number();
    step = number();
    it = call_new(code, len, 4 * count, sizeof(struct fz_mark), at_front);
    answer = fz_first_mark(codec, block, bytepix, bitpix, it.in, len, it.small);
    while (answer == 0 && at < count) {
        size_t next = count - at < step ? count - at : step;
        answer = part(codec, block, bytepix, bitpix, it, at, next);
        at += next;
    }
    if (is_shown) printf("%" PRId32, answer);
    if (is_shown && answer == 0) print_numbers(it.out, count);
    call_end(it);
    free(code);
}

static void sum(int at_front, int is_shown) {
    uint32_t before = number();
    size_t len;
    uint8_t *data = bytes(&len);
    struct call it = call_new(data, len, 0, sizeof(uint32_t), at_front);
    int32_t answer = fz_sum(before, it.in, len, it.small);
    answered(it, answer);
    if (is_shown) printf("%" PRId32, answer);
    if (is_shown && answer == 0) printf(" %" PRIu32, *(uint32_t *)it.small);
    call_end(it);
    free(data);
}

static struct fz_at place(void) {
    struct fz_at at;
    at.start = number();
    at.length = number();
    at.hdu = number();
    at.after_empty = number();
    return at;
}

static void front_len(int at_front, int is_shown) {
    size_t len;
    uint8_t *front = bytes(&len);
    struct fz_at at = place();
    struct call it = call_new(front, len, 0, sizeof(uint64_t), at_front);
    int32_t answer = fz_front_len(it.in, len, &at, it.small);
    answered(it, answer);
    if (is_shown) printf("%" PRId32, answer);
    if (is_shown && answer == 0) printf(" %" PRIu64, *(uint64_t *)it.small);
    call_end(it);
    free(front);
}

/* The end of a call that says where the HDU is refused, if it is. */
static void refused(struct fz_fault fault, uint32_t hdu, int32_t answer, int is_shown) {
    static const struct fz_fault none = {7, 7, 7, 7};
    int is_kind = answer < 0 && answer > -100;
    must(is_kind || (fault.at == none.at && fault.at_sort == none.at_sort && fault.hdu == none.hdu && fault.kind == none.kind), "a fault was written, and the answer is no kind");
    must(!is_kind || (fault.hdu == hdu && fault.kind == (uint32_t)-answer), "the fault is another one than the answer");
    if (is_kind && is_shown) printf(" %" PRIu32 " %" PRIu64, fault.at_sort, fault.at);
}

static void print_lengths(uint32_t axes, const uint32_t *lengths) {
    uint32_t i;
    for (i = 0; i < 9; i++) {
        if (i < axes) printf(" %" PRIu32, lengths[i]);
        else must(lengths[i] == 0, "a length after the axes is not 0");
    }
}

static void hdu(int at_front, int is_shown) {
    size_t len;
    uint8_t *front = bytes(&len);
    struct fz_at at = place();
    struct fz_fault fault = {7, 7, 7, 7};
    struct call it = call_new(front, len, 0, sizeof(struct fz_hdu), at_front);
    struct fz_hdu *said = it.small;
    int32_t answer = fz_hdu(it.in, len, &at, said, &fault);
    answered(it, answer);
    if (is_shown) printf("%" PRId32, answer);
    refused(fault, at.hdu, answer, is_shown);
    if (is_shown && answer == 0) {
        printf(" %" PRIu64 " %" PRIu64 " %" PRIu64 " %" PRIu32 " %" PRIu32 " %" PRIu32, said->data_at, said->data_len, said->next_at, said->header_len, said->sort, said->packed);
        printf(" %" PRId32 " %" PRIu32, said->bitpix, said->axes);
        print_lengths(said->axes, said->lengths);
    }
    call_end(it);
    free(front);
}

static void print_plan(const struct fz_plan *plan) {
    const struct fz_arrays *columns[3] = {&plan->coded, &plan->stored, &plan->gzip};
    int i;
    printf(" %" PRIu64 " %" PRIu64 " %" PRIu64 " %" PRIu32 " %" PRIu32, plan->rows_at, plan->heap_at, plan->heap_len, plan->row_bytes, plan->rows);
    for (i = 0; i < 3; i++) printf(" %" PRIu32 " %" PRIu32 " %" PRIu32, columns[i]->at, columns[i]->wide, columns[i]->unit);
    printf(" %" PRIu32 " %" PRIu32 " %" PRIu32 " %" PRId32 " %" PRIu32 " %" PRIu32, plan->codec, plan->block, plan->bytepix, plan->bitpix, plan->primary, plan->axes);
    print_lengths(plan->axes, plan->lengths);
    print_lengths(plan->axes, plan->tile);
}

static struct fz_plan plan_words(void) {
    struct fz_plan plan;
    struct fz_arrays *columns[3] = {&plan.coded, &plan.stored, &plan.gzip};
    uint32_t i;
    memset(&plan, 0, sizeof plan);
    plan.rows_at = number();
    plan.heap_at = number();
    plan.heap_len = number();
    plan.row_bytes = number();
    plan.rows = number();
    for (i = 0; i < 3; i++) {
        columns[i]->at = number();
        columns[i]->wide = number();
        columns[i]->unit = number();
    }
    plan.codec = number();
    plan.block = number();
    plan.bytepix = number();
    plan.bitpix = number();
    plan.primary = number();
    plan.axes = number();
    for (i = 0; i < plan.axes && i < 9; i++) plan.lengths[i] = number();
    for (i = 0; i < plan.axes && i < 9; i++) plan.tile[i] = number();
    return plan;
}

static void plan(int at_front, int is_shown) {
    size_t len;
    uint8_t *front = bytes(&len);
    struct fz_at at = place();
    struct fz_fault fault = {7, 7, 7, 7};
    struct call it = call_new(front, len, 0, sizeof(struct fz_plan), at_front);
    int32_t answer = fz_plan(it.in, len, &at, it.small, &fault);
    answered(it, answer);
    if (is_shown) printf("%" PRId32, answer);
    refused(fault, at.hdu, answer, is_shown);
    if (is_shown && answer == 0) print_plan(it.small);
    call_end(it);
    free(front);
}

static void row(int at_front, int is_shown) {
    struct fz_plan plan = plan_words();
    uint32_t tile = number();
    size_t len;
    uint8_t *bytes_of = bytes(&len);
    struct call it = call_new(bytes_of, len, 0, sizeof(struct fz_record), at_front);
    struct fz_record *found = it.small;
    int32_t answer = fz_row(&plan, tile, it.in, len, found);
    answered(it, answer);
    if (is_shown) printf("%" PRId32, answer);
    if (is_shown && answer == 0) printf(" %" PRIu64 " %" PRIu64 " %" PRIu64 " %" PRIu32, found->start, found->total, found->read, found->column);
    call_end(it);
    free(bytes_of);
}

static void tile(int at_front, int is_shown) {
    struct fz_plan plan = plan_words();
    uint32_t which = number();
    struct fz_record chosen;
    size_t len, count;
    uint8_t *code;
    struct call it;
    int32_t answer;
    chosen.start = number();
    chosen.total = number();
    chosen.read = number();
    chosen.column = number();
    code = bytes(&len);
    count = number();
    it = call_new(code, len, 4 * count, 0, at_front);
    answer = fz_tile(&plan, which, &chosen, it.in, len, it.out, count);
    if (is_shown) printf("%" PRId32, answer);
    if (is_shown && answer == 0) print_numbers(it.out, count);
    call_end(it);
    free(code);
}

static struct fz_box box_words(void) {
    struct fz_box box;
    uint32_t i;
    memset(&box, 0, sizeof box);
    box.axes = number();
    for (i = 0; i < box.axes && i < 9; i++) box.first[i] = number();
    for (i = 0; i < box.axes && i < 9; i++) box.last[i] = number();
    for (i = 0; i < box.axes && i < 9; i++) box.step[i] = number();
    return box;
}

static void box_needs(int at_front, int is_shown) {
    struct fz_plan plan = plan_words();
    struct fz_box box = box_words();
    struct call it = call_new("", 0, 0, sizeof(struct fz_needs), at_front);
    struct fz_needs *needs = it.small;
    int32_t answer = fz_box_needs(&plan, &box, needs);
    answered(it, answer);
    if (is_shown) printf("%" PRId32, answer);
    if (is_shown && answer == 0) printf(" %" PRIu64 " %" PRIu64 " %" PRIu64 " %" PRIu32 " %" PRIu32, needs->rows_at, needs->rows_len, needs->numbers, needs->tiles, needs->places);
    call_end(it);
}

/* The end of a call that says at which tile it stops, if it does. */
static void stopped(uint32_t tile, int32_t answer, int is_shown) {
    int is_tile = answer == FZ_FEW_ROWS || answer == FZ_FEW_BYTES || (answer < 0 && answer > -100);
    must(is_tile || tile == 7777, "a tile was written, and the answer is of no tile");
    if (is_tile && is_shown) printf(" %" PRIu32, tile);
}

static void box_reads(int at_front, int is_shown) {
    struct fz_plan plan = plan_words();
    struct fz_box box = box_words();
    uint64_t from = number();
    uint32_t tile = 7777;
    size_t len, room, i;
    uint8_t *rows = bytes(&len);
    struct call it;
    struct fz_record *reads;
    int32_t answer;
    room = number();
    it = call_new(rows, len, room * sizeof *reads, 0, at_front);
    reads = it.out;
    answer = fz_box_reads(&plan, &box, from, it.in, len, reads, room, &tile);
    if (is_shown) printf("%" PRId32, answer);
    stopped(tile, answer, is_shown);
    for (i = 0; is_shown && answer == 0 && i < room && reads[i].column < 2; i++)
        printf(" %" PRIu64 " %" PRIu64 " %" PRIu64 " %" PRIu32, reads[i].start, reads[i].total, reads[i].read, reads[i].column);
    must(answer != 0 || is_as_it_was(reads + i, (is_shown ? room - i : 0) * sizeof *reads), "records after those of the box were written");
    call_end(it);
    free(rows);
}

static void box(int at_front, int is_shown) {
    struct fz_plan plan = plan_words();
    struct fz_box part = box_words();
    uint64_t from = number(), at;
    uint32_t tile = 7777;
    size_t rows_len, codes_len, places, room;
    uint8_t *rows = bytes(&rows_len), *codes;
    struct call it, other;
    int32_t answer;
    at = number();
    codes = bytes(&codes_len);
    places = number();
    room = number();
    it = call_new(rows, rows_len, 4 * room, 0, at_front);
    other = call_new(codes, codes_len, 4 * places, 0, at_front);
    answer = fz_box(&plan, &part, from, it.in, rows_len, at, other.in, codes_len, other.out, places, it.out, room, &tile);
    if (is_shown) printf("%" PRId32, answer);
    stopped(tile, answer, is_shown);
    if (is_shown && answer == 0) print_numbers(it.out, room);
    call_end(it);
    call_end(other);
    free(rows);
    free(codes);
}

static void version(int is_shown) {
    if (is_shown) printf("%" PRIu32, fz_version());
}

static void make_call(const char *name, int at_front, int is_shown) {
    if (!strcmp(name, "decode_tile")) decode_tile(at_front, is_shown);
    else if (!strcmp(name, "encode_tile")) encode_tile(at_front, is_shown);
    else if (!strcmp(name, "rice_decode")) rice_decode(at_front, is_shown);
    else if (!strcmp(name, "plio_decode")) plio_decode(at_front, is_shown);
    else if (!strcmp(name, "plio_encode")) encode(at_front, is_shown, 0, 0);
    else if (!strcmp(name, "first_mark")) first_mark(at_front, is_shown);
    else if (!strcmp(name, "decode_part")) decode_part(at_front, is_shown);
    else if (!strcmp(name, "parts")) parts(at_front, is_shown);
    else if (!strcmp(name, "sum")) sum(at_front, is_shown);
    else if (!strcmp(name, "version")) version(is_shown);
    else if (!strcmp(name, "front_len")) front_len(at_front, is_shown);
    else if (!strcmp(name, "hdu")) hdu(at_front, is_shown);
    else if (!strcmp(name, "plan")) plan(at_front, is_shown);
    else if (!strcmp(name, "row")) row(at_front, is_shown);
    else if (!strcmp(name, "tile")) tile(at_front, is_shown);
    else if (!strcmp(name, "box_needs")) box_needs(at_front, is_shown);
    else if (!strcmp(name, "box_reads")) box_reads(at_front, is_shown);
    else if (!strcmp(name, "box")) box(at_front, is_shown);
    else if (!strcmp(name, "rice_encode")) {
        uint32_t width = number(), block = number();
        encode(at_front, is_shown, width, block);
    } else must(0, name);
}

int main(void) {
    char *text = NULL, *again;
    size_t room = 0;
    must(fz_version() == FZ_VERSION, "the library has another version than fz.h");
    while (getline(&text, &room, stdin) > 0) {
        again = line = strdup(text);
        make_call(word(), 0, 1);
        free(again);
        line = text;
        make_call(word(), 1, 0);
        putchar('\n');
    }
    free(text);
    return 0;
}

/* fz.h: the codecs of the tiles of packed FITS images (FITS 4.0, section 10), and packed images piece by
 * piece, over bytes and numbers that the caller has in memory.
 *
 * Each call tests all of its arguments, and answers 0 or one of the numbers below 0 that are named
 * here. What no test can see the caller owes:
 *   - Addresses are real. Where a length follows one, so many elements are there, to be read (const) or
 *     written; where none does, one value is. An address is not NULL, also if the length is 0. What is
 *     only written need not be initialized.
 *   - Lengths are true: numbers_len counts numbers, and the others count bytes.
 *   - Numbers and structs are aligned as C aligns them: int32_t to 4 bytes, uint64_t and structs that
 *     have one to 8.
 *   - What a call writes overlaps with nothing else that it is passed.
 *   - During a call nobody else writes to what it is passed, or reads what it writes. (A file that is
 *     mapped into memory and cut short meanwhile kills the program: read it instead.)
 * With less than that a call does what C does then: anything.
 *
 * Every call returns, whatever the bytes are, after a time that grows with the lengths. None allocates
 * memory, waits, prints, or keeps anything from one call to the next: any number of threads may call at
 * once. A call takes less than 2 kB of stack, and one that reads a front less than 8 kB.
 *
 * What is proved of the calls, and what is not, is in docs/LIBRARY.md. A damaged code that is still
 * lawful has other numbers, and no call can notice it: only a checksum of the file can. */
#ifndef FZ_H
#define FZ_H

#include <stddef.h>
#include <stdint.h>

#ifdef __cplusplus
extern "C" {
#endif

/* The version of this header, as fz_version answers it: 10000 * first number + 100 * second + third. */
#define FZ_VERSION 10000

/* How the tiles of an image are coded: ZCMPTYPE. */
enum fz_codec {
    FZ_NOCOMPRESS = 0, /* NOCOMPRESS: plain bytes only */
    FZ_RICE = 1,       /* RICE_1 or RICE_ONE, with BLOCKSIZE and BYTEPIX */
    FZ_PLIO = 2        /* PLIO_1 */
};

/* The column that has the bytes of a tile. */
enum fz_column {
    FZ_COMPRESSED_DATA = 0,
    FZ_UNCOMPRESSED_DATA = 1 /* plain bytes, whatever the codec is */
};

/* What a call answers. A number never changes its meaning. */
enum fz_answer {
    FZ_OK = 0,

    /* The bytes are at fault: minus the number of the kind of refusal (docs/REFUSALS.md). */
    FZ_CODE_SHORT = -21,  /* the Rice code ends early */
    FZ_CODE_VALUE = -22,  /* the Rice code is not lawful, or the part that is read of it ends early */
    FZ_LINE_LIST = -23,   /* the line list is not lawful */
    FZ_PIXEL_RANGE = -24, /* a number of the code is outside the range of BITPIX */
    FZ_TILE_SIZE = -25,   /* plain bytes have another length than the tile */

    /* The caller is at fault, or asks for something that there is not. */
    FZ_NO_CODEC = -101,     /* no such codec, or not with this block, bytepix, width or BITPIX */
    FZ_NO_COLUMN = -102,    /* no such column */
    FZ_NO_TILE = -103,      /* no tile has so many numbers, or the image has no tile of this number */
    FZ_FEW_BYTES = -104,    /* fewer bytes were passed than what is read of the record, row or header */
    FZ_NO_ROOM = -105,      /* out_len is too small */
    FZ_NUMBER_RANGE = -106, /* a number to be coded is outside the range */
    FZ_MANY_BYTES = -107,   /* more than 2^60 bytes */
    FZ_NO_PART = -108,      /* the code is not read on from this mark: fz_decode_tile says why */
    FZ_NO_HDU = -109,       /* no HDU begins at this place of a file of this length */
    FZ_NO_PLAN = -110,      /* no packed image has this plan */
    FZ_FEW_PLACES = -111,   /* numbers_len is less than the places of the pixels of the tile */
    FZ_NO_BOX = -112,       /* the box has no pixel along an axis, or one outside the image, or other axes */
    FZ_FEW_ROWS = -113      /* the row of a tile is not among the bytes of the rows */
};

/* The kinds of refusal (docs/REFUSALS.md). A call that reads a header or a row answers minus one of these
 * if it refuses it. */
enum fz_kind {
    FZ_KIND_NOT_FITS = 1,
    FZ_KIND_TRUNCATED = 2,
    FZ_KIND_LONG_HEADER = 3,
    FZ_KIND_BAD_CARD = 4,
    FZ_KIND_DUPLICATE = 5,
    FZ_KIND_TRAILING_BYTES = 8,
    FZ_KIND_LIMIT = 11,
    FZ_KIND_GROUPS = 12,
    FZ_KIND_UNKNOWN_CODEC = 13,
    FZ_KIND_QUANTISED = 14,
    FZ_KIND_COMPRESSED_TABLE = 15,
    FZ_KIND_BAD_TABLE = 16,
    FZ_KIND_ROW_COUNT = 17,
    FZ_KIND_DESCRIPTOR_RANGE = 18,
    FZ_KIND_TILE_MISSING = 19,
    FZ_KIND_GZIP_TILE = 20,
    FZ_KIND_CODE_SHORT = 21,
    FZ_KIND_CODE_VALUE = 22,
    FZ_KIND_LINE_LIST = 23,
    FZ_KIND_PIXEL_RANGE = 24,
    FZ_KIND_TILE_SIZE = 25,
    FZ_KIND_MISPLACED_PRIMARY = 26,
    FZ_KIND_NOT_PACKED = 27,
    FZ_KIND_PLIO_OFFSET = 29
};

/* A tile has 1 to so many pixels. */
#define FZ_MOST_PIXELS 67108864

/* fz_encode_tile needs this room for the bytes of a tile of so many pixels, and fz_decode_tile reads at
 * most so many bytes of its record. It is room enough for fz_rice_encode and fz_plio_encode too. */
#define FZ_TILE_ROOM(pixels) (8 * (size_t)(pixels) + 64)

/* The version of the library. */
uint32_t fz_version(void);

/* Reads the pixels of a tile from its record, the bytes that a row of the table leads to.
 *
 * codec    FZ_NOCOMPRESS, FZ_RICE or FZ_PLIO
 * block    BLOCKSIZE of FZ_RICE, 1 to 32767 (32 if the header has none); any number otherwise
 * bytepix  BYTEPIX of FZ_RICE, 1, 2 or 4 (4 if the header has none); any number otherwise
 * bitpix   ZBITPIX: 8, 16, 32, and with FZ_NOCOMPRESS also 64
 * column   FZ_COMPRESSED_DATA or FZ_UNCOMPRESSED_DATA
 * code     the record, or its first FZ_TILE_ROOM(pixels) bytes; what follows these is not read
 * total    the length of the whole record in bytes: the elements of the descriptor times the bytes of
 *          an element of the column
 * numbers  gets the pixels, without BZERO and BSCALE: one number for each, unsigned at 8 bits; at 64
 *          bits two, the upper half and then the lower half, each as a signed number. numbers_len says
 *          how many the tile has.
 *
 * FZ_CODE_SHORT, FZ_CODE_VALUE, FZ_LINE_LIST, FZ_PIXEL_RANGE, FZ_TILE_SIZE; FZ_NO_CODEC, FZ_NO_COLUMN,
 * FZ_NO_TILE, FZ_FEW_BYTES. After these numbers has some values. */
int32_t fz_decode_tile(uint32_t codec, uint32_t block, uint32_t bytepix, int32_t bitpix,
                       uint32_t column, const uint8_t *code, size_t code_len, uint64_t total,
                       int32_t *numbers, size_t numbers_len);

/* What fz_encode_tile wrote. */
struct fz_coded {
    uint32_t column; /* the column that the bytes belong to */
    uint32_t len;    /* how many there are */
};

/* Writes the record of a tile at the front of out: its code, or its plain bytes if the code is not
 * shorter. Arguments are as above; bytepix is the bytes of a pixel, and out_len at least
 * FZ_TILE_ROOM(pixels). After the record out has some bytes.
 *
 * FZ_NO_CODEC, FZ_NO_TILE, FZ_NO_ROOM, FZ_NUMBER_RANGE. After these *coded is as it was. */
int32_t fz_encode_tile(uint32_t codec, uint32_t block, uint32_t bytepix, int32_t bitpix,
                       const int32_t *numbers, size_t numbers_len, uint8_t *out, size_t out_len,
                       struct fz_coded *coded);

/* Reads numbers_len numbers from a Rice code of 8, 16 or 32 bits (width). *used is how many bytes the
 * code takes: there may be more.
 *
 * FZ_CODE_SHORT, FZ_CODE_VALUE; FZ_NO_CODEC, FZ_MANY_BYTES. After these numbers has some values, and
 * *used is as it was. */
int32_t fz_rice_decode(uint32_t width, uint32_t block, const uint8_t *code, size_t code_len,
                       int32_t *numbers, size_t numbers_len, uint64_t *used);

/* Writes the Rice code of 1 number or more at the front of out. *used is how many bytes it takes; after
 * them out has some bytes. A code is seldom longer than the numbers were.
 *
 * FZ_NO_CODEC, FZ_NO_TILE, FZ_NUMBER_RANGE; FZ_NO_ROOM, the code is longer than out. After these out
 * has some bytes, and *used is as it was. */
int32_t fz_rice_encode(uint32_t width, uint32_t block, const int32_t *numbers, size_t numbers_len,
                       uint8_t *out, size_t out_len, uint64_t *used);

/* Reads the numbers of a line of numbers_len from its list.
 *
 * FZ_LINE_LIST. After it numbers has some values. */
int32_t fz_plio_decode(const uint8_t *code, size_t code_len, int32_t *numbers, size_t numbers_len);

/* Writes the list of a line of at most 67,108,864 numbers, each from 0 to 16,777,215, at the front of
 * out. *used is how many bytes it takes; those after them stay.
 *
 * FZ_NO_TILE, FZ_NUMBER_RANGE; FZ_NO_ROOM, the list is longer than out. After these *used is as it was;
 * after FZ_NO_ROOM out has some bytes. */
int32_t fz_plio_encode(const int32_t *numbers, size_t numbers_len, uint8_t *out, size_t out_len,
                       uint64_t *used);

/* Where the Rice code of a tile is read on. */
struct fz_mark {
    uint64_t bit;  /* bits before it, counted from code on */
    uint32_t last; /* the number before it, as so many bits; or the start value */
};

/* Writes to *mark where the first pixel of a tile is read.
 *
 * FZ_NO_PART; FZ_NO_CODEC, FZ_MANY_BYTES. After these *mark is as it was. */
int32_t fz_first_mark(uint32_t codec, uint32_t block, uint32_t bytepix, int32_t bitpix,
                      const uint8_t *code, size_t code_len, struct fz_mark *mark);

/* Reads the next numbers_len pixels of a tile in a Rice code, and moves *mark after them. numbers_len
 * is a multiple of block, but for the last pixels of a tile. code may begin at a later byte of the
 * record, if bit is made smaller by 8 for each byte before it. Any mark may be passed; one that no call
 * gave leads to some numbers, or to FZ_NO_PART.
 *
 * FZ_NO_PART; FZ_NO_CODEC, FZ_MANY_BYTES. After these numbers has some values, and *mark is as it was.
 */
int32_t fz_decode_part(uint32_t codec, uint32_t block, uint32_t bytepix, int32_t bitpix,
                       const uint8_t *code, size_t code_len, struct fz_mark *mark,
                       int32_t *numbers, size_t numbers_len);

/* Writes to *sum the ones' complement sum of the bytes, as words of 32 bits, after a sum of the words
 * before them: before is 0, or the *sum of a piece before that was whole words. It is what DATASUM has,
 * and what CHECKSUM encodes.
 *
 * FZ_MANY_BYTES. After it *sum is as it was. */
int32_t fz_sum(uint32_t before, const uint8_t *bytes, size_t bytes_len, uint32_t *sum);

/* ---- Packed images piece by piece. The caller reads the file; no call does. To read pixels of HDU k:
 *
 *   1. From byte 0 on, read the front of an HDU, call fz_front_len until no more is wanted, and fz_hdu,
 *      which says where the next HDU begins; so up to HDU k.
 *   2. fz_plan once, with the front of HDU k.
 *   3. For a tile: read its row (row_bytes bytes at rows_at + row_bytes * tile), call fz_row, read the
 *      record (read bytes at start), call fz_tile. For a box: fz_box_needs, fz_box_reads and fz_box.
 *
 * A plan may be kept and copied as long as the file stays as it is. A call that takes one tests it. */

/* Where an HDU begins. HDU 0 does at byte 0, and no other. */
struct fz_at {
    uint64_t start;       /* the byte of the file at which it begins */
    uint64_t length;      /* the length of the file, at most 2^62 */
    uint32_t hdu;         /* its number, from 0 */
    uint32_t after_empty; /* 1 if it is HDU 1 after a primary with NAXIS 0, otherwise 0 */
};

/* Writes to *more how many bytes of an HDU are wanted after those of front, so that the next block of its
 * header is there; 0 if the header is whole. front is the HDU from its first byte on, as much of it as
 * there is. It may be longer than the header, but the file has as many bytes from start on.
 *
 * A kind of refusal; FZ_NO_HDU. After these *more is as it was. */
int32_t fz_front_len(const uint8_t *front, size_t front_len, const struct fz_at *at, uint64_t *more);

/* What the header of an HDU says. */
struct fz_hdu {
    uint64_t data_at;    /* the byte of the file at which the data begin */
    uint64_t data_len;   /* the length of the data, without fill */
    uint64_t next_at;    /* where the next HDU begins, or the length of the file if this is the last */
    uint32_t header_len; /* the length of the header */
    uint32_t sort;       /* 0 the primary, 1 IMAGE, 2 BINTABLE, 3 another extension */
    uint32_t packed;     /* 1 if a card says that it is the table of a packed image */
    int32_t bitpix;
    uint32_t axes;       /* NAXIS */
    uint32_t lengths[9]; /* NAXIS1 and so on, and 0 from axes on */
};

/* Why an HDU is refused, and where: what fz prints. */
struct fz_fault {
    uint64_t at;      /* the byte of the file, the card of the header or the row of the table */
    uint32_t at_sort; /* 0 a byte, 1 a card, 2 a row */
    uint32_t hdu;
    uint32_t kind;    /* enum fz_kind */
};

/* Writes to *hdu what the header of an HDU says. front is as above, with the whole header.
 *
 * A kind of refusal, which *fault then says where; FZ_FEW_BYTES, the header goes on after front;
 * FZ_NO_HDU. After these *hdu is as it was. *fault is as it was but after a kind. */
int32_t fz_hdu(const uint8_t *front, size_t front_len, const struct fz_at *at, struct fz_hdu *hdu,
               struct fz_fault *fault);

/* A column of array descriptors. */
struct fz_arrays {
    uint32_t at;   /* the byte of the row at which its descriptor begins */
    uint32_t wide; /* 1 if the descriptor has two numbers of 64 bits, 0 if of 32 */
    uint32_t unit; /* the bytes of an element; 0 if there is no such column, and so are the others */
};

/* How a packed image is packed, and where its table is in the file. */
struct fz_plan {
    uint64_t rows_at;        /* the byte of the file at which the rows begin */
    uint64_t heap_at;        /* and the heap */
    uint64_t heap_len;       /* the length of the heap */
    uint32_t row_bytes;      /* the length of a row */
    uint32_t rows;           /* how many rows there are, which is how many tiles */
    struct fz_arrays coded;  /* COMPRESSED_DATA */
    struct fz_arrays stored; /* UNCOMPRESSED_DATA */
    struct fz_arrays gzip;   /* GZIP_COMPRESSED_DATA, which is not read */
    uint32_t codec;          /* enum fz_codec */
    uint32_t block;          /* BLOCKSIZE of FZ_RICE, otherwise 0 */
    uint32_t bytepix;        /* BYTEPIX of FZ_RICE, otherwise 0 */
    int32_t bitpix;          /* ZBITPIX */
    uint32_t axes;           /* ZNAXIS */
    uint32_t lengths[9];     /* ZNAXIS1 and so on, and 0 from axes on */
    uint32_t tile[9];        /* the lengths of a tile, and 0 from axes on */
    uint32_t primary;        /* 1 if the image was a primary, 0 if it was an extension */
};

/* Writes to *plan the plan of the packed image of an HDU, if it is one that fz reads. front is as above,
 * with the whole header.
 *
 * A kind of refusal, as `fz cut --hdu` refuses this HDU whatever the box is, and *fault says where;
 * FZ_FEW_BYTES, FZ_NO_HDU. After these *plan is as it was. *fault is as it was but after a kind. */
int32_t fz_plan(const uint8_t *front, size_t front_len, const struct fz_at *at, struct fz_plan *plan,
                struct fz_fault *fault);

/* Where the bytes of a tile are. */
struct fz_record {
    uint64_t start;  /* the byte of the file at which they begin */
    uint64_t total;  /* how many there are */
    uint64_t read;   /* how many of them, from the first one on, are read */
    uint32_t column; /* enum fz_column */
};

/* Writes to *chosen where the bytes of a tile are. Tiles are numbered from 0, axis 1 fastest; row is the
 * row of this number, of which row_bytes bytes are looked at.
 *
 * A kind of refusal; FZ_NO_PLAN; FZ_NO_TILE, the image has no such tile; FZ_FEW_BYTES. After these
 * *chosen is as it was. */
int32_t fz_row(const struct fz_plan *plan, uint32_t tile, const uint8_t *row, size_t row_len,
               struct fz_record *chosen);

/* Reads the pixels of a tile into the first numbers, as fz_decode_tile does. code has at least the bytes
 * that are read of the record, which are looked at, and no others. numbers_len is at least the places of
 * the tile: one for each pixel, and two for each of 64 bits. The numbers after these stay.
 *
 * A kind of refusal; FZ_NO_PLAN, FZ_NO_TILE, FZ_NO_COLUMN, FZ_FEW_BYTES, FZ_FEW_PLACES. After these
 * numbers has some values. */
int32_t fz_tile(const struct fz_plan *plan, uint32_t tile, const struct fz_record *chosen,
                const uint8_t *code, size_t code_len, int32_t *numbers, size_t numbers_len);

/* A box of an image with a step along each axis, axis 1 first, counted from 0. Its pixels along an axis
 * are first, first + step and so on up to last. What is after the axes is not looked at. */
struct fz_box {
    uint32_t axes;     /* as many as the image has */
    uint32_t first[9];
    uint32_t last[9];  /* at least first, and a pixel of the image */
    uint32_t step[9];  /* 1 or more */
};

/* What is read for a box, and how much room there has to be. */
struct fz_needs {
    uint64_t rows_at;  /* the byte of the file at which the row of its first tile begins */
    uint64_t rows_len; /* the bytes from there to the end of the row of its last tile */
    uint64_t numbers;  /* the places of its pixels: one for each, and two for each of 64 bits */
    uint32_t tiles;    /* how many tiles have a pixel of the box */
    uint32_t places;   /* the places of the largest tile of the image */
};

/* Writes to *needs what a box needs.
 *
 * FZ_NO_PLAN, FZ_NO_BOX. After these *needs is as it was. */
int32_t fz_box_needs(const struct fz_plan *plan, const struct fz_box *part, struct fz_needs *needs);

/* Writes where the bytes of each tile are that has a pixel of the box, in the order of the tiles, to the
 * front of reads. What is after them stays. These are the records that `fz cut` reads for the box.
 *
 * from, rows  the bytes of the file from byte from on, as many as there are: at least those of
 *             fz_box_needs
 * reads_len   at least the tiles of fz_box_needs
 *
 * A kind of refusal or FZ_FEW_ROWS: *tile gets the number of the first tile whose row is refused or not
 * there. FZ_NO_PLAN, FZ_NO_BOX, FZ_NO_ROOM. After these reads has some records. *tile is as it was but
 * after a kind or FZ_FEW_ROWS. */
int32_t fz_box_reads(const struct fz_plan *plan, const struct fz_box *part, uint64_t from,
                     const uint8_t *rows, size_t rows_len, struct fz_record *reads, size_t reads_len,
                     uint32_t *tile);

/* Writes the pixels of the box to the front of out, axis 1 fastest, as fz_decode_tile writes those of a
 * tile. What is after them stays.
 *
 * from, rows  as for fz_box_reads
 * at, codes   the bytes of the file from byte at on, up to the last one that is read of a record (read
 *             bytes at start). No other bytes than those of records are looked at: what is between them
 *             need not be the file's.
 * numbers     room for a tile: numbers_len is at least the places of fz_box_needs
 * out_len     at least the numbers of fz_box_needs
 *
 * If the whole file is in memory, it is both rows and codes, and from and at are 0.
 *
 * A kind of refusal, FZ_FEW_ROWS or FZ_FEW_BYTES: *tile gets the number of the first tile whose row or
 * record is refused or not there. FZ_NO_PLAN, FZ_NO_BOX, FZ_FEW_PLACES, FZ_NO_ROOM. After all of these
 * numbers and out have some values, and after 0 numbers has. *tile is as it was but after a kind,
 * FZ_FEW_ROWS or FZ_FEW_BYTES. */
int32_t fz_box(const struct fz_plan *plan, const struct fz_box *part, uint64_t from,
               const uint8_t *rows, size_t rows_len, uint64_t at, const uint8_t *codes,
               size_t codes_len, int32_t *numbers, size_t numbers_len, int32_t *out, size_t out_len,
               uint32_t *tile);

#ifdef __cplusplus
}
#endif

#endif

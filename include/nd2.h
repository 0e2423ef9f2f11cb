/* The proved ND2 reader, for C.
 *
 * Link with libnd2.a, which c/library writes to target/lib. Nothing is allocated and nothing is kept between calls: every buffer is lent by the
 * caller, and a call may be made from any thread that has ND2_STACK_BYTES of stack left. A slice is a pointer and a length in bytes; an empty one
 * may have any pointer that is not null. The buffers of one call may not overlap where one of them is written. All numbers in buffers are little-endian.
 *
 * Every call returns 0, or the number of the first refusal that holds (ND2_...). On a refusal samples, register and sheet keep every byte, and
 * table, summary, channel records, the numbers of a sheet and the pixel size are all zero.
 */
#ifndef ND2_H
#define ND2_H

#include <stddef.h>
#include <stdint.h>

#ifdef __cplusplus
extern "C" {
#endif

/* ---- why a file is turned away */

enum {
    ND2_ACCEPTED = 0,
    ND2_FOREIGN = 1,      /* not an ND2 file */
    ND2_LEGACY = 2,       /* an older, JPEG 2000 based ND2 file */
    ND2_TAIL = 3,         /* no map locator at the end of the file */
    ND2_CHUNK = 4,        /* a chunk has a wrong mark or leaves the file, or the map's own chunk has a wrong name */
    ND2_MAP = 5,          /* the map is cut, has no end mark, or more than 2,000,000 entries */
    ND2_CUT = 6,          /* a tree is cut short */
    ND2_KIND = 7,         /* a record of a tree has no known type */
    ND2_PACKED = 8,       /* a tree has a packed record */
    ND2_DEEP = 9,         /* a tree is over 64 levels deep */
    ND2_LEVEL = 10,       /* a level states too many items, or is shorter than its head */
    ND2_MISSING = 11,     /* a chunk, level or number that is needed is absent. Where a whole number is needed, one out of range counts as absent,
                           * and so does a double that is NaN, infinite or a fraction */
    ND2_COMPRESSION = 12, /* the planes are compressed, or it is not stated that they are not */
    ND2_BITS = 13,        /* samples are not of 8, 16 or 32 bits */
    ND2_FRAME_SHAPE = 14, /* the sizes of a frame do not fit together */
    ND2_LOOP_KIND = 15,   /* a loop is of a kind that is not read */
    ND2_LOOP_COUNT = 16,  /* a loop has more than 1,000,000 values */
    ND2_AXIS_TWICE = 17,  /* two loops run over one axis */
    ND2_TABLE = 18,       /* the lent table has too few entries for a tree */
    ND2_CHANNEL_ROW = 19, /* the lent row has fewer records than there are components */
    ND2_SUMMARY = 20,     /* the summary is none that can be used, or none of its layout (see nd2_summary) */
    ND2_INDEX = 21,       /* an index (scene, t, c, z) is out of range */
    ND2_CEILING = 22,     /* a plane has more than 2^32 bytes */
    ND2_NO_FRAME = 23,    /* the map has no entry for the frame */
    ND2_FRAME_SHORT = 24, /* the frame's data is too short */
    ND2_BUFFER = 25,      /* the lent samples, register or sheet are too short */
    ND2_SHEET_LONG = 26,  /* a sheet would have more than 4,294,967,295 bytes */
    ND2_SHEET_LAYOUT = 27, /* the lent bytes are no sheet as nd2_sheet writes it */
    ND2_SIZE_RANGE = 28,   /* the pixel size is infinite, or more than 2^64 - 1 picometres */
    ND2_CHUNK_NAME = 29    /* a chunk's own name does not begin with the one that the map has for it */
};

/* ---- the stack */

/* So much stack is enough for every call. Measured, not proved: the most that was found are some 36,600 bytes, in nd2_read_plane on 32 experiments
 * one in another, as many as a tree of 64 levels has room for. `cargo test -p bench` in rust/ measures it anew, and fails past this. */
#define ND2_STACK_BYTES 65536

/* ---- layouts */

enum {
    ND2_SUMMARY_BYTES = 144,
    ND2_CHANNEL_BYTES = 56,
    ND2_ENTRY_BYTES = 48,
    ND2_FRAME_BYTES = 24,
    ND2_SHEET_HEAD_BYTES = 186 /* of a sheet, before its samples */
};

/* the axes of loops */
enum { ND2_AXIS_T = 0, ND2_AXIS_Z = 1, ND2_AXIS_P = 2 };

typedef struct nd2_loop {
    uint64_t axis;
    uint64_t count;
} nd2_loop;

/* What opening a file tells of it. A little-endian machine may lend the address of this struct as the 144 bytes of a summary.
 *
 * A call that is lent another length, or last four bytes that are not zero, answers 20: that is this interface's own rule. A loop that is used
 * and has another axis than 0, 1 or 2 is 20 too. Loops that are not used may hold anything. */
typedef struct nd2_summary {
    nd2_loop loops[3];    /* outermost first; `depth` of them are used, the others are axis 0 and count 0 */
    uint64_t depth;
    uint64_t width;       /* samples of one component in a row */
    uint64_t stride;      /* bytes from one row to the next */
    uint64_t height;
    uint64_t components;
    uint64_t bits;        /* 8, 16 or 32 for each sample */
    uint64_t map_start;   /* the map's data in the file */
    uint64_t map_len;
    uint64_t calibration; /* 0 nothing stated, 1 stated, 2 its tree is packed */
    uint64_t z_class;     /* 0 no step, or one that is no finite number above 0 as a float; 1 used, 2 smaller than 1e-6, 3 larger than 1e3. Where
                           * calibration is not 1 it is 0 */
    float x;              /* micrometres per pixel, where calibration is 1 */
    float y;
    float z;              /* micrometres per focus step, where z_class is 1 */
    uint32_t zero;        /* 0 */
} nd2_summary;

/* One channel, 56 bytes: equal for all components that one plane record of the file covers, all zero where none says anything of a component. */
typedef struct nd2_channel {
    uint64_t named;       /* 1 where it has a name */
    uint64_t name;        /* the name's position in the file, UTF-16 units of two bytes */
    uint64_t units;       /* how many */
    uint64_t colored;     /* 1 where it has a colour */
    uint64_t red;
    uint64_t green;
    uint64_t blue;
} nd2_channel;

/* One record of a tree, 48 bytes of the entry table. Positions count from the start of the file. */
typedef struct nd2_entry {
    uint64_t kind;        /* the record's type */
    uint64_t name;        /* the position of its name */
    uint64_t units;       /* the name's UTF-16 units */
    uint64_t value;       /* the position of its value; of a level, of its first child */
    uint64_t size;        /* the value's bytes */
    uint64_t parent;      /* its level's number in the table plus one, 0 for the outermost */
} nd2_entry;

/* One frame of the register, 24 bytes. */
typedef struct nd2_frame {
    uint32_t scene;
    uint32_t t;
    uint32_t z;
    uint32_t state;       /* 0 where the map has the frame, 1 where it has not */
    uint64_t offset;      /* of its chunk, as the map has it; 0 in state 1 */
} nd2_frame;

/* ---- the calls
 *
 * A chunk that the map leads to has to bear the name under which the map has it, with its '!', or a longer one that begins so: else 29. That is judged
 * once header, mark and name have passed (4), and before the chunk's data (4). nd2_channels takes channels in a chunk of another name as not there, and
 * nd2_open a calibration; nd2_register does not look at chunks. */

/* Opens a file and stores its summary (ND2_SUMMARY_BYTES; another length is 20). The table is working room, all zero afterwards: 48 bytes
 * for each record of a tree, which has no more of them than half of its bytes; 18 says that it was too short. */
uint32_t nd2_open(const uint8_t *file, size_t file_len, uint8_t *table, size_t table_len, uint8_t *summary, size_t summary_len);

/* Writes the samples of component c at a point, width * height of them, row after row without gaps, each with the bytes that it has in the file. What
 * is lent behind them stays as it was. */
uint32_t nd2_plane(const uint8_t *file, size_t file_len, const uint8_t *summary, size_t summary_len, uint64_t scene, uint64_t t, uint64_t c,
                   uint64_t z, uint8_t *samples, size_t samples_len);

/* Writes the plane of nd2_plane as a TIFF sheet: a little-endian TIFF 6.0 of one uncompressed strip, ND2_SHEET_HEAD_BYTES and then
 * width * height samples. Samples of 8 and 16 bits are whole numbers, of 32 bits floats. What is lent behind the sheet stays as it
 * was; on a refusal every byte does. 26 comes after what is wrong with the frame and before 25. */
uint32_t nd2_sheet(const uint8_t *file, size_t file_len, const uint8_t *summary, size_t summary_len, uint64_t scene, uint64_t t, uint64_t c,
                   uint64_t z, uint8_t *sheet, size_t sheet_len);

/* Reads a sheet: its samples to the front of the lent ones, later bytes untouched, and its sizes. Only what nd2_sheet writes is read; all else,
 * other TIFF files too, is 27, before the samples are looked at (25). On a refusal no byte of the samples changes and the three numbers are 0. */
uint32_t nd2_sheet_read(const uint8_t *sheet, size_t sheet_len, uint8_t *samples, size_t samples_len, uint64_t *width, uint64_t *height,
                        uint64_t *bits);

/* Reads the tree of a chunk: an entry for each record, in their order, and zeros behind the last. A name includes its '!'. */
uint32_t nd2_tree(const uint8_t *file, size_t file_len, const uint8_t *summary, size_t summary_len, const uint8_t *name, size_t name_len,
                  uint8_t *table, size_t table_len);

/* Writes a record for each component, and zeros behind the last. A plane record of the file may cover several components, as a colour camera's
 * does: its channel record is then repeated for each of them, and what reaches past the last component is left out. The table is working
 * room, all zero afterwards. */
uint32_t nd2_channels(const uint8_t *file, size_t file_len, const uint8_t *summary, size_t summary_len, uint8_t *table, size_t table_len,
                      uint8_t *row, size_t row_len);

/* How many picometres a pixel has: the micrometres that the calibration's tree states, times a million, to the nearest whole number, of two as near
 * to the even one. No other rounding shows in the answer. A size of less than half a picometre is 0. 11 where none above 0 is stated, then 28. The
 * float x of a summary is the same size, rounded to a float. The table is working room, all zero afterwards; *picometres is 0 on a refusal. */
uint32_t nd2_picometres(const uint8_t *file, size_t file_len, const uint8_t *summary, size_t summary_len, uint8_t *table, size_t table_len,
                        uint64_t *picometres);

/* Writes a record for each frame, in the order of their numbers. What is lent behind them stays as it was. */
uint32_t nd2_register(const uint8_t *file, size_t file_len, const uint8_t *summary, size_t summary_len, uint8_t *buffer, size_t buffer_len);

/* Opens a file and reads one plane of it. The table is working room, all zero afterwards. */
uint32_t nd2_read_plane(const uint8_t *file, size_t file_len, uint8_t *table, size_t table_len, uint64_t scene, uint64_t t, uint64_t c,
                        uint64_t z, uint8_t *samples, size_t samples_len);

#ifdef __cplusplus
}
#endif

#endif

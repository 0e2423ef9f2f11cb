/* Holds include/nd2.h to what the library writes: where each field stands, and that it has the value that a known roller gives it.
 *
 *   layout FILE
 *
 * FILE is the roller of 5 points, 4 focus steps, 3 lamps and 7 x 6 samples that `cargo run -p sample --example roller -- FILE 5 4 3 7 6` in rust/ writes, so
 * that hardly two fields have one value. Where two have, the file is changed in memory and opened again. Exit status 0: all is as it has to be.
 */
#include <stddef.h>
#include <stdint.h>
#include <stdio.h>
#include <stdlib.h>
#include <string.h>

#include "nd2.h"

/* ---- where the fields stand */

#define AT(type, field, place) _Static_assert(offsetof(type, field) == (place), #type "." #field)
#define LONG(type, len, named) _Static_assert(sizeof(type) == (len) && (named) == (len), #type)

LONG(nd2_summary, 144, ND2_SUMMARY_BYTES);
AT(nd2_summary, loops[0].axis, 0);
AT(nd2_summary, loops[0].count, 8);
AT(nd2_summary, loops[1].axis, 16);
AT(nd2_summary, loops[1].count, 24);
AT(nd2_summary, loops[2].axis, 32);
AT(nd2_summary, loops[2].count, 40);
AT(nd2_summary, depth, 48);
AT(nd2_summary, width, 56);
AT(nd2_summary, stride, 64);
AT(nd2_summary, height, 72);
AT(nd2_summary, components, 80);
AT(nd2_summary, bits, 88);
AT(nd2_summary, map_start, 96);
AT(nd2_summary, map_len, 104);
AT(nd2_summary, calibration, 112);
AT(nd2_summary, z_class, 120);
AT(nd2_summary, x, 128);
AT(nd2_summary, y, 132);
AT(nd2_summary, z, 136);
AT(nd2_summary, zero, 140);

LONG(nd2_channel, 56, ND2_CHANNEL_BYTES);
AT(nd2_channel, named, 0);
AT(nd2_channel, name, 8);
AT(nd2_channel, units, 16);
AT(nd2_channel, colored, 24);
AT(nd2_channel, red, 32);
AT(nd2_channel, green, 40);
AT(nd2_channel, blue, 48);

LONG(nd2_entry, 48, ND2_ENTRY_BYTES);
AT(nd2_entry, kind, 0);
AT(nd2_entry, name, 8);
AT(nd2_entry, units, 16);
AT(nd2_entry, value, 24);
AT(nd2_entry, size, 32);
AT(nd2_entry, parent, 40);

LONG(nd2_frame, 24, ND2_FRAME_BYTES);
AT(nd2_frame, scene, 0);
AT(nd2_frame, t, 4);
AT(nd2_frame, z, 8);
AT(nd2_frame, state, 12);
AT(nd2_frame, offset, 16);

/* ---- what is held */

static unsigned long held, wrong;

static void hold(const char *what, int holds, int line)
{
    held++;
    if (holds)
        return;
    wrong++;
    fprintf(stderr, "layout: c/layout.c:%d: %s does not hold\n", line, what);
}

#define HOLD(what) hold(#what, (what), __LINE__)

/* ---- the file */

enum { ROOM = 1 << 16, ENTRIES = 256 };
enum { POINTS = 5, STEPS = 4, LAMPS = 3, WIDTH = 7, HEIGHT = 6, SAMPLES = WIDTH * HEIGHT };
enum { HEADER = 16 };

static uint8_t good[ROOM], file[ROOM];
static size_t len;
static nd2_entry table[ENTRIES];

static uint64_t number_at(size_t at, size_t bytes)
{
    uint64_t v = 0;
    if (at <= len && bytes <= len - at)
        memcpy(&v, file + at, bytes);
    return v;
}

/* Whether ASCII text stands at a place of the file, in `step` bytes for each letter. */
static int stands_at(uint64_t at, const char *text, size_t step)
{
    size_t letters = strlen(text);
    if (at > len || letters * step > len - at)
        return 0;
    for (size_t i = 0; i < letters; i++)
        if (file[at + step * i] != (uint8_t)text[i] || (step == 2 && file[at + step * i + 1] != 0))
            return 0;
    return 1;
}

/* Where it stands first, from a place on; the program ends where it does not. */
static size_t find(const char *text, size_t step, size_t from)
{
    for (size_t at = from; at < len; at++)
        if (stands_at(at, text, step))
            return at;
    fprintf(stderr, "layout: the file has no %s: it is not the roller that is asked for\n", text);
    exit(2);
}

/* Where the value of the first field of that name stands: behind the name and its zero. */
static size_t field(const char *name)
{
    return find(name, 2, 0) + 2 * strlen(name) + 2;
}

static void good_again(void)
{
    memcpy(file, good, len);
}

static nd2_summary opened(void)
{
    nd2_summary s;
    memset(&s, 0x77, sizeof s);
    HOLD(nd2_open(file, len, (uint8_t *)table, sizeof table, (uint8_t *)&s, sizeof s) == ND2_ACCEPTED);
    return s;
}

/* ---- the summary */

static void hold_summary(void)
{
    nd2_summary s = opened();
    HOLD(s.loops[0].axis == ND2_AXIS_P && s.loops[0].count == POINTS);
    HOLD(s.loops[1].axis == ND2_AXIS_Z && s.loops[1].count == STEPS);
    HOLD(s.loops[2].axis == 0 && s.loops[2].count == 0);
    HOLD(s.depth == 2);
    HOLD(s.width == WIDTH && s.height == HEIGHT);
    HOLD(s.stride == WIDTH * LAMPS * 2);
    HOLD(s.components == LAMPS && s.bits == 16);
    size_t map = number_at(len - 8, 8);
    HOLD(s.map_start == map + HEADER + number_at(map + 4, 4));
    HOLD(s.map_len == number_at(map + 8, 8));
    HOLD(s.calibration == 1 && s.z_class == 1);
    HOLD(s.x == 0.325f && s.y == 0.325f && s.z == 0.5f);
    HOLD(s.zero == 0);
}

/* The same roller with a time loop in place of its points, and a focus step that is too large. */
static void hold_other_summary(void)
{
    const double large_step = 1e9;
    const uint32_t time_loop = 1;
    memcpy(file + field("eType"), &time_loop, sizeof time_loop);
    memcpy(file + field("dZStep"), &large_step, sizeof large_step);
    nd2_summary s = opened();
    HOLD(s.loops[0].axis == ND2_AXIS_T && s.loops[0].count == POINTS);
    HOLD(s.calibration == 1 && s.z_class == 3 && s.x == 0.325f && s.z == 0.0f);
    good_again();
}

/* ---- channels */

static void ask_channels(nd2_channel *row)
{
    nd2_summary s = opened();
    memset(row, 0x77, LAMPS * sizeof *row);
    HOLD(nd2_channels(file, len, (uint8_t *)&s, sizeof s, (uint8_t *)table, sizeof table, (uint8_t *)row, LAMPS * sizeof *row) == ND2_ACCEPTED);
}

static void hold_channels(void)
{
    static const char *const names[LAMPS] = { "lamp 0", "lamp 1", "lamp 2" };
    nd2_channel row[LAMPS];
    ask_channels(row);
    for (int c = 0; c < LAMPS; c++) {
        HOLD(row[c].named == 1 && row[c].units == 6);
        HOLD(stands_at(row[c].name, names[c], 2));
        HOLD(row[c].colored == 1);
        HOLD(row[c].red == (c == 0 ? 255 : 0));
        HOLD(row[c].green == (c == 1 ? 255 : 0));
        HOLD(row[c].blue == (c == 2 ? 255 : 0));
    }
}

/* The same with the first lamp's name in a field that is not read. */
static void hold_unnamed_channel(void)
{
    nd2_channel row[LAMPS];
    file[find("sDescription", 2, 0)] = 'x';
    ask_channels(row);
    HOLD(row[0].named == 0 && row[0].name == 0 && row[0].units == 0);
    HOLD(row[0].colored == 1 && row[1].named == 1);
    good_again();
}

/* ---- the register */

static void ask_register(nd2_frame *frames)
{
    nd2_summary s = opened();
    memset(frames, 0x77, POINTS * STEPS * sizeof *frames);
    HOLD(nd2_register(file, len, (uint8_t *)&s, sizeof s, (uint8_t *)frames, POINTS * STEPS * sizeof *frames) == ND2_ACCEPTED);
}

static void hold_register(void)
{
    nd2_frame frames[POINTS * STEPS];
    char name[32];
    ask_register(frames);
    for (int n = 0; n < POINTS * STEPS; n++) {
        HOLD(frames[n].scene == (uint32_t)(n / STEPS) && frames[n].z == (uint32_t)(n % STEPS));
        HOLD(frames[n].t == 0 && frames[n].state == 0);
        snprintf(name, sizeof name, "ImageDataSeq|%d!", n);
        HOLD(stands_at(frames[n].offset + HEADER, name, 1));
    }
}

/* The same with times in place of points, and without the map's entry for frame 6. */
static void hold_other_register(void)
{
    nd2_frame frames[POINTS * STEPS];
    const uint32_t time_loop = 1;
    memcpy(file + field("eType"), &time_loop, sizeof time_loop);
    file[find("ImageDataSeq|6!", 1, number_at(len - 8, 8))] = 'x';
    ask_register(frames);
    HOLD(frames[6].scene == 0 && frames[6].t == 1 && frames[6].z == 2);
    HOLD(frames[6].state == 1 && frames[6].offset == 0);
    HOLD(frames[7].state == 0 && frames[7].offset != 0);
    good_again();
}

/* ---- a tree */

static const nd2_entry *ask_tree(const char *chunk)
{
    nd2_summary s = opened();
    memset(table, 0x77, sizeof table);
    HOLD(nd2_tree(file, len, (uint8_t *)&s, sizeof s, (const uint8_t *)chunk, strlen(chunk), (uint8_t *)table, sizeof table) == ND2_ACCEPTED);
    return table;
}

/* What an entry has to say. */
typedef struct record {
    const char *name;
    uint64_t kind, size, parent;
} record;

enum { U32 = 3, TEXT = 8, LEVEL = 11, LEVEL_HEAD = 12 };

static void hold_entry(const nd2_entry *e, const record *r)
{
    HOLD(e->kind == r->kind);
    HOLD(e->units == strlen(r->name) && stands_at(e->name, r->name, 2));
    HOLD(e->value == e->name + 2 * e->units + 2 + (e->kind == LEVEL ? LEVEL_HEAD : 0));
    HOLD(e->size == r->size);
    HOLD(e->parent == r->parent);
}

static void hold_tree(void)
{
    static const record records[] = {
        { "SLxPictureMetadata", LEVEL, 410, 0 }, { "sPicturePlanes", LEVEL, 358, 1 },  { "sPlaneNew", LEVEL, 300, 2 },
        { "a0", LEVEL, 64, 3 },                  { "sDescription", TEXT, 12, 4 },      { "uiColor", U32, 4, 4 },
        { "a1", LEVEL, 64, 3 },                  { "sDescription", TEXT, 12, 7 },      { "uiColor", U32, 4, 7 },
        { "a2", LEVEL, 64, 3 },                  { "sDescription", TEXT, 12, 10 },     { "uiColor", U32, 4, 10 },
    };
    enum { MANY = sizeof records / sizeof *records };
    const nd2_entry *entries = ask_tree("ImageMetadataSeqLV|0!");
    for (int i = 0; i < MANY; i++)
        hold_entry(&entries[i], &records[i]);
    HOLD(stands_at(entries[10].value, "lamp 2", 2));
    HOLD(number_at(entries[11].value, 4) == 0xFF0000);
    HOLD(entries[MANY].kind == 0 && entries[MANY].name == 0);
}

/* ---- planes and sheets */

/* The first sample of a plane of the roller says which it is. */
static unsigned first_sample(unsigned point, unsigned step, unsigned lamp)
{
    return (point * 64 + step) * 16 + lamp;
}

static void hold_planes(void)
{
    nd2_summary s = opened();
    uint16_t plane[SAMPLES], other[SAMPLES];
    uint8_t sheet[ND2_SHEET_HEAD_BYTES + sizeof plane];
    uint64_t width = 0, height = 0, bits = 0;
    HOLD(nd2_plane(file, len, (uint8_t *)&s, sizeof s, 3, 0, 1, 2, (uint8_t *)plane, sizeof plane) == ND2_ACCEPTED);
    HOLD(plane[0] == first_sample(3, 2, 1));
    HOLD(nd2_read_plane(file, len, (uint8_t *)table, sizeof table, 3, 0, 1, 2, (uint8_t *)other, sizeof other) == ND2_ACCEPTED);
    HOLD(memcmp(plane, other, sizeof plane) == 0);
    HOLD(nd2_sheet(file, len, (uint8_t *)&s, sizeof s, 3, 0, 1, 2, sheet, sizeof sheet) == ND2_ACCEPTED);
    HOLD(memcmp(sheet + ND2_SHEET_HEAD_BYTES, plane, sizeof plane) == 0);
    HOLD(nd2_sheet_read(sheet, sizeof sheet, (uint8_t *)other, sizeof other, &width, &height, &bits) == ND2_ACCEPTED);
    HOLD(width == WIDTH && height == HEIGHT && bits == 16);
    HOLD(memcmp(plane, other, sizeof plane) == 0);
}

static void hold_pixel_size(void)
{
    nd2_summary s = opened();
    uint64_t size = 0;
    HOLD(nd2_picometres(file, len, (uint8_t *)&s, sizeof s, (uint8_t *)table, sizeof table, &size) == ND2_ACCEPTED);
    HOLD(size == 325000);
}

/* ---- numbers of refusals */

static void hold_refusals(void)
{
    nd2_summary s = opened(), refused;
    uint16_t plane[SAMPLES];
    nd2_channel row[LAMPS];
    const uint8_t *summary = (const uint8_t *)&s;
    uint8_t *lent = (uint8_t *)table, *samples = (uint8_t *)plane;
    HOLD(nd2_open(file, len - 1, lent, sizeof table, (uint8_t *)&refused, sizeof refused) == ND2_TAIL);
    HOLD(nd2_open(file + 1, len - 1, lent, sizeof table, (uint8_t *)&refused, sizeof refused) == ND2_FOREIGN);
    HOLD(nd2_open(file, len, lent, sizeof *table, (uint8_t *)&refused, sizeof refused) == ND2_TABLE);
    HOLD(nd2_open(file, len, lent, sizeof table, (uint8_t *)&refused, sizeof refused - 1) == ND2_SUMMARY);
    HOLD(nd2_plane(file, len, summary, sizeof s, POINTS, 0, 0, 0, samples, sizeof plane) == ND2_INDEX);
    HOLD(nd2_plane(file, len, summary, sizeof s, 0, 0, 0, 0, samples, sizeof plane - 1) == ND2_BUFFER);
    HOLD(nd2_channels(file, len, summary, sizeof s, lent, sizeof table, (uint8_t *)row, sizeof row - 1) == ND2_CHANNEL_ROW);
    HOLD(nd2_tree(file, len, summary, sizeof s, (const uint8_t *)"!", 1, lent, sizeof table) == ND2_MISSING);
    file[find("ImageDataSeq|0!", 1, 0)] = 'x';
    HOLD(nd2_plane(file, len, summary, sizeof s, 0, 0, 0, 0, samples, sizeof plane) == ND2_CHUNK_NAME);
    good_again();
}

int main(int argc, char **argv)
{
    FILE *f = argc == 2 ? fopen(argv[1], "rb") : NULL;
    if (f == NULL) {
        fprintf(stderr, argc == 2 ? "layout: %s cannot be read\n" : "usage: layout FILE\n", argv[1]);
        return 2;
    }
    len = fread(good, 1, sizeof good, f);
    fclose(f);
    good_again();
    hold_summary();
    hold_other_summary();
    hold_channels();
    hold_unnamed_channel();
    hold_register();
    hold_other_register();
    hold_tree();
    hold_planes();
    hold_pixel_size();
    hold_refusals();
    printf("nd2.h: %lu of %lu hold\n", held - wrong, held);
    return wrong != 0;
}

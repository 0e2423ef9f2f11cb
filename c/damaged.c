/* Asks every call about damaged files, with buffers that end at pages which may not be touched, and holds what the calls leave in them to include/nd2.h.
 *
 *   damaged FILE ROUNDS SEED
 *
 * FILE is a good file of less than a megabyte, as `cargo run -p sample --example roller -- FILE 24 11 2 8 8` in rust/ writes one. Each round damages a copy of
 * it, one of four also in a chunk's name or in where the map says that a chunk is, and asks open, plane, sheet, tree, channels, register, the pixel size and
 * the border call, with summaries that were opened and with damaged ones, and with buffers of random lengths; a sheet that was written is read back, damaged
 * and read again. A call that reads or writes past a buffer ends the program by a signal; built with -fsanitize=address the program's own side is watched
 * too. Exit status 0: nothing found.
 */
#include <stdint.h>
#include <stdio.h>
#include <stdlib.h>
#include <string.h>
#include <sys/mman.h>
#include <unistd.h>

#include "nd2.h"

/* ---- random numbers */

static uint64_t state;

static uint64_t word(void)
{
    state ^= state << 13;
    state ^= state >> 7;
    state ^= state << 17;
    return state * 0x2545F4914F6CDD1Du;
}

static uint64_t below(uint64_t n)
{
    return n == 0 ? 0 : word() % n;
}

/* ---- buffers that end at a page which may not be touched */

enum { ROOM = 1 << 20, FRONT = 64 };

typedef struct lent {
    uint8_t *pages; /* ROOM bytes, then the page */
    uint8_t *at;    /* where the lent part begins */
    size_t len;
} lent;

static lent new_lent(void)
{
    size_t page = (size_t)sysconf(_SC_PAGESIZE);
    uint8_t *p = mmap(NULL, ROOM + page, PROT_READ | PROT_WRITE, MAP_PRIVATE | MAP_ANONYMOUS, -1, 0);
    if (p == MAP_FAILED || mprotect(p + ROOM, page, PROT_NONE) != 0) {
        perror("damaged");
        exit(2);
    }
    lent l = { p, p + ROOM, 0 };
    return l;
}

/* The last `len` bytes before the page, filled, with guard bytes in front. */
static void lend(lent *l, size_t len, int fill)
{
    l->len = len;
    l->at = l->pages + ROOM - len;
    memset(l->at, fill, len);
    if (len + FRONT <= ROOM)
        memset(l->at - FRONT, 0xA5, FRONT);
}

static void lend_copy(lent *l, const uint8_t *bytes, size_t len)
{
    lend(l, len, 0);
    memcpy(l->at, bytes, len);
}

static int all(const uint8_t *p, size_t n, int v)
{
    for (size_t i = 0; i < n; i++)
        if (p[i] != v)
            return 0;
    return 1;
}

/* ---- what is looked at */

enum { NUMBERS = ND2_CHUNK_NAME + 1 };

static unsigned long calls, accepted, refusals[NUMBERS];
static uint64_t seed, round_now;

static void fail(const char *what, uint32_t number)
{
    fprintf(stderr, "damaged: %s (number %u, seed %llu, round %llu)\n", what, number, (unsigned long long)seed, (unsigned long long)round_now);
    exit(1);
}

static uint32_t told(const char *call, uint32_t number, const lent *a, const lent *b)
{
    calls++;
    if (number >= NUMBERS)
        fail(call, number);
    refusals[number]++;
    accepted += number == 0;
    if (a->len + FRONT <= ROOM && !all(a->at - FRONT, FRONT, 0xA5))
        fail("guard bytes of the first buffer", number);
    if (b->len + FRONT <= ROOM && !all(b->at - FRONT, FRONT, 0xA5))
        fail("guard bytes of the second buffer", number);
    return number;
}

/* ---- the calls */

static lent file, table, summary, samples, name, sheet;

static size_t table_len(void)
{
    return below(3) ? 48 * below(4000) + below(48) : below(200);
}

static void ask_open(void)
{
    lend(&table, table_len(), 0x77);
    lend(&summary, below(20) ? ND2_SUMMARY_BYTES : below(300), 0x77);
    uint32_t n = told("open", nd2_open(file.at, file.len, table.at, table.len, summary.at, summary.len), &table, &summary);
    if (!all(table.at, table.len, 0))
        fail("open left the table", n);
    if (n != 0 && !all(summary.at, summary.len, 0))
        fail("open left a summary", n);
}

static void ask_plane(void)
{
    lend(&samples, below(4) ? 40000 : below(9000), 0x77);
    uint64_t point = below(26), t = below(10) ? 0 : below(3), c = below(3), z = below(12);
    lend(&table, 0, 0);
    uint32_t n = told("plane", nd2_plane(file.at, file.len, summary.at, summary.len, point, t, c, z, samples.at, samples.len), &samples, &table);
    if (n != 0 && !all(samples.at, samples.len, 0x77))
        fail("a refused plane changed the samples", n);
}

static void ask_tree(void)
{
    static const char *const names[] = { "ImageAttributesLV!",    "ImageMetadataLV!", "ImageCalibrationLV|0!",
                                         "ImageMetadataSeqLV|0!", "ImageDataSeq|0!",  "", "!" };
    const char *s = names[below(sizeof names / sizeof *names)];
    lend_copy(&name, (const uint8_t *)s, strlen(s));
    lend(&table, table_len(), 0x77);
    uint32_t n = told("tree", nd2_tree(file.at, file.len, summary.at, summary.len, name.at, name.len, table.at, table.len), &table, &name);
    if (n != 0 && !all(table.at, table.len, 0))
        fail("a refused tree left the table", n);
}

static void ask_channels(void)
{
    lend(&table, table_len(), 0x77);
    lend(&samples, below(400), 0x77);
    uint32_t n = told("channels", nd2_channels(file.at, file.len, summary.at, summary.len, table.at, table.len, samples.at, samples.len), &table, &samples);
    if (!all(table.at, table.len, 0))
        fail("channels left the table", n);
    if (n == ND2_CHUNK_NAME)
        fail("channels are refused for a chunk's name", n);
    if (n != 0 && !all(samples.at, samples.len, 0))
        fail("refused channels left a record", n);
}

static void ask_register(void)
{
    lend(&samples, below(3) ? 24 * 264 + below(100) : below(7000), 0x77);
    lend(&table, 0, 0);
    uint32_t n = told("register", nd2_register(file.at, file.len, summary.at, summary.len, samples.at, samples.len), &samples, &table);
    if (n != 0 && !all(samples.at, samples.len, 0x77))
        fail("a refused register changed the buffer", n);
    if (n == ND2_CHUNK_NAME)
        fail("a register is refused for a chunk's name", n);
}

static void ask_picometres(void)
{
    uint64_t size = 0x7777777777777777u;
    lend(&table, table_len(), 0x77);
    uint32_t n = told("picometres", nd2_picometres(file.at, file.len, summary.at, summary.len, table.at, table.len, &size), &table, &summary);
    if (!all(table.at, table.len, 0))
        fail("the pixel size left the table", n);
    if (n != 0 && size != 0)
        fail("a refused pixel size left a number", n);
}

static void ask_border(void)
{
    lend(&table, table_len(), 0x77);
    lend(&samples, below(4) ? 40000 : below(9000), 0x77);
    uint64_t point = below(26), c = below(3), z = below(12);
    uint32_t n = told("border", nd2_read_plane(file.at, file.len, table.at, table.len, point, 0, c, z, samples.at, samples.len), &table, &samples);
    if (!all(table.at, table.len, 0))
        fail("the border left the table", n);
    if (n != 0 && !all(samples.at, samples.len, 0x77))
        fail("the refused border changed the samples", n);
}

/* ---- damage */

static void damage(uint8_t *p, size_t len)
{
    if (len == 0)
        return;
    size_t at = below(len);
    switch (below(4)) {
    case 0:
        p[at] ^= (uint8_t)(1u << below(8));
        break;
    case 1:
        p[at] = (uint8_t)word();
        break;
    case 2: { /* eight bytes at once: a length, an offset, a double */
        uint64_t v = below(2) ? word() : below(1000);
        memcpy(p + at, &v, len - at < 8 ? len - at : 8);
        break;
    }
    default: { /* a part copied elsewhere */
        size_t n = 1 + below(64), to = below(len);
        n = n < len - at ? n : len - at;
        n = n < len - to ? n : len - to;
        memmove(p + to, p + at, n);
    }
    }
}

/* Trees and map stand before and behind the frames; half of the damage goes to the two ends, where they are. */
static void damage_file(void)
{
    size_t end = file.len < 4096 ? file.len : 4096;
    for (uint64_t k = below(6); k > 0; k--) {
        uint64_t where = below(4);
        if (where == 0)
            damage(file.at, end);
        else if (where == 1)
            damage(file.at + file.len - end, end);
        else
            damage(file.at, file.len);
    }
}

/* ---- chunk names */

enum { HEADER = 16, LOCATOR = 40, MOST_ENTRIES = 4096 };

static uint64_t number_at(size_t at)
{
    uint64_t v;
    memcpy(&v, file.at + at, sizeof v);
    return v;
}

/* Where the offsets of the map's entries stand in the good file; how many there are. */
static size_t entries(size_t *offsets)
{
    size_t map = number_at(file.len - 8), many = 0;
    for (size_t at = map + HEADER + 32; at < file.len - LOCATOR && many < MOST_ENTRIES; at += HEADER) {
        while (at < file.len - LOCATOR && file.at[at] != '!')
            at++;
        offsets[many++] = ++at;
    }
    return many == 0 ? 0 : many - 1; /* the last one was the end mark */
}

/* The name of one chunk of the good file damaged, or its length, or its place in the map taken from another entry; or from one entry on all places from
 * the entries behind. */
static void damage_name(void)
{
    static size_t offsets[MOST_ENTRIES];
    size_t many = entries(offsets);
    if (many == 0)
        return;
    size_t entry = (below(2) ? below(4) : below(many)) % many;
    size_t place = number_at(offsets[entry]);
    switch (below(4)) {
    case 0:
        memcpy(file.at + offsets[entry], file.at + offsets[below(many)], 8);
        break;
    case 1:
        for (; entry + 1 < many; entry++)
            memcpy(file.at + offsets[entry], file.at + offsets[entry + 1], 8);
        break;
    case 2:
        file.at[place + HEADER + below(file.at[place + 4])] ^= (uint8_t)(1u << below(8));
        break;
    default:
        file.at[place + 4] = (uint8_t)(file.at[place + 4] + (below(2) ? 1 : -1));
    }
}

/* ---- sheets */

typedef struct sizes {
    uint64_t width, height, bits;
} sizes;

/* Reads the lent sheet with room for so many bytes of samples. */
static uint32_t read_sheet(size_t room, sizes *s)
{
    lend(&samples, room, 0x77);
    memset(s, 0x77, sizeof *s);
    uint32_t n = told("sheet read", nd2_sheet_read(sheet.at, sheet.len, samples.at, samples.len, &s->width, &s->height, &s->bits), &samples, &sheet);
    if (n != 0 && !all(samples.at, samples.len, 0x77))
        fail("a refused sheet changed the samples", n);
    if (n != 0 && (s->width | s->height | s->bits) != 0)
        fail("a refused sheet left its sizes", n);
    return n;
}

/* What the sizes say of a sheet's length has to hold for what is taken. */
static void hold_to_length(const sizes *s, uint32_t n)
{
    if (n == 0 && s->width * s->height * (s->bits / 8) != sheet.len - ND2_SHEET_HEAD_BYTES)
        fail("a sheet of another length was taken", n);
}

/* A sheet of `len` bytes that was written: read back, read with too little room, cut or damaged and read again. */
static void ask_sheet_read(size_t len)
{
    static uint8_t written[ROOM];
    sizes s;
    size_t strip = len - ND2_SHEET_HEAD_BYTES;
    memcpy(written, sheet.at, len);
    lend_copy(&sheet, written, len);
    uint32_t n = read_sheet(strip + below(9), &s);
    if (n != 0 || memcmp(samples.at, written + ND2_SHEET_HEAD_BYTES, strip) != 0 || !all(samples.at + strip, samples.len - strip, 0x77))
        fail("a sheet that was written is not read back", n);
    hold_to_length(&s, n);
    n = read_sheet(below(strip), &s);
    if (n != ND2_BUFFER)
        fail("a sheet is read into too little room", n);
    lend_copy(&sheet, written, below(4) ? len : below(len + 1));
    damage(sheet.at, below(4) && sheet.len > ND2_SHEET_HEAD_BYTES ? ND2_SHEET_HEAD_BYTES : sheet.len);
    n = read_sheet(below(4) ? strip : below(strip), &s);
    hold_to_length(&s, n);
}

static void ask_sheet(void)
{
    lend(&sheet, below(4) ? 40000 : below(9000), 0x77);
    lend(&table, 0, 0);
    uint64_t point = below(26), t = below(10) ? 0 : below(3), c = below(3), z = below(12);
    uint32_t n = told("sheet", nd2_sheet(file.at, file.len, summary.at, summary.len, point, t, c, z, sheet.at, sheet.len), &sheet, &table);
    if (n != 0) {
        if (!all(sheet.at, sheet.len, 0x77))
            fail("a refused sheet changed the buffer", n);
        return;
    }
    nd2_summary s;
    memcpy(&s, summary.at, sizeof s);
    size_t len = ND2_SHEET_HEAD_BYTES + s.width * s.height * (s.bits / 8);
    if (len > sheet.len || !all(sheet.at + len, sheet.len - len, 0x77))
        fail("a sheet changed later bytes", n);
    ask_sheet_read(len);
}

static void ask_all(const uint8_t *bytes, size_t len)
{
    lend_copy(&file, bytes, below(8) ? len : below(len + 1));
    if (file.len == len && below(4) == 0)
        damage_name();
    damage_file();
    ask_open();
    if (below(3) == 0)
        damage(summary.at, summary.len);
    ask_plane();
    ask_plane();
    ask_sheet();
    ask_tree();
    ask_channels();
    ask_register();
    ask_picometres();
    ask_border();
}

int main(int argc, char **argv)
{
    static uint8_t bytes[ROOM];
    if (argc != 4) {
        fprintf(stderr, "usage: damaged FILE ROUNDS SEED\n");
        return 2;
    }
    FILE *f = fopen(argv[1], "rb");
    if (f == NULL) {
        perror(argv[1]);
        return 2;
    }
    size_t len = fread(bytes, 1, sizeof bytes, f);
    fclose(f);
    if (len == sizeof bytes) {
        fprintf(stderr, "damaged: %s has a megabyte or more\n", argv[1]);
        return 2;
    }
    seed = strtoull(argv[3], NULL, 10);
    state = seed * 2 + 1;
    file = new_lent(), table = new_lent(), summary = new_lent(), samples = new_lent(), name = new_lent(), sheet = new_lent();
    for (round_now = 0; round_now < strtoull(argv[2], NULL, 10); round_now++)
        ask_all(bytes, len);
    printf("%lu calls, %lu accepted; refused by number:", calls, accepted);
    for (int i = 1; i < NUMBERS; i++)
        if (refusals[i])
            printf(" %d: %lu", i, refusals[i]);
    printf("\n");
    return 0;
}

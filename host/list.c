/* list.c - a host in C: mounts the image of a dump, prints its listing as the program `list` does, then settles a copy, mounts that, and
 * reads every file back from both.
 *
 *   list DUMP
 *
 * The listing goes to standard output, what became of the copy to standard error. Status 0: all files read back the same bytes (or the
 * image was refused, which is an answer); 1: they do not; 2: the dump cannot be read. A bad line of a dump is not told apart here as
 * document 01 does it: that is the proved parser's work, which the library leaves to the host.
 */
#include "listing.h"
#include <stdlib.h>
#include <string.h>

struct image {
    struct chimecorona_geometry g;
    uint8_t *tags, *contents;
    uint64_t *paths;
    size_t blocks, bytes;
};

#define FLASH(i) (i)->tags, (i)->blocks, (i)->paths, (i)->blocks, (i)->contents, (i)->bytes

static void fail(const char *what)
{
    fprintf(stderr, "list: %s\n", what);
    exit(2);
}

static void *room(size_t n)
{
    void *p = malloc(n ? n : 1);
    if (!p) fail("no memory");
    return p;
}

/* ---- a dump: G, then B for each block, then P for pages */

static void read_hex(const char *s, uint8_t *to, size_t most)
{
    unsigned b;
    for (size_t i = 0; i < most && sscanf(s + 2 * i, "%2x", &b) == 1; i++) to[i] = (uint8_t)b;
}

static struct image read_dump(FILE *f)
{
    static char line[8192];
    struct image m = {0};
    unsigned size, pages, blocks, tag;
    uint64_t path;
    size_t b = 0;
    if (!fgets(line, sizeof line, f) || sscanf(line, "G\t%u\t%u\t%u", &size, &pages, &blocks) != 3) fail("no G line");
    m.g = (struct chimecorona_geometry){(uint16_t)size, (uint16_t)pages, (uint16_t)blocks};
    m.blocks = blocks;
    m.bytes = (size_t)size * pages * blocks;
    m.tags = room(blocks);
    m.paths = room(blocks * sizeof *m.paths);
    m.contents = room(m.bytes);
    memset(m.contents, 0xff, m.bytes);
    while (fgets(line, sizeof line, f)) {
        unsigned block, page;
        int at = 0;
        if (b < m.blocks && sscanf(line, "B\t%2x\t%" SCNu64, &tag, &path) == 2) {
            m.tags[b] = (uint8_t)tag;
            m.paths[b++] = path;
        } else if (sscanf(line, "P\t%u\t%u\t%n", &block, &page, &at) == 2 && block < blocks && page < pages)
            read_hex(line + at, m.contents + ((size_t)block * pages + page) * size, size);
        else
            fail("a bad line");
    }
    if (b < m.blocks) fail("too few B lines");
    return m;
}

static struct image copy_of(const struct image *m)
{
    struct image c = *m;
    c.tags = memcpy(room(m->blocks), m->tags, m->blocks);
    c.paths = memcpy(room(m->blocks * sizeof *m->paths), m->paths, m->blocks * sizeof *m->paths);
    c.contents = memcpy(room(m->bytes), m->contents, m->bytes);
    return c;
}

/* ---- reads */

/* A whole file: by a mount of its own, and by the mount that was made; the two must agree. NULL where they do not. */
static uint8_t *read_file(const struct image *m, const struct chimecorona_mounted *r, const uint32_t *begins, struct chimecorona_record f)
{
    uint8_t *bytes = room(f.length), *again = room(f.length);
    struct chimecorona_count n = chimecorona_read(m->g, FLASH(m), f.path, 0, bytes, f.length);
    struct chimecorona_count k =
        chimecorona_read_mounted(m->contents, m->bytes, f, r->extents, r->runs, begins, r->runs, 0, again, f.length);
    int same = !n.said.refusal && !k.said.refusal && n.count == f.length && k.count == f.length && !memcmp(bytes, again, f.length);
    free(again);
    if (same) return bytes;
    free(bytes);
    return NULL;
}

struct mounted {
    struct chimecorona_mounted answer;
    struct chimecorona_record table[CHIMECORONA_RECORDS];
    uint32_t begins[CHIMECORONA_EXTENTS];
};

static struct mounted *mount(const struct image *m)
{
    struct mounted *r = room(sizeof *r);
    r->answer = chimecorona_mount(m->g, FLASH(m), r->table, CHIMECORONA_RECORDS);
    if (r->answer.said.refusal == CHIMECORONA_FINE) {
        struct chimecorona_outcome o =
            chimecorona_begins(m->g, FLASH(m), r->answer.extents, r->answer.runs, r->begins, CHIMECORONA_EXTENTS);
        if (o.refusal != CHIMECORONA_FINE) fail("the mount's own extents were refused");
    }
    return r;
}

/* How many plain files read back the same bytes from both images; -1 where one does not. */
static int compare(const struct image *a, const struct mounted *x, const struct image *b, const struct mounted *y)
{
    int files = 0;
    if (y->answer.said.refusal || x->answer.records != y->answer.records) return -1;
    for (size_t i = 0; i < x->answer.records; i++) {
        struct chimecorona_record f = x->table[i];
        if (f.perm & CHIMECORONA_DIRECTORY) continue;
        uint8_t *p = read_file(a, &x->answer, x->begins, f), *q = read_file(b, &y->answer, y->begins, y->table[i]);
        int same = p && q && y->table[i].length == f.length && !memcmp(p, q, f.length);
        free(p);
        free(q);
        if (!same) return -1;
        files++;
    }
    return files;
}

int main(int argc, char **argv)
{
    FILE *f = argc == 2 ? fopen(argv[1], "r") : NULL;
    if (!f) fail("usage: list DUMP");
    struct image m = read_dump(f), c = copy_of(&m);
    struct mounted *r = mount(&m);
    if (r->answer.said.refusal) {
        printf("X\t%" PRIu32 "\t%" PRIu64 "\n", r->answer.said.refusal, r->answer.said.place);
        return 0;
    }
    print_listing(stdout, m.contents, &r->answer, r->table);
    struct chimecorona_settled s = chimecorona_settle(c.g, FLASH(&c));
    int files = compare(&m, r, &c, mount(&c));
    fprintf(stderr, "settled a copy: %zu blocks erased; %d files read back%s\n", s.erase.count, files, files < 0 ? " OTHER BYTES" : "");
    return files < 0;
}

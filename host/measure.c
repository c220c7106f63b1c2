/* measure.c - mounts a raw image over and over, then reads all its files, and prints the best times.
 *
 *   measure PREFIX [SECONDS]
 *
 * PREFIX.geom (page size, pages a block, blocks, as text), .tags, .paths (8 bytes a block), .contents: as the plain C reader's bench
 * writes them by its option -o. One line: mount in microseconds, reads in MB/s, the sum of the listing, the sum of all files' bytes
 * (both FNV-1a, as the bench prints them, so that the two readers can be compared).
 */
#include "listing.h"
#include <stdlib.h>
#include <string.h>
#include <time.h>

static void *slurp(const char *prefix, const char *suffix, size_t *n)
{
    char name[4096];
    snprintf(name, sizeof name, "%s.%s", prefix, suffix);
    FILE *f = fopen(name, "rb");
    if (!f || fseek(f, 0, SEEK_END) || (*n = (size_t)ftell(f), fseek(f, 0, SEEK_SET))) {
        fprintf(stderr, "measure: %s cannot be read\n", name);
        exit(2);
    }
    char *p = calloc(*n + 1, 1);
    if (!p || fread(p, 1, *n, f) != *n) exit(2);
    fclose(f);
    return p;
}

static double now(void)
{
    struct timespec t;
    clock_gettime(CLOCK_MONOTONIC, &t);
    return (double)t.tv_sec + 1e-9 * (double)t.tv_nsec;
}

#define FNV0 UINT64_C(0xcbf29ce484222325)
static uint64_t fnv(uint64_t h, const void *p, size_t n)
{
    for (const uint8_t *b = p; n--; b++) h = (h ^ *b) * UINT64_C(0x100000001b3);
    return h;
}

static struct chimecorona_mounted r;
static struct chimecorona_record table[CHIMECORONA_RECORDS];
static uint32_t begins[CHIMECORONA_EXTENTS];
static uint8_t *tags, *contents;
static uint64_t *paths;
static size_t blocks, words, bytes;
static struct chimecorona_geometry g;

/* Groups of mounts of at least about a millisecond: the best mean of a group. The answer goes to a local, which the compiler lets the
 * mount fill in place. */
static double mount_time(double seconds)
{
    struct chimecorona_mounted m;
    double best = 1e9, end = now() + seconds;
    size_t group = 1, done = 0;
    do {
        double t = now();
        for (size_t i = 0; i < group; i++) m = chimecorona_mount(g, tags, blocks, paths, words, contents, bytes, table, CHIMECORONA_RECORDS);
        t = now() - t;
        if (t < 1e-3 && group < 1u << 20) {
            group *= 2;
            continue;
        }
        done += group;
        if (t / (double)group < best) best = t / (double)group;
    } while (now() < end || !done);
    r = m;
    return best;
}

/* All plain files, whole, in pieces of 64 KiB. */
static uint64_t read_all(uint64_t *sum)
{
    static uint8_t buffer[1 << 16];
    uint64_t all = 0;
    for (size_t i = 0; i < r.records; i++) {
        if (table[i].perm & CHIMECORONA_DIRECTORY) continue;
        for (uint64_t at = 0;;) {
            struct chimecorona_count n =
                chimecorona_read_mounted(contents, bytes, table[i], r.extents, r.runs, begins, r.runs, at, buffer, sizeof buffer);
            if (n.said.refusal || !n.count) break;
            if (sum) *sum = fnv(*sum, buffer, n.count);
            at += n.count;
            all += n.count;
        }
    }
    return all;
}

/* The best of many rounds, as the bench's rate is over its rounds. */
static double read_rate(double seconds)
{
    double end = now() + seconds, start = now();
    uint64_t all = 0;
    do all += read_all(NULL);
    while (now() < end);
    return (double)all / (now() - start) / 1e6;
}

int main(int argc, char **argv)
{
    size_t n;
    if (argc < 2) return 2;
    double seconds = argc > 2 ? atof(argv[2]) : 1;
    char *sizes = slurp(argv[1], "geom", &n);
    unsigned a, b, c;
    if (sscanf(sizes, "%u %u %u", &a, &b, &c) != 3) return 2;
    g = (struct chimecorona_geometry){(uint16_t)a, (uint16_t)b, (uint16_t)c};
    tags = slurp(argv[1], "tags", &blocks);
    paths = slurp(argv[1], "paths", &n);
    words = n / sizeof *paths;
    contents = slurp(argv[1], "contents", &bytes);
    double t = mount_time(seconds);
    if (r.said.refusal) return 1;
    if (chimecorona_begins(g, tags, blocks, paths, words, contents, bytes, r.extents, r.runs, begins, CHIMECORONA_EXTENTS).refusal) return 1;
    char *text;
    size_t length;
    FILE *listing = open_memstream(&text, &length);
    print_listing(listing, contents, &r, table);
    fclose(listing);
    uint64_t sum = FNV0;
    read_all(&sum);
    printf("%.3f %.0f %016" PRIx64 " %016" PRIx64 "\n", t * 1e6, read_rate(seconds / 4), fnv(FNV0, text, length), sum);
    return 0;
}

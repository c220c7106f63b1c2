/* listing.h - a mount's answer as the listing of document 01: what the program `list` writes. */
#include "chimecorona.h"
#include <inttypes.h>
#include <stdio.h>

/* Bytes outside 0x21 to 0x7e and `%` as `%` and two hex digits; the root's empty name as `/`. */
static void print_name(FILE *to, const uint8_t *contents, struct chimecorona_place p)
{
    if (p.len == 0) putc('/', to);
    for (uint32_t i = 0; i < p.len; i++) {
        uint8_t c = contents[p.at + i];
        if (c < 0x21 || c > 0x7e || c == '%') fprintf(to, "%%%02x", c);
        else putc(c, to);
    }
}

static void print_listing(FILE *to, const uint8_t *contents, const struct chimecorona_mounted *r, const struct chimecorona_record *table)
{
    fprintf(to, "T\t%zu\t%zu\t%" PRIu64 "\t%" PRIu64 "\t", r->records, r->runs, r->applied, r->ignored);
    if (r->insertion.count) fprintf(to, "%" PRIu64 "\n", r->insertion.address);
    else fprintf(to, "-\n");
    for (size_t i = 0, e = 0; i < r->records; i++) {
        const struct chimecorona_record *f = &table[i];
        fprintf(to, "F\t%" PRIu32 "\t%" PRIu32 "\t%" PRIu32 "\t%" PRIu32 "\t%" PRIu32 "\t%" PRIu32 "\t", f->path, f->parent, f->perm, f->length,
               f->cvers, f->mtime);
        print_name(to, contents, f->name);
        putc('\n', to);
        for (; e < r->runs && r->extents[e].path == f->path; e++) {
            uint32_t a = r->extents[e].address;
            fprintf(to, "E\t%" PRIu32 "\t%" PRIu32 "\t%c\t%" PRIu32 "\n", r->extents[e].offset, r->extents[e].count, a & CHIMECORONA_IN_LOG ? 'L' : 'D',
                   a & ~CHIMECORONA_IN_LOG);
        }
    }
}

/* chimecorona.h - the services of document 01 for programs in C: mount, settle, reclaim, one step, read.
 *
 * Every function is proved (crates/host): it answers or refuses by a number, and ends, whatever the labels, the flash and the numbers
 * hold. The caller checks nothing first. What it owes is what C cannot say and the proof takes for granted:
 *
 *   - All memory is lent. A pair `x, x_count` is a place and how many elements stand there; the place is not NULL and is aligned for its
 *     element, also where the count is 0, and those elements may be read (and, where x is not const, written) until the call returns.
 *   - What is lent to be written overlaps nothing else that is lent to the same call. What is lent as const may overlap.
 *   - Nothing is kept after a call, nothing global is written, and no memory is allocated: calls from several threads on different
 *     memory do not meet. A call needs 256 KiB of stack beside the answer's own.
 *
 * An answer begins with how the service ended: refusal is 0, or one of the numbers below, and place is then the place of document 01's
 * table (a physical block, a logical address, a path or a count). A refusal changes nothing that was lent.
 *
 * A block is meant by its physical index except where `number` is written. A place in the contents is a byte index.
 */
#ifndef CHIMECORONA_H
#define CHIMECORONA_H

#include <stddef.h>
#include <stdint.h>

#ifdef __cplusplus
extern "C" {
#endif

enum chimecorona_refusal {
    CHIMECORONA_FINE = 0,
    CHIMECORONA_GEOMETRY = 1,   /* a size, count or slice length is wrong: place 0 */
    CHIMECORONA_TAG = 2,        /* a tag that is none of the four: block */
    CHIMECORONA_PATH = 3,       /* path or number too large, not free: block */
    CHIMECORONA_COPIES = 4,     /* copies that do not resolve: block */
    CHIMECORONA_BOOT = 5,       /* boot numbering: 0 */
    CHIMECORONA_LOG = 6,        /* log generations or numbering: 0 */
    CHIMECORONA_PAGE = 7,       /* a blank page, or a written one, where none may be: address */
    CHIMECORONA_MESSAGE = 8,    /* malformed: address */
    CHIMECORONA_FULL = 9,       /* more than 256 records or 1024 extents: address of the message */
    CHIMECORONA_DATA = 10,      /* a live extent's data block is absent: path */
    CHIMECORONA_UNSETTLED = 11, /* reclaim, erase list not empty: 0 */
    CHIMECORONA_NOBLOCK = 12,   /* reclaim, no data block of that number: number */
    CHIMECORONA_NOROOM = 13,    /* reclaim, fewer than two free blocks: free blocks */
    CHIMECORONA_NOFILE = 14     /* read, path absent or a directory: path */
};

enum {
    CHIMECORONA_BLOCKS = 1024,
    CHIMECORONA_RECORDS = 256,
    CHIMECORONA_EXTENTS = 1024,
    CHIMECORONA_STEPS = 35
};

#define CHIMECORONA_IN_LOG UINT32_C(0x80000000)    /* in an extent's address: its bytes stand in the log */
#define CHIMECORONA_DIRECTORY UINT32_C(0x80000000) /* in a record's perm */

struct chimecorona_outcome {
    uint32_t refusal;
    uint64_t place;
};

/* Page size 256, 512, 1024 or 2048; 4, 8, 16 or 32 pages a block; 1 to 1024 blocks. */
struct chimecorona_geometry {
    uint16_t size, pages, blocks;
};

/* A string: where its bytes stand in the contents, and how many. */
struct chimecorona_place {
    uint32_t at, len;
};

struct chimecorona_record {
    uint32_t path, parent, perm, length, cvers, mtime;
    struct chimecorona_place name, uid, gid, muid;
};

/* A run of a file's bytes; the address is a logical one. */
struct chimecorona_extent {
    uint32_t path, offset, count, address;
};

/* The first count blocks, ascending. */
struct chimecorona_erase {
    uint32_t blocks[CHIMECORONA_BLOCKS];
    size_t count;
};

/* ---- mount */

struct chimecorona_mounted {
    struct chimecorona_outcome said;
    size_t records; /* in the table */
    uint64_t applied, ignored;
    struct {
        size_t count; /* 0: there is none; 1 */
        uint64_t address;
    } insertion;
    struct chimecorona_erase erase;
    uint32_t used[CHIMECORONA_BLOCKS]; /* a bit a page, for each block */
    size_t runs;
    struct chimecorona_extent extents[CHIMECORONA_EXTENTS]; /* the first `runs`, by path and offset */
};

/* The table has 256 places. The first `records` are stored, by ascending path; places past them are as they were. */
struct chimecorona_mounted chimecorona_mount(struct chimecorona_geometry g, const uint8_t *tags, size_t tags_count, const uint64_t *paths,
                                             size_t paths_count, const uint8_t *contents, size_t contents_count,
                                             struct chimecorona_record *table, size_t table_count);

/* ---- making room */

struct chimecorona_settled {
    struct chimecorona_outcome said;
    struct chimecorona_erase erase; /* what was erased */
};

enum chimecorona_kind { CHIMECORONA_ERASE = 1, CHIMECORONA_PAGE_WRITE = 2, CHIMECORONA_LABEL_WRITE = 3 };

/* A field that a step of its kind does not have is 0. */
struct chimecorona_step {
    uint32_t kind;
    uint8_t tag;       /* label write */
    size_t block;      /* the block under work */
    size_t from, page; /* page write: from which block, which page */
    uint64_t path;     /* label write */
};

struct chimecorona_reclaimed {
    struct chimecorona_outcome said;
    size_t count;
    struct chimecorona_step steps[CHIMECORONA_STEPS]; /* the first count, in the order done */
};

/* Erases the blocks on the erase list, in ascending order. */
struct chimecorona_settled chimecorona_settle(struct chimecorona_geometry g, uint8_t *tags, size_t tags_count, uint64_t *paths,
                                              size_t paths_count, uint8_t *contents, size_t contents_count);

/* Rewrites the data block of that number without its dead pages. */
struct chimecorona_reclaimed chimecorona_reclaim(struct chimecorona_geometry g, uint8_t *tags, size_t tags_count, uint64_t *paths,
                                                 size_t paths_count, uint8_t *contents, size_t contents_count, uint32_t number);

/* Does one step. A step outside the geometry, or of no kind, is refused with 1. */
struct chimecorona_outcome chimecorona_step(struct chimecorona_geometry g, uint8_t *tags, size_t tags_count, uint64_t *paths,
                                            size_t paths_count, uint8_t *contents, size_t contents_count, struct chimecorona_step step);

/* ---- reads: min(buffer, length - offset) bytes, 0 at the end or past it; the buffer's remainder is unchanged */

struct chimecorona_count {
    struct chimecorona_outcome said;
    size_t count;
};

/* Mounts for each read. */
struct chimecorona_count chimecorona_read(struct chimecorona_geometry g, const uint8_t *tags, size_t tags_count, const uint64_t *paths,
                                          size_t paths_count, const uint8_t *contents, size_t contents_count, uint64_t path,
                                          uint64_t offset, uint8_t *buffer, size_t buffer_count);

/* For many reads: after a mount, once, where each of its extents begins in the contents (as many places as extents, at least) .. */
struct chimecorona_outcome chimecorona_begins(struct chimecorona_geometry g, const uint8_t *tags, size_t tags_count, const uint64_t *paths,
                                              size_t paths_count, const uint8_t *contents, size_t contents_count,
                                              const struct chimecorona_extent *extents, size_t extents_count, uint32_t *begins,
                                              size_t begins_count);

/* .. then any number of reads of the mount's records, on the same contents. What is lent back is not trusted: other extents or begins
 * than the mount's give other bytes, or zeros, or a refusal, and nothing outside the lent memory is touched. */
struct chimecorona_count chimecorona_read_mounted(const uint8_t *contents, size_t contents_count, struct chimecorona_record file,
                                                  const struct chimecorona_extent *extents, size_t extents_count, const uint32_t *begins,
                                                  size_t begins_count, uint64_t offset, uint8_t *buffer, size_t buffer_count);

#ifdef __cplusplus
}
#endif

#endif

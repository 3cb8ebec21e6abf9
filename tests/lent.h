/* Memory of an exact size, to be lent to a call. Built with HEAP it is malloc's, and NULL where there
 * is no byte: the address sanitizer then sees what C code does with it, but not what Rattle
 * compiled. Else a page that may not be touched follows it, or with BEFORE comes before it, and
 * what is lent to be read can't be written: an access on that side, or such a write, ends the
 * program. */
#ifndef LENT_H
#define LENT_H

#include <stdint.h>
#include <stdio.h>
#include <stdlib.h>
#include <sys/mman.h>
#include <unistd.h>

struct lent {
    uint8_t *bytes;
    size_t length;
    uint8_t *pages; /* those that may be touched, */
    size_t size;    /* and how many bytes they have */
};

static void out_of_memory(void)
{
    fputs("no memory\n", stderr);
    exit(1);
}

#ifdef HEAP

static struct lent lend(size_t length)
{
    struct lent lent = {length ? malloc(length) : NULL, length, NULL, 0};
    if (length && !lent.bytes)
        out_of_memory();
    return lent;
}

static void read_only(struct lent *lent)
{
    (void)lent;
}

static void give_back(struct lent *lent)
{
    free(lent->bytes);
}

#else

static struct lent lend(size_t length)
{
    size_t page = (size_t)sysconf(_SC_PAGESIZE), size = (length + page - 1) / page * page;
    uint8_t *all = mmap(NULL, size + 2 * page, PROT_NONE, MAP_PRIVATE | MAP_ANONYMOUS, -1, 0);
    if (all == MAP_FAILED || (size && mprotect(all + page, size, PROT_READ | PROT_WRITE)))
        out_of_memory();
#ifdef BEFORE
    struct lent lent = {all + page, length, all + page, size};
#else
    struct lent lent = {all + page + size - length, length, all + page, size};
#endif
    return lent;
}

static void read_only(struct lent *lent)
{
    if (lent->size && mprotect(lent->pages, lent->size, PROT_READ))
        out_of_memory();
}

static void give_back(struct lent *lent)
{
    size_t page = (size_t)sysconf(_SC_PAGESIZE);
    munmap(lent->pages - page, lent->size + 2 * page);
}

#endif

#endif

/* Pages that can't be touched, and canaries. */
#define _DEFAULT_SOURCE

#include "place.h"

#include "machine.h"

#include <string.h>
#include <sys/mman.h>

enum {
    CANARY = 0xc3
};

place new_place(size_t pages)
{
    size_t room = pages * PAGE;
    unsigned char *all = mmap(NULL, room + 2 * PAGE, PROT_NONE, MAP_PRIVATE | MAP_ANONYMOUS, -1, 0);

    check(all != MAP_FAILED && mprotect(all + PAGE, room, PROT_READ | PROT_WRITE) == 0, "no pages to lend");
    return (place){.start = all + PAGE, .room = room};
}

void *lend(place *p, const void *from, size_t size, bool at_end)
{
    p->lent = at_end ? p->start + p->room - size : p->start;
    p->size = size;
    memset(p->start, CANARY, p->room);
    memcpy(p->lent, from, size);
    return p->lent;
}

/* All are canaries if the first is one and each is like the next. */
static void check_canaries(const unsigned char *from, const unsigned char *end)
{
    if (from < end && (*from != CANARY || memcmp(from, from + 1, (size_t)(end - from) - 1) != 0))
        check(false, "a byte beside what was lent is written");
}

void take_back(const place *p, void *to)
{
    memcpy(to, p->lent, p->size);
    check_canaries(p->start, p->lent);
    check_canaries(p->lent + p->size, p->start + p->room);
}

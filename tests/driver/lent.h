/*
 * lent.h   what driver.c uses of the C library, its input and output, and memory lent between guards.
 */

/* What is used of the C library, declared here: its headers are not at hand for x86-64 on every machine. */
void *mmap(void *, size_t, int, int, int, long);
int mprotect(void *, size_t, int);
long read(int, void *, size_t);
long write(int, const void *, size_t);
int memcmp(const void *, const void *, size_t);
void *memcpy(void *, const void *, size_t);
void *memset(void *, int, size_t);
unsigned long strtoul(const char *, char **, int);
int dprintf(int, const char *, ...);
_Noreturn void exit(int);

enum { NO_ACCESS = 0, READ_WRITE = 3, PRIVATE_ANONYMOUS = 0x22 };

enum {
    ROOM = 1 << 17,     /* the most that a lent buffer and its guard bytes take */
    FENCE = 1 << 16,    /* memory on either side that cannot be touched; a whole number of any machine's pages */
    GUARD = 64,         /* bytes beside a lent buffer that must keep their value */
    GUARD_VALUE = 0xA5
};

#define AS_LEFT UINT32_MAX /* a count that says: the buffer that was lent last in this place */

/* A lent buffer lies at one end of its room, against the fence, with guard bytes at its other side. */
struct lent {
    uint8_t *room;
    uint8_t *bytes; /* none yet: 0 */
    uint8_t *guard;
    size_t count;
    uint8_t before[ROOM]; /* what the bytes were */
};

/* The next count bytes of the input, and whether there were any. */
static int take(void *to, size_t count)
{
    static uint8_t input[1 << 16];
    static size_t at, end;
    size_t taken = 0;
    while (taken < count) {
        if (at == end) {
            long got = read(0, input, sizeof input);
            if (got <= 0 && taken == 0)
                return 0;
            if (got <= 0)
                exit(1);
            at = 0;
            end = (size_t)got;
        }
        size_t part = count - taken < end - at ? count - taken : end - at;
        memcpy((uint8_t *)to + taken, input + at, part);
        taken += part;
        at += part;
    }
    return 1;
}

/* The same within a case, where the input must not end. */
static void take_all(void *to, size_t count)
{
    if (count > 0 && !take(to, count))
        exit(1);
}

static void give(const void *from, size_t count)
{
    for (size_t given = 0; given < count;) {
        long got = write(1, (const uint8_t *)from + given, count - given);
        if (got <= 0)
            exit(2);
        given += (size_t)got;
    }
}

static void make_room(struct lent *l)
{
    uint8_t *all = mmap(0, FENCE + ROOM + FENCE, READ_WRITE, PRIVATE_ANONYMOUS, -1, 0);
    if (all == (void *)-1 || mprotect(all, FENCE, NO_ACCESS) || mprotect(all + FENCE + ROOM, FENCE, NO_ACCESS))
        exit(2);
    l->room = all + FENCE;
}

/* Reads a buffer of the case into its room, against the fence behind it or against that before it; or leaves it as it is. */
static void lend(struct lent *l, int behind)
{
    uint32_t count;
    take_all(&count, sizeof count);
    if (count == AS_LEFT && l->bytes == 0)
        exit(2);
    if (count != AS_LEFT) {
        if (count > ROOM - GUARD)
            exit(2);
        l->count = count;
        l->bytes = behind ? l->room + ROOM - count : l->room;
        l->guard = behind ? l->bytes - GUARD : l->bytes + count;
        take_all(l->bytes, count);
        memset(l->guard, GUARD_VALUE, GUARD);
    }
    memcpy(l->before, l->bytes, l->count);
}

static int has_changed(const struct lent *l, int may_write)
{
    int changed = !may_write && memcmp(l->before, l->bytes, l->count) != 0;
    for (size_t i = 0; i < GUARD; i++)
        changed |= l->guard[i] != GUARD_VALUE;
    return changed;
}

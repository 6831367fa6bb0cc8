/*
 * calls.h   the card's calls by their number in a case, each made on lent buffers, and what they answer. For driver.c, behind
 * lent.h.
 */

enum { LENT_MOST = 6, NUMBERS_MOST = 2 };

/* What a call answers. The first number of each says whether it is refused. */
union told {
    card_answer answer;
    card_counts counts;
    card_all_marked all;
};

struct call {
    size_t lent, numbers;
    size_t writes; /* how many of the lent buffers, the last ones, it may write */
    size_t told; /* bytes of its answer */
    union told (*make)(const struct lent *, const uint64_t *);
};

_Static_assert(sizeof(card_answer) == 20, "an answer is five numbers of four bytes");
_Static_assert(sizeof(card_counts) == 40, "counts are ten numbers of four bytes");
_Static_assert(sizeof(card_all_marked) == 24, "what is told of a whole pair is six numbers of four bytes");
_Static_assert(sizeof(card_cluster) == 8, "a cluster is two numbers of four bytes");
_Static_assert(sizeof(card_entry) == 16, "an entry is four numbers of four bytes");

/* A refusal's numbers stand first, in one order: number, list, line, place. */
#define REFUSAL_FIRST(told) \
    (offsetof(told, number) == 0 && offsetof(told, list) == 4 && offsetof(told, line) == 8 && offsetof(told, place) == 12)
_Static_assert(REFUSAL_FIRST(card_answer) && offsetof(card_answer, value) == 16, "the numbers of an answer");
_Static_assert(REFUSAL_FIRST(card_counts) && offsetof(card_counts, matched1) == 16, "the numbers of counts");
_Static_assert(REFUSAL_FIRST(card_all_marked) && offsetof(card_all_marked, clusters) == 16, "the numbers of a whole pair");

/* The header's own version fits, and one with a larger minor part; another major part does not, nor a smaller minor part. */
_Static_assert(CARD_FITS(CARD_VERSION) && CARD_FITS(CARD_VERSION + 1u), "a version that fits");
_Static_assert(!CARD_FITS(CARD_VERSION + (1u << 16)) && !CARD_FITS(CARD_VERSION - (1u << 16)), "another major part");
_Static_assert(CARD_VERSION_MINOR == 0 || !CARD_FITS(CARD_VERSION - 1u), "a smaller minor part");

/* What this uses of a stack is what the driver itself uses. */
static union told nothing(const struct lent *l, const uint64_t *n)
{
    (void)l;
    (void)n;
    return (union told){0};
}

static union told allele(const struct lent *l, const uint64_t *n)
{
    return (union told){.answer = card_allele(l[0].bytes, l[0].count, l[1].bytes, l[1].count, l[2].bytes, l[2].count, n[0],
                                              n[1])};
}

static union told normal(const struct lent *l, const uint64_t *n)
{
    (void)n;
    return (union told){.answer = card_normal(l[0].bytes, l[0].count, l[1].bytes, l[1].count, l[2].bytes, l[2].count,
                                              l[3].bytes, l[3].count)};
}

static union told plan(const struct lent *l, const uint64_t *n)
{
    (void)n;
    return (union told){.answer = card_plan(l[0].bytes, l[0].count, l[1].bytes, l[1].count, l[2].bytes, l[2].count,
                                            l[3].bytes, l[3].count, (void *)l[4].bytes,
                                            l[4].count / sizeof(card_cluster))};
}

static union told mark(const struct lent *l, const uint64_t *n)
{
    return (union told){.answer = card_mark(l[0].bytes, l[0].count, l[1].bytes, l[1].count, l[2].bytes, l[2].count,
                                            l[3].bytes, l[3].count, (void *)l[4].bytes,
                                            l[4].count / sizeof(card_cluster), n[0], l[5].bytes, l[5].count)};
}

static union told count(const struct lent *l, const uint64_t *n)
{
    (void)n;
    return (union told){.counts = card_count(l[0].bytes, l[0].count, l[1].bytes, l[1].count, l[2].bytes, l[2].count,
                                             l[3].bytes, l[3].count, l[4].bytes, l[4].count)};
}

static union told mark_all(const struct lent *l, const uint64_t *n)
{
    (void)n;
    return (union told){.all = card_mark_all(l[0].bytes, l[0].count, l[1].bytes, l[1].count, l[2].bytes, l[2].count,
                                             l[3].bytes, l[3].count, (void *)l[4].bytes,
                                             l[4].count / sizeof(card_cluster), l[5].bytes, l[5].count)};
}

static union told entries(const struct lent *l, const uint64_t *n)
{
    (void)n;
    return (union told){.answer = card_entries(l[0].bytes, l[0].count, l[1].bytes, l[1].count, l[2].bytes, l[2].count,
                                               l[3].bytes, l[3].count, (void *)l[4].bytes,
                                               l[4].count / sizeof(card_entry))};
}

/* Number 0 where the library's version is the header's, and fits; else 1, and the value is the library's. */
static union told version(const struct lent *l, const uint64_t *n)
{
    (void)l;
    (void)n;
    uint32_t version = card_version();
    if (version == CARD_VERSION && CARD_FITS(version))
        return (union told){0};
    return (union told){.answer = {1, 0, 0, 0, version}};
}

/* The calls by their number in a case. */
static const struct call calls[] = {
    {0, 0, 0, 0, nothing},
    {3, 2, 0, sizeof(card_answer), allele},
    {4, 0, 1, sizeof(card_answer), normal},
    {5, 0, 1, sizeof(card_answer), plan},
    {6, 1, 1, sizeof(card_answer), mark},
    {5, 0, 0, sizeof(card_counts), count},
    {6, 0, 2, sizeof(card_all_marked), mark_all},
    {5, 0, 1, sizeof(card_answer), entries},
    {0, 0, 0, sizeof(card_answer), version},
};
enum { CALLS = sizeof calls / sizeof calls[0] };

/*
 * card.h   the comparison card for C and C++: links with libcard_abi.a (x86-64), which `programs/build card_abi` puts in
 * target/staticlib. examples/c/matched.c is a whole program that uses it.
 *
 * Every call is a plain function. It allocates nothing, keeps no pointer and has no state: it judges all its input anew, and
 * the same input gives the same answer, from any thread. It ends and stays inside the memory lent to it, for all bytes, counts
 * and numbers.
 *
 * What the caller keeps:
 *
 *   - A buffer is lent as a pointer and a count of elements: bytes, the clusters of a plan, or entries. The pointer is valid and aligned
 *     for that many elements and is not NULL, also where the count is 0: then any other aligned pointer will do. Texts and
 *     names need no NUL behind them, and a NUL among their bytes is a byte like any other.
 *   - Through a pointer to const the card only reads. Such buffers may overlap one another.
 *   - A buffer that the card writes overlaps no other buffer of the call.
 *   - Nothing else writes to a lent buffer until the call returns, and nothing else reads one that the card writes.
 *   - The thread has 4,096 bytes of stack left: no call takes more, whatever it is lent. docs/BENCH.md says what each takes.
 *
 * All else is the card's part: bad input is refused, and a refused call changes no lent byte.
 */
#ifndef CARD_H
#define CARD_H

#include <stddef.h>
#include <stdint.h>

#ifdef __cplusplus
extern "C" {
#endif

/*
 * The version of the calls: 65,536 times the major part, plus the minor part. The major part is raised whenever a call or a
 * struct changes for its callers, the minor part whenever something is added.
 *
 * CARD_VERSION is what this header describes, card_version() what the library linked does. They fit where the major parts are
 * equal and the library's minor part is not below the header's, which is what CARD_FITS asks:
 *
 *     if (!CARD_FITS(card_version())) fail("card.h and libcard_abi.a are of different versions");
 */
#define CARD_VERSION_MAJOR 3u
#define CARD_VERSION_MINOR 0u
#define CARD_VERSION (CARD_VERSION_MAJOR << 16 | CARD_VERSION_MINOR)
#define CARD_FITS(version) ((version) >> 16 == CARD_VERSION_MAJOR && ((version)&0xffffu) + 1 > CARD_VERSION_MINOR)

uint32_t card_version(void);

/*
 * Why a call is refused. The first that holds is told, in this order: 1; 2; list 1; list 2; 17; 16; 18, each where the call
 * has that input. Within a list: 3, then the lines from the top. On a line: 4, 5, 15, 6 to 9, then for each allele of ALT in turn
 * 20, 21, 22 (and 23 of the second), then 11 to 14. A number is told only where what it says is so. 10 is given no more: 20 to 23
 * stand in its place, and tell the allele. Numbers from 30 on are kept for calls to come.
 *
 * The first allele of ALT is what stands before the first comma, or all of ALT where there is none. The second is all that stands
 * behind that comma: a further comma is a wrong byte of it. An empty allele begins at the comma or TAB that ends it.
 *
 * Bases are A, C, G, T and N, in upper or lower case. Two are equal if they are the same letter in either case, in the reference,
 * REF and ALT alike; N equals only N. So 13 is told where letters differ, not where only their case does, and 22 and 23 are told of
 * alleles that differ in case alone. All other bytes, those of CHROM and of the name among them, are compared as they are.
 */
enum card_refusal {
    CARD_ANSWERED = 0,            /* the call is not refused */
    CARD_WRONG_REFERENCE = 1,     /* the reference is not 1 to 65,535 bytes, each A, C, G, T or N in either case */
    CARD_SMALL_ROOM = 2,          /* lent room too small: marks below 1,024 bytes, plan below 1,024 clusters, entries
                                     below 1,024, normal text below the length of the given text */
    CARD_WRONG_TEXT = 3,          /* list text over 65,536 bytes, or not ending in LF (so also empty) */
    CARD_LONG_LINE = 4,           /* a line over 1,024 bytes, its LF not counted */
    CARD_WRONG_HEADER = 5,        /* line 1 is not exactly ##fileformat=VCFv4.2; the first line that does not begin with ## is
                                     not the column line (the TAB-separated fields #CHROM POS ID REF ALT QUAL FILTER INFO
                                     FORMAT and a tenth that is not empty); there is no column line, told at the line number
                                     after the last; a line behind it begins with # */
    CARD_NOT_TEN_FIELDS = 6,      /* a record has not ten TAB-separated fields, or an empty one */
    CARD_WRONG_CHROM = 7,         /* CHROM is not the name given */
    CARD_WRONG_POS = 8,           /* POS is not 1 to 65,535, decimal, without leading zero */
    CARD_WRONG_REF = 9,           /* REF is not 1 to 64 of A, C, G, T, N in either case */
    CARD_WRONG_GENOTYPE = 11,     /* FORMAT is not GT and does not begin with GT:, or the sample does not begin with a
                                     genotype of two digits, each at most the number of ALTs, with / or | between */
    CARD_GENOTYPE_ZERO = 12,      /* the genotype is 0/0 */
    CARD_NOT_THE_REFERENCE = 13,  /* REF runs past the reference or differs from it */
    CARD_POS_FALLS = 14,          /* POS is below that of the record before */
    CARD_TOO_MANY_RECORDS = 15,   /* a 513th record */
    CARD_NO_CLUSTER = 16,         /* the cluster's number is not below the number of clusters */
    CARD_NOT_THE_PLAN = 17,       /* the plan given is not the plan of these lists: only its first records, as many as there
                                     are clusters, are judged */
    CARD_NO_ALLELE = 18,          /* no such entry in the list, or an allele number above its number of ALTs */
    CARD_WRONG_SIZE = 20,         /* an allele of ALT is empty or over 64 bytes */
    CARD_WRONG_BYTE = 21,         /* an allele of ALT has a byte that is no A, C, G, T or N in either case */
    CARD_ALT_IS_REF = 22,         /* an allele of ALT is equal to REF: the same letters, in either case */
    CARD_EQUAL_ALTS = 23          /* the second allele of ALT is equal to the first: the same letters, in either case */
};

/*
 * What a refusal's number says, in the words of docs/refusals.tsv, which also says what to do: for people, not for programs.
 * The empty string where there is no such refusal, as for CARD_ANSWERED; never NULL. (30 and 31 are those of a lot's report.)
 */
static inline const char *card_refusal_text(uint32_t number)
{
    switch (number) {
    case 1:
        return "the reference is not 1 to 65,535 bytes, each A, C, G, T or N in either case; a reference file has one "
               "LF behind them";
    case 2:
        return "lent room is too small: plan, marks or entries below 1,024, or the room for a normal text below "
               "the length of the text given";
    case 3:
        return "the list's text is empty, over 65,536 bytes, or does not end in LF";
    case 4:
        return "a line is over 1,024 bytes, its LF not counted";
    case 5:
        return "the header is wrong: line 1 is not ##fileformat=VCFv4.2, the column line of ten fields is "
               "missing or wrong, or a line behind it begins with #";
    case 6:
        return "the record does not have ten TAB-separated fields, or one is empty";
    case 7:
        return "CHROM is not the name given";
    case 8:
        return "POS is not 1 to 65,535, decimal, without leading zero";
    case 9:
        return "REF is not 1 to 64 of A, C, G, T, N in either case";
    case 11:
        return "FORMAT does not begin with GT, or the genotype is not two digits, each at most the number of "
               "ALTs, with / or | between";
    case 12:
        return "the genotype is 0/0";
    case 13:
        return "REF runs past the reference or differs from it";
    case 14:
        return "POS is below that of the record before";
    case 15:
        return "there is a 513th record";
    case 16:
        return "the cluster's number is not below the number of clusters";
    case 17:
        return "the plan given is not the plan of these lists";
    case 18:
        return "the list has no such entry, or the entry has no such allele";
    case 20:
        return "an allele of ALT is empty or over 64 bytes";
    case 21:
        return "an allele of ALT has a byte that is no A, C, G, T or N in either case";
    case 22:
        return "an allele of ALT is equal to REF: the same letters, in either case";
    case 23:
        return "the second allele of ALT is equal to the first: the same letters, in either case";
    case 30:
        return "there is no run, or there are more than 256";
    case 31:
        return "a run counts more than 512 entries in a list";
    default:
        return "";
    }
}

/*
 * What a call answers.
 *
 * Refused: number is a card_refusal above 0. list is the list that it is about, 1 or 2, and 0 where it is about none (1, 2,
 * 16, 17, 18). line is the line in that list's text, from 1, and 0 where it is about none (those and 3). place is the byte in that
 * line, from 0, where the allele at fault begins (20 to 23; 23 is told at the second), and 0 for all other numbers. value is 0.
 * A call with one list calls it list 1.
 *
 * Answered: number is CARD_ANSWERED, place is 0, and the call says what value is. list and line are 0 where it does not speak of
 * them.
 */
typedef struct {
    uint32_t number, list, line, place, value;
} card_answer;

/* The most that the card takes: so many bases of a reference, so many bytes of a list's text. */
enum { CARD_BASES_MOST = 65535, CARD_TEXT_MOST = 65536 };

/*
 * Where an allele of an entry stands. Nothing is written or copied.
 *
 * reference   the bases, without LF: A, C, G, T and N, each in upper or lower case. References that differ only in case get the same
 *             answers of every call
 * name        what CHROM of every record has to be; any bytes
 * text        the list: a version line, other lines that begin with ##, a column line, and 0 to 512 records of ten fields, as
 *             card_refusal has it; ID, QUAL, FILTER and INFO are not read
 * entry       the entry's number in the list, from 0
 * allele      0 for REF, 1 and 2 for the ALTs
 *
 * Answered: allele 0 is a part of the reference (list 0), 1 and 2 are parts of the text (list 1). The part begins at offset
 * line, from 0, and is value bytes long; place is 0. No allele is empty, so value is above 0 exactly where the call is answered.
 * The bytes there are those that were lent, in the case that they have.
 * Refused: 1, 3 to 9, 11 to 15, 20 to 23, and 18 last.
 */
card_answer card_allele(const uint8_t *reference, size_t reference_count, const uint8_t *name, size_t name_count,
                        const uint8_t *text, size_t text_count, size_t entry, size_t allele);

/*
 * Writes a list in normal form.
 *
 * reference, name, text   as for card_allele
 * out                     room for the written text, at least as long as the text given
 *
 * Answered: value is how many bytes were written, from the first on; no other byte of out changes. Header lines come first,
 * then the records by new POS, equal POS in the order read. Only POS, REF and ALT are replaced, REF and ALT in upper case in every
 * record; all other fields and the header lines keep their bytes. What is written is accepted by every call, gives the same donors,
 * and written again is itself.
 * Refused: 1, 2, 3 to 9, 11 to 15, 20 to 23. No byte of out changes.
 */
card_answer card_normal(const uint8_t *reference, size_t reference_count, const uint8_t *name, size_t name_count,
                        const uint8_t *text, size_t text_count, uint8_t *out, size_t out_count);

/* A cluster: its first entry in merged order, from 0, and its number of entries. */
typedef struct {
    uint32_t first, count;
} card_cluster;

/*
 * The room that every plan, every buffer of marks and every buffer of entries has to have: so many clusters, bytes, entries.
 * Two accepted lists have at most as many entries, and so at most as many clusters: no larger room is ever needed.
 */
enum { CARD_LEAST = 1024 };

/* The value that says that a cluster is undecided. Of card_mark only: card_mark_all leaves such clusters out of its score. */
#define CARD_UNDECIDED UINT32_MAX

/*
 * Cuts two lists into clusters.
 *
 * reference, name   as for card_allele
 * first, second     list 1 and list 2
 * plan              room for CARD_LEAST clusters or more; plan_count counts clusters, not bytes
 *
 * Answered: value is the number of clusters. The plan's first records, one a cluster, are written; no other record changes.
 * Refused: 1, 2, 3 to 9, 11 to 15, 20 to 23. No record changes.
 */
card_answer card_plan(const uint8_t *reference, size_t reference_count, const uint8_t *name, size_t name_count,
                      const uint8_t *first, size_t first_count, const uint8_t *second, size_t second_count,
                      card_cluster *plan, size_t plan_count);

/*
 * What card_mark_all answers. Refused: number, list, line and place as in card_answer, and two zeros. Answered: these four are 0,
 * clusters is the number of clusters, and score the sum of the scores of those that are decided.
 */
typedef struct {
    uint32_t number, list, line, place, clusters, score;
} card_all_marked;

/*
 * Marks a whole pair of lists: what card_plan and then card_mark of each cluster leave, for the cost of one judging.
 *
 * reference, name, first, second, plan   as for card_plan
 * marks                                  as for card_mark
 *
 * Answered: the plan's first records, one a cluster, and the first marks, one an entry, are written; no other record or byte
 * changes.
 * Refused: 1, 2, 3 to 9, 11 to 15, 20 to 23. No record and no byte changes.
 */
card_all_marked card_mark_all(const uint8_t *reference, size_t reference_count, const uint8_t *name, size_t name_count,
                              const uint8_t *first, size_t first_count, const uint8_t *second, size_t second_count,
                              card_cluster *plan, size_t plan_count, uint8_t *marks, size_t marks_count);

/*
 * Where an entry stands: its list, 1 or 2; its number in that list, from 0; the line of its record in that list's text, from 1;
 * and the number of its cluster, from 0.
 */
typedef struct {
    uint32_t list, entry, line, cluster;
} card_entry;

/*
 * Says which entry each mark belongs to: entry e of what is written is that of mark e.
 *
 * reference, name, first, second   as for card_plan
 * entries    room for CARD_LEAST entries or more; entries_count counts entries, not bytes
 *
 * Answered: value is the number of entries of both lists. So many records are written, one an entry, in merged order: POS, then
 * list 1 before list 2, then order in the list; no other record changes.
 * Refused: 1, 2, 3 to 9, 11 to 15, 20 to 23. No record changes.
 */
card_answer card_entries(const uint8_t *reference, size_t reference_count, const uint8_t *name, size_t name_count,
                         const uint8_t *first, size_t first_count, const uint8_t *second, size_t second_count,
                         card_entry *entries, size_t entries_count);

/*
 * Marks the entries of one cluster.
 *
 * reference, name, first, second   as for card_plan
 * plan       the plan of these lists, as card_plan writes it, in a buffer of CARD_LEAST clusters or more; what stands behind
 *            the plan's own may be anything
 *            (the plan is judged by its numbers alone: another pair's plan with the same records is accepted, and is as good)
 * cluster    the cluster's number, from 0
 * marks      room for CARD_LEAST marks or more, one byte an entry, in merged order: POS, then list 1 before list 2, then order
 *            in the list (card_entries writes that order out)
 *
 * Answered: the marks of the cluster's entries are written, and no other byte of marks changes. An entry that matches is '+'
 * where it is taken as written, and '-' where its two copies are exchanged. One that is left out is '0'. Of one list no two entries
 * match that overlap on a copy where both carry an allele other than REF; on a copy that carries REF an entry takes no room. value
 * is the cluster's score, the number of its entries that match. A cluster of 13 entries or more is undecided: each of its marks is
 * '?', and value is CARD_UNDECIDED.
 * Once each cluster has been answered, in whatever order, every entry of a decided cluster has the mark that the best pair over
 * the two whole lists gives it.
 * Refused: 1, 2, 3 to 9, 11 to 15, 20 to 23, 17, 16. No byte of marks changes.
 */
card_answer card_mark(const uint8_t *reference, size_t reference_count, const uint8_t *name, size_t name_count,
                      const uint8_t *first, size_t first_count, const uint8_t *second, size_t second_count,
                      const card_cluster *plan, size_t plan_count, size_t cluster, uint8_t *marks, size_t marks_count);

/*
 * What the marks of two lists count: how many entries of each list are matched ('+' or '-'), unmatched ('0') and undecided
 * ('?'). Where list 1 is the truth, its matched entries over its entries less the undecided ones are the recall.
 *
 * Refused: number, list, line and place as in card_answer, and six zeros. Answered: these four are 0.
 */
typedef struct {
    uint32_t number, list, line, place;
    uint32_t matched1, unmatched1, undecided1; /* of list 1 */
    uint32_t matched2, unmatched2, undecided2; /* of list 2 */
} card_counts;

/*
 * Counts marks. Nothing is written.
 *
 * reference, name, first, second   as for card_plan
 * marks      CARD_LEAST bytes or more, one an entry in merged order, as card_mark leaves them once each cluster has been answered
 *
 * The marks need not be those of these lists: each byte is taken for the mark of its entry. A byte that is none of the four marks
 * is counted nowhere, so the three counts of a list then add up to less than its entries. Bytes behind the entries are not read.
 * Refused: 1, 2, 3 to 9, 11 to 15, 20 to 23.
 */
card_counts card_count(const uint8_t *reference, size_t reference_count, const uint8_t *name, size_t name_count,
                       const uint8_t *first, size_t first_count, const uint8_t *second, size_t second_count,
                       const uint8_t *marks, size_t marks_count);

#ifdef __cplusplus
}
#endif

#endif

/*
 * marks CALLS TIMES   reads reference.txt, first.vcf and second.vcf where it is started, makes calls of the card's C library on
 * them TIMES times, and prints what they left. For bench/marks, which counts what they cost. CALLS is
 *
 *   all       card_mark_all; prints the number of clusters, the score, and a line of marks
 *   each      card_plan, and then card_mark of each cluster; prints the same
 *   entries   card_entries; prints a line an entry: list, number in the list, line and cluster
 *
 * Exit status: 0; 1 where the card refuses the input; 2 where a file cannot be read.
 */
#include "../include/card.h"

/* What is used of the C library, declared here: its headers are not at hand for x86-64 on every machine. */
int open(const char *, int, ...);
long read(int, void *, size_t);
long write(int, const void *, size_t);
int close(int);
int dprintf(int, const char *, ...);
int strcmp(const char *, const char *);
unsigned long strtoul(const char *, char **, int);
_Noreturn void exit(int);

enum { REFUSED = 1, FAILED = 2 };

struct file {
    uint8_t bytes[CARD_TEXT_MOST + 1]; /* one more, so that a file that is too long is refused */
    size_t count;
};

static struct file reference, first, second;
static const uint8_t name[] = {'c', 'h', 'r', '1'};

static card_cluster plan[CARD_LEAST];
static uint8_t marks[CARD_LEAST];
static card_entry entries[CARD_LEAST];

/* What every call takes before what it is lent to write in. */
#define PAIR reference.bytes, reference.count, name, sizeof name, first.bytes, first.count, second.bytes, second.count

static void read_file(const char *path, struct file *file)
{
    int from = open(path, 0);
    for (long got = 1; got > 0; file->count += (size_t)got) {
        got = read(from, file->bytes + file->count, sizeof file->bytes - file->count);
        if (got < 0)
            exit(FAILED);
    }
    close(from);
}

static void need(uint32_t number)
{
    if (number != CARD_ANSWERED)
        exit(REFUSED);
}

/* The number of clusters, and the score of those that are decided. */
struct marked {
    uint32_t clusters, score;
};

static struct marked mark_all(void)
{
    card_all_marked all = card_mark_all(PAIR, plan, CARD_LEAST, marks, CARD_LEAST);
    need(all.number);
    return (struct marked){all.clusters, all.score};
}

static struct marked mark_each(void)
{
    card_answer planned = card_plan(PAIR, plan, CARD_LEAST);
    need(planned.number);
    struct marked marked = {planned.value, 0};
    for (uint32_t i = 0; i < marked.clusters; i++) {
        card_answer answer = card_mark(PAIR, plan, CARD_LEAST, i, marks, CARD_LEAST);
        need(answer.number);
        marked.score += answer.value == CARD_UNDECIDED ? 0 : answer.value;
    }
    return marked;
}

static uint32_t list_entries(void)
{
    card_answer answer = card_entries(PAIR, entries, CARD_LEAST);
    need(answer.number);
    return answer.value;
}

static void print_marks(struct marked marked)
{
    size_t count = 0;
    for (uint32_t i = 0; i < marked.clusters; i++)
        count += plan[i].count;
    dprintf(1, "%u %u\n", (unsigned)marked.clusters, (unsigned)marked.score);
    write(1, marks, count);
    dprintf(1, "\n");
}

static void print_entries(uint32_t count)
{
    for (uint32_t i = 0; i < count; i++)
        dprintf(1, "%u\t%u\t%u\t%u\n", (unsigned)entries[i].list, (unsigned)entries[i].entry, (unsigned)entries[i].line,
                (unsigned)entries[i].cluster);
}

int main(int argc, char **argv)
{
    if (argc != 3)
        return FAILED;
    unsigned long times = strtoul(argv[2], 0, 10);
    read_file("reference.txt", &reference);
    read_file("first.vcf", &first);
    read_file("second.vcf", &second);
    if (reference.count > 0)
        reference.count--; /* its LF */

    struct marked marked = {0, 0};
    uint32_t count = 0;
    for (unsigned long i = 0; i < times; i++) {
        if (strcmp(argv[1], "all") == 0)
            marked = mark_all();
        else if (strcmp(argv[1], "each") == 0)
            marked = mark_each();
        else
            count = list_entries();
    }
    if (count == 0)
        print_marks(marked);
    print_entries(count);
    return 0;
}

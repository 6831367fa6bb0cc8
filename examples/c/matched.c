/*
 * matched [FOLDER]                 prints which entries of FOLDER/first.vcf and FOLDER/second.vcf match on
 *                                  FOLDER/reference.txt (FOLDER: the one it is started in)
 * matched REFERENCE FIRST SECOND   the same for three files
 *
 * One line a matched entry, in merged order: its list, 1 or 2, a TAB, and its record as it stands in the file. The last line
 * counts the others: `unmatched` and `undecided`, each with its number behind it. Where the card refuses the input, the only
 * line is `refused`, number, list, line and place, and standard error says what is wrong there. Fields are TAB-separated.
 *
 * Exit status: 0; 1 where the card refuses the input; 2 where a file cannot be read, the lines cannot be written, or the library
 * linked is of another version than card.h.
 *
 * To build it on x86-64 Linux, in the top folder:
 *
 *     programs/build card_abi
 *     cc -O2 -Iinclude examples/c/matched.c target/staticlib/libcard_abi.a -o matched
 */
#include <stdio.h>
#include <string.h>
#include <unistd.h>

#include "card.h"

enum { ANSWERED = 0, REFUSED = 1, FAILED = 2 }; /* the exit statuses */

/*
 * The longest list text that the card takes has CARD_TEXT_MOST bytes. So has the longest reference, CARD_BASES_MOST bases, with
 * its LF. One byte more is read: the card then refuses a file that is too long, and is never given the beginning of one.
 */
enum { ROOM = CARD_TEXT_MOST + 1 };

/* What CHROM of every record has to be. The card takes a count with every pointer, so no NUL is needed. */
static const uint8_t name[] = {'c', 'h', 'r', '1'};

/* Bytes that stand elsewhere: a file's, or a part of them. */
struct part {
    const uint8_t *bytes;
    size_t count;
};

/* Reads a file into the room. Where that fails it says why, and answers 0. */
static int read_file(const char *path, uint8_t room[ROOM], struct part *read)
{
    FILE *file = fopen(path, "rb");
    if (file == NULL) {
        perror(path);
        return 0;
    }
    read->bytes = room;
    read->count = fread(room, 1, ROOM, file);
    int whole = !ferror(file);
    if (!whole)
        perror(path);
    fclose(file); /* it was only read, so closing it can lose nothing */
    return whole;
}

/*
 * The bases of a reference file: all but the LF at its end, which the card does not take. A file without that LF may have been
 * cut short: it gives no bases, and the card refuses that with CARD_WRONG_REFERENCE.
 */
static struct part bases_of(struct part file)
{
    int ends_in_lf = file.count > 0 && file.bytes[file.count - 1] == '\n';
    struct part bases = {file.bytes, ends_in_lf ? file.count - 1 : 0};
    return bases;
}

/* A line of a text that the card has accepted, without its LF: lines are numbered from 1, and each ends in LF. */
static struct part line_of(struct part text, uint32_t number)
{
    const uint8_t *line = text.bytes, *end = text.bytes + text.count, *lf;
    while (lf = memchr(line, '\n', (size_t)(end - line)), --number > 0)
        line = lf + 1;
    struct part found = {line, (size_t)(lf - line)};
    return found;
}

/* Prints the entries that are marked as matched, and counts the others. Mark i is of entry i. */
static void print_matched(const card_entry *entries, const uint8_t *marks, size_t count, struct part first, struct part second)
{
    size_t unmatched = 0, undecided = 0;
    for (size_t i = 0; i < count; i++) {
        if (marks[i] == '0') {
            unmatched++;
        } else if (marks[i] == '?') {
            undecided++;
        } else { /* '+', or '-' where it matches with its two copies exchanged */
            struct part record = line_of(entries[i].list == 1 ? first : second, entries[i].line);
            printf("%u\t", (unsigned)entries[i].list);
            fwrite(record.bytes, 1, record.count, stdout); /* a record may hold any byte, also NUL */
            putchar('\n');
        }
    }
    printf("unmatched\t%zu\tundecided\t%zu\n", unmatched, undecided);
}

/*
 * Prints a refusal, and says on standard error what is wrong. place is above 0 only where it is about an allele of ALT, which stands
 * behind other fields: it is the byte in the line where that allele begins.
 */
static void print_refused(unsigned number, unsigned list, unsigned line, unsigned place)
{
    printf("refused\t%u\t%u\t%u\t%u\n", number, list, line, place);
    fprintf(stderr, "matched: ");
    if (list > 0)
        fprintf(stderr, "list %u: ", list);
    if (line > 0)
        fprintf(stderr, "line %u: ", line);
    if (place > 0)
        fprintf(stderr, "at byte %u, counted from 0: ", place);
    fprintf(stderr, "%s\n", card_refusal_text(number));
}

/* Makes the card's calls and prints what they answer. Returns the exit status. */
static int compare(struct part reference, struct part first, struct part second)
{
    /* Two accepted lists have at most CARD_LEAST entries, and so at most as many clusters. */
    static card_cluster plan[CARD_LEAST];
    static uint8_t marks[CARD_LEAST];
    static card_entry entries[CARD_LEAST];

    card_all_marked marked = card_mark_all(reference.bytes, reference.count, name, sizeof name, first.bytes, first.count,
                                           second.bytes, second.count, plan, CARD_LEAST, marks, CARD_LEAST);
    if (marked.number != CARD_ANSWERED) {
        print_refused(marked.number, marked.list, marked.line, marked.place);
        return REFUSED;
    }
    /* The two calls refuse the same lists, so this one is answered. */
    card_answer merged = card_entries(reference.bytes, reference.count, name, sizeof name, first.bytes, first.count,
                                      second.bytes, second.count, entries, CARD_LEAST);
    print_matched(entries, marks, merged.value, first, second);
    return ANSWERED;
}

int main(int argc, char **argv)
{
    static uint8_t rooms[3][ROOM]; /* static: too much for some stacks */
    const char *paths[3] = {"reference.txt", "first.vcf", "second.vcf"};
    struct part reference, first, second;

    if (!CARD_FITS(card_version())) {
        fprintf(stderr, "matched: libcard_abi.a is of another version than card.h\n");
        return FAILED;
    }
    if (argc == 4) {
        memcpy(paths, argv + 1, sizeof paths);
    } else if (argc > 2) {
        fprintf(stderr, "usage: matched [FOLDER] | matched REFERENCE FIRST SECOND\n");
        return FAILED;
    } else if (argc == 2 && chdir(argv[1]) != 0) {
        perror(argv[1]);
        return FAILED;
    }
    if (!read_file(paths[0], rooms[0], &reference) || !read_file(paths[1], rooms[1], &first)
        || !read_file(paths[2], rooms[2], &second))
        return FAILED;

    int status = compare(bases_of(reference), first, second);

    /* A full disk shows here at the latest: without this, lines could be lost and nobody told. */
    if (fflush(stdout) != 0 || ferror(stdout)) {
        perror("matched");
        return FAILED;
    }
    return status;
}

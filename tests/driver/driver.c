/*
 * driver [TIMES | stack]   makes the card's calls as a C program makes them, on memory lent between guards.
 *
 * Reads cases from standard input up to its end and writes what each call answered and left, all numbers little-endian:
 *
 *   a case      the call's number (4 bytes): 1 card_allele, 2 card_normal, 3 card_plan, 4 card_mark, 5 card_count,
 *               6 card_mark_all, 7 card_entries, 8 card_version;
 *               each lent buffer, in the call's order: its count of bytes (4) and its bytes, or 0xFFFFFFFF for the buffer that
 *               was lent last in this place, with what the call left in it;
 *               each number (8)
 *   its answer  the numbers of card_answer, card_counts or card_all_marked (4 bytes each): number, list, line and place, then
 *               its values; of card_version those of a card_answer, its number 0 where the library's version is the header's,
 *               else 1;
 *               one byte, 1 where a byte changed that the call may not write, else 0: a lent one, any where the call is
 *               refused, or one beside them;
 *               all bytes of each buffer that the call may write: card_mark_all may write its last two, any other its last
 *
 * Each call is made TIMES times (once where it is not given), so that the cost of one can be counted from two runs. With `stack`
 * each is made on a painted stack, and at the end a line on standard error for each call's number says: `stack`, the number, how
 * many calls were answered and the most bytes of stack that one of them used, how many were refused and the most of those.
 * Exit status: 0 at the end of the input, 1 where that ends within a case, 2 for a case that cannot be made.
 */
#include "../../include/card.h"
#include "lent.h"
#include "stack.h"
#include "calls.h"

static struct lent lent[LENT_MOST];

/* A call to be made on the painted stack, and its answer. */
struct made {
    const struct call *call;
    const uint64_t *numbers;
    union told told;
};

static void make(void *given)
{
    struct made *made = given;
    made->told = made->call->make(lent, made->numbers);
}

/* Of each call, those that were answered and those that were refused: how many, and the most bytes of stack that one used. */
static struct {
    size_t count, most;
} used[CALLS][2];

static union told make_on_stack(const struct call *call, const uint64_t *numbers)
{
    struct made empty = {&calls[0], numbers, {0}}, made = {call, numbers, {0}};
    size_t own = stack_used(make, &empty), bytes = stack_used(make, &made) - own;
    int refused = made.told.answer.number != 0;
    used[call - calls][refused].count++;
    if (bytes > used[call - calls][refused].most)
        used[call - calls][refused].most = bytes;
    return made.told;
}

static void tell_used(void)
{
    for (size_t i = 1; i < CALLS; i++)
        dprintf(2, "stack %zu %zu %zu %zu %zu\n", i, used[i][0].count, used[i][0].most, used[i][1].count, used[i][1].most);
}

int main(int argc, char **argv)
{
    int on_stack = argc > 1 && argv[1][0] == 's';
    unsigned long times = on_stack ? 0 : argc > 1 ? strtoul(argv[1], 0, 10) : 1;
    if (on_stack)
        make_stack();
    for (size_t i = 0; i < LENT_MOST; i++)
        make_room(&lent[i]);

    uint32_t number;
    for (size_t cases = 0; take(&number, sizeof number); cases++) {
        if (number == 0 || number >= CALLS)
            exit(2);
        const struct call *call = &calls[number];
        size_t kept = call->lent - call->writes; /* how many buffers it may only read */
        uint64_t numbers[NUMBERS_MOST];
        /* Each buffer is tried against either fence, in every combination with the others. */
        for (size_t i = 0; i < call->lent; i++)
            lend(&lent[i], cases >> i & 1);
        take_all(numbers, call->numbers * sizeof numbers[0]);

        union told told = {0};
        uint8_t changed = 0;
        if (on_stack)
            told = make_on_stack(call, numbers);
        for (unsigned long i = 0; i < times; i++)
            told = call->make(lent, numbers);
        for (size_t i = 0; i < call->lent; i++)
            changed |= has_changed(&lent[i], i >= kept && told.answer.number == 0);
        /* At once, so that a call that faults is the first without an answer. */
        uint8_t answer[sizeof told + sizeof changed];
        memcpy(answer, &told, call->told);
        answer[call->told] = changed;
        give(answer, call->told + sizeof changed);
        for (size_t i = kept; i < call->lent; i++)
            give(lent[i].bytes, lent[i].count);
    }
    if (on_stack)
        tell_used();
    return 0;
}

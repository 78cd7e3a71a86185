/* Bad input and inputs at the bounds: each gets the refusal that the rules name, and no byte is written out of place. Every
 * list that is lent stands in memory of its own length, so that a checker of memory sees a read or a write beside it; each
 * list that may be written stands between guard bytes, too. */
#include <stddef.h>
#include <stdio.h>
#include <stdlib.h>
#include <string.h>

#include "zucchinicove.h"

#define AT(type, field) offsetof(zucchinicove_##type, field)

_Static_assert(sizeof(zucchinicove_job) == 6 && AT(job, line) == 0 && AT(job, release) == 2 && AT(job, cost) == 4,
               "the layout of a job");
_Static_assert(sizeof(zucchinicove_refused) == 16 && AT(refused, number) == 0 && AT(refused, layer) == 1 && AT(refused, place) == 4 &&
                   AT(refused, record) == 8 && AT(refused, byte) == 12,
               "the layout of a refusal");
_Static_assert(sizeof(zucchinicove_report_answer) == 32 && AT(report_answer, kind) == 0 && AT(report_answer, length) == 8 &&
                   AT(report_answer, refused) == 16,
               "the layout of the answer of a report");
_Static_assert(sizeof(zucchinicove_verdict_answer) == 20 && AT(verdict_answer, kind) == 0 && AT(verdict_answer, deadline) == 2 &&
                   AT(verdict_answer, refused) == 4,
               "the layout of a verdict");
_Static_assert(sizeof(zucchinicove_run_answer) == 24 && AT(run_answer, kind) == 0 && AT(run_answer, job) == 2 && AT(run_answer, at) == 4 &&
                   AT(run_answer, refused) == 8,
               "the layout of how a run ends");

/* Records whose figures are below 256: a supply by length, number and share, a line, a certificate and its cites, and the last
 * record. */
#define SUPPLY(length, number, s, f) 'S', 'U', length, 0, 0, 0, 0, 0, 0, 0, number, s, f
#define WHOLE SUPPLY(0, 0, 0, 0)
#define LINE(period, deadline, cost) 'L', 'N', 0, period, 0, deadline, 0, cost
#define CUT(deadline, divisor, cites) 'C', 'U', 0, deadline, 0, divisor, cites
#define CITE(deadline, weight) 0, deadline, 0, weight
#define END(records) 'E', 'N', 0, records

#define GUARD 64
#define MARK 0xA5

static const uint8_t good[] = {WHOLE, LINE(7, 5, 3), LINE(11, 7, 2), LINE(13, 10, 3), END(4)};

#define DEADLINE_OF_LINE_0 5

/* The report on it, from the rules: 32 bytes. */
static const char good_report[] = "lines 3\nrest 62\nwatched 18\nfits\n";

static unsigned checks, failed;

/* Counts a check, and says of which case and of what in it where it fails. */
static void check(int holds, const char *what, const char *which)
{
    checks++;
    if (!holds) {
        failed++;
        printf("failed: %s: %s\n", what, which);
    }
}

static void *taken(size_t length)
{
    void *memory = malloc(length > 0 ? length : 1);
    if (memory == NULL)
        exit(2);
    return memory;
}

/* A copy with memory of its own length. */
static void *copied(const void *from, size_t length)
{
    return length > 0 ? memcpy(taken(length), from, length) : NULL;
}

/* A copy of jobs, with the mark in the byte between two fields of a job, which means nothing. */
static zucchinicove_job *copied_jobs(const zucchinicove_job *from, size_t length)
{
    zucchinicove_job *to = length > 0 ? memset(taken(length * sizeof *to), MARK, length * sizeof *to) : NULL;
    for (size_t i = 0; i < length; i++) {
        to[i].line = from[i].line;
        to[i].release = from[i].release;
        to[i].cost = from[i].cost;
    }
    return to;
}

/* A list between guards, all marked. */
static uint8_t *guarded(size_t length)
{
    return (uint8_t *)memset(taken(length + 2 * GUARD), MARK, length + 2 * GUARD) + GUARD;
}

/* Whether bytes from a place on up to another still hold the mark. */
static int marked(const uint8_t *list, ptrdiff_t from, ptrdiff_t to)
{
    for (ptrdiff_t i = from; i < to; i++)
        if (list[i] != MARK)
            return 0;
    return 1;
}

static int guards_stand(const uint8_t *list, size_t length)
{
    return marked(list, -GUARD, 0) && marked(list, (ptrdiff_t)length, (ptrdiff_t)length + GUARD);
}

static const zucchinicove_refused nothing = {0, ZUCCHINICOVE_LAYER_NONE, 0, 0, 0};

static int same(zucchinicove_refused a, zucchinicove_refused b)
{
    return a.number == b.number && a.layer == b.layer && a.place == b.place && a.record == b.record && a.byte == b.byte;
}

/* A report into a list of some length is the text, or is refused since the list is too short. */
static void try_report(const uint8_t *sheet, size_t length, const char *text, size_t room, const char *what)
{
    uint8_t *lent = copied(sheet, length);
    uint8_t *out = guarded(room);
    size_t needed = strlen(text);
    zucchinicove_refused too_short = {13, ZUCCHINICOVE_LAYER_SHEET, (uint32_t)needed, 0, 0};
    zucchinicove_report_answer answer = zucchinicove_report(lent, length, room > 0 ? out : NULL, room);
    if (needed <= room) {
        check(answer.kind == ZUCCHINICOVE_WRITTEN && answer.length == needed, what, "the answer of the report");
        check(same(answer.refused, nothing), what, "the refusal of the report");
        check(memcmp(out, text, needed) == 0, what, "the text of the report");
        check(marked(out, (ptrdiff_t)needed, (ptrdiff_t)room), what, "the bytes behind the text of the report");
    } else {
        check(answer.kind == ZUCCHINICOVE_REFUSED && answer.length == 0, what, "the answer of the report");
        check(same(answer.refused, too_short), what, "the refusal of the report");
        check(marked(out, 0, (ptrdiff_t)room), what, "the list that a refused report leaves");
    }
    check(guards_stand(out, room), what, "the guards of the report");
    free(out - GUARD);
    free(lent);
}

/* A sheet is refused, by the verdict and by a run, which leaves the slots. */
static void try_sheet(const uint8_t *sheet, size_t length, zucchinicove_refused why, const char *what)
{
    uint8_t *lent = copied(sheet, length);
    uint8_t *slots = guarded(24);
    zucchinicove_verdict_answer verdict = zucchinicove_verdict(lent, length);
    zucchinicove_run_answer run = zucchinicove_run(lent, length, 0, NULL, 0, (uint16_t *)slots, 12);
    check(verdict.kind == ZUCCHINICOVE_REFUSED && verdict.deadline == 0, what, "the answer of the verdict");
    check(same(verdict.refused, why), what, "the refusal of the verdict");
    check(run.kind == ZUCCHINICOVE_REFUSED && run.job == 0 && run.at == 0, what, "the answer of the run");
    check(same(run.refused, why), what, "the refusal of the run");
    check(marked(slots, 0, 24), what, "the slots that a refused run leaves");
    check(guards_stand(slots, 24), what, "the guards of the run");
    free(slots - GUARD);
    free(lent);
}

/* Whether slots are the entries of a run of jobs of line 0, each released after the one in front has run: each runs from its
 * release on, the slots between are idle, and the entries from the largest deadline on are those of slots not given. */
static int entries_told(const uint16_t *slots, size_t room, const zucchinicove_job *jobs, size_t length)
{
    size_t end = length > 0 ? jobs[length - 1].release + DEADLINE_OF_LINE_0 : 0;
    size_t place = 0;
    for (size_t s = 0; s < room; s++) {
        while (place < length && s >= (size_t)jobs[place].release + jobs[place].cost)
            place++;
        size_t within = place < length && s >= jobs[place].release ? 1 + place : ZUCCHINICOVE_SLOT_IDLE;
        if (slots[s] != (s < end ? within : ZUCCHINICOVE_SLOT_NOT_GIVEN))
            return 0;
    }
    return 1;
}

/* A run is refused and leaves the slots, or all is met where the number is 0. */
static void try_run(uint32_t phase, const zucchinicove_job *jobs, size_t length, size_t room, uint8_t number, uint32_t place,
                    const char *what)
{
    zucchinicove_refused why = {number, ZUCCHINICOVE_LAYER_RUN, place, 0, 0};
    uint8_t *sheet = copied(good, sizeof good);
    zucchinicove_job *lent = copied_jobs(jobs, length);
    uint8_t *slots = guarded(2 * room);
    zucchinicove_run_answer answer =
        zucchinicove_run(sheet, sizeof good, phase, lent, length, room > 0 ? (uint16_t *)slots : NULL, room);
    if (number == 0) {
        check(answer.kind == ZUCCHINICOVE_MET, what, "the answer of the run");
        check(same(answer.refused, nothing), what, "the refusal of the run");
        check(entries_told((uint16_t *)slots, room, jobs, length), what, "the slots of the run");
    } else {
        check(answer.kind == ZUCCHINICOVE_REFUSED, what, "the answer of the run");
        check(same(answer.refused, why), what, "the refusal of the run");
        check(marked(slots, 0, (ptrdiff_t)(2 * room)), what, "the slots that a refused run leaves");
    }
    check(answer.job == 0 && answer.at == 0, what, "the job and the instant of a run that misses nothing");
    check(guards_stand(slots, 2 * room), what, "the guards of the run");
    free(slots - GUARD);
    free(lent);
    free(sheet);
}

/* In the largest phase of a timetable of 11 slots that gives the first one, 8 and 19 are given: 4,294,967,295 is 3 above a multiple
 * of 11. Cut to two bytes the phase would be 8 above one, and cut to one byte 2. */
static void try_largest_phase(const char *what)
{
    static const uint8_t sheet[] = {SUPPLY(11, 1, 0, 0), LINE(22, 22, 1), END(2)};
    static const zucchinicove_job single = {0, 0, 1};
    uint16_t entries[22];
    for (size_t s = 0; s < 22; s++)
        entries[s] = ZUCCHINICOVE_SLOT_NOT_GIVEN;
    entries[8] = 1;
    entries[19] = ZUCCHINICOVE_SLOT_IDLE;
    uint8_t *slots = guarded(sizeof entries);
    zucchinicove_run_answer answer = zucchinicove_run(sheet, sizeof sheet, UINT32_MAX, &single, 1, (uint16_t *)slots, 22);
    check(answer.kind == ZUCCHINICOVE_MET, what, "the answer of the run");
    check(memcmp(slots, entries, sizeof entries) == 0, what, "the slots of the run");
    check(guards_stand(slots, sizeof entries), what, "the guards of the run");
    free(slots - GUARD);
}

static void reports(void)
{
    try_report(good, sizeof good, good_report, 0, "a report into no list");
    try_report(good, sizeof good, good_report, 31, "a report into a list too short by one");
    try_report(good, sizeof good, good_report, 32, "a report into a list just long enough");
    try_report(good, sizeof good, good_report, 33, "a report into a list longer by one");
    try_report(NULL, 0, "refused 19 sheet record 1 byte 0\n", 32, "a report on no sheet, too short by one");
    try_report(NULL, 0, "refused 19 sheet record 1 byte 0\n", 33, "a report on no sheet, just long enough");
}

static void cut_short(void)
{
    static const uint32_t starts[] = {0, 13, 21, 29, 37, sizeof good};
    for (uint32_t record = 1; record <= 5; record++) {
        zucchinicove_refused why = {19, ZUCCHINICOVE_LAYER_SHEET, 0, record, starts[record - 1]};
        for (uint32_t length = starts[record - 1]; length < starts[record]; length++)
            try_sheet(good, length, why, "a sheet cut short");
    }
}

static void too_long(void)
{
    static const zucchinicove_refused behind = {22, ZUCCHINICOVE_LAYER_SHEET, 0, 6, sizeof good};
    static const zucchinicove_refused whole = {16, ZUCCHINICOVE_LAYER_SHEET, 0, 0, 0};
    uint8_t *longest = memset(taken(ZUCCHINICOVE_LONGEST_SHEET + 1), 0, ZUCCHINICOVE_LONGEST_SHEET + 1);
    memcpy(longest, good, sizeof good);
    try_sheet(longest, sizeof good + 1, behind, "a byte behind the last record");
    try_sheet(longest, ZUCCHINICOVE_LONGEST_SHEET, behind, "a sheet of the longest length");
    try_sheet(longest, ZUCCHINICOVE_LONGEST_SHEET + 1, whole, "a sheet longer by one");
    free(longest);
}

/* A sheet that is refused. */
struct refused_sheet {
    const char *what;
    zucchinicove_refused why;
    const uint8_t *bytes;
    size_t length;
};

/* The bytes of a sheet, and their number. */
#define BYTES(...) (const uint8_t[]){__VA_ARGS__}, sizeof((const uint8_t[]){__VA_ARGS__})

static const struct refused_sheet by_supply[] = {
    {"a timetable of length 0", {17, ZUCCHINICOVE_LAYER_SUPPLY, 0, 1, 0}, BYTES(SUPPLY(0, 1, 0, 0), END(1))},
    {"a timetable of 65 slots", {17, ZUCCHINICOVE_LAYER_SUPPLY, 0, 1, 0}, BYTES(SUPPLY(65, 1, 0, 0), END(1))},
    {"a timetable that gives no slot", {17, ZUCCHINICOVE_LAYER_SUPPLY, 0, 1, 0}, BYTES(SUPPLY(4, 0, 0, 0), END(1))},
    {"a bit at a timetable's length", {17, ZUCCHINICOVE_LAYER_SUPPLY, 0, 1, 0}, BYTES(SUPPLY(4, 16, 0, 0), END(1))},
    {"a share of 0 in 1", {18, ZUCCHINICOVE_LAYER_SUPPLY, 0, 1, 0}, BYTES(SUPPLY(0, 0, 0, 1), END(1))},
    {"a share of 3 in 2", {18, ZUCCHINICOVE_LAYER_SUPPLY, 0, 1, 0}, BYTES(SUPPLY(4, 3, 3, 2), END(1))},
    {"a share of 1 in 65", {18, ZUCCHINICOVE_LAYER_SUPPLY, 0, 1, 0}, BYTES(SUPPLY(4, 3, 1, 65), END(1))},
};

#define FOUR LINE(8, 5, 1), LINE(8, 5, 1), LINE(8, 5, 1), LINE(8, 5, 1)

/* The deadlines 1 to 510 would have to be watched: the first rest point of all three is 510. */
#define WATCHING_510 LINE(1, 1, 1), LINE(2, 2, 1), LINE(255, 255, 1)

/* Their hyperperiod would be 251 x 241 = 60,491. */
#define FAR_APART LINE(251, 1, 1), LINE(241, 1, 1)

static const struct refused_sheet by_lines[] = {
    {"a ninth line", {1, ZUCCHINICOVE_LAYER_ROSTER, 0, 10, 77}, BYTES(WHOLE, FOUR, FOUR, LINE(8, 5, 1), END(10))},
    {"a period of 0", {2, ZUCCHINICOVE_LAYER_ROSTER, 0, 3, 21}, BYTES(WHOLE, LINE(8, 5, 2), LINE(0, 1, 1), END(3))},
    {"a deadline of 0", {3, ZUCCHINICOVE_LAYER_ROSTER, 0, 3, 21}, BYTES(WHOLE, LINE(8, 5, 2), LINE(8, 0, 2), END(3))},
    {"a late deadline", {3, ZUCCHINICOVE_LAYER_ROSTER, 0, 3, 21}, BYTES(WHOLE, LINE(8, 5, 2), LINE(8, 9, 2), END(3))},
    {"a cost of 0", {4, ZUCCHINICOVE_LAYER_ROSTER, 0, 3, 21}, BYTES(WHOLE, LINE(8, 5, 2), LINE(15, 9, 0), END(3))},
    {"a long hyperperiod", {5, ZUCCHINICOVE_LAYER_ROSTER, 0, 3, 21}, BYTES(WHOLE, FAR_APART, END(3))},
    {"a long watch list", {6, ZUCCHINICOVE_LAYER_ROSTER, 0, 4, 29}, BYTES(WHOLE, WATCHING_510, END(4))},
};

/* Lines that watch 6, 12, 14, 22, 25, 30 and 38, where they rest. The first counts 1, 1, 2, 3, 3, 4 and 5 at them, and the
 * second 0, 1, 1, 1, 2, 2 and 3. */
#define PAIR WHOLE, LINE(8, 6, 2), LINE(13, 12, 9)

/* A certificate that 25 may leave: 2 x 3 is within 5 + 1, 2 x 2 is within 3 + 1, and 38 + 12 is within 2 x 25. */
#define CUT_25 CUT(25, 2, 2), CITE(38, 1), CITE(12, 1)

static const struct refused_sheet by_certificates[] = {
    {"a deadline that is not watched", {8, ZUCCHINICOVE_LAYER_ROSTER, 0, 4, 29}, BYTES(PAIR, CUT(13, 1, 1), CITE(38, 1))},
    {"a deadline that is cut already", {8, ZUCCHINICOVE_LAYER_ROSTER, 0, 5, 44}, BYTES(PAIR, CUT_25, CUT_25)},
    {"a deadline as its own cite",
     {8, ZUCCHINICOVE_LAYER_ROSTER, 1, 4, 29},
     BYTES(PAIR, CUT(25, 2, 2), CITE(25, 1), CITE(12, 1))},
    {"a second cite that is not watched",
     {8, ZUCCHINICOVE_LAYER_ROSTER, 2, 4, 29},
     BYTES(PAIR, CUT(25, 2, 2), CITE(38, 1), CITE(13, 1))},
    {"a second cite that is cut already",
     {8, ZUCCHINICOVE_LAYER_ROSTER, 2, 5, 44},
     BYTES(PAIR, CUT_25, CUT(14, 1, 2), CITE(12, 1), CITE(25, 1))},
    {"a divisor of 0", {9, ZUCCHINICOVE_LAYER_ROSTER, 0, 4, 29}, BYTES(PAIR, CUT(25, 0, 1), CITE(38, 1))},
    {"a certificate without cites", {9, ZUCCHINICOVE_LAYER_ROSTER, 0, 4, 29}, BYTES(PAIR, CUT(25, 2, 0), END(4))},
    {"a second weight of 0",
     {9, ZUCCHINICOVE_LAYER_ROSTER, 2, 4, 29},
     BYTES(PAIR, CUT(25, 2, 2), CITE(38, 1), CITE(12, 0))},
    {"a count of the second line that is not covered",
     {10, ZUCCHINICOVE_LAYER_ROSTER, 1, 4, 29},
     BYTES(PAIR, CUT(12, 1, 1), CITE(6, 1))},
    {"a supply that is not covered",
     {11, ZUCCHINICOVE_LAYER_ROSTER, 0, 4, 29},
     BYTES(PAIR, CUT(25, 1, 2), CITE(12, 1), CITE(14, 1))},
};

static const struct refused_sheet by_records[] = {
    {"a certificate without its last cite",
     {19, ZUCCHINICOVE_LAYER_SHEET, 0, 4, 29},
     BYTES(PAIR, CUT(25, 2, 2), CITE(38, 1))},
    {"a line in front", {20, ZUCCHINICOVE_LAYER_SHEET, 0, 1, 0}, BYTES(LINE(8, 5, 2), END(1))},
    {"a second supply", {20, ZUCCHINICOVE_LAYER_SHEET, 0, 2, 13}, BYTES(WHOLE, WHOLE, END(2))},
    {"an unknown mark", {20, ZUCCHINICOVE_LAYER_SHEET, 0, 4, 29}, BYTES(PAIR, 'X', 'N')},
    {"a closing count less by one", {21, ZUCCHINICOVE_LAYER_SHEET, 0, 5, 44}, BYTES(PAIR, CUT_25, END(3))},
};

#define TRY_EACH(sheets) try_each(sheets, sizeof(sheets) / sizeof *(sheets))

static void try_each(const struct refused_sheet *sheets, size_t length)
{
    for (size_t i = 0; i < length; i++)
        try_sheet(sheets[i].bytes, sheets[i].length, sheets[i].why, sheets[i].what);
}

static void sheets(void)
{
    cut_short();
    too_long();
    TRY_EACH(by_supply);
    TRY_EACH(by_lines);
    TRY_EACH(by_certificates);
    TRY_EACH(by_records);
}

static void runs(void)
{
    static const zucchinicove_job first = {0, 0, 3};
    static const zucchinicove_job absent = {3, 0, 1}, far = {255, 65535, 65535}, free_of_cost = {0, 0, 0}, costly = {0, 0, 4};
    static const zucchinicove_job soon[] = {{0, 0, 3}, {0, 6, 3}}, back[] = {{0, 8, 3}, {1, 7, 2}};
    static const zucchinicove_job second[] = {{0, 0, 3}, {3, 0, 1}};
    static const zucchinicove_job last[] = {{0, 0, 3}, {0, 31995, 3}}, late[] = {{0, 0, 3}, {0, 31996, 3}};
    try_run(0, NULL, 0, 0, 0, 0, "no jobs and no slots");
    try_run(0, NULL, 0, 12, 0, 0, "no jobs");
    try_run(0, &first, 1, 0, 13, 5, "a job without slots");
    try_run(0, &first, 1, 4, 13, 5, "a slot list too short by one");
    try_run(0, &first, 1, 5, 0, 0, "a slot list just long enough");
    try_run(UINT32_MAX, &first, 1, 6, 0, 0, "the largest phase");
    try_largest_phase("the largest phase of a timetable");
    try_run(0, &absent, 1, 12, 14, 0, "a line that is absent");
    try_run(0, second, 2, 12, 14, 1, "a line that is absent, of the second job");
    try_run(0, &far, 1, 12, 14, 0, "a job of the largest numbers");
    try_run(0, &free_of_cost, 1, 12, 14, 0, "a job of cost 0");
    try_run(0, &costly, 1, 12, 14, 0, "a job above its line's cost");
    try_run(0, soon, 2, 12, 15, 1, "a job nearer than a period");
    try_run(0, back, 2, 14, 15, 1, "a job before the one in front of it");
    try_run(0, last, 2, 31999, 13, 32000, "the last deadline, with too few slots by one");
    try_run(0, last, 2, 32000, 0, 0, "the last deadline");
    try_run(0, late, 2, 32000, 16, 1, "a deadline later by one");

    /* One job in each period of line 0: the last of 2,048 is due at 2,047 x 7 + 5 = 14,334. */
    static zucchinicove_job many[ZUCCHINICOVE_MOST_JOBS + 1];
    for (unsigned k = 0; k <= ZUCCHINICOVE_MOST_JOBS; k++)
        many[k] = (zucchinicove_job){0, (uint16_t)(7 * k), 1};
    try_run(0, many, ZUCCHINICOVE_MOST_JOBS, 14333, 13, 14334, "the most jobs, with too few slots by one");
    try_run(0, many, ZUCCHINICOVE_MOST_JOBS, 14334, 0, 0, "the most jobs");
    try_run(0, many, ZUCCHINICOVE_MOST_JOBS + 1, 14341, 16, 0, "too many jobs by one");
}

int main(void)
{
    reports();
    sheets();
    runs();
    printf("bad input: %u failed\n", failed);
    return failed > 0 || checks == 0;
}

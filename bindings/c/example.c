/* Four sheets: for each the report, the verdict, and the run of a list of jobs. */
#include <stdio.h>

#include "zucchinicove.h"

/* The fields of the first record: no timetable and no share is the whole processor. */
#define WHOLE 'S', 'U', 0, 0, 0, 0, 0, 0, 0, 0, 0, 0, 0

/* A line whose period, deadline and cost are below 256. */
#define LINE(period, deadline, cost) 'L', 'N', 0, period, 0, deadline, 0, cost

/* The last record, which counts those before it. */
#define END(records) 'E', 'N', 0, records

static const char *const layers[] = {"none", "supply", "roster", "run", "sheet"};

static void print_refused(zucchinicove_refused why)
{
    printf("refused %u %s place %u record %u byte %u\n", why.number, layers[why.layer], why.place, why.record, why.byte);
}

static void print_report(const uint8_t *sheet, size_t length)
{
    uint8_t text[ZUCCHINICOVE_REPORT_ROOM] = {0};
    zucchinicove_report_answer answer = zucchinicove_report(sheet, length, text, sizeof text);
    if (answer.kind == ZUCCHINICOVE_WRITTEN)
        fwrite(text, 1, answer.length, stdout);
    else
        print_refused(answer.refused);
}

static void print_verdict(const uint8_t *sheet, size_t length)
{
    zucchinicove_verdict_answer answer = zucchinicove_verdict(sheet, length);
    printf("verdict: ");
    if (answer.kind == ZUCCHINICOVE_FITS)
        printf("fits\n");
    else if (answer.kind == ZUCCHINICOVE_OVERLOADED)
        printf("overloaded at %u\n", answer.deadline);
    else
        print_refused(answer.refused);
}

/* What an entry of a slot list tells: the place of the job that runs, idle, or a stroke where the slot is not given. */
static void print_entry(uint16_t entry)
{
    if (entry == ZUCCHINICOVE_SLOT_IDLE)
        printf(" idle");
    else if (entry == ZUCCHINICOVE_SLOT_NOT_GIVEN)
        printf(" -");
    else
        printf(" %u", entry - 1u);
}

static void print_run(const uint8_t *sheet, size_t length, uint32_t phase, const zucchinicove_job *jobs, size_t jobs_length,
                      uint16_t *slots, size_t slots_length)
{
    zucchinicove_run_answer answer = zucchinicove_run(sheet, length, phase, jobs, jobs_length, slots, slots_length);
    printf("run: ");
    if (answer.kind == ZUCCHINICOVE_REFUSED) {
        print_refused(answer.refused);
        return;
    }
    if (answer.kind == ZUCCHINICOVE_MET)
        printf("all met\n");
    else
        printf("job %u missed at %u\n", answer.job, answer.at);
    printf("slots");
    for (size_t s = 0; s < slots_length; s++)
        print_entry(slots[s]);
    printf("\n");
}

int main(void)
{
    static const uint8_t fitting[] = {WHOLE, LINE(7, 5, 3), LINE(11, 7, 2), LINE(13, 10, 3), END(4)};
    static const uint8_t overloaded[] = {WHOLE, LINE(7, 5, 3), LINE(11, 7, 3), LINE(13, 10, 4), END(4)};
    static const uint8_t timetable[] = {'S', 'U', 4, 0, 0, 0, 0, 0, 0, 0, 3, 0, 0, LINE(8, 6, 2), END(2)};
    static const uint8_t unlawful[] = {WHOLE, LINE(8, 9, 2), END(2)};
    static const zucchinicove_job shorter[] = {{0, 0, 3}, {1, 0, 2}, {2, 0, 3}, {0, 7, 3}};
    static const zucchinicove_job longer[] = {{0, 0, 3}, {1, 0, 3}, {2, 0, 4}, {0, 7, 3}};
    static const zucchinicove_job single[] = {{0, 0, 2}};
    uint16_t slots[14] = {0};

    printf("three lines\n");
    print_report(fitting, sizeof fitting);
    print_verdict(fitting, sizeof fitting);
    print_run(fitting, sizeof fitting, 0, shorter, 4, slots, 14);

    printf("\nthe same lines with longer jobs\n");
    print_report(overloaded, sizeof overloaded);
    print_verdict(overloaded, sizeof overloaded);
    print_run(overloaded, sizeof overloaded, 0, longer, 4, slots, 14);

    printf("\na line on a timetable, in phase 2\n");
    print_report(timetable, sizeof timetable);
    print_verdict(timetable, sizeof timetable);
    print_run(timetable, sizeof timetable, 2, single, 1, slots, 6);

    printf("\na line whose deadline is past its period\n");
    print_report(unlawful, sizeof unlawful);
    print_verdict(unlawful, sizeof unlawful);
    print_run(unlawful, sizeof unlawful, 0, single, 1, slots, 12);
    return 0;
}

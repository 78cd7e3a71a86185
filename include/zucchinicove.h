/* The admission test for C code: the report on a sheet, its verdict, and the run of a list of jobs on its lines.
 *
 * Every function answers on everything that it may be handed: it ends, reads nothing but the lists that it is lent,
 * writes nothing but the list that it is to fill, and keeps nothing. It does not allocate. docs/EMBEDDING.md says what is
 * promised, and what the caller has to keep; docs/SHEET.md has the format of a sheet, docs/REFUSALS.md the reasons.
 *
 * The archive is built for Linux on x86-64-v2, that is x86-64 with SSE4.2 and POPCNT. On an older processor a call may stop
 * the program with an illegal instruction. */
#ifndef ZUCCHINICOVE_H
#define ZUCCHINICOVE_H

#include <stddef.h>
#include <stdint.h>

#ifdef __cplusplus
extern "C" {
#endif

/* The kind of every answer that is a refusal. */
#define ZUCCHINICOVE_REFUSED 0

/* The other kind of the answer of a report. */
#define ZUCCHINICOVE_WRITTEN 1

/* The other kinds of a verdict. */
#define ZUCCHINICOVE_FITS 1
#define ZUCCHINICOVE_OVERLOADED 2

/* The other kinds of how a run ends. */
#define ZUCCHINICOVE_MET 1
#define ZUCCHINICOVE_MISSED 2

/* The layers that refuse. */
#define ZUCCHINICOVE_LAYER_NONE 0
#define ZUCCHINICOVE_LAYER_SUPPLY 1
#define ZUCCHINICOVE_LAYER_ROSTER 2
#define ZUCCHINICOVE_LAYER_RUN 3
#define ZUCCHINICOVE_LAYER_SHEET 4

/* The entries of a slot list: 0 where the slot is given and no job runs; 1 + the place of the job that runs, from 0; and
 * 65,535 where the slot is not given. From the instant at which a missed run stops, or from the largest deadline on where
 * all is met, every entry is 65,535, also on the whole processor. */
#define ZUCCHINICOVE_SLOT_IDLE 0
#define ZUCCHINICOVE_SLOT_NOT_GIVEN 65535

/* Every report fits a list of this length. */
#define ZUCCHINICOVE_REPORT_ROOM 96

/* Bounds: the longest sheet in bytes, the most jobs of a run, and the last instant at which a job may be due. A slot list of
 * the last length is long enough for every run. */
#define ZUCCHINICOVE_LONGEST_SHEET 16384
#define ZUCCHINICOVE_MOST_JOBS 2048
#define ZUCCHINICOVE_LAST_DEADLINE 32000

/* Why a call is refused. All are 0 where nothing is refused. */
typedef struct zucchinicove_refused {
    uint8_t number;  /* the number of the reason, 1 to 22 */
    uint8_t layer;   /* the layer that refused */
    uint32_t place;  /* a line or a job, from 0; a cite, from 1; or the length needed; 0 where the reason names none */
    uint32_t record; /* the record of the sheet, from 1; 0 where it is not a record that is refused */
    uint32_t byte;   /* the byte at which that record begins, from 0; 0 where it is not a record that is refused */
} zucchinicove_refused;

/* The answer of a report. */
typedef struct zucchinicove_report_answer {
    uint8_t kind;  /* ZUCCHINICOVE_REFUSED or ZUCCHINICOVE_WRITTEN */
    size_t length; /* written: the length of the text, in bytes; else 0 */
    zucchinicove_refused refused;
} zucchinicove_report_answer;

/* A verdict. */
typedef struct zucchinicove_verdict_answer {
    uint8_t kind;      /* ZUCCHINICOVE_REFUSED, ZUCCHINICOVE_FITS or ZUCCHINICOVE_OVERLOADED */
    uint16_t deadline; /* overloaded: the least deadline at which the lines ask for too much; else 0 */
    zucchinicove_refused refused;
} zucchinicove_verdict_answer;

/* How a run ends. */
typedef struct zucchinicove_run_answer {
    uint8_t kind; /* ZUCCHINICOVE_REFUSED, ZUCCHINICOVE_MET or ZUCCHINICOVE_MISSED */
    uint16_t job; /* missed: the place of the job in the list, from 0; else 0 */
    uint16_t at;  /* missed: the instant, which is the job's deadline; else 0 */
    zucchinicove_refused refused;
} zucchinicove_run_answer;

/* A job: its line's number, from 0; the instant of its release; and its cost in slots. */
typedef struct zucchinicove_job {
    uint8_t line;
    uint16_t release;
    uint16_t cost;
} zucchinicove_job;

/* Writes the report on a sheet over the front of out, and leaves what stands behind it. The text has no byte 0 at its end.
 * A refused sheet is reported, too: its text says why. The call itself is refused only where out is too short: number 13,
 * layer sheet, with the length needed as its place; out is then as it was. */
zucchinicove_report_answer zucchinicove_report(const uint8_t *sheet, size_t sheet_length, uint8_t *out, size_t out_length);

/* The verdict on the lines of a sheet. They fit exactly when every list of jobs that may come has, in each phase of the
 * sheet's supply, a schedule that meets every deadline. Else they are overloaded at a deadline. Refused exactly where the
 * sheet is. */
zucchinicove_verdict_answer zucchinicove_verdict(const uint8_t *sheet, size_t sheet_length);

/* Runs a list of jobs of the sheet's lines in a phase of its supply, by earliest deadline first, and fills all of slots: the
 * entries from the stop of a missed run on, or from the largest deadline on where all is met, are 65,535, also on the whole
 * processor. Jobs come in order of release, and a phase past the last stands for its remainder. All met is answered exactly
 * when the slots meet every deadline; missed means that no schedule meets the list in this phase. Refused where the sheet
 * is, with its record and byte; and then, with layer run and record 0, for the jobs (14, 15, 16) and for a slot list shorter
 * than the largest deadline (13, with the length needed as its place). A refusal leaves slots as they were. */
zucchinicove_run_answer zucchinicove_run(const uint8_t *sheet, size_t sheet_length, uint32_t phase,
                                         const zucchinicove_job *jobs, size_t jobs_length,
                                         uint16_t *slots, size_t slots_length);

#ifdef __cplusplus
}
#endif

#endif

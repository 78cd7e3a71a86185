/* Linked around the library with --wrap: every answer is right, but one item is written behind each list that is filled. The
 * test of bad input has to notice it. */
#include "zucchinicove.h"

zucchinicove_report_answer __real_zucchinicove_report(const uint8_t *sheet, size_t sheet_length, uint8_t *out, size_t out_length);

zucchinicove_run_answer __real_zucchinicove_run(const uint8_t *sheet, size_t sheet_length, uint32_t phase,
                                                const zucchinicove_job *jobs, size_t jobs_length,
                                                uint16_t *slots, size_t slots_length);

zucchinicove_report_answer __wrap_zucchinicove_report(const uint8_t *sheet, size_t sheet_length, uint8_t *out, size_t out_length)
{
    if (out != NULL)
        out[out_length] = 0;
    return __real_zucchinicove_report(sheet, sheet_length, out, out_length);
}

zucchinicove_run_answer __wrap_zucchinicove_run(const uint8_t *sheet, size_t sheet_length, uint32_t phase,
                                                const zucchinicove_job *jobs, size_t jobs_length,
                                                uint16_t *slots, size_t slots_length)
{
    if (slots != NULL)
        slots[slots_length] = 0;
    return __real_zucchinicove_run(sheet, sheet_length, phase, jobs, jobs_length, slots, slots_length);
}

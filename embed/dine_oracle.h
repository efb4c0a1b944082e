/*
 * Scripts run and journals audited in memory, for test benches: libdine_oracle.a, also in libdine.so.
 *
 * docs/GUIDE.md of the repository has the formats. Nothing is kept between two calls, and any number of threads may call at
 * once.
 *
 * dine_run_text and dine_audit_text also take a null pointer with length 0. For dine_run and dine_audit themselves no pointer is
 * null, also where a length is 0, and the places that are written to are apart from each other and from what is read.
 */
#ifndef DINE_ORACLE_H
#define DINE_ORACLE_H

#include <stdbool.h>
#include <stddef.h>
#include <stdint.h>

#ifdef __cplusplus
extern "C" {
#endif

/* How it ended. The first four are the exit statuses of the program hygienic. */
enum dine_ended {
    DINE_GOOD = 0,       /* there was nothing to find fault with; a refused call is no fault */
    DINE_WRONG = 1,      /* a reply of the journal is not the table's */
    DINE_FAULT = 2,      /* a line of the text has a fault */
    DINE_GAVE_UP = 3,    /* memory ran out, or the text is longer than 16,777,216 bytes; nothing is written */
    DINE_BAD_LIMITS = 4, /* the limits are out of their ranges; nothing is written */
    DINE_TOO_SHORT = 5  /* the output is longer than `out`; nothing is written but its length */
};

/* Runs a script over a table with these limits. What `hygienic run` writes, or with `journal` what `hygienic run --journal`
   writes, goes to the front of `out`, and its length to `written`. */
uint32_t dine_run(uint32_t tasks, uint32_t conflicts, bool journal, const uint8_t *script, size_t script_length,
                  uint8_t *out, size_t out_length, size_t *written);

/* Audits a journal. What `hygienic audit` writes goes to the front of `out`, and its length to `written`. */
uint32_t dine_audit(const uint8_t *journal, size_t journal_length, uint8_t *out, size_t out_length, size_t *written);

/* ---- the same calls, with null taken for an empty text or place */

static inline uint32_t dine_run_text(uint32_t tasks, uint32_t conflicts, bool journal, const void *script,
                                     size_t script_length, void *out, size_t out_length, size_t *written)
{
    uint8_t none[2] = { 0, 0 };
    size_t unread = 0;
    return dine_run(tasks, conflicts, journal, script ? (const uint8_t *)script : &none[0], script ? script_length : 0,
                    out ? (uint8_t *)out : &none[1], out ? out_length : 0, written ? written : &unread);
}

static inline uint32_t dine_audit_text(const void *journal, size_t journal_length, void *out, size_t out_length,
                                       size_t *written)
{
    uint8_t none[2] = { 0, 0 };
    size_t unread = 0;
    return dine_audit(journal ? (const uint8_t *)journal : &none[0], journal ? journal_length : 0,
                      out ? (uint8_t *)out : &none[1], out ? out_length : 0, written ? written : &unread);
}

#ifdef __cplusplus
}
#endif

#endif

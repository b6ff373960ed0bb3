#include "calls.h"

#include "nelqubat.h"
#include "oracle.h"

const struct calls plain_calls = {
    "plain reader", oracle_start, oracle_step, oracle_run, oracle_save,
    oracle_restore, oracle_forward, oracle_back, oracle_read, oracle_write, oracle_line, oracle_find};

/* Inputs for the fuzzing target can also be looked for on a machine that the
 * library is not built for: the plain reader then stands on both sides. */
#ifdef CALLS_WITHOUT_LIBRARY
const struct calls library_calls = {
    "plain reader once more", oracle_start, oracle_step, oracle_run, oracle_save,
    oracle_restore, oracle_forward, oracle_back, oracle_read, oracle_write, oracle_line, oracle_find};
#else
const struct calls library_calls = {
    "library", nelqubat_start, nelqubat_step, nelqubat_run, nelqubat_save,
    nelqubat_restore, nelqubat_forward, nelqubat_back, nelqubat_read, nelqubat_write, nelqubat_line, nelqubat_find};
#endif

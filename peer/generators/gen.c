#include "gen.h"

#include <stdlib.h>

#include "cases.h"
#include "gen_arguments.h"
#include "gen_dead.h"
#include "gen_faults.h"
#include "gen_limits.h"
#include "gen_numbers.h"
#include "gen_places.h"
#include "gen_random.h"
#include "gen_record.h"
#include "gen_runs.h"

/* What the second version is told again: every so many of the short rules. */
enum { AGAIN_WORDS_MOST = 40, AGAIN_STEP = 4 };

static void write_case_o(struct outlet *out, size_t functions)
{
    struct record record;

    start_record(&record);
    put_case_o(&record.sink, functions);
    end_record(&record, out);
}

static void write_worked_rules(struct outlet *out)
{
    for (size_t i = 0; i < ACCEPTED_CASES; i++)
        write_rule(out, accepted_cases[i].rule);
    for (size_t i = 0; i < REFUSED_CASES; i++)
        write_rule(out, refused_cases[i].rule);
    write_rule(out, accepted_cases[0].rule); /* case N lends less to A */
    write_case_o(out, O_REFUSED_FUNCTIONS);
    write_case_o(out, O_ACCEPTED_FUNCTIONS);
}

static void write_rules(struct outlet *out)
{
    write_worked_rules(out);
    write_faults(out);
    write_places(out);
    write_dead_arms(out);
    write_limits(out);
    write_arguments(out);
    write_runs(out);
    write_random_rules(out);
}

/* All of the first version, then the second's: a share of these, and more. */
int generate_corpus(FILE *out)
{
    struct outlet first = outlet_for_all(out, VERSION_1);
    struct outlet again =
        outlet_for_some(out, VERSION_2, AGAIN_WORDS_MOST, AGAIN_STEP);
    struct outlet second = outlet_for_all(out, VERSION_2);

    write_rules(&first);
    write_rules(&again);
    write_numbers(out);
    write_number_places(&second);
    write_random_numbers(&second);
    return ferror(out) ? EXIT_FAILURE : EXIT_SUCCESS;
}

#include "gen_arms.h"

#include <assert.h>

#include "gen_record.h"

static bool is_made(const struct arms *arms, struct arm arm)
{
    for (size_t i = 0; i < arms->count; i++)
        if (arms->made[i].tag == arm.tag && arms->made[i].arity == arm.arity)
            return true;
    return false;
}

/* Steps past the fitting tags, so that an arm for one is never in the way. */
static struct arm living_arm(const struct arms *arms, struct arm arm)
{
    while (is_made(arms, arm))
        arm.tag = (arm.tag + FITTING_TAGS) % (LOW_BYTE_MOST + 1);
    return arm;
}

void begin_arm(struct maker *maker, struct arms *arms, struct arm wanted)
{
    bool dead = maker->dead_odds > 0 && arms->count > 0 &&
                one_in(maker, maker->dead_odds);
    struct arm arm = dead ? arms->made[below(maker, arms->count)]
                          : living_arm(arms, wanted);

    assert(arms->count < MADE_ARMS_MOST);
    arms->made[arms->count++] = arm;
    put_two(maker->sink, KIND_ARM, arm.tag, arm.arity);
    bind_variables(maker, DATA, arm.arity);
}

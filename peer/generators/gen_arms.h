/* The arms of a random match, no two of one tag and one arity unless asked. */
#ifndef PEER_GEN_ARMS_H
#define PEER_GEN_ARMS_H

#include "maker.h"

/* One arm more than a match may have is made as well. */
enum { MADE_ARMS_MOST = ARMS_MOST + 1 };

struct arm {
    size_t tag;
    size_t arity;
};

/* Those of one match that stand before the next. */
struct arms {
    size_t count;
    struct arm made[MADE_ARMS_MOST];
};

/*
 * Puts an arm's two words and binds its variables. The tag is another than
 * the one wanted where the arm would be dead; with dead odds, the arm is now
 * and then made dead.
 */
void begin_arm(struct maker *maker, struct arms *arms, struct arm wanted);

#endif

/* The comparison of both controllers. */
#ifndef COMPARE_H
#define COMPARE_H

#include "proved.h"

/* a call on the controller in plain C, with its answer */
struct answer make_call(struct controller *c, const struct call *call);

/* compares them, says how it went, and answers whether they agree */
bool controllers_agree(void);

#endif

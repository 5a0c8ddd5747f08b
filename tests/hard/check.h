/* Makes a call to the card and to the second program and holds the one to the other and to some laws. */

#ifndef CHECK_H
#define CHECK_H

#include "call.h"

/* Leaves the table as the call leaves it, and returns what came of the call. A difference is reported and ends all. */
const struct outcome *check_call(const struct call *call, struct table *table);

#endif

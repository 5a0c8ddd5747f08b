/* A list of calls on one table, decoded from a source. */

#ifndef DECODE_H
#define DECODE_H

#include "call.h"
#include "source.h"

/* The table that a list begins with. */
void decode_table(struct source *source, struct table *table);

/* The next call. Before it, the table's owner may write to the table whatever he likes. Returns 0 where the source is
   dry. */
int decode_call(struct source *source, struct table *table, struct call *call);

/* The arguments of a call whose kind is set. */
void decode_arguments(struct source *source, const struct table *table, struct call *call);

#endif

/* Texts of key records and of sheets, good and damaged as office tools and people damage them. */

#ifndef TEXT_H
#define TEXT_H

#include "call.h"
#include "source.h"

/* A record, followed by nothing or by anything. */
void text_record(struct source *source, struct bytes *text);

/* None to 40 records. */
void text_sheet(struct source *source, struct bytes *text);

#endif

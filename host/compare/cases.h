/* Random cases for the comparison, each from one throw of the dice. */
#ifndef CASES_H
#define CASES_H

#include "generate.h"
#include "script.h"

/* How many inputs of each sort were made. */
struct tally {
    unsigned long sessions, handles, images, records, damaged;
};

/* A session cut into pieces, true or damaged, then its table saved, resumed
 * and listed. */
void make_session_case(struct dice *d, bool damaged, struct script *s, struct tally *t);

/* The same, read by runs and steps in turn, and now and then by steps alone. */
void make_run_case(struct dice *d, bool damaged, struct script *s, struct tally *t);

/* Any handle and table, then calls of every function that takes them. */
void make_handle_case(struct dice *d, bool damaged, struct script *s, struct tally *t);

/* A quote to a row in any state, whole or cut into pieces; where damaged, the
 * row's state or tradable is a byte outside its list. */
void make_quote_case(struct dice *d, bool damaged, struct script *s, struct tally *t);

/* Quotes and a purge of a row whose sides were set at any times, and the table saved;
 * where damaged, one of those times breaks its rule. */
void make_time_case(struct dice *d, bool damaged, struct script *s, struct tally *t);

/* A table with a true index, or where damaged a false one, and calls that search
 * it. */
void make_index_case(struct dice *d, bool damaged, struct script *s, struct tally *t);

/* An image restored, then stepped on from, saved and listed. */
void make_image_case(struct dice *d, bool damaged, struct script *s, struct tally *t);

/* An image moved both ways, then moved there and back and restored from both versions. */
void make_move_case(struct dice *d, bool damaged, struct script *s, struct tally *t);

/* Sixteen messages or records, read and written. */
void make_record_case(struct dice *d, bool damaged, struct script *s, struct tally *t);

#endif

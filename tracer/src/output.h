/* output.h: the text of this process. */
#ifndef MPIMATCH_OUTPUT_H
#define MPIMATCH_OUTPUT_H

#include "line.h"

/* Opens the text; false where that can't be done, and the program then runs untraced. */
int output_opens(void);
int output_is_open(void);
/* MPI_COMM_WORLD is there: the text gets the name of its rank. */
void output_has_rank(void);
/* Not for two threads at once. */
void output_write(struct lines *lines);
/* The text ends here, and the program goes on; why is said once on standard error. */
void output_ends(const char *why);

#endif

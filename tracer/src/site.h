/* site.h: where in the program a call stands. */
#ifndef MPIMATCH_SITE_H
#define MPIMATCH_SITE_H

/* The parameter `caller` of a call that returns to this address. */
void put_site(const void *address);

#endif

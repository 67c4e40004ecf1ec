/* symbol.h: the function at an address of a file. */
#ifndef MPIMATCH_SYMBOL_H
#define MPIMATCH_SYMBOL_H

#include <stddef.h>

/* The name of the function whose code has this address, as the file counts addresses; false where the file doesn't say. */
int symbol_at(const char *path, unsigned long address, char *name, size_t room);

#endif

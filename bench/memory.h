/* What memory a caller lends. */
#ifndef MEMORY_H
#define MEMORY_H

void tell_memory(void);

#endif

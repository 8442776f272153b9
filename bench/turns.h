/* Old stores, of 16 bits, turned into new ones. */
#ifndef TURNS_H
#define TURNS_H

void tell_turns(void);

#endif

/* Joins, and beside them BuDDy's where it is there. */
#ifndef JOINS_H
#define JOINS_H

void tell_joins(void);

#endif

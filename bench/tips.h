/* Tipping points of roots, and beside them the evaluations of the same roots. */
#ifndef TIPS_H
#define TIPS_H

void tell_tips(void);

#endif

/* Examples of roots, and beside them the evaluations of the same roots. */
#ifndef EXAMPLES_H
#define EXAMPLES_H

void tell_examples(void);

#endif

/* The goals of the benchmark. A goal keeps its worst value, and where it was seen. */
#ifndef GOALS_H
#define GOALS_H

enum {
    LOAD_GOAL, EXPORT_GOAL, CHECK_GOAL, WALK_GOAL, GROWTH_GOAL, SCALE_GOAL, HOSTILE_GOAL, WITHOUT_GOAL, LOAD_STACK, EXPORT_STACK, EVALUATE_STACK,
    JOIN_GOAL, JOIN_GROWTH, JOIN_WITHOUT, JOIN_STACK, EXAMPLE_GOAL, EXAMPLE_STACK, TIP_GOAL, TIP_STACK, TURN_STACK,
    GOALS
};

/* A value that was measured for a goal. */
void note(int goal, double value, const char *what, const char *name);

void tell_goals(void);

#endif

#include "goals.h"

#include <stddef.h>
#include <stdio.h>

struct goal {
    const char *what;
    double limit;
    int at_least;
    double worst;
    char where[80];
    int seen;
};

static struct goal goals[GOALS] = {
    {"load at least twice as fast as the Rust", 2, 1, 0, "", 0},
    {"export at least twice as fast as the Rust", 2, 1, 0, "", 0},
    {"the check of 32,000 nodes in at most 12 ns a node", 12, 0, 0, "", 0},
    {"the walk of an evaluation at least as fast as the Rust's", 1, 1, 0, "", 0},
    {"eightfold work in at most tenfold time", 10, 0, 0, "", 0},
    {"eightfold work in at most tenfold time, up to 1,000,000 nodes", 10, 0, 0, "", 0},
    {"a hostile file within twenty times an ordinary one of its size", 20, 0, 0, "", 0},
    {"without work, an ordinary file of up to 32,000 nodes within three times the time with it", 3, 0, 0, "", 0},
    {"a load on at most 64 KB of stack", 64, 0, 0, "", 0},
    {"an export on at most 48 KB", 48, 0, 0, "", 0},
    {"an evaluation on at most 16 KB", 16, 0, 0, "", 0},
    {"a join at least as fast as BuDDy's, the check of the store apart", 1, 1, 0, "", 0},
    {"eightfold work of a join in at most tenfold time", 10, 0, 0, "", 0},
    {"a join of plans of sixty levels with no cache lent in at most 10 ms", 10, 0, 0, "", 0},
    {"a join on at most 128 KB of stack", 128, 0, 0, "", 0},
    {"the walk of an example within twice the time of an evaluation's, per level", 2, 0, 0, "", 0},
    {"an example on at most 16 KB of stack", 16, 0, 0, "", 0},
    {"a tipping point down 4,096 levels at least ten times as fast as a walk for each level, with work", 10, 1, 0, "", 0},
    {"a tipping point on at most 16 KB of stack", 16, 0, 0, "", 0},
    {"a turn on at most 16 KB", 16, 0, 0, "", 0},
};

void note(int goal, double value, const char *what, const char *name)
{
    struct goal *g = &goals[goal];

    if (g->seen && (g->at_least ? value >= g->worst : value <= g->worst))
        return;
    g->worst = value;
    g->seen = 1;
    snprintf(g->where, sizeof g->where, "%s, %s", what, name);
}

void tell_goals(void)
{
    size_t i;

    printf("\nGoals\n");
    for (i = 0; i < GOALS; i++) {
        const struct goal *g = &goals[i];

        if (!g->seen)
            printf("  not measured  %s\n", g->what);
        else
            printf("  %-12s  %s: at worst %.2f (%s)\n", (g->at_least ? g->worst >= g->limit : g->worst <= g->limit) ? "met" : "MISSED",
                g->what, g->worst, g->where);
    }
}

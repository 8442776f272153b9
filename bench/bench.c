/*
 * Measures Zonetweed, and beside it the Rust module over its stand-in manager, on the same generated files:
 *
 *     bench ARCHIVE [LIBRARY]
 *     bench joins
 *     bench examples
 *     bench tips
 *     bench once load|export|check text|binary NODES
 *
 * ARCHIVE is Zonetweed's archive, of which only the size is taken: the program is linked with it. LIBRARY is the Rust's half, as
 * bench/rust/build makes it; without it Zonetweed is measured alone. The second form measures joins only, the third examples only, the
 * fourth tipping points only. The fifth makes one call, under the function `once`, for a profile.
 *
 * A time is the median of several runs. The runs of what is compared take turns, so that what else happens on the machine meets all of
 * them. Each run makes a call as often as takes some milliseconds. Emptying a store and opening a manager aren't timed. The clock is the
 * wall's, or where the environment has CLOCK=cpu the processor's, which stands while another program has the core.
 *
 * The status is 0 also where a goal is missed. It is 1 where the two sides disagree about a file.
 */
#define _POSIX_C_SOURCE 200809L

#include <stdio.h>
#include <stdlib.h>
#include <string.h>
#include <sys/stat.h>

#include "examples.h"
#include "goals.h"
#include "joins.h"
#include "memory.h"
#include "ours.h"
#include "plans.h"
#include "rust.h"
#include "stack.h"
#include "timing.h"
#include "tips.h"
#include "turns.h"
#include "zonetweed.h"

enum { SETTINGS = 64, TEXT = 1, BINARY = 0 };

static struct rust rust;
static int with_rust;

/* A diagram, its files, and both sides with it loaded. */
struct subject {
    char name[32];
    uint16_t levels;
    size_t nodes;
    struct file files[2]; /* BINARY, TEXT */
    struct file source;   /* what was loaded first; the names stand there */
    struct ours ours;
    struct side *theirs;
    uint8_t *settings;
    zt_edge *roots;
    size_t nroots;
};

static void disagree(const struct subject *s, const char *about)
{
    fflush(stdout);
    fprintf(stderr, "bench: the sides disagree about %s: %s\n", s->name, about);
    exit(1);
}

/* A file that is loaded into both sides, where its diagram is, gives the same roots and no new node. */
static void load_back(struct subject *s, const uint8_t *file, size_t len)
{
    size_t i, count = s->ours.count;

    if (ours_load(&s->ours, file, len) != 0)
        disagree(s, "Zonetweed refuses the file");
    if (s->ours.count != count || s->ours.nroots != s->nroots)
        disagree(s, "Zonetweed has other nodes");
    if (memcmp(s->ours.roots, s->roots, s->nroots * sizeof *s->roots) != 0)
        disagree(s, "Zonetweed has other roots");
    if (!with_rust)
        return;
    if (rust.load(s->theirs, file, len) != 1)
        disagree(s, "the Rust refuses the file");
    if (rust.count(s->theirs) != count || rust.root_count(s->theirs) != s->nroots)
        disagree(s, "the Rust has other nodes");
    for (i = 0; i < s->nroots; i++)
        if (rust.root(s->theirs, i) != s->roots[i])
            disagree(s, "the Rust has other roots");
}

static void same_answers(const struct subject *s)
{
    size_t i, k;

    for (i = 0; i < s->nroots; i++)
        for (k = 0; k < 4; k++) {
            const uint8_t *setting = s->settings + (i + k) % SETTINGS * s->levels;

            if (rust.evaluate(s->theirs, i, setting, s->levels) != ours_evaluate(&s->ours, s->roots[i], setting))
                disagree(s, "an answer");
        }
}

static struct subject subject_of(const char *name, struct plan plan)
{
    struct subject s;
    uint64_t state = 0x5e771;
    size_t i;

    memset(&s, 0, sizeof s);
    snprintf(s.name, sizeof s.name, "%s", name);
    s.levels = plan.levels;
    s.nodes = plan.count;
    s.source = text_file(&plan);
    s.ours = ours_open(s.levels, s.nodes, s.nodes);
    if (ours_load(&s.ours, s.source.bytes, s.source.len) != 0)
        give_up("a generated file is refused");
    if (s.ours.count != s.nodes)
        give_up("a generated file has nodes that are alike");
    s.nroots = s.ours.nroots;
    s.roots = room_for(s.nroots, sizeof *s.roots);
    memcpy(s.roots, s.ours.roots, s.nroots * sizeof *s.roots);
    ours_take_names(&s.ours, s.source.bytes, s.source.len);
    s.files[TEXT] = file_of(s.ours.out, ours_export(&s.ours, TEXT));
    s.files[BINARY] = file_of(s.ours.out, ours_export(&s.ours, BINARY));
    s.settings = room_for(SETTINGS * (size_t)s.levels, 1);
    for (i = 0; i < SETTINGS * (size_t)s.levels; i++)
        s.settings[i] = draw(&state) % 2;
    if (with_rust) {
        s.theirs = rust.open(s.levels, (uint32_t)s.nodes);
        if (rust.load(s.theirs, s.source.bytes, s.source.len) != 1)
            disagree(&s, "the Rust refuses the generated file");
        rust.take_names(s.theirs);
        same_answers(&s);
        for (i = 0; i < 2; i++) {
            size_t len = rust.export(s.theirs, (uint8_t)i);
            struct file f = file_of(rust.exported(s.theirs), len);

            load_back(&s, f.bytes, f.len);
            drop_file(&f);
        }
    }
    for (i = 0; i < 2; i++)
        load_back(&s, s.files[i].bytes, s.files[i].len);
    /* the names are those of the first file again */
    if (ours_load(&s.ours, s.source.bytes, s.source.len) != 0)
        give_up("a generated file is refused");
    drop_plan(&plan);
    return s;
}

static void drop_subject(struct subject *s)
{
    drop_file(&s->files[0]);
    drop_file(&s->files[1]);
    drop_file(&s->source);
    ours_close(&s->ours);
    if (with_rust)
        rust.close(s->theirs);
    free(s->settings);
    free(s->roots);
}

/* A load into an empty store or manager. */
struct loading {
    const struct file *file;
    struct ours ours;
    uint16_t levels;
    uint32_t slots;
    struct side *theirs;
};

static void empty_ours(void *with)
{
    ours_clear(&((struct loading *)with)->ours);
}

static void load_ours(void *with)
{
    struct loading *l = with;

    if (ours_load(&l->ours, l->file->bytes, l->file->len) != 0)
        give_up("a file is refused");
}

static void open_theirs(void *with)
{
    struct loading *l = with;

    l->theirs = rust.open(l->levels, l->slots);
}

static void load_theirs(void *with)
{
    struct loading *l = with;

    if (rust.load(l->theirs, l->file->bytes, l->file->len) != 1)
        give_up("the Rust refuses a file");
}

static void close_theirs(void *with)
{
    rust.close(((struct loading *)with)->theirs);
}

static struct loading loading_of(const struct file *file, uint16_t levels, size_t nodes)
{
    struct loading l;

    l.file = file;
    l.ours = ours_open(levels, nodes, nodes);
    l.levels = levels;
    l.slots = (uint32_t)nodes;
    l.theirs = NULL;
    return l;
}

static void time_load(const struct file *file, uint16_t levels, size_t nodes, double *medians)
{
    struct loading l = loading_of(file, levels, nodes);
    struct task tasks[2] = {{empty_ours, load_ours, NULL, NULL}, {open_theirs, load_theirs, close_theirs, NULL}};

    tasks[0].with = tasks[1].with = &l;
    measure(tasks, with_rust ? 2 : 1, medians);
    ours_close(&l.ours);
}

/* An export of all roots. */
struct exporting {
    struct subject *subject;
    uint8_t text;
};

static void export_ours(void *with)
{
    struct exporting *e = with;

    ours_export(&e->subject->ours, e->text);
}

static void export_theirs(void *with)
{
    struct exporting *e = with;

    if (rust.export(e->subject->theirs, e->text) == 0)
        give_up("the Rust refuses an export");
}

static void time_export(struct subject *s, uint8_t text, double *medians)
{
    struct exporting e;
    struct task tasks[2] = {{NULL, export_ours, NULL, NULL}, {NULL, export_theirs, NULL, NULL}};

    e.subject = s;
    e.text = text;
    tasks[0].with = tasks[1].with = &e;
    measure(tasks, with_rust ? 2 : 1, medians);
}

/* Evaluations: the roots and the settings take turns. */
struct evaluating {
    const struct subject *subject;
    const struct ours *ours;
    size_t turn;
    unsigned answers;
};

static struct evaluating evaluations_of(const struct subject *s, const struct ours *ours)
{
    struct evaluating e = {NULL, NULL, 0, 0};

    e.subject = s;
    e.ours = ours;
    return e;
}

static const uint8_t *setting_of(const struct evaluating *e)
{
    return e->subject->settings + e->turn % SETTINGS * e->subject->levels;
}

static void evaluate_ours(void *with)
{
    struct evaluating *e = with;

    e->answers += (unsigned)ours_evaluate(e->ours, e->subject->roots[e->turn % e->subject->nroots], setting_of(e));
    e->turn++;
}

/* Node 1 needs no walk: this is the check of the store, and of the setting. */
static void check_ours(void *with)
{
    struct evaluating *e = with;

    e->answers += (unsigned)ours_evaluate(e->ours, 1, setting_of(e));
    e->turn++;
}

static void evaluate_theirs(void *with)
{
    struct evaluating *e = with;

    e->answers += rust.evaluate(e->subject->theirs, e->turn % e->subject->nroots, setting_of(e), e->subject->levels);
    e->turn++;
}

/* medians: the whole call, the check, the Rust's walk. Answers Zonetweed's walk: the median of the runs' differences. */
static double time_evaluation(const struct subject *s, double *medians)
{
    struct evaluating e[3];
    struct task tasks[3] = {{NULL, evaluate_ours, NULL, NULL}, {NULL, check_ours, NULL, NULL}, {NULL, evaluate_theirs, NULL, NULL}};
    size_t i;

    for (i = 0; i < 3; i++) {
        e[i] = evaluations_of(s, &s->ours);
        tasks[i].with = &e[i];
    }
    return difference(0, 1, measure(tasks, with_rust ? 3 : 2, medians));
}

/* Tables. Times are in microseconds, MB are 1,000,000 bytes of the file. */
static void speed_heads(const char *title)
{
    printf("\n%s\n  %-14s %-6s %8s %11s %7s", title, "file", "mode", "bytes", "us", "MB/s");
    if (with_rust)
        printf(" %11s %7s %6s", "Rust's us", "MB/s", "ratio");
    printf("\n");
}

static void speed_row(const struct subject *s, int text, const double *medians)
{
    double bytes = (double)s->files[text].len;

    printf("  %-14s %-6s %8zu %11.1f %7.1f", s->name, text ? "text" : "binary", s->files[text].len, medians[0] * 1e6,
        bytes / medians[0] / 1e6);
    if (with_rust)
        printf(" %11.1f %7.1f %6.2f", medians[1] * 1e6, bytes / medians[1] / 1e6, medians[1] / medians[0]);
    printf("\n");
    fflush(stdout);
}

enum { SMALL = 2, LARGE = 4, LARGER = 6, LARGEST = 7, SITE = 8, LARGE_SITE = 9, SUBJECTS = 10 };

/* An ordinary diagram, or where there are zones the plan of a site. */
static const struct kind {
    const char *name;
    uint16_t levels;
    size_t nodes;
    struct site site;
} kinds[SUBJECTS] = {
    {"100", 24, 100, {0, 0, 0, 0}},
    {"1,000", 32, 1000, {0, 0, 0, 0}},
    {"4,000", 48, 4000, {0, 0, 0, 0}},
    {"10,000", 56, 10000, {0, 0, 0, 0}},
    {"32,000", 64, 32000, {0, 0, 0, 0}},
    {"32,000 deep", 4096, 32000, {0, 0, 0, 0}},
    {"125,000", 128, 125000, {0, 0, 0, 0}},
    {"1,000,000", 256, 1000000, {0, 0, 0, 0}},
    {"site 125,000", 0, 0, {32, 64, 16, 8}},
    {"site 1,000,000", 0, 0, {64, 64, 22, 32}},
};

static struct plan plan_of(const struct kind *k, uint64_t seed)
{
    return k->site.zones == 0 ? random_plan(k->levels, k->nodes, seed) : site_plan(&k->site);
}

static struct subject subjects[SUBJECTS];

static void tell_loads(void)
{
    size_t i;
    int text;

    speed_heads("Load: a file into an empty store that has just the slots it needs");
    for (i = 0; i < SUBJECTS; i++)
        for (text = 1; text >= 0; text--) {
            double medians[2];

            time_load(&subjects[i].files[text], subjects[i].levels, subjects[i].nodes, medians);
            speed_row(&subjects[i], text, medians);
            if (with_rust)
                note(LOAD_GOAL, medians[1] / medians[0], text ? "text" : "binary", subjects[i].name);
        }
}

static void tell_exports(void)
{
    size_t i;
    int text;

    speed_heads("Export: all roots");
    for (i = 0; i < SUBJECTS; i++)
        for (text = 1; text >= 0; text--) {
            double medians[2];

            time_export(&subjects[i], (uint8_t)text, medians);
            speed_row(&subjects[i], text, medians);
            if (with_rust)
                note(EXPORT_GOAL, medians[1] / medians[0], text ? "text" : "binary", subjects[i].name);
        }
}

static void tell_evaluations(void)
{
    size_t i;

    printf("\nEvaluate: one root at one setting; each call checks the store\n  %-14s %11s %11s %12s", "store", "call us", "check us",
        "check ns/node");
    if (with_rust)
        printf(" %11s", "Rust's us");
    printf("\n");
    for (i = 0; i < SUBJECTS; i++) {
        double medians[3];

        time_evaluation(&subjects[i], medians);
        printf("  %-14s %11.2f %11.2f %12.1f", subjects[i].name, medians[0] * 1e6, medians[1] * 1e6,
            medians[1] * 1e9 / (double)subjects[i].nodes);
        if (with_rust)
            printf(" %11.3f", medians[2] * 1e6);
        printf("\n");
        fflush(stdout);
        if (subjects[i].nodes == kinds[LARGE].nodes)
            note(CHECK_GOAL, medians[1] * 1e9 / (double)subjects[i].nodes, "check", subjects[i].name);
    }
}

/* The check of a few nodes in many slots, with work for so many nodes: it looks at the free slots too, and clears the work. */
static void slots_row(size_t slots, size_t nodes)
{
    const struct subject *s = &subjects[0];
    struct ours wide = ours_open(s->levels, slots, s->nodes);
    struct evaluating e = evaluations_of(s, &wide);
    struct task task = {NULL, check_ours, NULL, NULL};
    double medians[1];

    if (ours_load(&wide, s->files[TEXT].bytes, s->files[TEXT].len) != 0)
        give_up("a file is refused");
    wide.work_len = ZT_WORK_ENTRIES(nodes);
    task.with = &e;
    measure(&task, 1, medians);
    printf("  %-14s %11s %11.2f   (100 nodes in %zu slots, with work for %zu)\n", "100", "", medians[0] * 1e6, slots, nodes);
    ours_close(&wide);
}

static void tell_slots(void)
{
    slots_row(32767, 100);
    slots_row(32767, 32767);
    slots_row(ZT_MOST_NODES, 100);
    slots_row(ZT_MOST_NODES, ZT_MOST_NODES);
}

static void tell_walks(void)
{
    static const uint16_t levels[] = {64, 4096};
    size_t i;

    printf("\nWalk of an evaluation: the call without the check, down a diagram whose every setting leads through all levels\n");
    printf("  %-14s %11s %11s", "levels", "us", "ns/level");
    if (with_rust)
        printf(" %11s %11s %6s", "Rust's us", "ns/level", "ratio");
    printf("\n");
    for (i = 0; i < sizeof levels / sizeof *levels; i++) {
        struct subject s = subject_of(i == 0 ? "64 levels" : "4,096 levels", parity_plan(levels[i]));
        double medians[3], walk = time_evaluation(&s, medians);

        printf("  %-14u %11.3f %11.2f", levels[i], walk * 1e6, walk * 1e9 / levels[i]);
        if (with_rust) {
            printf(" %11.3f %11.2f %6.2f", medians[2] * 1e6, medians[2] * 1e9 / levels[i], medians[2] / walk);
            note(WALK_GOAL, medians[2] / walk, "parity", s.name);
        }
        printf("\n");
        fflush(stdout);
        drop_subject(&s);
    }
}

/* Tasks of one kind that take turns inside a run, so that no call meets what the last one left in the machine's memory of branches. */
enum { TURNS = 8 };

struct turns {
    struct task tasks[TURNS];
    size_t turn;
};

static void before_turn(void *with)
{
    struct turns *t = with;

    if (t->tasks[t->turn].before != NULL)
        t->tasks[t->turn].before(t->tasks[t->turn].with);
}

static void run_turn(void *with)
{
    struct turns *t = with;

    t->tasks[t->turn].run(t->tasks[t->turn].with);
    t->turn = (t->turn + 1) % TURNS;
}

/* The subjects of growth: eight small ones and a large one. */
struct growth {
    int goal;
    char sizes[48];
    struct subject smalls[TURNS];
    struct subject *large;
};

static void growth_row(const char *what, const struct growth *g, struct turns *small, const struct task *large)
{
    struct task tasks[2] = {{before_turn, run_turn, NULL, NULL}, {NULL, NULL, NULL, NULL}};
    double medians[2];

    small->turn = 0;
    tasks[0].with = small;
    tasks[1] = *large;
    measure(tasks, 2, medians);
    printf("  %-14s %11.1f %11.1f %8.2f\n", what, medians[0] * 1e6, medians[1] * 1e6, medians[1] / medians[0]);
    fflush(stdout);
    note(g->goal, medians[1] / medians[0], what, g->sizes);
}


static struct subject *growing(struct growth *g, size_t i)
{
    return i < TURNS ? &g->smalls[i] : g->large;
}

static void growth_of_loads(struct growth *g, int text)
{
    struct turns turns;
    struct task large;
    struct loading l[TURNS + 1];
    size_t i;

    for (i = 0; i <= TURNS; i++) {
        const struct subject *s = growing(g, i);
        struct task task = {empty_ours, load_ours, NULL, NULL};

        l[i] = loading_of(&s->files[text], s->levels, s->nodes);
        task.with = &l[i];
        *(i < TURNS ? &turns.tasks[i] : &large) = task;
    }
    growth_row(text ? "load text" : "load binary", g, &turns, &large);
    for (i = 0; i <= TURNS; i++)
        ours_close(&l[i].ours);
}

static void growth_of_exports(struct growth *g, int text)
{
    struct turns turns;
    struct task large;
    struct exporting e[TURNS + 1];
    size_t i;

    for (i = 0; i <= TURNS; i++) {
        struct task task = {NULL, export_ours, NULL, NULL};

        e[i].subject = growing(g, i);
        e[i].text = (uint8_t)text;
        task.with = &e[i];
        *(i < TURNS ? &turns.tasks[i] : &large) = task;
    }
    growth_row(text ? "export text" : "export binary", g, &turns, &large);
}

static void growth_of_check(struct growth *g)
{
    struct turns turns;
    struct task large;
    struct evaluating e[TURNS + 1];
    size_t i;

    for (i = 0; i <= TURNS; i++) {
        const struct subject *s = growing(g, i);
        struct task task = {NULL, check_ours, NULL, NULL};

        e[i] = evaluations_of(s, &s->ours);
        task.with = &e[i];
        *(i < TURNS ? &turns.tasks[i] : &large) = task;
    }
    growth_row("check", g, &turns, &large);
}

static void growth_between(int goal, size_t small, size_t large)
{
    struct growth g;
    size_t i;

    g.goal = goal;
    snprintf(g.sizes, sizeof g.sizes, "%s to %s nodes", kinds[small].name, kinds[large].name);
    printf("  %s\n", g.sizes);
    for (i = 0; i < TURNS; i++)
        g.smalls[i] = subject_of(kinds[small].name, plan_of(&kinds[small], i));
    g.large = &subjects[large];
    growth_of_loads(&g, TEXT);
    growth_of_loads(&g, BINARY);
    growth_of_exports(&g, TEXT);
    growth_of_exports(&g, BINARY);
    growth_of_check(&g);
    for (i = 0; i < TURNS; i++)
        drop_subject(&g.smalls[i]);
}

static void tell_growth(void)
{
    printf("\nGrowth: eight small files in turn, each call, and a large one with eight times the nodes\n  %-14s %11s %11s %8s\n", "", "small us",
        "large us", "times");
    growth_between(GROWTH_GOAL, SMALL, LARGE);
    growth_between(SCALE_GOAL, LARGER, LARGEST);
    growth_between(SCALE_GOAL, SITE, LARGE_SITE);
}

/* Two tasks side by side, in microseconds and as a ratio. */
static double compare(const char *name, const char *what, struct task first, struct task second)
{
    struct task tasks[2];
    double medians[2];

    tasks[0] = first;
    tasks[1] = second;
    measure(tasks, 2, medians);
    printf("  %-14s %-30s %11.1f %11.1f %8.2f\n", name, what, medians[0] * 1e6, medians[1] * 1e6, medians[0] / medians[1]);
    fflush(stdout);
    return medians[0] / medians[1];
}

static void hostile_row(const char *name, const char *what, struct task hostile, struct task ordinary, int with_work)
{
    double times = compare(name, what, hostile, ordinary);

    if (with_work)
        note(HOSTILE_GOAL, times, what, name);
}

/*
 * Loads of a hostile file and the check of its store, against an ordinary subject with as many lines, both with work or both without. The
 * last `again` are repeated.
 */
static void tell_hostile_file(struct subject *s, size_t again, int with_work)
{
    size_t enough = s->ours.work_len;
    struct plan plan = hostile_plan(s->nodes, again);
    struct file file = {NULL, 0, 0};
    struct subject settings;
    struct loading l, ordinary;
    struct evaluating e, ordinary_e;
    struct task loads[2] = {{empty_ours, load_ours, NULL, NULL}, {empty_ours, load_ours, NULL, NULL}};
    struct task checks[2] = {{NULL, check_ours, NULL, NULL}, {NULL, check_ours, NULL, NULL}};
    char what[32];
    int text;

    l = loading_of(&file, plan.levels, plan.count);
    ordinary = loading_of(NULL, s->levels, s->nodes);
    loads[0].with = &l;
    loads[1].with = &ordinary;
    if (!with_work)
        l.ours.work_len = ordinary.ours.work_len = s->ours.work_len = 0;
    for (text = 1; text >= 0; text--) {
        drop_file(&file);
        file = text ? text_file(&plan) : binary_file(&plan);
        ordinary.file = &s->files[text];
        snprintf(what, sizeof what, "load %s%s", text ? "text" : "binary", again == 0 ? "" : ", half repeated");
        hostile_row(s->name, what, loads[0], loads[1], with_work);
    }
    memset(&settings, 0, sizeof settings);
    settings.levels = plan.levels;
    settings.settings = room_for(SETTINGS * (size_t)plan.levels, 1);
    e = evaluations_of(&settings, &l.ours);
    ordinary_e = evaluations_of(s, &s->ours);
    checks[0].with = &e;
    checks[1].with = &ordinary_e;
    if (again == 0)
        hostile_row(s->name, "check of its store", checks[0], checks[1], with_work);
    free(settings.settings);
    drop_file(&file);
    drop_plan(&plan);
    ours_close(&l.ours);
    ours_close(&ordinary.ours);
    s->ours.work_len = enough;
}

static void tell_hostile(void)
{
    printf("\nHostile: a file whose nodes fall into one bucket over few children, against the ordinary one with as many lines\n");
    printf("  %-14s %-30s %11s %11s %8s\n", "lines", "", "us", "ordinary us", "times");
    tell_hostile_file(&subjects[SMALL], 0, 1);
    tell_hostile_file(&subjects[LARGE], 0, 1);
    tell_hostile_file(&subjects[LARGE], subjects[LARGE].nodes / 2, 1);
    tell_hostile_file(&subjects[LARGER], 0, 1);
    tell_hostile_file(&subjects[LARGEST], 0, 1);
    tell_hostile_file(&subjects[LARGEST], subjects[LARGEST].nodes / 2, 1);
    printf("  without work, both\n");
    tell_hostile_file(&subjects[SMALL], 0, 0);
    tell_hostile_file(&subjects[LARGE], 0, 0);
    tell_hostile_file(&subjects[LARGE], subjects[LARGE].nodes / 2, 0);
}

static void without_row(const struct subject *s, const char *what, struct task without, struct task with)
{
    double times = compare(s->name, what, without, with);

    if (s->nodes <= kinds[LARGE].nodes)
        note(WITHOUT_GOAL, times, what, s->name);
}

static void load_without(const struct subject *s, int text)
{
    struct loading without = loading_of(&s->files[text], s->levels, s->nodes), with = loading_of(&s->files[text], s->levels, s->nodes);
    struct task tasks[2] = {{empty_ours, load_ours, NULL, NULL}, {empty_ours, load_ours, NULL, NULL}};

    without.ours.work_len = 0;
    tasks[0].with = &without;
    tasks[1].with = &with;
    without_row(s, text ? "load text" : "load binary", tasks[0], tasks[1]);
    ours_close(&without.ours);
    ours_close(&with.ours);
}

static void check_without(const struct subject *s)
{
    struct ours none = s->ours;
    struct evaluating without = evaluations_of(s, &none), with = evaluations_of(s, &s->ours);
    struct task tasks[2] = {{NULL, check_ours, NULL, NULL}, {NULL, check_ours, NULL, NULL}};

    none.work_len = 0;
    tasks[0].with = &without;
    tasks[1].with = &with;
    without_row(s, "check", tasks[0], tasks[1]);
}

static void tell_without(void)
{
    size_t i;

    printf("\nWithout work, against the same with it\n  %-14s %-30s %11s %11s %8s\n", "file", "", "us", "with, us", "times");
    for (i = 0; i < SUBJECTS; i++) {
        load_without(&subjects[i], TEXT);
        load_without(&subjects[i], BINARY);
        check_without(&subjects[i]);
    }
}

/* Calls for the stack, on one subject. */
static void stack_load_text(void *with)
{
    struct subject *s = with;

    ours_load(&s->ours, s->files[TEXT].bytes, s->files[TEXT].len);
}

static void stack_load_binary(void *with)
{
    struct subject *s = with;

    ours_load(&s->ours, s->files[BINARY].bytes, s->files[BINARY].len);
}

static void stack_evaluate(void *with)
{
    struct subject *s = with;

    ours_evaluate(&s->ours, s->roots[0], s->settings);
}

static void stack_export_text(void *with)
{
    ours_export(&((struct subject *)with)->ours, TEXT);
}

static void stack_export_binary(void *with)
{
    ours_export(&((struct subject *)with)->ours, BINARY);
}

/* The stack of a call, with work and without, on two subjects, and with work on a third. */
static void stack_row(const char *what, int goal, void (*call)(void *with), struct subject *large, struct subject *deep, struct subject *largest)
{
    struct subject *on[3];
    size_t taken[5], i;

    on[0] = large;
    on[1] = deep;
    on[2] = largest;
    for (i = 0; i < 5; i++) {
        struct subject *s = on[i / 2];
        size_t enough = s->ours.work_len;

        s->ours.work_len = i % 2 == 0 ? enough : 0;
        taken[i] = stack_of(call, s);
        s->ours.work_len = enough;
        note(goal, (double)taken[i] / 1024, what, s->name);
    }
    printf("  %-14s %11zu %11zu %11zu %11zu %11zu\n", what, taken[0], taken[1], taken[2], taken[3], taken[4]);
}

/* Gives a subject the names of its first file again, which exports write. */
static void load_first(struct subject *s)
{
    if (ours_load(&s->ours, s->source.bytes, s->source.len) != 0)
        give_up("a file is refused");
}

static void tell_stack(void)
{
    struct subject deep = subject_of("4,096 levels", parity_plan(ZT_MOST_LEVELS));
    struct subject *large = &subjects[LARGE], *largest = &subjects[LARGEST];

    printf("\nPeak stack in bytes, with work and without: a file of 32,000 nodes, a root that leads down 4,096 levels, a file of 1,000,000 nodes\n");
    printf("  %-14s %11s %11s %11s %11s %11s\n", "", "32,000", "without", "4,096 lev.", "without", "1,000,000");
    stack_row("load text", LOAD_STACK, stack_load_text, large, &deep, largest);
    stack_row("load binary", LOAD_STACK, stack_load_binary, large, &deep, largest);
    stack_row("evaluate", EVALUATE_STACK, stack_evaluate, large, &deep, largest);
    load_first(large);
    load_first(&deep);
    load_first(largest);
    stack_row("export text", EXPORT_STACK, stack_export_text, large, &deep, largest);
    stack_row("export binary", EXPORT_STACK, stack_export_binary, large, &deep, largest);
    drop_subject(&deep);
}

static void tell_archive(const char *archive)
{
    struct stat about;

    if (stat(archive, &about) != 0)
        give_up("there is no such archive");
    printf("\nArchive: %ld bytes\n", (long)about.st_size);
}

static void measure_all(const char *archive)
{
    size_t i;

    printf("Zonetweed%s. Times are medians of up to %d runs%s; MB are 1,000,000 bytes of the file", with_rust ? " and the Rust" : "", RUNS,
        by_processor_clock() ? ", by the processor's clock" : "");
    printf("%s.\n\nFiles\n  %-14s %7s %7s %6s %9s %9s\n",
        with_rust ? "; a ratio is the Rust's time by Zonetweed's" : "", "", "nodes", "levels", "roots", "text", "binary");
    for (i = 0; i < SUBJECTS; i++) {
        subjects[i] = subject_of(kinds[i].name, plan_of(&kinds[i], 0));
        printf("  %-14s %7zu %7u %6zu %9zu %9zu\n", subjects[i].name, subjects[i].nodes, subjects[i].levels, subjects[i].nroots,
            subjects[i].files[TEXT].len, subjects[i].files[BINARY].len);
        fflush(stdout);
    }
    if (with_rust)
        printf("  Both sides agree on every file: nodes, roots and answers; each reads what the other exports.\n");
    tell_loads();
    tell_exports();
    tell_evaluations();
    tell_slots();
    tell_walks();
    tell_growth();
    tell_hostile();
    tell_without();
    tell_stack();
    tell_joins();
    tell_examples();
    tell_tips();
    tell_turns();
    tell_memory();
    tell_archive(archive);
    tell_goals();
    for (i = 0; i < SUBJECTS; i++)
        drop_subject(&subjects[i]);
}

/* One call, for a profile. */
static int profile(const char *what, const char *mode, size_t nodes)
{
    uint8_t text = strcmp(mode, "text") == 0 ? TEXT : BINARY;
    struct subject s = subject_of(mode, random_plan(56, nodes, 0));
    struct loading l;
    struct exporting e;
    struct evaluating v;
    struct task task;

    l = loading_of(&s.files[text], s.levels, s.nodes);
    e.subject = &s;
    e.text = text;
    v = evaluations_of(&s, &s.ours);
    memset(&task, 0, sizeof task);
    if (strcmp(what, "load") == 0)
        task.run = load_ours, task.with = &l;
    else if (strcmp(what, "export") == 0)
        task.run = export_ours, task.with = &e;
    else
        task.run = check_ours, task.with = &v;
    once(task.run, task.with);
    printf("%s %s: %zu nodes, %zu bytes\n", what, mode, s.nodes, s.files[text].len);
    ours_close(&l.ours);
    drop_subject(&s);
    return 0;
}

int main(int count, char **values)
{
    const char *clock_asked = getenv("CLOCK");

    if (clock_asked != NULL && strcmp(clock_asked, "cpu") == 0)
        use_processor_clock();
    if (count == 5 && strcmp(values[1], "once") == 0)
        return profile(values[2], values[3], (size_t)atol(values[4]));
    if (count == 2 && strcmp(values[1], "joins") == 0) {
        tell_joins();
        tell_goals();
        return 0;
    }
    if (count == 2 && strcmp(values[1], "examples") == 0) {
        tell_examples();
        tell_goals();
        return 0;
    }
    if (count == 2 && strcmp(values[1], "tips") == 0) {
        tell_tips();
        tell_goals();
        return 0;
    }
    if (count != 2 && count != 3) {
        fprintf(stderr, "bench ARCHIVE [LIBRARY]\n");
        return 2;
    }
    if (count == 3) {
        open_rust(values[2], &rust);
        with_rust = 1;
    }
    measure_all(values[1]);
    return 0;
}

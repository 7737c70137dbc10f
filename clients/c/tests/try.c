/* Tries the library: a line for each trial, and status 1 where one failed. It is linked with `--wrap` for malloc, calloc and
 * realloc, so that growths of memory can be refused. */
#include "stratbench.h"
#include <pthread.h>
#include <sched.h>
#include <stdatomic.h>
#include <stdio.h>
#include <stdlib.h>
#include <string.h>

#define STEPS 100000
#define COMMANDS 12

static atomic_int failed;

#define CHECK(holds) \
    do { \
        if (!(holds)) { \
            printf("  line %d: %s\n", __LINE__, #holds); \
            failed++; \
        } \
    } while (0)

/* ---- growths of memory */

void *__real_malloc(size_t size);
void *__real_calloc(size_t count, size_t size);
void *__real_realloc(void *block, size_t size);

/* Growths are counted from 1. Those from `first_refused` to `last_refused` are refused, and those of more than `largest`
 * bytes. */
static atomic_ulong growths;
static unsigned long first_refused, last_refused;
static size_t largest = SIZE_MAX;

static int is_refused(size_t size) {
    unsigned long growth = ++growths;
    return size > largest || (first_refused <= growth && growth <= last_refused);
}

void *__wrap_malloc(size_t size) { return is_refused(size) ? NULL : __real_malloc(size); }

void *__wrap_calloc(size_t count, size_t size) {
    return is_refused(count * size) ? NULL : __real_calloc(count, size);
}

void *__wrap_realloc(void *block, size_t size) { return is_refused(size) ? NULL : __real_realloc(block, size); }

static void refuse(unsigned long first, unsigned long last) {
    growths = 0;
    first_refused = first;
    last_refused = last;
}

static void refuse_none(void) {
    refuse(1, 0);
    largest = SIZE_MAX;
}

/* ---- calls */

static stratbench_session *begin(void) {
    stratbench_session *handle = __real_malloc(stratbench_size());
    stratbench_new(handle);
    return handle;
}

static void end(stratbench_session *handle) {
    stratbench_drop(handle);
    free(handle);
}

static uint32_t run(stratbench_session *handle, const char *script) {
    return stratbench_run(handle, (const uint8_t *)script, strlen(script), STEPS);
}

/* Whether a call copies this text. It is copied into a block of just its size. */
static int copied_is(size_t (*copy)(stratbench_session *, uint8_t *, size_t), stratbench_session *handle, const char *wanted) {
    uint8_t nothing;
    size_t length = copy(handle, &nothing, 0);
    uint8_t *out = __real_malloc(length + 1);
    int same = copy(handle, out, length) == length && length == strlen(wanted) && memcmp(out, wanted, length) == 0;
    if (!same) printf("  copied: %.*s  wanted: %s", (int)length, (char *)out, wanted);
    free(out);
    return same;
}

/* Whether these are the answers of the last call. */
static int answers_are(stratbench_session *handle, const char *wanted) { return copied_is(stratbench_copy, handle, wanted); }

/* Whether this was said of the last call. */
static int hints_are(stratbench_session *handle, const char *wanted) { return copied_is(stratbench_hints, handle, wanted); }

/* ---- trials */

static void statuses(void) {
    stratbench_session *handle = begin();
    CHECK(answers_are(handle, ""));
    CHECK(run(handle, "") == STRATBENCH_ACCEPTED);
    CHECK(run(handle, "tree t f(1)\nshow t") == STRATBENCH_ACCEPTED && answers_are(handle, "ok\nf(1)\n"));
    CHECK(run(handle, "show t\nshow u\nshow t") == STRATBENCH_REFUSED && answers_are(handle, "f(1)\nrefused 5 notree\nf(1)\n"));
    const uint8_t undo[] = "undo";
    CHECK(stratbench_run(handle, undo, 4, 0) == STRATBENCH_NO_BUDGET);
    CHECK(stratbench_lines(handle, undo, 4, 1000001) == STRATBENCH_NO_BUDGET);
    CHECK(answers_are(handle, "f(1)\nrefused 5 notree\nf(1)\n"));
    CHECK(stratbench_run(handle, undo, 3, 1) == STRATBENCH_REFUSED && answers_are(handle, "refused 2 line\n"));
    CHECK(stratbench_run(handle, undo, 4, 1000000) == STRATBENCH_ACCEPTED && answers_are(handle, "ok\n"));
    CHECK(run(handle, "trees") == STRATBENCH_ACCEPTED && answers_are(handle, "trees\n"));
    end(handle);
}

static void budgets(void) {
    stratbench_session *handle = begin();
    const uint8_t apply[] = "apply t do id; id; id";
    CHECK(run(handle, "tree t f(1)") == STRATBENCH_ACCEPTED);
    CHECK(stratbench_run(handle, apply, sizeof apply - 1, 2) == STRATBENCH_REFUSED && answers_are(handle, "refused 13 spent\n"));
    CHECK(stratbench_run(handle, apply, sizeof apply - 1, 1000000) == STRATBENCH_ACCEPTED && answers_are(handle, "ok\n"));
    end(handle);
}

static void limits(void) {
    stratbench_session *handle = begin();
    const uint8_t apply[] = "apply t do rec x(id <+ x)";
    CHECK(run(handle, "tree t f(1)") == STRATBENCH_ACCEPTED);
    CHECK(stratbench_limits(handle, 99999, 1000000) == STRATBENCH_NO_LIMITS);
    CHECK(stratbench_limits(handle, 1000000001, 1000000) == STRATBENCH_NO_LIMITS);
    CHECK(stratbench_limits(handle, 100000, 999999) == STRATBENCH_NO_LIMITS);
    CHECK(stratbench_limits(handle, 100000, 4000000001) == STRATBENCH_NO_LIMITS);
    CHECK(answers_are(handle, "ok\n") && run(handle, "trees") == STRATBENCH_ACCEPTED && answers_are(handle, "trees t\n"));
    CHECK(stratbench_run(handle, apply, sizeof apply - 1, 1000001) == STRATBENCH_NO_BUDGET);
    CHECK(stratbench_limits(handle, 1000000000, 4000000000) == STRATBENCH_ACCEPTED && answers_are(handle, ""));
    CHECK(run(handle, "trees\nhistory\ntree t f(1)") == STRATBENCH_ACCEPTED && answers_are(handle, "trees\nundo 0 redo 0\nok\n"));
    CHECK(stratbench_run(handle, apply, sizeof apply - 1, 4000000000) == STRATBENCH_ACCEPTED && answers_are(handle, "ok\n"));
    CHECK(stratbench_run(handle, apply, sizeof apply - 1, 4000000001) == STRATBENCH_NO_BUDGET);
    CHECK(run(handle, "apply t within 2000000 do id") == STRATBENCH_ACCEPTED && answers_are(handle, "ok\n"));
    /* a term of 131,071, which is too large by default */
    CHECK(stratbench_library(handle) == STRATBENCH_ACCEPTED);
    CHECK(run(handle, "module m rules Twice : x -> (x,x)\napply t do Twice; Twice; Twice; Twice; Twice; Twice; Twice; Twice; "
                      "Twice; Twice; Twice; Twice; Twice; Twice; Twice; Twice") == STRATBENCH_ACCEPTED);
    /* it begins anew, with lower limits */
    CHECK(stratbench_limits(handle, 100000, 1000000) == STRATBENCH_ACCEPTED && run(handle, "modules") == STRATBENCH_ACCEPTED);
    CHECK(answers_are(handle, "modules\n"));
    end(handle);
}

/* Whether the answers of the last script end at these places. They are copied into a block of just their size. */
static int ends_are(stratbench_session *handle, size_t count, const size_t *wanted) {
    size_t nothing;
    if (stratbench_ends(handle, &nothing, 0) != count) return 0;
    size_t *out = __real_malloc((count + 1) * sizeof *out);
    int same = stratbench_ends(handle, out, count) == count && memcmp(out, wanted, count * sizeof *out) == 0;
    free(out);
    return same;
}

static void ends(void) {
    stratbench_session *handle = begin();
    size_t out[4] = {7, 7, 7, 7};
    CHECK(ends_are(handle, 0, out));
    CHECK(run(handle, "tree t f(1)\nshow t\nshow u\nmodule m strategies f = id\ndump") == STRATBENCH_REFUSED);
    CHECK(answers_are(handle, "ok\nf(1)\nrefused 5 notree\nok\ntree t f(1)\nbegin\nmodule m strategies f = id\ncommit\n"));
    CHECK(ends_are(handle, 5, (const size_t[]){3, 8, 25, 28, 80}));
    CHECK(stratbench_ends(handle, out, 4) == 5 && out[0] == 7 && out[3] == 7);
    CHECK(run(handle, "") == STRATBENCH_ACCEPTED && ends_are(handle, 0, out));
    CHECK(run(handle, "show t") == STRATBENCH_ACCEPTED && ends_are(handle, 1, (const size_t[]){5}));
    CHECK(stratbench_ends(handle, out, 4) == 1 && out[0] == 5 && out[1] == 7);
    CHECK(stratbench_run(handle, (const uint8_t *)"undo", 4, 0) == STRATBENCH_NO_BUDGET && ends_are(handle, 1, (const size_t[]){5}));
    CHECK(stratbench_explain(handle, 1) == STRATBENCH_ACCEPTED && ends_are(handle, 1, (const size_t[]){5}));
    CHECK(stratbench_show(handle, (const uint8_t *)"u", 1) == STRATBENCH_REFUSED && ends_are(handle, 0, out));
    CHECK(run(handle, "show t") == STRATBENCH_ACCEPTED && ends_are(handle, 1, (const size_t[]){5}));
    CHECK(stratbench_library(handle) == STRATBENCH_ACCEPTED && ends_are(handle, 0, out));
    end(handle);
}

static void framings(void) {
    stratbench_session *handle = begin();
    const uint8_t script[] = "  tree t f(1,\n  2)\nshow t\n";
    CHECK(stratbench_lines(handle, script, sizeof script - 1, STEPS) == STRATBENCH_REFUSED);
    CHECK(answers_are(handle, "refused 7 term\nrefused 2 line\nrefused 5 notree\n"));
    CHECK(stratbench_run(handle, script + 2, sizeof script - 3, STEPS) == STRATBENCH_ACCEPTED && answers_are(handle, "ok\nf(1,2)\n"));
    CHECK(stratbench_run(handle, script, sizeof script - 1, STEPS) == STRATBENCH_ACCEPTED && answers_are(handle, "f(1,2)\n"));
    end(handle);
}

static void copies(void) {
    stratbench_session *handle = begin();
    uint8_t out[16];
    run(handle, "tree t f(1)\nshow t");
    memset(out, '-', sizeof out);
    CHECK(stratbench_copy(handle, out, 7) == 8 && memcmp(out, "----------------", 16) == 0);
    CHECK(stratbench_copy(handle, out, 8) == 8 && memcmp(out, "ok\nf(1)\n--------", 16) == 0);
    memset(out, '-', sizeof out);
    CHECK(stratbench_copy(handle, out, 16) == 8 && memcmp(out, "ok\nf(1)\n--------", 16) == 0);
    end(handle);
}

typedef uint32_t loading(stratbench_session *, const uint8_t *, size_t, const uint8_t *, size_t);

static uint32_t load(loading *how, stratbench_session *handle, const char *name, const char *text) {
    return how(handle, (const uint8_t *)name, strlen(name), (const uint8_t *)text, strlen(text));
}

static uint32_t show(stratbench_session *handle, const char *name) {
    return stratbench_show(handle, (const uint8_t *)name, strlen(name));
}

static void loads(void) {
    stratbench_session *handle = begin();
    const char rules[] = "rules\r\nZero : Plus(x,0) -> x\r\nsignature constructors\n\nPlus : t * t -> t\n\n";
    CHECK(stratbench_library(handle) == STRATBENCH_ACCEPTED && answers_are(handle, ""));
    CHECK(load(stratbench_module, handle, "arith", rules) == STRATBENCH_ACCEPTED && answers_are(handle, ""));
    CHECK(load(stratbench_tree, handle, "t", " Plus(\nPlus(1,0) ,0)\n") == STRATBENCH_ACCEPTED && answers_are(handle, ""));
    CHECK(run(handle, "modules\ntext arith\nshow t\napply t do innermost(Zero)\nshow t\nhistory") == STRATBENCH_ACCEPTED);
    CHECK(answers_are(handle, "modules arith library\nrules\n Zero : Plus(x,0) -> x\n signature constructors\n\n Plus : t * t -> t\n"
                              "Plus(Plus(1,0),0)\nok\n1\nundo 4 redo 0\n"));
    CHECK(load(stratbench_module, handle, "m", "strategies f = missing") == STRATBENCH_REFUSED);
    CHECK(answers_are(handle, "refused 11 unknown missing 0 0\n"));
    CHECK(load(stratbench_module, handle, "m", "(") == STRATBENCH_REFUSED && answers_are(handle, "refused 10 syntax\n"));
    CHECK(load(stratbench_module, handle, "9", "") == STRATBENCH_REFUSED && answers_are(handle, "refused 4 name\n"));
    CHECK(load(stratbench_tree, handle, "", "1") == STRATBENCH_REFUSED && answers_are(handle, "refused 4 name\n"));
    CHECK(load(stratbench_tree, handle, "t", "f(") == STRATBENCH_REFUSED && answers_are(handle, "refused 7 term\n"));
    CHECK(load(stratbench_module, handle, "m", "") == STRATBENCH_ACCEPTED && answers_are(handle, ""));
    CHECK(run(handle, "show t\nhistory\nundo 5\nmodules\ntrees") == STRATBENCH_ACCEPTED);
    CHECK(answers_are(handle, "1\nundo 5 redo 0\nok\nmodules\ntrees\n"));
    end(handle);
}

/* A tree whose text is longer than a command may be. */
static void long_tree(void) {
    static char text[200000];
    char *to = text + sprintf(text, "[0");
    for (int i = 1; i < 90000; i++) to += sprintf(to, ",%d", i % 10);
    strcpy(to, "]");
    stratbench_session *handle = begin();
    CHECK(load(stratbench_tree, handle, "t", text) == STRATBENCH_ACCEPTED);
    CHECK(run(handle, "show t") == STRATBENCH_ACCEPTED);
    strcpy(to, "]\n");
    CHECK(answers_are(handle, text));
    end(handle);
}

static void trees_shown(void) {
    stratbench_session *handle = begin();
    CHECK(run(handle, "tree t f( 1 ,\"x\")") == STRATBENCH_ACCEPTED);
    CHECK(show(handle, "t") == STRATBENCH_ACCEPTED && answers_are(handle, "f(1,\"x\")\n"));
    CHECK(show(handle, "u") == STRATBENCH_REFUSED && answers_are(handle, "refused 5 notree\n"));
    CHECK(show(handle, "") == STRATBENCH_REFUSED && answers_are(handle, "refused 4 name\n"));
    CHECK(run(handle, "history") == STRATBENCH_ACCEPTED && answers_are(handle, "undo 1 redo 0\n"));
    end(handle);
}

static void explanations(void) {
    stratbench_session *handle = begin();
    CHECK(run(handle, "frob") == STRATBENCH_REFUSED && hints_are(handle, ""));
    CHECK(stratbench_explain(handle, 1) == STRATBENCH_ACCEPTED && answers_are(handle, "refused 2 line\n"));
    CHECK(run(handle, "tree t a\n# a comment\nshow u\nshow t") == STRATBENCH_REFUSED && answers_are(handle, "ok\nrefused 5 notree\na\n"));
    CHECK(hints_are(handle, "line 3: refused 5 notree: there is no tree `u`\n    there is `t`\n"));
    CHECK(show(handle, "t") == STRATBENCH_ACCEPTED && hints_are(handle, ""));
    CHECK(run(handle, "apply t do f") == STRATBENCH_REFUSED && answers_are(handle, "refused 11 unknown f 0 0\n"));
    CHECK(hints_are(handle, "line 1: refused 11 unknown f 0 0: at line 1, column 12\n    apply t do f\n               ^\n"));
    CHECK(load(stratbench_tree, handle, "t", "f(\n  a,)") == STRATBENCH_REFUSED && answers_are(handle, "refused 7 term\n"));
    CHECK(hints_are(handle, "t: refused 7 term: no term goes on with `)` at line 2, column 5; the `(` at line 1, column 2 is open\n"
                            "      a,)\n        ^\n"));
    CHECK(load(stratbench_module, handle, "m", "signature constructors A : t\nrules R : A -> A()") == STRATBENCH_ACCEPTED);
    CHECK(hints_are(handle, "m: warning: in `R`, line 2, column 11: `A` is a variable; the constant is `A()`\n"));
    CHECK(stratbench_explain(handle, 0) == STRATBENCH_ACCEPTED);
    CHECK(run(handle, "frob") == STRATBENCH_REFUSED && hints_are(handle, ""));
    end(handle);
}

static void many_calls(void) {
    stratbench_session *handle = begin();
    int before = failed;
    run(handle, "tree t f(a,[1,2])");
    for (int i = 0; i < 20000 && failed == before; i++) {
        CHECK(run(handle, "put t /1/0 g(7)\nshow t\nundo") == STRATBENCH_ACCEPTED && answers_are(handle, "ok\nf(a,[g(7),2])\nok\n"));
        CHECK(run(handle, "show t\nhistory") == STRATBENCH_ACCEPTED && answers_are(handle, "f(a,[1,2])\nundo 1 redo 1\n"));
    }
    end(handle);
}

static void side_by_side(void) {
    stratbench_session *one = begin(), *other = begin();
    run(one, "tree t one(0)");
    run(other, "tree t other(0)\ntree u 1");
    for (int i = 0; i < 100; i++) {
        CHECK(run(one, "put t /0 1\nshow t\ntrees") == STRATBENCH_ACCEPTED);
        CHECK(run(other, "show t\ntrees\nput t /0 2") == STRATBENCH_ACCEPTED);
        CHECK(answers_are(one, "ok\none(1)\ntrees t\n"));
        CHECK(answers_are(other, i ? "other(2)\ntrees t u\nok\n" : "other(0)\ntrees t u\nok\n"));
    }
    end(one);
    CHECK(run(other, "history") == STRATBENCH_ACCEPTED && answers_are(other, "undo 102 redo 0\n"));
    end(other);
}

/* ---- stops */

#define ENDLESS "apply t do rec x(![1]; x)"
#define MOST_STEPS 4000000000

static uint32_t run_long(stratbench_session *handle, const char *script) {
    return stratbench_run(handle, (const uint8_t *)script, strlen(script), MOST_STEPS);
}

static stratbench_stopper *stopper_of(stratbench_session *handle) {
    stratbench_stopper *stopper = __real_malloc(stratbench_stopper_size());
    stratbench_stopper_new(handle, stopper);
    return stopper;
}

static void end_stopper(stratbench_stopper *stopper) {
    stratbench_stopper_drop(stopper);
    free(stopper);
}

/* What another thread is handed: a stopper, how many growths of memory it waits for, and whether the script has ended before. */
struct waiting {
    stratbench_stopper *stopper;
    unsigned long growths;
    atomic_int has_ended;
};

/* Waits until the script has taken memory so often, and so is under way. Then stops it. */
static void *stop_later(void *handed) {
    const struct waiting *it = handed;
    while (growths < it->growths && !it->has_ended) sched_yield();
    CHECK(stratbench_stop(it->stopper) == STRATBENCH_ACCEPTED);
    end_stopper(it->stopper);
    return NULL;
}

/* Runs a script that doesn't end by itself, and that another thread stops. */
static uint32_t run_stopped(stratbench_session *handle, const char *script) {
    struct waiting it = {stopper_of(handle), growths + 100000, 0};
    pthread_t other;
    CHECK(pthread_create(&other, NULL, stop_later, &it) == 0);
    uint32_t status = run_long(handle, script);
    it.has_ended = 1;
    CHECK(pthread_join(other, NULL) == 0);
    return status;
}

/* Another thread stops a run. What was answered before stays, and so does the session. */
static void stopped_by_a_thread(void) {
    stratbench_session *handle = begin();
    CHECK(stratbench_limits(handle, 100000, MOST_STEPS) == STRATBENCH_ACCEPTED);
    CHECK(stratbench_explain(handle, 1) == STRATBENCH_ACCEPTED);
    CHECK(run_stopped(handle, "tree t g(2)\nshow u\n" ENDLESS "\ntree t h(3)") == STRATBENCH_STOPPED);
    CHECK(answers_are(handle, "ok\nrefused 5 notree\n") && ends_are(handle, 2, (const size_t[]){3, 20}));
    CHECK(hints_are(handle, "line 2: refused 5 notree: there is no tree `u`\n    there is `t`\n"));
    /* the last command of a script, which ends with it */
    CHECK(run_stopped(handle, ENDLESS) == STRATBENCH_STOPPED && answers_are(handle, ""));
    CHECK(run_stopped(handle, "preview t do rec x(![1]; x)") == STRATBENCH_STOPPED && answers_are(handle, ""));
    CHECK(run_stopped(handle, "begin\ntree t h(3)\n" ENDLESS "\ncommit") == STRATBENCH_STOPPED && answers_are(handle, "ok\nok\n"));
    end_stopper(stopper_of(handle));
    CHECK(run(handle, "show t\nabandon\nshow t\nhistory") == STRATBENCH_ACCEPTED);
    CHECK(answers_are(handle, "h(3)\nok\ng(2)\nundo 1 redo 0\n"));
    end(handle);
}

/* A stop stays until there is another stopper, and stops scripts alone. */
static void stops_that_stay(void) {
    stratbench_session *handle = begin();
    CHECK(run(handle, "tree t g(2)") == STRATBENCH_ACCEPTED);
    stratbench_stopper *first = stopper_of(handle), *next;
    const size_t none = 0;
    CHECK(run(handle, "show t") == STRATBENCH_ACCEPTED && answers_are(handle, "g(2)\n"));
    CHECK(stratbench_stop(first) == STRATBENCH_ACCEPTED && stratbench_stop(first) == STRATBENCH_ACCEPTED);
    CHECK(answers_are(handle, "g(2)\n"));
    for (int i = 0; i < 2; i++) {
        CHECK(run(handle, "drop t") == STRATBENCH_STOPPED && answers_are(handle, "") && ends_are(handle, 0, &none));
        CHECK(stratbench_lines(handle, (const uint8_t *)"undo\n", 5, 1) == STRATBENCH_STOPPED && answers_are(handle, ""));
        CHECK(run(handle, "# nothing to answer") == STRATBENCH_ACCEPTED);
    }
    CHECK(show(handle, "t") == STRATBENCH_ACCEPTED && answers_are(handle, "g(2)\n"));
    CHECK(load(stratbench_tree, handle, "u", "1") == STRATBENCH_ACCEPTED && stratbench_library(handle) == STRATBENCH_ACCEPTED);
    /* it stays where the session begins anew, and once its own handle is gone */
    CHECK(stratbench_limits(handle, 100000, 1000000) == STRATBENCH_ACCEPTED);
    CHECK(run(handle, "trees") == STRATBENCH_STOPPED);
    end_stopper(first);
    CHECK(run(handle, "trees") == STRATBENCH_STOPPED);
    /* the stopper before no longer stops the session */
    first = stopper_of(handle);
    next = stopper_of(handle);
    CHECK(stratbench_stop(first) == STRATBENCH_ACCEPTED);
    CHECK(run(handle, "trees") == STRATBENCH_ACCEPTED && answers_are(handle, "trees\n"));
    CHECK(stratbench_stop(next) == STRATBENCH_ACCEPTED && run(handle, "trees") == STRATBENCH_STOPPED);
    end_stopper(first);
    end(handle);
    /* a stopper may outlast its session */
    CHECK(stratbench_stop(next) == STRATBENCH_ACCEPTED);
    end_stopper(next);
}

/* A stopper without memory stops nothing, and the one before goes on. */
static void stoppers_without_memory(void) {
    stratbench_session *handle = begin();
    CHECK(run(handle, "tree t g(2)") == STRATBENCH_ACCEPTED);
    refuse(1, 1);
    stratbench_stopper *none = stopper_of(handle);
    CHECK(growths == 1);
    refuse_none();
    CHECK(stratbench_stop(none) == STRATBENCH_NO_MEMORY && run(handle, "show t") == STRATBENCH_ACCEPTED);
    stratbench_stopper *first = stopper_of(handle);
    end_stopper(none);
    refuse(1, 1);
    none = stopper_of(handle);
    refuse_none();
    CHECK(stratbench_stop(none) == STRATBENCH_NO_MEMORY && run(handle, "show t") == STRATBENCH_ACCEPTED);
    CHECK(stratbench_stop(first) == STRATBENCH_ACCEPTED && run(handle, "show t") == STRATBENCH_STOPPED);
    end_stopper(none);
    end_stopper(first);
    end(handle);
}

/* Begins a session with a tree `long`, of this many elements. */
static stratbench_session *begin_with_list(int elements) {
    stratbench_session *handle = begin();
    char *script = __real_malloc(32 + 2 * (size_t)elements), *to = script + sprintf(script, "tree long [0");
    for (int i = 1; i < elements; i++) to += sprintf(to, ",%d", i % 10);
    strcpy(to, "]\n");
    CHECK(run(handle, script) == STRATBENCH_ACCEPTED && answers_are(handle, "ok\n"));
    free(script);
    return handle;
}

/* Runs a script that shows the list and sets a tree, many times, where growths are refused; then compares the answers with
 * what the session holds. Each answer is whole, and each command that was accepted is done, and no other. */
static uint32_t run_short_of_memory(stratbench_session *handle, int elements) {
    static char script[COMMANDS * 64], trees[COMMANDS * 8], answers[1 << 16];
    char *to = script;
    for (int i = 0; i < COMMANDS; i++) to += sprintf(to, "show long\ntree t%02d f(%d)\n", i, i);
    uint32_t status = run(handle, script);
    unsigned long asked = growths;
    refuse_none();
    size_t length = stratbench_copy(handle, (uint8_t *)answers, sizeof answers - 1), shown = 2 + (2 * (size_t)elements - 1);
    CHECK(length < sizeof answers);
    answers[length] = 0;
    char *list = trees + sprintf(trees, "trees long");
    const char *at = answers;
    int answered = 0, refused = 0;
    for (; status != STRATBENCH_NO_MEMORY && answered < 2 * COMMANDS && *at; answered++) {
        const char *line = strchr(at, '\n');
        CHECK(line != NULL);
        if (line == NULL) break;
        if (strncmp(at, "refused 1 memory\n", 17) == 0) refused++;
        else if (answered % 2) {
            CHECK(strncmp(at, "ok\n", 3) == 0);
            list += sprintf(list, " t%02d", answered / 2);
        } else CHECK((size_t)(line - at) == shown && at[0] == '[' && line[-1] == ']');
        at = line + 1;
    }
    CHECK(stratbench_ends(handle, &shown, 0) == (status == STRATBENCH_NO_MEMORY ? 1 : (size_t)answered));
    if (status == STRATBENCH_NO_MEMORY) CHECK(answers_are(handle, "ok\n"));
    else if (status == STRATBENCH_CUT) CHECK(!*at && answered < 2 * COMMANDS);
    else CHECK(!*at && answered == 2 * COMMANDS && status == (refused ? STRATBENCH_REFUSED : STRATBENCH_ACCEPTED));
    strcpy(list, "\n");
    CHECK(run(handle, "trees") == STRATBENCH_ACCEPTED && answers_are(handle, trees));
    growths = asked;
    return status;
}

/* One growth after the other is refused, and then all from one on. */
static void refused_growths(void) {
    int seen[5] = {0};
    for (int all = 0; all < 2; all++)
        for (unsigned long at = 1, asked = at; at <= asked + 1 && !failed; at++) {
            stratbench_session *handle = begin_with_list(200);
            refuse(at, all ? (unsigned long)-1 : at);
            uint32_t status = run_short_of_memory(handle, 200);
            asked = growths;
            CHECK(status < 4);
            seen[status & 3]++;
            end(handle);
            if (asked < at) break;
        }
    printf("  accepted %d, refused %d, cut %d, no memory %d\n", seen[0], seen[1], seen[2], seen[3]);
    CHECK(seen[STRATBENCH_ACCEPTED] && seen[STRATBENCH_REFUSED] && seen[STRATBENCH_CUT] && seen[STRATBENCH_NO_MEMORY]);
}

/* No block may have more than so many bytes. */
static void limited_blocks(void) {
    for (size_t limit = 1 << 17; limit >= 1 << 10; limit /= 2) {
        stratbench_session *handle = begin_with_list(2000);
        refuse(1, 0);
        largest = limit;
        run_short_of_memory(handle, 2000);
        end(handle);
    }
}

static uint32_t load_one(stratbench_session *handle, int which) {
    switch (which) {
    case 0: return stratbench_library(handle);
    case 1: return load(stratbench_module, handle, "m", "rules R : A() -> B() signature constructors A : t B : t");
    default: return load(stratbench_tree, handle, "u", "f(g(1),[2,3])");
    }
}

/* One growth after the other is refused while something is loaded: then the session is as it was, and the same load is accepted. */
static void loads_without_memory(void) {
    for (int which = 0; which < 3; which++)
        for (unsigned long at = 1, asked = at; at <= asked + 1 && !failed; at++) {
            stratbench_session *handle = begin_with_list(10);
            refuse(at, at);
            uint32_t status = load_one(handle, which);
            asked = growths;
            refuse_none();
            if (status != STRATBENCH_ACCEPTED) {
                CHECK(status == STRATBENCH_REFUSED && answers_are(handle, "refused 1 memory\n"));
                CHECK(run(handle, "history") == STRATBENCH_ACCEPTED && answers_are(handle, "undo 1 redo 0\n"));
                CHECK(load_one(handle, which) == STRATBENCH_ACCEPTED);
            }
            CHECK(answers_are(handle, ""));
            CHECK(run(handle, "history") == STRATBENCH_ACCEPTED && answers_are(handle, "undo 2 redo 0\n"));
            end(handle);
        }
}

/* One growth after the other is refused while a session begins anew: then it is as it was. */
static void limits_without_memory(void) {
    for (unsigned long at = 1, asked = at; at <= asked + 1 && !failed; at++) {
        stratbench_session *handle = begin_with_list(10);
        refuse(at, at);
        uint32_t status = stratbench_limits(handle, 200000, 2000000);
        asked = growths;
        refuse_none();
        CHECK(status == (asked < at ? STRATBENCH_ACCEPTED : STRATBENCH_NO_MEMORY));
        CHECK(answers_are(handle, asked < at ? "" : "ok\n"));
        CHECK(run(handle, "trees") == STRATBENCH_ACCEPTED && answers_are(handle, asked < at ? "trees\n" : "trees long\n"));
        end(handle);
    }
}

/* No memory for the session itself. */
static void no_session(void) {
    for (unsigned long at = 1, asked = at; at <= asked + 1; at++) {
        refuse(at, (unsigned long)-1);
        stratbench_session *handle = begin();
        asked = growths;
        refuse_none();
        int is_there = asked < at;
        CHECK(stratbench_explain(handle, 1) == (is_there ? STRATBENCH_ACCEPTED : STRATBENCH_NO_MEMORY));
        CHECK(run(handle, "tree t 1") == (is_there ? STRATBENCH_ACCEPTED : STRATBENCH_NO_MEMORY));
        CHECK(answers_are(handle, is_there ? "ok\n" : ""));
        stratbench_stopper *stopper = stopper_of(handle);
        CHECK(stratbench_stop(stopper) == (is_there ? STRATBENCH_ACCEPTED : STRATBENCH_NO_MEMORY));
        CHECK(run(handle, "show t") == (is_there ? STRATBENCH_STOPPED : STRATBENCH_NO_MEMORY));
        end_stopper(stopper);
        end(handle);
    }
}

/* ---- what the library says of itself */

static void about(void) {
    CHECK(strcmp(stratbench_version(), STRATBENCH_VERSION) == 0);
    CHECK(stratbench_misfit(STRATBENCH_VERSION_MAJOR, STRATBENCH_VERSION_MINOR) == NULL);
    CHECK(stratbench_misfit(STRATBENCH_VERSION_MAJOR, 0) == NULL);
    CHECK(strstr(stratbench_misfit(STRATBENCH_VERSION_MAJOR, STRATBENCH_VERSION_MINOR + 1), "a later version") != NULL);
    CHECK(strstr(stratbench_misfit(STRATBENCH_VERSION_MAJOR + 1, 0), "another major version") != NULL);
    CHECK(strstr(stratbench_misfit(STRATBENCH_VERSION_MAJOR + 1, 0), STRATBENCH_VERSION) != NULL);
    const char *text = stratbench_status_text(STRATBENCH_ACCEPTED);
    for (uint32_t status = STRATBENCH_REFUSED; status <= STRATBENCH_STOPPED + 1; status++) {
        CHECK(strcmp(text, stratbench_status_text(status)) != 0);
        text = stratbench_status_text(status);
    }
    CHECK(strstr(stratbench_status_text(STRATBENCH_REFUSED), "refused") != NULL);
    CHECK(strstr(stratbench_status_text(STRATBENCH_CUT), "the first commands") != NULL);
    CHECK(strstr(stratbench_status_text(STRATBENCH_NO_MEMORY), "no memory") != NULL);
    CHECK(strstr(stratbench_status_text(STRATBENCH_NO_BUDGET), "steps") != NULL);
    CHECK(strstr(stratbench_status_text(STRATBENCH_NO_LIMITS), "limits") != NULL);
    CHECK(strstr(stratbench_status_text(STRATBENCH_STOPPED), "stopped") != NULL);
}

int main(void) {
    const struct {
        const char *name;
        void (*trial)(void);
    } trials[] = {
        {"statuses", statuses}, {"budgets", budgets}, {"limits", limits}, {"ends", ends}, {"framings", framings}, {"copies", copies}, {"loads", loads},
        {"long tree", long_tree}, {"trees shown", trees_shown}, {"explanations", explanations}, {"many calls", many_calls},
        {"side by side", side_by_side}, {"stopped by a thread", stopped_by_a_thread}, {"stops that stay", stops_that_stay},
        {"stoppers without memory", stoppers_without_memory}, {"refused growths", refused_growths}, {"limited blocks", limited_blocks},
        {"loads without memory", loads_without_memory}, {"limits without memory", limits_without_memory}, {"no session", no_session}, {"what the library says of itself", about},
    };
    int wrong = 0;
    for (size_t i = 0; i < sizeof trials / sizeof *trials; i++) {
        failed = 0;
        refuse_none();
        trials[i].trial();
        printf("%s: %s\n", trials[i].name, failed ? "FAILED" : "as wanted");
        wrong += failed != 0;
    }
    return wrong != 0;
}

/* Sessions of the workbench, for C. docs/manual/c.md has an example, and how to link.
 *
 * The functions are proved in Rattle (crates/stratbench_c). What their contracts require of the caller stands here, since
 * nothing checks it:
 *
 * - A handle is the address of stratbench_size() bytes, aligned to 16 as malloc aligns. stratbench_new makes a session
 *   there, and stratbench_drop ends it: then the bytes are the caller's again. In between the caller neither reads, writes,
 *   copies nor moves them, and each handle is used by one call at a time, on the thread that made it. The same holds of a
 *   stopper, except that any thread may use it: threads that share it take a lock, or the like, to hand it over.
 * - No pointer is null, not even for 0 bytes. Bytes are readable, and those to be written writable, for the whole length.
 *   No two areas of memory of a call overlap.
 * - malloc, realloc and free are of one allocator, and align as the C library's do. No function is called from a signal
 *   handler, or in the child of a fork of a process with threads.
 * - 4 MiB of stack are there, which were enough for the deepest terms, strategies and modules.
 */
#ifndef STRATBENCH_H
#define STRATBENCH_H

#include <stddef.h>
#include <stdint.h>

/* The version of this header. A program that was compiled with it may be linked with the library of this version, and with a later one
 * of the same major number: stratbench_misfit says whether the library at hand is one. */
#define STRATBENCH_VERSION "1.3.0"
#define STRATBENCH_VERSION_MAJOR 1
#define STRATBENCH_VERSION_MINOR 3
#define STRATBENCH_VERSION_PATCH 0

#ifdef __cplusplus
extern "C" {
#endif

/* How a call ended. */
enum {
    /* All commands are answered, and accepted. It is loaded, or shown. */
    STRATBENCH_ACCEPTED = 0,
    /* All commands are answered, and some are refused. It isn't loaded, or shown, and the session is as it was. */
    STRATBENCH_REFUSED = 1,
    /* Memory couldn't grow for the answers: the first commands are answered, and their answers are whole. No other command
     * is run. */
    STRATBENCH_CUT = 2,
    /* There was no memory to begin: nothing is done. A handle that found no memory for its session says so at each call. */
    STRATBENCH_NO_MEMORY = 3,
    /* The steps are not from 1 to the session's greatest budget: nothing is done. */
    STRATBENCH_NO_BUDGET = 4,
    /* The limits are too low or too high: nothing is done. */
    STRATBENCH_NO_LIMITS = 5,
    /* A stopper stopped the script: the first commands are answered, and their answers are whole. No other command did anything. */
    STRATBENCH_STOPPED = 6
};

/* A session, of which only the address is known. */
typedef struct stratbench_session stratbench_session;

/* What stops the scripts of a session, of which only the address is known. */
typedef struct stratbench_stopper stratbench_stopper;

/* The version of the library, as "1.3.0". */
const char *stratbench_version(void);

/* Returns NULL if the library fits a program that was compiled with the header of this version, or else a sentence that says why not:
 * stratbench_misfit(STRATBENCH_VERSION_MAJOR, STRATBENCH_VERSION_MINOR). */
const char *stratbench_misfit(uint32_t major, uint32_t minor);

/* A sentence for a status that a call returned. */
const char *stratbench_status_text(uint32_t status);

/* The bytes at a handle, the same at each call. */
size_t stratbench_size(void);

/* Makes a session without trees and modules. */
void stratbench_new(stratbench_session *handle);

/* Begins the session anew, without trees and modules, with these limits: the greatest size of a term that is set or built, from
 * 100,000 to 1,000,000,000, and the greatest budget of a command, from 1,000,000 to 4,000,000,000 steps. A new session has the
 * lowest. For want of memory all stays. */
uint32_t stratbench_limits(stratbench_session *handle, uint32_t max_terms, uint32_t max_steps);

/* Loads the library, whose definitions docs/manual/applying.md lists, as a step. If it is refused, the answer is the refusal, else
 * there are no answers. On a new session only want of memory can refuse it. */
uint32_t stratbench_library(stratbench_session *handle);

/* Sets the module of a name to a text as a file has it, as a step: its lines may begin in the first column. The text may have any
 * length. If it is refused, the answer is the refusal, else there are no answers. */
uint32_t stratbench_module(stratbench_session *handle, const uint8_t *name, size_t name_length, const uint8_t *text, size_t length);

/* Sets the tree of a name to what a text spells, as a step. The rest is as for a module. */
uint32_t stratbench_tree(stratbench_session *handle, const uint8_t *name, size_t name_length, const uint8_t *text, size_t length);

/* Answers the commands of a script, which may go on over lines. The last one ends with the script. `steps`, from 1 to
 * the greatest budget of the session, is the budget of an `apply` or `preview` that names none. Unless nothing is done, the answers
 * take the place of those of the last call. */
uint32_t stratbench_run(stratbench_session *handle, const uint8_t *script, size_t length, uint32_t steps);

/* The same, where each line is a command. */
uint32_t stratbench_lines(stratbench_session *handle, const uint8_t *script, size_t length, uint32_t steps);

/* The answer is the text of the tree of a name, and a line feed; or the refusal, if there is no such tree. */
uint32_t stratbench_show(stratbench_session *handle, const uint8_t *name, size_t name_length);

/* Copies the answers of the last call, one after the other, to the start of `out` if they fit into `room` bytes, and
 * returns their length. They stay until the next script, load or tree that is shown. */
size_t stratbench_copy(stratbench_session *handle, uint8_t *out, size_t room);

/* Copies where the answers of the last script end to the start of `out` if they fit into `room` numbers, and returns how many answers there
 * are: the first is the bytes up to out[0], the next those from there up to out[1]. A load, and a tree that is shown, has none. */
size_t stratbench_ends(stratbench_session *handle, size_t *out, size_t room);

/* Says whether the calls that follow are to be explained: not if `explains` is 0, and not in a new session; as JSON if it is 2,
 * else as text. */
uint32_t stratbench_explain(stratbench_session *handle, uint32_t explains);

/* Copies what was said of the last call as stratbench_copy does its answers: lines on each refused command or load, and on what
 * an accepted one may not be meant to say, as `stratbench --explain` or `--explain=json` writes them. Lines for which there was no memory are left
 * out. */
size_t stratbench_hints(stratbench_session *handle, uint8_t *out, size_t room);

/* The bytes at a stopper, the same at each call: of room that the caller gives, as for a session. */
size_t stratbench_stopper_size(void);

/* Makes a stopper for the scripts of the session, on the session's thread. The one that was made for it before no longer stops it. */
void stratbench_stopper_new(stratbench_session *handle, stratbench_stopper *stopper);

/* Stops the script that stratbench_run or stratbench_lines is answering: on any thread, while the session's own is in that call. The
 * command that is run ends before its next step, and is as if it had not been run. A stop stays: where no script is being answered it
 * stops the next one before its first command, and each that follows, until another stopper is made for the session. So a stop that
 * comes early isn't lost, and with a stopper for each script one that comes late stops no other. Loads, and trees that are shown, aren't
 * stopped. Returns STRATBENCH_ACCEPTED, or STRATBENCH_NO_MEMORY where there was no memory for the stopper: then it stops nothing. */
uint32_t stratbench_stop(stratbench_stopper *stopper);

/* Ends the stopper, and gives its memory back: on any thread, before or after the session ends. */
void stratbench_stopper_drop(stratbench_stopper *stopper);

/* Ends the session, and gives its memory back. */
void stratbench_drop(stratbench_session *handle);

#ifdef __cplusplus
}
#endif
#endif

/* What the library says of itself. Nothing proves this file: it has texts, and compares numbers. It includes nothing, since Rattle's kit,
 * which compiles it, has no headers of C; the version is that of stratbench.h, and trials/embed sees that the types are. */

const char *stratbench_version(void) { return STRATBENCH_VERSION; }

const char *stratbench_misfit(unsigned major, unsigned minor) {
    if (major != STRATBENCH_VERSION_MAJOR)
        return "the library is version " STRATBENCH_VERSION ", and the program was compiled for another major version";
    if (minor > STRATBENCH_VERSION_MINOR)
        return "the library is version " STRATBENCH_VERSION ", and the program was compiled for a later version";
    return 0;
}

const char *stratbench_status_text(unsigned status) {
    switch (status) {
    case 0:
        return "all commands are answered and accepted";
    case 1:
        return "all commands are answered, and some are refused";
    case 2:
        return "memory couldn't grow for the answers: the first commands are answered, and no other is run";
    case 3:
        return "there was no memory to begin: nothing is done";
    case 4:
        return "the steps are not from 1 to the greatest budget: nothing is done";
    case 5:
        return "the limits are too low or too high: nothing is done";
    case 6:
        return "a stopper stopped the script: the first commands are answered, and no other did anything";
    default:
        return "no status of the library";
    }
}

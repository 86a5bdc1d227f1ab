"""The exit statuses of ./lineage: those of the program, and its own."""

DONE, USAGE, UNREADABLE, UNTOLD, DISK_FAULT, MEMORY, NOT_A_LOG, DAMAGED = range(8)
REFUSED, BEYOND, REJECTED, BAD_INPUT, SCRATCH_FAULT = range(8, 13)
# What those of the program mean.
MEANINGS = {
    DONE: "done",
    USAGE: "the words are no command",
    UNREADABLE: "standard input can't be read",
    UNTOLD: "standard output can't be written",
    DISK_FAULT: "the log can't be opened, locked, read, written or synced",
    MEMORY: "out of memory",
    NOT_A_LOG: "chain.log holds something else than a log",
    DAMAGED: "chain.log was changed or cut",
    REFUSED: "a frame of the input is cut or too long, no block, or not the next one",
    BEYOND: "there is no such block",
    REJECTED: "the proof is not accepted",
    BAD_INPUT: "the input is not what the command reads",
    SCRATCH_FAULT: "the scratch file can't be made, written or read",
}
# The wrapper's own: the program wasn't built, or its proofs failed; a command that changes the log would write over one
# whose first byte was zeroed; there is no proved program of the sources as they are; it can't be copied; bytes weren't
# written, since a terminal can't show them.
NOT_BUILT, ZEROED_LOG, NOT_PROVED, NOT_INSTALLED, NOT_SHOWN = range(70, 75)

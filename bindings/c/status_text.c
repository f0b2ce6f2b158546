/* The English texts of the statuses. */
#include "mortarpink.h"

static const char *const texts[] = {
    "done",
    "there is a batch, and the call needs that there is none",
    "the position is out of bounds",
    "the position is pruned",
    "the bitmap would be too long",
    "there is no retained bit",
    "the commit number is reserved",
    "the commit number is not above the last one",
    "there would be too many pruned bits",
    "the bytes end before the encoding does",
    "the encoded number of retained bits is out of range",
    "the bytes are not an encoding",
    "there is no such commit",
    "out of memory",
    "there is nothing to return",
    "the handle is empty",
    "the handle is not empty",
    "the width is not 1, 8, 32 or 64",
    "the buffer has the wrong size",
    "the bytes do not begin as a history, a log or a delta of this width does",
    "the bytes end before the history, the delta or the first bitmap of the log does",
    "a digest is not that of the bytes before it",
    "a part of the bytes is no bitmap, or no commit or other entry that can follow",
    "a number of retained bits or of commits is out of range",
    "the delta does not start at the current bitmap",
    "the bitmap keeps a log",
    "the bitmap keeps no log",
    "there is no batch, and the call needs one",
    "the proof does not verify against the root, or it is of another chunk",
};

const char *mortarpink_status_text(mortarpink_status status) {
    return status < sizeof texts / sizeof *texts ? texts[status] : "the number is not a status";
}

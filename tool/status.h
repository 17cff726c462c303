/* How the program ends. */
#ifndef TOOL_STATUS_H
#define TOOL_STATUS_H

enum status {
    STATUS_DONE = 0,    /* done, or a yes */
    STATUS_NO = 1,      /* nothing found, names that mean something else, a difference */
    STATUS_REFUSED = 2, /* refused by the library, with a number */
    STATUS_TROUBLE = 3  /* usage, files, text that is no XML */
};

#endif

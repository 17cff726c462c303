/* White space between elements. */
#ifndef TOOL_BLANKS_H
#define TOOL_BLANKS_H

#include "read_xml.h"

/* Counts the texts of white space alone that stand where an element holds no other text and xml:space does not keep them,
   and leaves them out if that is wished. */
void leave_out_blanks(struct xml_rows *rows, bool wished);

#endif

/* What bytes are, by how they begin. */
#ifndef TOOL_SNIFF_H
#define TOOL_SNIFF_H

#include "bytes.h"

/* Whether bytes begin as a bundle does, or end before they could. */
bool begins_as_bundle(struct bytes bytes);

/* Whether bytes are to be read as XML text: they begin as UTF-16, UTF-32 or EBCDIC does, with <, or as any text but a bundle's
   mark. All else is left to the library. */
bool begins_as_xml(struct bytes bytes);

/* The line of the first zero character, at which libxml2 would take a text to end; 0 if there is none. */
size_t line_of_zero(struct bytes text);

#endif

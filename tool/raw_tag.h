/* A start tag as it stands in the text. */
#ifndef TOOL_RAW_TAG_H
#define TOOL_RAW_TAG_H

#include "bytes.h"

/* How many attributes of this name the start tag has with which some text ends, perhaps without its last > or />. The tag is
   one that was parsed, so that no < stands in its values. */
size_t count_in_last_tag(struct bytes text, const char *name);

#endif

/* XML text as rows.

   The text is read by libxml2. Whatever that reports as an error, errors of namespaces included, is a fault; and so is what
   would make a name mean something that the text alone does not say: entities that are not built in, attributes that a
   document type gives, XML 1.1. Nothing is fetched, no external document type is read, and libxml2's limits of size hold. */
#ifndef TOOL_READ_XML_H
#define TOOL_READ_XML_H

#include "nodes.h"

/* What is left out, or made something else, and whose rows they are. */
struct xml_wishes {
    bool no_comments, no_instructions;
    bool no_cdata;  /* CDATA sections become text */
    bool no_blanks; /* no text of white space alone, where an element holds no other text and xml:space does not keep it */
    uint32_t maker; /* of every row */
};

struct xml_rows {
    struct nodes nodes;
    size_t *lines;                  /* of each row, in the text */
    size_t blank_rows, blank_bytes; /* what the last wish leaves out, or would: rows, and bytes that only they use */
    struct buffer losses;           /* what rows cannot hold: lines of text, each behind its line number and a colon */
    size_t fault_line;              /* the first fault; 0 if it has no line */
    struct buffer fault;            /* empty if there is none */
};

/* Reads a text. True if there is no fault. The rows are freed in either case. */
bool read_xml(struct bytes text, struct xml_wishes wishes, struct xml_rows *rows);
void free_xml_rows(struct xml_rows *rows);

/* The version of libxml2. */
const char *xml_reader_version(void);

#endif

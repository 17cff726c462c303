/* noemathu.h: XML namespaces in a session bundle, over memory that you lend.

   A session bundle is a tree of XML nodes as one string of bytes. The functions
   here check a bundle, tell what a prefix or a namespace URI means at a node,
   and normalize a bundle: they set and add namespace declarations so that every
   element and attribute means the URI that its maker gave it. One judges a bundle
   that somebody else proposes for another, one leaves out the bytes of a pool that
   no row uses any more, one leaves out declarations and attributes that may not
   stand where they do, one writes an element as XML text, and two more turn a
   bundle into rows and names, and back.

   Link with -lnoemathu, or see `pkg-config --cflags --libs noemathu`. The
   library is for x86-64 and calls nothing but the C library's memory functions.


   Eleven words to a row
   ---------------------

   A node is a row of eleven 32-bit words. Names, URIs and values are bytes in a
   pool, and a row says where: by an offset in the pool and a length.

     word  0     the type of the node: NOEMATHU_ELEMENT and so on
     word  1     the row of its parent, which is always an earlier row; for an
                 attribute or a declaration the element that owns it; or
                 NOEMATHU_NONE
     words 2, 3  prefix:         offset, length
     words 4, 5  local name:     offset, length
     words 6, 7  namespace URI:  offset, length
     words 8, 9  value:          offset, length
     word 10     the maker: any number

   Rows count from 0. Length 0 means that the node has none of it, and the
   offset is then 0. Rows of one owner need not be adjacent; their order is row
   order. Several rows may refer to the same bytes of the pool. There are at most
   1,024 rows and 32,768 pool bytes.

   The maker says whose row it is, by a number that you give out; 0 where nobody
   says. It is never refused, and no lookup looks at it. Every row keeps its maker,
   and a declaration that noemathu_normalize adds has that of the row that needs
   it: the element whose own name it declares, or the attribute, also where its
   prefix is a new one; of several that need the same one, the first. A declaration
   whose value is set stays its maker's.

   A namespace declaration is a row of its own, of type 13: its local name is the
   declared prefix, empty for the default namespace, and its value is the URI.
   So xmlns:p="urn:x" at row 0 is a row of type 13 with parent 0, local name `p`
   and value `urn:x`; its prefix and URI fields are empty.

   What each type may stand under, and the fields that it may use; any but a
   declaration may also stand alone, with the parent NOEMATHU_NONE:

     type                            under                        fields
     1 element                       element, 5, 9, 11            all but value
     2 attribute                     element                      all
     3 text, 4 CDATA,
     5 entity reference              element, 5, 11               value
     6 entity, 12 notation           10                           value
     7 instruction, 8 comment        element, 5, 9, 11            value
     9 document, 11 fragment         nothing                      value
     10 document type                9                            value
     13 declaration                  element                      local name, value
     257 element, 258 attribute      as 1 and 2                   local name; 258 value

   A document has at most one element. Types 257 and 258 were made without a
   namespace (DOM Level 1): the whole name, with a colon or not, stands in the
   local name. Prefixes and local names are ASCII letters, digits, `-`, `.`, `_`
   and bytes from 128 on, and begin with no digit, `-` or `.`. URIs and values are
   any text, and URIs are compared byte by byte. Every field is UTF-8 by RFC 3629.


   A bundle, byte by byte
   ----------------------

   All numbers are little-endian, on every machine.

     bytes  0 to  2   the mark, `NTB`
     bytes  3 and 4   the version, 2
     byte   5         zero
     bytes  6 and 7   how many rows
     bytes  8 to 11   how many pool bytes
     from byte 12     the rows, 44 bytes each
     behind them      the pool; nothing stands behind it

   An element `a` with the URI `U`, no prefix and no parent, by maker 7, is this
   bundle of 58 bytes, in hexadecimal:

     4e 54 42  02 00  00  01 00  02 00 00 00     NTB, 2, 0, one row, two bytes
     01 00 00 00  ff ff ff ff                    row 0: an element, NOEMATHU_NONE
     00 00 00 00  00 00 00 00                      no prefix
     00 00 00 00  01 00 00 00                      local name: at 0, 1 byte
     01 00 00 00  01 00 00 00                      URI: at 1, 1 byte
     00 00 00 00  00 00 00 00                      no value
     07 00 00 00                                   maker 7
     61 55                                       the pool, `aU`

   Nothing there declares that the default namespace is `U`. noemathu_normalize
   appends the declaration, which refers to the URI's bytes where they stand, and
   is by the element's maker:

     0d 00 00 00  00 00 00 00                    row 1: a declaration of row 0
     00 00 00 00  00 00 00 00
     00 00 00 00  00 00 00 00                      for the empty prefix
     00 00 00 00  00 00 00 00
     01 00 00 00  01 00 00 00                      value: at 1, 1 byte
     07 00 00 00                                   maker 7

   That bundle is <a xmlns="U"></a> as XML text, of 17 bytes: see
   noemathu_write_xml. XML text has no makers.


   Bundles of version 1
   --------------------

   Up to 0.4.0 of this library a row was ten words: it had no maker. The bundles of
   that time have the version 1 and rows of 40 bytes. Every function takes them, and
   answers what it answers of the same rows with the maker 0. What is written is of
   version 2, whatever came in: it has four bytes more for each row, also where
   nothing else is changed, and 33 is judged by that. Any other version is refused
   by 31, so a library up to 0.4.0 refuses what this one writes.

   A host that was written for version 1 is compiled anew, and looks at these:

   - Is a 10 or a 40 in it the length of a row? A table has NOEMATHU_ROW_WORDS to a
     row, a bundle noemathu_row_bytes. The helpers below go by the version of the
     bundle that they look into.
   - Does it fill in a noemathu_row field by field? The maker is a field more.
   - Does it lend an output as long as the input, or one of 73,740 bytes? The rows and
     the pool of a bundle of version 1 take NOEMATHU_BUNDLE_BYTES(rows, pool bytes)
     now, and noemathu_salvage needs as many where it drops nothing.
   - Does it compare the length, or the bytes, of what it handed in with those of the
     result, to see whether anything was changed? Of a bundle of version 1 the bytes
     are always others, and the length is wherever it has rows. Compare with what
     noemathu_read and noemathu_write make of it.


   Memory
   ------

   You lend all memory, for the time of the call. Nothing is allocated, kept or
   freed; there is no global state. Calls may run at once in any threads, as long
   as none writes to what another one uses.

   - A buffer is a pointer and a length, in bytes; for a table or a list, in
     words. A pointer with length 0 is not followed and may be NULL. With another
     length it must point to as many bytes or words.
   - Bytes may start at any address. Words must be aligned as uint32_t is.
   - What is read is never written to. Inputs may overlap each other: the prefix
     that you ask about may stand in the bundle that you ask.
   - An output must overlap nothing, neither an input nor another output. To
     replace a bundle by its normalized one, copy it back.
   - An output is always written whole. After success the result stands at its
     start, and all that is left over is zero. After a refusal all of it is zero.
   - NOEMATHU_STACK bytes of stack are enough for any call, and
     NOEMATHU_SMALL_STACK for a small bundle: one of up to NOEMATHU_FEW_ROWS rows
     and NOEMATHU_SHORT_POOL pool bytes.


   Answers
   -------

   Every function takes any bytes whatever, judges the whole bundle or table
   first, and always returns; a lookup costs little more than that judgement.
   Each answer begins with a refusal: its number, 0 if the call was not refused,
   the row that is at fault, 0 where no row is, and for 3, 12, 13 and 14, and for
   40 and 41 that stand for one of these, the word, 2, 4, 6 or 8, at which the
   field at fault begins, 0 for all others; see noemathu_field. The rest of a
   refused answer is 0: nothing found, nothing used.

   The first fault is named. The numbers are tried in this order: 30, 31, 32; 1;
   then row after row, each for 2; its fields in order, each for 3 and 12; its
   fields again for 13, and again for 14; 4 to 7; then 8, 9; 10, 11, 33; 20, 21,
   23, 24, 22. noemathu_check_proposal has 40 to 44, in this order, and no other;
   noemathu_salvage passes over 6 and 7.

   What was found is told by its place, an offset and a length in the pool of the
   bundle that was asked: see noemathu_bytes. */

#ifndef NOEMATHU_H
#define NOEMATHU_H

#include <stdbool.h>
#include <stddef.h>
#include <stdint.h>
#include <string.h>

#ifdef __cplusplus
extern "C" {
#endif

#define NOEMATHU_VERSION "0.5.0"

/* The limits of a table, and of a bundle: 77,836 bytes. */
#define NOEMATHU_ROW_WORDS 11
#define NOEMATHU_MOST_ROWS 1024
#define NOEMATHU_MOST_WORDS (NOEMATHU_ROW_WORDS * NOEMATHU_MOST_ROWS)
#define NOEMATHU_MOST_POOL 32768
#define NOEMATHU_BUNDLE_HEADER 12
#define NOEMATHU_BUNDLE_MOST NOEMATHU_BUNDLE_BYTES(NOEMATHU_MOST_ROWS, NOEMATHU_MOST_POOL)

/* The version of the bundles that are written, and the words that a row had in
   version 1. */
#define NOEMATHU_BUNDLE_VERSION 2
#define NOEMATHU_OLD_ROW_WORDS 10

/* The bytes of a bundle of so many rows and pool bytes, as it is written. */
#define NOEMATHU_BUNDLE_BYTES(rows, pool_bytes) \
    (NOEMATHU_BUNDLE_HEADER + 4 * NOEMATHU_ROW_WORDS * (size_t)(rows) + (size_t)(pool_bytes))

/* The words of the longest list that noemathu_salvage makes: the first row is never
   dropped. */
#define NOEMATHU_LIST_MOST (2 * (NOEMATHU_MOST_ROWS - 1))

/* The bytes of the longest XML text there is: the pool is a letter and quotes, it
   is the value of 1,023 rows, and each quote is written as &quot; there. For what
   a bundle needs see noemathu_xml_room. */
#define NOEMATHU_XML_MOST 201124912

/* Bytes of stack that are enough for any call. Measured were at most 84,144 for
   noemathu_write, 132,112 for noemathu_check and noemathu_read, 135,432 for the
   lookups, 223,360 for noemathu_check_proposal, 241,848 for noemathu_write_xml,
   229,360 for noemathu_normalize, 246,728 for noemathu_pack and 184,488 for
   noemathu_salvage. */
#define NOEMATHU_STACK 262144

/* A small bundle, or a small table and its pool, and the bytes of stack that are
   enough for any call on one. Measured were at most 23,080 for
   noemathu_write, 25,928 for noemathu_check and noemathu_read, 26,440 for the
   lookups, 36,968 for noemathu_check_proposal, 28,872 for noemathu_write_xml,
   37,048 for noemathu_normalize, 40,152 for noemathu_pack and 29,032 for
   noemathu_salvage. */
#define NOEMATHU_FEW_ROWS 64
#define NOEMATHU_SHORT_POOL 4096
#define NOEMATHU_SMALL_STACK 40960

/* The parent of a row that has none. */
#define NOEMATHU_NONE UINT32_C(4294967295)

/* The types of nodes: those of DOM, a declaration, and two of DOM Level 1. */
#define NOEMATHU_ELEMENT 1
#define NOEMATHU_ATTRIBUTE 2
#define NOEMATHU_TEXT 3
#define NOEMATHU_CDATA 4
#define NOEMATHU_ENTITY_REFERENCE 5
#define NOEMATHU_ENTITY 6
#define NOEMATHU_INSTRUCTION 7
#define NOEMATHU_COMMENT 8
#define NOEMATHU_DOCUMENT 9
#define NOEMATHU_DOCUMENT_TYPE 10
#define NOEMATHU_FRAGMENT 11
#define NOEMATHU_NOTATION 12
#define NOEMATHU_DECLARATION 13
#define NOEMATHU_LEVEL1_ELEMENT 257
#define NOEMATHU_LEVEL1_ATTRIBUTE 258

/* The two prefixes that are bound everywhere, `xml` and `xmlns`, have these URIs. */
#define NOEMATHU_XML_URI "http://www.w3.org/XML/1998/namespace"
#define NOEMATHU_XMLNS_URI "http://www.w3.org/2000/xmlns/"


/* Refusals, what they mean, and what to do. */

/* Not refused. */
#define NOEMATHU_NOT_REFUSED 0

/* The words are no whole rows, or there are more than 1,024 rows or 32,768 pool
   bytes. Hand in whole rows; split the tree. */
#define NOEMATHU_REFUSED_SIZE 1

/* The row's type is unknown, its parent is no earlier row or of a type that
   cannot hold it, or it is a second element under one document. Put parents
   before their children; graft under an element or a fragment. */
#define NOEMATHU_REFUSED_STRUCTURE 2

/* The field runs past the pool. Mend its offset or length, or hand in the whole
   pool. */
#define NOEMATHU_REFUSED_PAST_POOL 3

/* The element or attribute has no local name, or a prefix or local name holds a
   byte that no name may hold. Mend the name; a whole name with a colon belongs
   to types 257 and 258. */
#define NOEMATHU_REFUSED_NAMES 4

/* The element or attribute has a prefix and no URI, or uses `xml`, `xmlns` or
   one of their URIs as the namespace rules forbid. Give it its URI; write what
   declares a namespace as a row of type 13. */
#define NOEMATHU_REFUSED_NAMESPACE 5

/* The declaration rebinds `xml` or `xmlns`, binds another prefix to one of their
   URIs, or takes the URI away from a prefix. Remove it, as noemathu_salvage does. */
#define NOEMATHU_REFUSED_DECLARATION 6

/* The row's owner has an earlier declaration of the same prefix, or an earlier
   attribute of the same name. Remove one of the two; noemathu_salvage removes the
   later one. */
#define NOEMATHU_REFUSED_DOUBLE 7

/* The row asked about is not in the bundle. Ask about one of its rows. */
#define NOEMATHU_REFUSED_NO_SUCH_ROW 8

/* A row of type 257 or 258, which has no namespace to keep, stands in what is to
   be normalized or in the bundle of what is to be written as XML text. Make it a
   row of type 1 or 2, with its URI. */
#define NOEMATHU_REFUSED_LEVEL1 9

/* The result has more rows than the output table, or than 1,024, or more rows were
   dropped than the list has pairs of words. Lend a larger table or list; split the
   tree. */
#define NOEMATHU_REFUSED_ROW_ROOM 10

/* The result has more pool bytes than the output pool, or than 32,768. Lend a
   larger pool; split the tree. What noemathu_pack refuses so has fields that share
   bytes: leave it as it is. */
#define NOEMATHU_REFUSED_POOL_ROOM 11

/* The field has length 0 and an offset that is not 0. Write 0 for the offset, or
   give the field its length. */
#define NOEMATHU_REFUSED_OFFSET 12

/* The field is used and rows of this type do not have it: a value in an element,
   a prefix or URI in a declaration or a Level 1 row, a name in a text. Write 0
   for offset and length, or mend the type. */
#define NOEMATHU_REFUSED_MUST_BE_EMPTY 13

/* The field's bytes are not well-formed UTF-8 by RFC 3629: text in another
   encoding, a character that the field's end or start cuts, a surrogate, a form
   longer than need be, or more than U+10FFFF. Encode the text as UTF-8; let
   offset and length fall between characters. */
#define NOEMATHU_REFUSED_MALFORMED_UTF8 14

/* XML text is written from an element, or from a document that has one, and the
   row is neither; or it is in what is to be written, and is no element,
   attribute, text or declaration. Name the element; take comments, instructions,
   entity references and the like out first, and make CDATA a text. */
#define NOEMATHU_REFUSED_NOT_MARKUP 20

/* The row's value holds a character that XML 1.0 has no way to write: below 32,
   other than tab, line feed and carriage return, or U+FFFE or U+FFFF. Encode what
   is no text, as base64 does. */
#define NOEMATHU_REFUSED_CHARACTER 21

/* The output is too short for the XML text. Lend what noemathu_xml_room says. */
#define NOEMATHU_REFUSED_TEXT_ROOM 22

/* The element's or attribute's prefix does not mean its URI there, by the
   declarations in scope, or it is an attribute with a URI and no prefix.
   Normalize first. */
#define NOEMATHU_REFUSED_UNDECLARED 23

/* The row is a declaration outside of what is to be written, and is in scope
   there: the text alone would not say so, whether anything uses it or not. Write
   from the element that has no other around it, or declare the prefix again at
   the one that you write from. */
#define NOEMATHU_REFUSED_INHERITED 24

/* The bytes do not begin with `NTB`. This is no bundle. */
#define NOEMATHU_REFUSED_MARK 30

/* The version is neither 1 nor 2, or the bytes end before it. Ask for a newer
   library. */
#define NOEMATHU_REFUSED_VERSION 31

/* The bytes are more or fewer than the header says, by the length that rows have in
   its version, or byte 5 is not zero. The bundle was cut, lengthened or damaged: get
   it anew. */
#define NOEMATHU_REFUSED_LENGTHS 32

/* The output is too short for the bundle. Lend NOEMATHU_BUNDLE_MOST bytes, or
   for noemathu_normalize what noemathu_room says. */
#define NOEMATHU_REFUSED_BUNDLE_ROOM 33

/* The original is no bundle that noemathu_check accepts; row and word are those
   that it names. Ask noemathu_check for the number. */
#define NOEMATHU_REFUSED_ORIGINAL 40

/* The proposal is no bundle that noemathu_check accepts; row and word are those
   that it names. Ask noemathu_check for the number; do without the proposal. */
#define NOEMATHU_REFUSED_PROPOSAL 41

/* A row of type 257 or 258 in the original, or else in the proposal, which has no
   namespace to keep. Make it a row of type 1 or 2, with its URI. */
#define NOEMATHU_REFUSED_PROPOSAL_LEVEL1 42

/* The proposal does not keep this row of the original, or has no such row; or the
   row is further than the original's and is no declaration. Do without it. */
#define NOEMATHU_REFUSED_CHANGED 43

/* This element or owned attribute of the proposal does not mean its URI by the
   declarations in scope there. Do without it, or normalize it. */
#define NOEMATHU_REFUSED_UNRESOLVED 44

/* What a refusal's number means, in a few words. */
static inline const char *noemathu_text(uint32_t number)
{
    switch (number) {
    case NOEMATHU_NOT_REFUSED: return "not refused";
    case NOEMATHU_REFUSED_SIZE: return "not whole rows, or more than 1,024 rows or 32,768 pool bytes";
    case NOEMATHU_REFUSED_STRUCTURE: return "unknown type, or a parent that cannot be this row's";
    case NOEMATHU_REFUSED_PAST_POOL: return "a field that runs past the pool";
    case NOEMATHU_REFUSED_NAMES: return "a name that is missing or holds a bad byte";
    case NOEMATHU_REFUSED_NAMESPACE: return "a prefix without a URI, or xml or xmlns misused";
    case NOEMATHU_REFUSED_DECLARATION: return "a declaration that the namespace rules forbid";
    case NOEMATHU_REFUSED_DOUBLE: return "a second declaration or attribute of one name";
    case NOEMATHU_REFUSED_NO_SUCH_ROW: return "no such row";
    case NOEMATHU_REFUSED_LEVEL1: return "a DOM Level 1 node, which has no namespace to keep";
    case NOEMATHU_REFUSED_ROW_ROOM: return "too many rows for the result";
    case NOEMATHU_REFUSED_POOL_ROOM: return "too many pool bytes for the result";
    case NOEMATHU_REFUSED_OFFSET: return "a field with an offset and no length";
    case NOEMATHU_REFUSED_MUST_BE_EMPTY: return "a field that must be empty";
    case NOEMATHU_REFUSED_MALFORMED_UTF8: return "a field that is not well-formed UTF-8";
    case NOEMATHU_REFUSED_NOT_MARKUP: return "a node that is not written as XML text";
    case NOEMATHU_REFUSED_CHARACTER: return "a value with a character that XML text cannot hold";
    case NOEMATHU_REFUSED_TEXT_ROOM: return "too few bytes for the XML text";
    case NOEMATHU_REFUSED_UNDECLARED: return "a name whose prefix does not mean its URI";
    case NOEMATHU_REFUSED_INHERITED: return "a declaration around the element that its text would lose";
    case NOEMATHU_REFUSED_MARK: return "no bundle: it does not begin with NTB";
    case NOEMATHU_REFUSED_VERSION: return "a bundle of another version";
    case NOEMATHU_REFUSED_LENGTHS: return "a bundle that was cut, lengthened or damaged";
    case NOEMATHU_REFUSED_BUNDLE_ROOM: return "too few bytes for the bundle";
    case NOEMATHU_REFUSED_ORIGINAL: return "an original that the check refuses";
    case NOEMATHU_REFUSED_PROPOSAL: return "a proposal that the check refuses";
    case NOEMATHU_REFUSED_PROPOSAL_LEVEL1: return "a DOM Level 1 node in the original or the proposal";
    case NOEMATHU_REFUSED_CHANGED: return "a row that the proposal changed, lost or added";
    case NOEMATHU_REFUSED_UNRESOLVED: return "a name of the proposal that does not mean its URI";
    default: return "unknown refusal";
    }
}

/* Which field a refusal's word means; "none" for word 0. */
static inline const char *noemathu_field(uint32_t word)
{
    switch (word) {
    case 2: return "prefix";
    case 4: return "local name";
    case 6: return "namespace URI";
    case 8: return "value";
    default: return "none";
    }
}


/* The answers. */

/* The number of the refusal, the row at fault, and the word at which the field
   at fault begins; all 0 if not refused. */
typedef struct noemathu_refusal {
    uint32_t number;
    uint32_t row;
    uint32_t word;
} noemathu_refusal;

/* A part of the pool; length 0, with offset 0, is none. */
typedef struct noemathu_place {
    uint32_t offset;
    uint32_t length;
} noemathu_place;

/* What a lookup found: one of the four kinds below, and for NOEMATHU_PLACE where
   it stands in the bundle's pool. */
typedef struct noemathu_found {
    noemathu_refusal refusal;
    uint32_t found;
    noemathu_place place;
} noemathu_found;

#define NOEMATHU_NOTHING 0
#define NOEMATHU_PLACE 1
#define NOEMATHU_BUILT_IN_XML 2   /* the prefix `xml`, or its URI */
#define NOEMATHU_BUILT_IN_XMLNS 3 /* the prefix `xmlns`, or its URI */

/* How many rows of the output table and bytes of the output pool are used. */
typedef struct noemathu_sizes {
    noemathu_refusal refusal;
    size_t rows;
    size_t bytes;
} noemathu_sizes;

/* How many bytes of the output are used: the length of the bundle or the text. */
typedef struct noemathu_used {
    noemathu_refusal refusal;
    size_t bytes;
} noemathu_used;

/* How many bytes of the output are used, and how many rows were dropped: the list
   has two words for each. */
typedef struct noemathu_salvaged {
    noemathu_refusal refusal;
    size_t bytes;
    size_t dropped;
} noemathu_salvaged;


/* The functions. */

/* Judges a bundle. Refusals: 30 to 32, 1 to 7, 12 to 14. A bundle that is
   accepted here is accepted by all others too, apart from 8 to 11, 20 to 24 and
   33. */
noemathu_refusal noemathu_check(const uint8_t *bundle, size_t length);

/* Judges a bundle that somebody else made of another, to have prefixes of their
   own. It is accepted exactly if both pass noemathu_check; neither has rows of
   type 257 or 258; every row of the original has in the proposal its type, its
   parent, its maker and the bytes of its local name, URI and value, save that a
   declaration may have another value; an attribute without an owner has its prefix;
   every further row is a declaration, by any maker; and every element and owned
   attribute means its URI in scope. Prefixes, offsets, the pool and the version may
   be others. What noemathu_normalize makes of the original is always accepted, and
   noemathu_normalize leaves what is accepted as it is. Refusals: 40 to 44, in
   this order; 40 for the original and 41 for the proposal also stand for 30 to
   32, with row 0; 42 names the lowest row, of the original first; 43 the lowest
   row that is changed, missing or added; 44 the lowest. Nothing is written. */
noemathu_refusal noemathu_check_proposal(const uint8_t *original, size_t original_length,
                                         const uint8_t *proposal, size_t proposal_length);

/* The lookups start at an element. From an attribute or a declaration that is its
   owner; from a document its element; from an entity, a document type, a
   fragment or a notation none, and nothing is found; from all others the nearest
   element around. A prefix or a URI that you ask about may be any bytes. */

/* The URI that a prefix means at a row, by the names and declarations of the
   elements there and outward; the empty prefix is the default namespace. Found:
   a place, nothing, or for `xml` and `xmlns` a built-in, whatever is declared:
   see noemathu_uri for the bytes. This is lookupNamespaceURI of browsers.
   Refusals: 30 to 32, 1 to 8, 12 to 14. */
noemathu_found noemathu_uri_of_prefix(const uint8_t *bundle, size_t length, uint32_t row,
                                      const uint8_t *prefix, size_t prefix_length);

/* A prefix that means a URI at a row; never the empty one. Found: a place or
   nothing, never a built-in. Other than lookupPrefix of browsers, it answers no
   prefix that means another URI at the row. Refusals: 30 to 32, 1 to 8, 12 to
   14. */
noemathu_found noemathu_prefix_of_uri(const uint8_t *bundle, size_t length, uint32_t row,
                                      const uint8_t *uri, size_t uri_length);

/* The default namespace at a row: what noemathu_uri_of_prefix finds for the empty
   prefix. Found: a place or nothing, never a built-in. noemathu_default_is
   compares it with a URI. Refusals: 30 to 32, 1 to 8, 12 to 14. */
noemathu_found noemathu_default_uri(const uint8_t *bundle, size_t length, uint32_t row);

/* The in-scope URI of a prefix at a row: by declarations alone, as a reader of
   the written XML sees it. Found: a place, nothing, or for `xml` and `xmlns` a
   built-in, whose URIs are NOEMATHU_XML_URI and NOEMATHU_XMLNS_URI. Refusals: 30
   to 32, 1 to 8, 12 to 14. */
noemathu_found noemathu_in_scope_uri(const uint8_t *bundle, size_t length, uint32_t row,
                                     const uint8_t *prefix, size_t prefix_length);

/* An in-scope prefix of a URI at a row, by declarations alone; never the empty
   one. Found: a place, nothing, or a built-in. Refusals: 30 to 32, 1 to 8, 12 to
   14. */
noemathu_found noemathu_in_scope_prefix(const uint8_t *bundle, size_t length, uint32_t row,
                                        const uint8_t *uri, size_t uri_length);

/* Normalizes a bundle into another one. The rows keep their numbers; what is
   changed is the values of declarations and the prefixes of attributes, and new
   declarations stand behind the rows, new prefixes (`xml`, `NS1`) behind the
   pool. Afterwards the in-scope URI of every element's and every owned
   attribute's prefix is its URI. Refusals: 30 to 32, 1 to 7, 12 to 14, 9; 10 and
   11 where the result is beyond the limits of a table; 33. What it writes
   passes noemathu_check.

   Names keep their meaning by it, prefixes inside values do not: nobody but
   their reader knows that ref="p:layer" holds one. An element with that value,
   moved from a schema in which p means urn:maps into one in which it means
   urn:cakes, refers to another layer there. To keep it, give the element a
   declaration of its own for every prefix in scope where it comes from, as the
   command noemathu does in `cut` and `graft`. */
noemathu_used noemathu_normalize(const uint8_t *bundle, size_t length,
                                 uint8_t *out, size_t out_size);

/* Packs a bundle into another one, whose pool is each distinct field once: end to
   end, in order of first use, row after row and word after word, prefixes, local
   names, URIs and values together. Every field keeps its bytes and every other word,
   the maker too, its number, so that every lookup finds the same bytes, at another
   place. What is packed passes noemathu_check, and packing it again changes nothing.
   Rows of type 257 and 258 are packed as others are.

   Bytes that no row uses are gone, and equal ones stand once. But a field that is
   only a part of another one is an entry of its own, so that a packed pool can be
   longer than it was: NOEMATHU_BUNDLE_MOST bytes are always enough, the length of
   the input is not.

   Refusals: 30 to 32, 1 to 7, 12 to 14; 11 where the packed pool has more than
   32,768 bytes; 33. */
noemathu_used noemathu_pack(const uint8_t *bundle, size_t length,
                            uint8_t *out, size_t out_size);

/* Salvages a bundle of which noemathu_check refuses rows with 6 or 7: writes it
   without exactly those that draw 6 and those that draw 7 against a row that is
   kept. Kept rows stay in their order, with every word but the parent, which is the
   same row's new number; the pool is copied whole. What is dropped is a declaration
   or an attribute, and no row's parent.

   The list gets two words for each dropped row, in row order: the number that it
   had, and 6 or 7, which noemathu_text explains; 6 where it draws both.
   NOEMATHU_LIST_MOST words are always enough, and as many bytes for the output as
   the bundle has, with four more for each row where it is of version 1. Neither may
   overlap anything, and both are written whole.

   What is written passes noemathu_check, and a bundle that passes it comes back
   with its rows and its pool unchanged, and an empty list. That is all that is
   promised: where a declaration was dropped, a prefix may mean another URI than it
   did, or none. Normalize afterwards, and every element and attribute means its own
   again.

   Refusals: 30 to 32, 1 to 5, 12 to 14, at the first row that draws one of them,
   whatever rows before it are dropped; 10 where the list is too short; 33. */
noemathu_salvaged noemathu_salvage(const uint8_t *bundle, size_t length, uint8_t *out, size_t out_size,
                                   uint32_t *list, size_t list_words);

/* Reads a bundle into a table and a pool. Refusals: 30 to 32, 1 to 7, 12 to 14;
   10 where the table has too few whole rows, 11 where the pool is too short. Rows
   have NOEMATHU_ROW_WORDS in the table, also those of a bundle of version 1. */
noemathu_sizes noemathu_read(const uint8_t *bundle, size_t length,
                             uint32_t *table, size_t table_words, uint8_t *pool, size_t pool_size);

/* Writes a table and its pool as a bundle. What noemathu_read reads and
   noemathu_write writes is the same, word for word, and byte for byte where the
   bundle was of version 2. Refusals: 1 to 7, 12 to 14, 33. */
noemathu_used noemathu_write(const uint32_t *table, size_t table_words,
                             const uint8_t *pool, size_t pool_size, uint8_t *out, size_t out_size);

/* Writes an element and all that it holds as XML text: the element at the row, or
   that of the document at the row. Attributes and declarations stand in row order
   in the start tag, each after one space and its value in double quotes; elements
   and texts in row order behind it; there is always an end tag. In all values
   `&`, `<`, `>` and `"` are written as &amp; &lt; &gt; &quot; and carriage return
   as &#13; and in the start tag tab and line feed as &#9; and &#10; so that a
   reader gets the values back, byte for byte. The text is UTF-8, has no XML
   declaration, and no zero behind it.

   Every name means there what it means here, to a reader who has the text alone:
   what would not is refused by 23 and 24. A normalized bundle, written from an
   element without another around it, draws neither. That a name is spelled as XML
   asks is not judged for characters from 128 on.

   Refusals: 30 to 32, 1 to 8, 12 to 14; 9 for a Level 1 row anywhere in the
   bundle; 20, 21, 23, 24 in this order, each at its lowest row; 22. */
noemathu_used noemathu_write_xml(const uint8_t *bundle, size_t length, uint32_t row,
                                 uint8_t *out, size_t out_size);


/* Helpers. Those that look into a bundle ask for one that a function here has
   accepted or written. */

/* A row by the names of its fields. */
typedef struct noemathu_row {
    uint32_t type;
    uint32_t parent;
    noemathu_place prefix;
    noemathu_place local_name;
    noemathu_place uri;
    noemathu_place value;
    uint32_t maker;
} noemathu_row;

/* The number in so many little-endian bytes. */
static inline uint32_t noemathu_number(const uint8_t *bytes, size_t count)
{
    uint32_t number = 0;
    while (count > 0)
        number = number << 8 | bytes[--count];
    return number;
}

/* The version of a bundle: 2, or 1 where its rows have no makers. */
static inline uint32_t noemathu_version(const uint8_t *bundle)
{
    return noemathu_number(bundle + 3, 2);
}

/* How many bytes each of its rows takes, by its version. */
static inline size_t noemathu_row_bytes(const uint8_t *bundle)
{
    return 4 * (noemathu_version(bundle) == 1 ? NOEMATHU_OLD_ROW_WORDS : NOEMATHU_ROW_WORDS);
}

/* How many rows it has. */
static inline size_t noemathu_row_count(const uint8_t *bundle)
{
    return noemathu_number(bundle + 6, 2);
}

/* How many bytes its pool has. */
static inline size_t noemathu_pool_length(const uint8_t *bundle)
{
    return noemathu_number(bundle + 8, 4);
}

/* Its pool. */
static inline const uint8_t *noemathu_pool(const uint8_t *bundle)
{
    return bundle + NOEMATHU_BUNDLE_HEADER + noemathu_row_bytes(bundle) * noemathu_row_count(bundle);
}

/* The bytes of a place in its pool; they do not end in a zero. */
static inline const uint8_t *noemathu_bytes(const uint8_t *bundle, noemathu_place place)
{
    return noemathu_pool(bundle) + place.offset;
}

/* The URI that a lookup of a URI in this bundle has found, and its length: the
   bytes of a place or of a built-in; NULL and 0 for nothing and for a refusal. */
static inline const uint8_t *noemathu_uri(const uint8_t *bundle, noemathu_found found, size_t *length)
{
    switch (found.found) {
    case NOEMATHU_PLACE:
        *length = found.place.length;
        return noemathu_bytes(bundle, found.place);
    case NOEMATHU_BUILT_IN_XML:
        *length = sizeof NOEMATHU_XML_URI - 1;
        return (const uint8_t *)NOEMATHU_XML_URI;
    case NOEMATHU_BUILT_IN_XMLNS:
        *length = sizeof NOEMATHU_XMLNS_URI - 1;
        return (const uint8_t *)NOEMATHU_XMLNS_URI;
    default:
        *length = 0;
        return NULL;
    }
}

/* Whether a URI is the default namespace that noemathu_default_uri has found in
   this bundle: it is, if it has the bytes of the place. Nothing equals the empty
   URI, which so is the default wherever nothing is found; a refusal equals no
   URI. This is isDefaultNamespace of browsers. */
static inline bool noemathu_default_is(const uint8_t *bundle, noemathu_found default_uri,
                                       const uint8_t *uri, size_t uri_length)
{
    if (default_uri.refusal.number || default_uri.place.length != uri_length)
        return false;
    return uri_length == 0 || memcmp(noemathu_bytes(bundle, default_uri.place), uri, uri_length) == 0;
}

/* A word, 0 to 10, of one of its rows; the maker, word 10, is 0 in version 1. */
static inline uint32_t noemathu_word(const uint8_t *bundle, size_t row, size_t word)
{
    size_t bytes = noemathu_row_bytes(bundle);
    const uint8_t *at = bundle + NOEMATHU_BUNDLE_HEADER + bytes * row + 4 * word;
    if (4 * word >= bytes)
        return 0;
    return (uint32_t)at[0] | (uint32_t)at[1] << 8 | (uint32_t)at[2] << 16 | (uint32_t)at[3] << 24;
}

/* One of its rows. */
static inline noemathu_row noemathu_row_of(const uint8_t *bundle, size_t row)
{
    noemathu_row given;
    given.type = noemathu_word(bundle, row, 0);
    given.parent = noemathu_word(bundle, row, 1);
    given.prefix.offset = noemathu_word(bundle, row, 2);
    given.prefix.length = noemathu_word(bundle, row, 3);
    given.local_name.offset = noemathu_word(bundle, row, 4);
    given.local_name.length = noemathu_word(bundle, row, 5);
    given.uri.offset = noemathu_word(bundle, row, 6);
    given.uri.length = noemathu_word(bundle, row, 7);
    given.value.offset = noemathu_word(bundle, row, 8);
    given.value.length = noemathu_word(bundle, row, 9);
    given.maker = noemathu_word(bundle, row, 10);
    return given;
}

/* Bytes that are enough for what noemathu_normalize makes of it: each row adds at
   most a row and six pool bytes, and all are written as rows of version 2. */
static inline size_t noemathu_room(const uint8_t *bundle)
{
    size_t rows = noemathu_row_count(bundle), bytes = noemathu_pool_length(bundle);
    size_t room = NOEMATHU_BUNDLE_BYTES(2 * rows, bytes + 6 * rows);
    return room < NOEMATHU_BUNDLE_MOST ? room : NOEMATHU_BUNDLE_MOST;
}

/* Bytes that escapes add to a value in XML text, in a start tag or as a text. */
static inline size_t noemathu_escapes(const uint8_t *bytes, size_t length, bool in_tag)
{
    static const uint8_t added[2][64] = {
        {0, 0, 0, 0, 0, 0, 0, 0, 0, 0, 0, 0, 0, 4, 0, 0, 0, 0, 0, 0, 0, 0, 0, 0, 0, 0, 0, 0, 0, 0, 0, 0,
         0, 0, 5, 0, 0, 0, 4, 0, 0, 0, 0, 0, 0, 0, 0, 0, 0, 0, 0, 0, 0, 0, 0, 0, 0, 0, 0, 0, 3, 0, 3, 0},
        {0, 0, 0, 0, 0, 0, 0, 0, 0, 3, 4, 0, 0, 4, 0, 0, 0, 0, 0, 0, 0, 0, 0, 0, 0, 0, 0, 0, 0, 0, 0, 0,
         0, 0, 5, 0, 0, 0, 4, 0, 0, 0, 0, 0, 0, 0, 0, 0, 0, 0, 0, 0, 0, 0, 0, 0, 0, 0, 0, 0, 3, 0, 3, 0}};
    size_t more = 0, k;
    for (k = 0; k < length; k++)
        if (bytes[k] < 64)
            more += added[in_tag][bytes[k]];
    return more;
}

/* Bytes that a value takes in XML text, in a start tag or as a text. */
static inline size_t noemathu_escaped_length(const uint8_t *bytes, size_t length, bool in_tag)
{
    return length + noemathu_escapes(bytes, length, in_tag);
}

/* Whether a row of a type has a value that XML text has in a start tag, or as a text. */
static inline bool noemathu_has_value(uint32_t type, bool in_tag)
{
    return in_tag ? type == NOEMATHU_ATTRIBUTE || type == NOEMATHU_DECLARATION : type == NOEMATHU_TEXT;
}

/* Bytes that all values in start tags, or all texts, take in XML text. Values may
   share their bytes, and be many times the pool together: where they are longer
   than it, what escapes add is summed up once, at every 64th byte of the pool, and
   of a value only its ends are looked at. */
static inline size_t noemathu_values_room(const uint8_t *bundle, bool in_tag)
{
    const uint8_t *pool = noemathu_pool(bundle);
    size_t rows = noemathu_row_count(bundle), bytes = noemathu_pool_length(bundle), room = 0, i;
    uint32_t sums[NOEMATHU_MOST_POOL / 64 + 1];
    bool summed;
    for (i = 0; i < rows; i++)
        if (noemathu_has_value(noemathu_word(bundle, i, 0), in_tag))
            room += noemathu_word(bundle, i, 9);
    if (room == 0)
        return 0;
    summed = room > bytes && bytes <= NOEMATHU_MOST_POOL;
    sums[0] = 0;
    for (i = 0; summed && i < bytes / 64; i++)
        sums[i + 1] = sums[i] + (uint32_t)noemathu_escapes(pool + 64 * i, 64, in_tag);
    for (i = 0; i < rows; i++)
        if (noemathu_has_value(noemathu_word(bundle, i, 0), in_tag)) {
            size_t start = noemathu_word(bundle, i, 8), end = start + noemathu_word(bundle, i, 9);
            if (summed && end - start > 64) {
                room += sums[end / 64] + noemathu_escapes(pool + end / 64 * 64, end % 64, in_tag);
                room -= sums[start / 64] + noemathu_escapes(pool + start / 64 * 64, start % 64, in_tag);
            } else {
                room += noemathu_escapes(pool + start, end - start, in_tag);
            }
        }
    return room;
}

/* Bytes that are enough for what noemathu_write_xml makes of it, from any row, and
   exactly as many where one element holds all rows. */
static inline size_t noemathu_xml_room(const uint8_t *bundle)
{
    size_t rows = noemathu_row_count(bundle), i;
    size_t room = noemathu_values_room(bundle, false) + noemathu_values_room(bundle, true);
    for (i = 0; i < rows; i++) {
        uint32_t type = noemathu_word(bundle, i, 0);
        if (type == NOEMATHU_ELEMENT || noemathu_has_value(type, true)) {
            size_t prefix = type == NOEMATHU_DECLARATION ? 5 : noemathu_word(bundle, i, 3);
            size_t local_name = noemathu_word(bundle, i, 5);
            size_t name = prefix + (prefix > 0 && local_name > 0) + local_name;
            room += type == NOEMATHU_ELEMENT ? 2 * name + 5 : name + 4;
        }
    }
    return room;
}

/* Fills in a row of a table for noemathu_write. */
static inline void noemathu_put_row(uint32_t *table, size_t row, noemathu_row given)
{
    uint32_t *words = table + NOEMATHU_ROW_WORDS * row;
    words[0] = given.type;
    words[1] = given.parent;
    words[2] = given.prefix.offset;
    words[3] = given.prefix.length;
    words[4] = given.local_name.offset;
    words[5] = given.local_name.length;
    words[6] = given.uri.offset;
    words[7] = given.uri.length;
    words[8] = given.value.offset;
    words[9] = given.value.length;
    words[10] = given.maker;
}

/* Puts bytes behind those that a pool of some size holds already, and tells their
   place; none for no bytes. Where they do not fit, nothing is put, and the place
   lies beyond the pool: a row that has it is refused with 3. */
static inline noemathu_place noemathu_put_bytes(uint8_t *pool, size_t size, size_t *held,
                                                const void *bytes, size_t length)
{
    noemathu_place place = {0, 0};
    if (length == 0)
        return place;
    if (*held > size || length > size - *held || length > UINT32_MAX || *held > UINT32_MAX) {
        place.offset = place.length = UINT32_MAX;
        return place;
    }
    place.offset = (uint32_t)*held;
    place.length = (uint32_t)length;
    memcpy(pool + *held, bytes, length);
    *held += length;
    return place;
}

#ifdef __cplusplus
}
#endif

#endif

/* The table of commands, and what each says of itself. */
#include "commands.h"

#define EVERYWHERE (OPTION_READING | OPTION_JSON | OPTION_HELP)

const struct command commands[] = {
    {"check", false, command_check, EVERYWHERE, 0, 1000000, "[FILE]...", "judge files: accepted, or the first fault",
     "Has the library judge each file, and prints how many rows and pool bytes it\n"
     "has.\n"},
    {"show", false, command_show, EVERYWHERE | OPTION_COLOR, 0, 1000000, "[FILE[#NODE]]...",
     "print the tree with rows, names and values",
     "Prints a row to a line: its number, its name as it is written, {URI}name as\n"
     "its maker means it, its value, and the number of its maker if that is not 0.\n"
     "What a reader would take for something else says so, and is red on a terminal.\n"},
    {"uri", false, command_uri, EVERYWHERE | OPTION_BROWSER, 1, 2, "PREFIX [FILE[#NODE]]",
     "the URI that a prefix means at a node",
     "Prints the URI that PREFIX means at the node, by the declarations in scope, as\n"
     "a reader of the text sees it. '' asks for the default namespace. Without NODE\n"
     "the node is row 0. Status 1 if there is none.\n"},
    {"prefix", false, command_prefix, EVERYWHERE | OPTION_BROWSER, 1, 2, "URI [FILE[#NODE]]",
     "a prefix that means a URI at a node",
     "Prints a prefix that means URI at the node, by the declarations in scope;\n"
     "never the empty one. Without NODE the node is row 0. Status 1 if there is\n"
     "none.\n"},
    {"scope", false, command_scope, EVERYWHERE, 0, 1, "[FILE[#NODE]]",
     "all that is in scope at a node, and where it is declared",
     "Prints each declaration in scope at the node, the nearest first, a tab, and\n"
     "the element that has it. Without NODE the node is row 0.\n"},
    {"list", false, command_list, EVERYWHERE | OPTION_URI | OPTION_ZERO, 0, 1000000, "[FILE[#NODE]]...",
     "the elements and attributes, as a reader takes them",
     "Prints elements and attributes, one to a line: the path, a tab, and {URI}name\n"
     "as a reader takes it who has only names and declarations; then, if its maker\n"
     "is not 0, a tab and who that is. With --uri that is what a job would act on\n"
     "that looks for this namespace. Status 1 if there is nothing.\n"},
    {"audit", false, command_audit, EVERYWHERE | OPTION_URI | OPTION_COLOR, 0, 1000000, "[FILE[#NODE]]...",
     "the names that would be read as something else",
     "Prints every name that a reader would take for something else than its maker\n"
     "means. With --uri only those from or into this namespace. Status 1 if there is\n"
     "one.\n"},
    {"diff", false, command_diff, EVERYWHERE | OPTION_AS_READ | OPTION_MAKERS | OPTION_COLOR, 1, 2, "FILE[#NODE] [FILE[#NODE]]",
     "compare two trees by expanded names",
     "Prints what only the first tree has behind -, and what only the second has\n"
     "behind +. Names are compared by URI and local name. Prefixes, declarations and\n"
     "the order of attributes do not count, nor do makers without --makers; adjoining\n"
     "texts are one. Status 1 if they differ.\n"},
    {"check-proposal", false, command_check_proposal, EVERYWHERE, 2, 2,
     "ORIGINAL[#NODE] PROPOSAL[#NODE]", "judge what somebody proposes for a file",
     "Has the library judge whether PROPOSAL, which somebody made of ORIGINAL to have\n"
     "prefixes of their own, may stand for it: the same nodes with the same names,\n"
     "values, makers and meanings, and nothing more than declarations.\n"},
    {"from-xml", true, command_from_xml, EVERYWHERE | OPTION_MAKER | OPTION_OUTPUT, 0, 1, "[FILE[#NODE]]",
     "read XML text, write a bundle",
     "Reads XML 1.0. Whatever is an error to libxml2, in namespaces too, ends with\n"
     "status 3; so do entities that are not built in, a document type that declares\n"
     "entities or attributes, and XML 1.1. What a bundle cannot hold is named on\n"
     "standard error. XML has no makers: all rows get the one that is given.\n"},
    {"xml", true, command_xml, EVERYWHERE | OPTION_OUTPUT, 0, 1, "[FILE[#NODE]]", "write an element as XML text",
     "Writes the element at the node, or that of the document, as XML text. What\n"
     "would not read back as it is meant is refused: normalize first.\n"},
    {"cut", true, command_cut, EVERYWHERE | OPTION_BARE | OPTION_OUTPUT, 1, 1, "FILE#NODE", "write one node as a bundle",
     "Writes the node and all that it holds. An element gets the declarations in\n"
     "scope at it, so that prefixes in values keep their meaning too.\n"},
    {"graft", true, command_graft, EVERYWHERE | OPTION_BARE | OPTION_UNDER | OPTION_OUTPUT, 2, 1000000,
     "HOST GUEST[#NODE]... --under NODE", "put nodes of other files under a node",
     "Puts the guests, as the last children, under a node of HOST. Each element\n"
     "comes with the declarations in scope at it, and each row with its maker. Nothing\n"
     "is normalized: audit tells which names would then be read as something else.\n"},
    {"normalize", true, command_normalize, EVERYWHERE | OPTION_DIFF | OPTION_COLOR | OPTION_OUTPUT, 0, 1, "[FILE[#NODE]]",
     "declare namespaces so that every name means its URI",
     "Writes a bundle in which every element and attribute means what its maker\n"
     "meant. With --diff it prints the tree with what changes, behind - and +, and\n"
     "ends with status 1 if something does.\n"},
    {"pack", true, command_pack, EVERYWHERE | OPTION_OUTPUT, 0, 1, "[FILE[#NODE]]", "leave out the bytes that no row uses",
     "Writes a bundle with the same rows, whose pool is each distinct name, URI and\n"
     "value once. Nothing means anything else.\n"},
    {"salvage", true, command_salvage, EVERYWHERE | OPTION_LIST | OPTION_OUTPUT, 0, 1, "[FILE[#NODE]]",
     "drop forbidden and doubled rows of an old bundle",
     "Writes a bundle without the declarations that the namespace rules forbid, and\n"
     "without second declarations and attributes of one name: the rows that draw\n"
     "refusals 6 and 7, and no others. Each is named on standard error, or with\n"
     "--list printed, with status 1 if there is one. NODE is one of the result.\n"},
};

const size_t command_count = sizeof commands / sizeof *commands;

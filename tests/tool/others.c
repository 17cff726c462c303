/* The moves of tests/tool/real-files, done with libxml2 alone: nodes are unlinked from their documents and added under others.

     others none | xmlReconciliateNs | xmlDOMWrapReconcileNamespaces <PLANS

   A plan is a line for each node: FILE, a tab, which element of it, a tab, and the element of the session to stand under, or
   - for the first; a line END ends it. What is printed is, for each plan, the length of the text, a line feed, and the text. */
#include <libxml/parser.h>
#include <libxml/tree.h>
#include <stdio.h>
#include <stdlib.h>
#include <string.h>

#define NODES 16

/* The node behind another one in the order of the text, below a node. */
static xmlNodePtr next_node(xmlNodePtr node, xmlNodePtr top)
{
    if (node->children && node->type == XML_ELEMENT_NODE)
        return node->children;
    while (node != top && !node->next)
        node = node->parent;
    return node == top ? NULL : node->next;
}

/* Takes comments and instructions out. */
static void remove_others(xmlNodePtr top)
{
    for (xmlNodePtr node = top, next; node; node = next) {
        next = next_node(node, top);
        if (node->type == XML_COMMENT_NODE || node->type == XML_PI_NODE) {
            xmlUnlinkNode(node);
            xmlFreeNode(node);
        }
    }
}

static xmlNodePtr element_at(xmlNodePtr top, long number)
{
    for (xmlNodePtr node = top; node; node = next_node(node, top))
        if (node->type == XML_ELEMENT_NODE && number-- == 0)
            return node;
    return NULL;
}

static void reconcile(const char *method, xmlDocPtr session, xmlNodePtr node)
{
    if (strcmp(method, "xmlReconciliateNs") == 0)
        xmlReconciliateNs(session, node);
    if (strcmp(method, "xmlDOMWrapReconcileNamespaces") == 0) {
        xmlDOMWrapCtxtPtr context = xmlDOMWrapNewCtxt();
        xmlDOMWrapReconcileNamespaces(context, node, 0);
        xmlDOMWrapFreeCtxt(context);
    }
}

/* Moves one node into a session. */
static int move_node(const char *method, char *line, xmlDocPtr session, xmlDocPtr *source)
{
    char *file = strtok(line, "\t"), *number = strtok(NULL, "\t"), *under = strtok(NULL, "\t\n");
    *source = file ? xmlReadFile(file, NULL, XML_PARSE_NODICT | XML_PARSE_NOENT | XML_PARSE_NOCDATA | XML_PARSE_NONET) : NULL;
    if (!*source || !number || !under)
        return 0;
    remove_others(xmlDocGetRootElement(*source));
    xmlNodePtr node = element_at(xmlDocGetRootElement(*source), strtol(number, NULL, 10));
    xmlNodePtr parent = strcmp(under, "-") == 0 ? NULL : element_at(xmlDocGetRootElement(session), strtol(under, NULL, 10));
    if (!node || (!parent && strcmp(under, "-") != 0))
        return 0;
    xmlUnlinkNode(node);
    if (parent)
        xmlAddChild(parent, node);
    else
        xmlDocSetRootElement(session, node);
    reconcile(method, session, node);
    return 1;
}

int main(int argc, char **argv)
{
    char line[8192];
    xmlDocPtr sources[NODES] = {NULL}, session = xmlNewDoc(BAD_CAST "1.0");
    size_t count = 0;
    while (argc == 2 && fgets(line, sizeof line, stdin)) {
        if (strcmp(line, "END\n") != 0) {
            if (count == NODES || !move_node(argv[1], line, session, &sources[count++]))
                return 1;
            continue;
        }
        xmlChar *text;
        int length;
        xmlDocDumpMemoryEnc(session, &text, &length, "UTF-8");
        printf("%d\n", length);
        fwrite(text, 1, (size_t)length, stdout);
        xmlFree(text);
        /* The sources stay until here, since names of the session point to their declarations. */
        xmlFreeDoc(session);
        session = xmlNewDoc(BAD_CAST "1.0");
        while (count > 0)
            xmlFreeDoc(sources[--count]);
    }
    xmlFreeDoc(session);
    xmlCleanupParser();
    return argc == 2 ? 0 : 1;
}

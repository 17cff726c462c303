#include "read_xml.h"
#include "blanks.h"
#include "escape.h"
#include "raw_tag.h"
#include "sniff.h"

#include <libxml/catalog.h>
#include <libxml/parser.h>
#include <libxml/parserInternals.h>
#include <libxml/SAX2.h>
#include <stdlib.h>
#include <string.h>

#if LIBXML_VERSION >= 21200
typedef const xmlError *error_pointer;
#else
typedef xmlErrorPtr error_pointer;
#endif

/* What is known while a text is read. */
struct reader {
    xmlParserCtxtPtr parser;
    struct xml_rows *rows;
    struct xml_wishes wishes;
    uint32_t around;     /* the row that holds what comes next */
    bool has_element;
    struct buffer text;  /* character data that is not a row yet */
    size_t text_line;
    size_t lines_room;
};

static struct reader *reader_of(void *parser)
{
    return ((xmlParserCtxtPtr)parser)->_private;
}

static struct bytes xml_bytes(const xmlChar *text)
{
    return text ? (struct bytes){text, strlen((const char *)text)} : (struct bytes){NULL, 0};
}

static size_t line_now(const struct reader *reader)
{
    int line = xmlSAX2GetLineNumber(reader->parser);
    return line > 0 ? (size_t)line : 0;
}


/* Faults, and what rows cannot hold. */

static bool is_faulty(const struct reader *reader)
{
    return reader->rows->fault.length > 0;
}

/* Keeps the first fault. */
static void fault(struct reader *reader, size_t line, const char *text, struct bytes name)
{
    if (is_faulty(reader))
        return;
    reader->rows->fault_line = line;
    append_text(&reader->rows->fault, text);
    append_shown(&reader->rows->fault, name);
}

/* What libxml2 reports. That a URI is relative and the like are warnings, and no faults. */
static void reported(void *parser, error_pointer error)
{
    struct reader *reader = reader_of(parser);
    if (!error || error->level < XML_ERR_ERROR)
        return;
    struct bytes message = text_bytes(error->message ? error->message : "no XML");
    while (message.length > 0 && message.at[message.length - 1] == '\n')
        message.length--;
    fault(reader, error->line > 0 ? (size_t)error->line : 0, "", message);
}

static void begin_loss(struct reader *reader)
{
    append_number(&reader->rows->losses, line_now(reader));
    append_text(&reader->rows->losses, ":");
}

static void end_loss(struct reader *reader, const char *text)
{
    append_text(&reader->rows->losses, text);
    append_text(&reader->rows->losses, "\n");
}


/* Rows. */

static uint32_t add(struct reader *reader, noemathu_row row, size_t line)
{
    struct xml_rows *rows = reader->rows;
    if (rows->nodes.rows == reader->lines_room) {
        reader->lines_room = 2 * reader->lines_room + 64;
        rows->lines = held(rows->lines, reader->lines_room, sizeof *rows->lines);
    }
    rows->lines[rows->nodes.rows] = line;
    row.maker = reader->wishes.maker;
    return add_row(&rows->nodes, row);
}

/* Adds a node that has only a value, under the row that holds what comes. */
static uint32_t add_value(struct reader *reader, uint32_t type, struct bytes value, size_t line)
{
    noemathu_row row = {.type = type, .parent = reader->around};
    row.value = share(&reader->rows->nodes, value);
    return add(reader, row, line);
}

/* Makes a row of the character data that came last. */
static void end_text(struct reader *reader)
{
    if (reader->text.length > 0)
        add_value(reader, NOEMATHU_TEXT, buffer_bytes(&reader->text), reader->text_line);
    reader->text.length = 0;
}

static void on_characters(void *parser, const xmlChar *characters, int length)
{
    struct reader *reader = reader_of(parser);
    if (is_faulty(reader))
        return;
    if (reader->text.length == 0)
        reader->text_line = line_now(reader);
    append(&reader->text, (struct bytes){characters, (size_t)length});
}

static void on_cdata(void *parser, const xmlChar *characters, int length)
{
    struct reader *reader = reader_of(parser);
    if (is_faulty(reader))
        return;
    if (reader->wishes.no_cdata) {
        on_characters(parser, characters, length);
        return;
    }
    end_text(reader);
    add_value(reader, NOEMATHU_CDATA, (struct bytes){characters, (size_t)length}, line_now(reader));
}

static void on_comment(void *parser, const xmlChar *value)
{
    struct reader *reader = reader_of(parser);
    if (is_faulty(reader) || reader->wishes.no_comments || reader->parser->inSubset)
        return;
    end_text(reader);
    add_value(reader, NOEMATHU_COMMENT, xml_bytes(value), line_now(reader));
}

static void on_instruction(void *parser, const xmlChar *target, const xmlChar *data)
{
    struct reader *reader = reader_of(parser);
    if (is_faulty(reader) || reader->wishes.no_instructions || reader->parser->inSubset)
        return;
    end_text(reader);
    add_value(reader, NOEMATHU_INSTRUCTION, xml_bytes(data), line_now(reader));
    begin_loss(reader);
    append_text(&reader->rows->losses, "the target of the instruction ");
    append_shown(&reader->rows->losses, xml_bytes(target));
    end_loss(reader, " is not kept");
}

static void add_declaration(struct reader *reader, uint32_t owner, const xmlChar *prefix, const xmlChar *uri)
{
    noemathu_row row = {.type = NOEMATHU_DECLARATION, .parent = owner};
    row.local_name = share(&reader->rows->nodes, xml_bytes(prefix));
    row.value = share(&reader->rows->nodes, xml_bytes(uri));
    add(reader, row, line_now(reader));
}

/* An attribute as libxml2 hands it over: local name, prefix, URI, start and end of its value. */
static void add_attribute(struct reader *reader, uint32_t owner, const xmlChar **attribute)
{
    noemathu_row row = {.type = NOEMATHU_ATTRIBUTE, .parent = owner};
    struct bytes value = {attribute[3], (size_t)(attribute[4] - attribute[3])};
    row.prefix = share(&reader->rows->nodes, xml_bytes(attribute[1]));
    row.local_name = share(&reader->rows->nodes, xml_bytes(attribute[0]));
    row.uri = share(&reader->rows->nodes, xml_bytes(attribute[2]));
    row.value = share(&reader->rows->nodes, value);
    if (row.prefix.length > 0 && row.uri.length == 0)
        fault(reader, line_now(reader), "a prefix that is not declared: ", xml_bytes(attribute[1]));
    add(reader, row, line_now(reader));
}

/* Adds a declaration of `xml`, if the start tag that was just parsed has one: libxml2 looks at its URI, and neither hands it
   over nor finds a second one. */
static void add_xml_declaration(struct reader *reader, uint32_t owner)
{
    const xmlParserInput *input = reader->parser->input;
    size_t count = count_in_last_tag((struct bytes){input->base, (size_t)(input->cur - input->base)}, "xmlns:xml");
    if (count > 1)
        fault(reader, line_now(reader), "Attribute xmlns:xml redefined", (struct bytes){NULL, 0});
    if (count > 0)
        add_declaration(reader, owner, BAD_CAST "xml", BAD_CAST NOEMATHU_XML_URI);
}

static void on_start(void *parser, const xmlChar *local_name, const xmlChar *prefix, const xmlChar *uri, int declarations,
                     const xmlChar **declared, int attributes, int defaulted, const xmlChar **attribute)
{
    struct reader *reader = reader_of(parser);
    noemathu_row row = {.type = NOEMATHU_ELEMENT, .parent = reader->around};
    if (is_faulty(reader))
        return;
    end_text(reader);
    row.prefix = share(&reader->rows->nodes, xml_bytes(prefix));
    row.local_name = share(&reader->rows->nodes, xml_bytes(local_name));
    row.uri = share(&reader->rows->nodes, xml_bytes(uri));
    if (row.prefix.length > 0 && row.uri.length == 0)
        fault(reader, line_now(reader), "a prefix that is not declared: ", xml_bytes(prefix));
    if (defaulted > 0)
        fault(reader, line_now(reader), "attributes that the document type gives", (struct bytes){NULL, 0});
    reader->around = add(reader, row, line_now(reader));
    reader->has_element = true;
    for (int i = 0; i < declarations; i++)
        add_declaration(reader, reader->around, declared[2 * i], declared[2 * i + 1]);
    add_xml_declaration(reader, reader->around);
    for (int i = 0; i < attributes; i++)
        add_attribute(reader, reader->around, attribute + 5 * i);
}

static void on_end(void *parser, const xmlChar *local_name, const xmlChar *prefix, const xmlChar *uri)
{
    struct reader *reader = reader_of(parser);
    (void)local_name, (void)prefix, (void)uri;
    if (is_faulty(reader))
        return;
    end_text(reader);
    reader->around = row_of(&reader->rows->nodes, reader->around).parent;
}


/* What stands before the element. */

static void on_document(void *parser)
{
    struct reader *reader = reader_of(parser);
    const xmlChar *version = reader->parser->version;
    if (version && strcmp((const char *)version, "1.0") != 0)
        fault(reader, line_now(reader), "the text says that it is XML of another version than 1.0: ", xml_bytes(version));
    reader->around = NOEMATHU_NONE;
    reader->around = add_value(reader, NOEMATHU_DOCUMENT, (struct bytes){NULL, 0}, 1);
}

static void on_document_type(void *parser, const xmlChar *name, const xmlChar *public_id, const xmlChar *system_id)
{
    struct reader *reader = reader_of(parser);
    struct buffer *losses = &reader->rows->losses;
    if (is_faulty(reader))
        return;
    add_value(reader, NOEMATHU_DOCUMENT_TYPE, (struct bytes){NULL, 0}, line_now(reader));
    begin_loss(reader);
    append_text(losses, "the text of the document type is not kept: ");
    append_shown(losses, xml_bytes(name));
    if (public_id) {
        append_text(losses, " PUBLIC ");
        append_quoted(losses, xml_bytes(public_id));
    }
    if (system_id) {
        append_text(losses, public_id ? " " : " SYSTEM ");
        append_quoted(losses, xml_bytes(system_id));
    }
    end_loss(reader, system_id ? "; what it names was not read" : "");
}

/* What a document type declares that the text alone does not say. */
static void refuse_declared(void *parser, const char *text, const xmlChar *name)
{
    struct reader *reader = reader_of(parser);
    bool is_first = !is_faulty(reader);
    fault(reader, line_now(reader), text, xml_bytes(name));
    if (is_first)
        append_text(&reader->rows->fault, "; if you trust it, xmllint --nonet --noent --dtdattr --dropdtd writes it out");
    xmlStopParser(parser);
}

static void on_entity(void *parser, const xmlChar *name, int type, const xmlChar *public_id, const xmlChar *system_id,
                      xmlChar *content)
{
    (void)type, (void)public_id, (void)system_id, (void)content;
    refuse_declared(parser, "the document type declares an entity: ", name);
}

static void on_unparsed_entity(void *parser, const xmlChar *name, const xmlChar *public_id, const xmlChar *system_id,
                               const xmlChar *notation)
{
    (void)public_id, (void)system_id, (void)notation;
    refuse_declared(parser, "the document type declares an entity: ", name);
}

static void on_attribute_declared(void *parser, const xmlChar *element, const xmlChar *name, int type, int value,
                                  const xmlChar *given, xmlEnumerationPtr values)
{
    (void)name, (void)type, (void)value, (void)given;
    xmlFreeEnumeration(values);
    refuse_declared(parser, "the document type declares attributes of ", element);
}

static void on_reference(void *parser, const xmlChar *name)
{
    fault(reader_of(parser), line_now(reader_of(parser)), "a reference to an entity that is not built in: ", xml_bytes(name));
}

static xmlEntityPtr built_in_entity(void *parser, const xmlChar *name)
{
    (void)parser;
    return xmlGetPredefinedEntity(name);
}

static xmlEntityPtr no_parameter_entity(void *parser, const xmlChar *name)
{
    on_reference(parser, name);
    return NULL;
}

static xmlParserInputPtr nothing_fetched(const char *url, const char *id, xmlParserCtxtPtr parser)
{
    (void)url, (void)id, (void)parser;
    return NULL;
}


/* Reading. */

static void set_callbacks(xmlSAXHandler *sax)
{
    memset(sax, 0, sizeof *sax);
    sax->initialized = XML_SAX2_MAGIC;
    sax->startDocument = on_document;
    sax->internalSubset = on_document_type;
    sax->entityDecl = on_entity;
    sax->unparsedEntityDecl = on_unparsed_entity;
    sax->attributeDecl = on_attribute_declared;
    sax->getEntity = built_in_entity;
    sax->getParameterEntity = no_parameter_entity;
    sax->reference = on_reference;
    sax->startElementNs = on_start;
    sax->endElementNs = on_end;
    sax->characters = sax->ignorableWhitespace = on_characters;
    sax->cdataBlock = on_cdata;
    sax->comment = on_comment;
    sax->processingInstruction = on_instruction;
    sax->serror = reported;
}

static void parse(struct reader *reader, struct bytes text)
{
    xmlInitParser();
    xmlCatalogSetDefaults(XML_CATA_ALLOW_NONE);
    xmlSetExternalEntityLoader(nothing_fetched);
    reader->parser = xmlNewParserCtxt();
    if (!reader->parser) {
        fault(reader, 0, "libxml2 has no memory", (struct bytes){NULL, 0});
        return;
    }
    reader->parser->_private = reader;
    set_callbacks(reader->parser->sax);
    /* With XML_PARSE_NOENT values have no references left; entities that are declared stop the parser before they are used. */
    xmlFreeDoc(xmlCtxtReadMemory(reader->parser, (const char *)text.at, (int)text.length, NULL, NULL,
                                 XML_PARSE_NOENT | XML_PARSE_NONET));
    if (!reader->parser->wellFormed || !reader->parser->nsWellFormed || !reader->has_element)
        fault(reader, line_now(reader), "no well-formed XML", (struct bytes){NULL, 0});
    xmlFreeParserCtxt(reader->parser);
}

bool read_xml(struct bytes text, struct xml_wishes wishes, struct xml_rows *rows)
{
    struct reader reader = {.rows = rows, .wishes = wishes};
    *rows = (struct xml_rows){0};
    size_t zero_line = line_of_zero(text);
    if (text.length == 0)
        fault(&reader, 0, "the text is empty", (struct bytes){NULL, 0});
    if (zero_line > 0)
        fault(&reader, zero_line, "a zero character", (struct bytes){NULL, 0});
    if (!is_faulty(&reader))
        parse(&reader, text);
    if (!is_faulty(&reader))
        leave_out_blanks(rows, wishes.no_blanks);
    free_buffer(&reader.text);
    return !is_faulty(&reader);
}

void free_xml_rows(struct xml_rows *rows)
{
    free_nodes(&rows->nodes);
    free(rows->lines);
    free_buffer(&rows->losses);
    free_buffer(&rows->fault);
}

const char *xml_reader_version(void)
{
    return LIBXML_DOTTED_VERSION;
}

/* Normalizes the trees of bundles by this library and by what is there already: libxml2's two functions that reconcile
   namespaces, and Xerces' normalizeDocument. Prints for each bundle how long each of them takes, as a multiple of the time
   of noemathu_normalize, which checks the bundle, reads it and writes another one, while the others change a tree in
   memory; and how many names are wrong afterwards: an element or attribute whose prefix does not mean its URI by the
   declarations in scope. Of a file of many bundles, each behind its 32-bit length, the wrong results are counted, and how
   often normalization was given up with an exception.
   With --bars it goes through the trees of such a file one after the other, and through one tree in a loop, which hides the
   branches that go another way in each tree; through their texts, with pugixml's and libxml2's writers beside; and through a
   small bundle, with an earlier build of this library beside, if there is one. It exits 1 where a ratio is beyond its bar.
   Usage: others BUNDLE..., others --many FILE, or others --bars FILE BUNDLE SMALL [EARLIER.so] */
#include <noemathu.h>
#include <algorithm>
#include <chrono>
#include <cstdio>
#include <cstdlib>
#include <cstring>
#include <fstream>
#include <functional>
#include <iterator>
#include <list>
#include <map>
#include <numeric>
#include <string>
#include <vector>
#include <dlfcn.h>
#include <libxml/tree.h>
#include <pugixml.hpp>
#include <xercesc/dom/DOM.hpp>
#include <xercesc/util/PlatformUtils.hpp>
#include <xercesc/util/XMLString.hpp>
#include <xercesc/util/XMLUni.hpp>

using std::string;
using std::vector;

static const size_t NO_ROW = SIZE_MAX;

struct Node {
    uint32_t type;
    size_t parent;
    string prefix, local_name, uri, value;
};

/* What the makers meant. */
typedef vector<Node> Tree;

/* What is there after normalization: the prefix of each row, and the declarations of each element. */
struct After {
    vector<string> prefixes;
    vector<std::map<string, string>> declared;
    explicit After(size_t rows) : prefixes(rows), declared(rows) {}
};

static string text_of(const uint8_t *bundle, noemathu_place place)
{
    return string(reinterpret_cast<const char *>(noemathu_bytes(bundle, place)), place.length);
}

static Tree tree_of(const vector<uint8_t> &bundle)
{
    Tree tree;
    for (size_t i = 0; i < noemathu_row_count(bundle.data()); i++) {
        noemathu_row row = noemathu_row_of(bundle.data(), i);
        tree.push_back({row.type, row.parent == NOEMATHU_NONE ? NO_ROW : row.parent, text_of(bundle.data(), row.prefix),
                        text_of(bundle.data(), row.local_name), text_of(bundle.data(), row.uri),
                        text_of(bundle.data(), row.value)});
    }
    return tree;
}

/* The URI of a prefix at an element by the declarations there and outward; empty for none. */
static string in_scope(const Tree &tree, const After &after, size_t element, const string &prefix)
{
    if (prefix == "xml")
        return NOEMATHU_XML_URI;
    for (; element != NO_ROW; element = tree[element].parent) {
        auto found = after.declared[element].find(prefix);
        if (found != after.declared[element].end())
            return found->second;
    }
    return "";
}

/* How many elements and attributes do not mean their URI. */
static size_t wrong_names(const Tree &tree, const After &after)
{
    size_t wrong = 0;
    for (size_t i = 0; i < tree.size(); i++) {
        const string &prefix = after.prefixes[i], &uri = tree[i].uri;
        if (tree[i].type == NOEMATHU_ELEMENT)
            wrong += in_scope(tree, after, i, prefix) != uri;
        else if (tree[i].type == NOEMATHU_ATTRIBUTE)
            wrong += prefix.empty() ? !uri.empty() : in_scope(tree, after, tree[i].parent, prefix) != uri || uri.empty();
    }
    return wrong;
}

typedef std::chrono::steady_clock Clock;

static double since(Clock::time_point began)
{
    return std::chrono::duration<double>(Clock::now() - began).count();
}

/* Normalization ended with an exception. */
struct GivenUp {};

/* A way to normalize a tree: gives what is there afterwards, and the seconds that normalization itself took. */
struct Way {
    const char *name;
    std::function<After(const vector<uint8_t> &, const Tree &, double &)> run;
};

static After by_noemathu(const vector<uint8_t> &bundle, const Tree &tree, double &seconds)
{
    static uint8_t out[NOEMATHU_BUNDLE_MOST];
    auto began = Clock::now();
    noemathu_used used = noemathu_normalize(bundle.data(), bundle.size(), out, sizeof out);
    seconds = since(began);
    After after(tree.size());
    if (used.refusal.number) {
        fprintf(stderr, "others: refusal %u\n", used.refusal.number);
        exit(2);
    }
    for (size_t i = 0; i < noemathu_row_count(out); i++) {
        noemathu_row row = noemathu_row_of(out, i);
        if (row.type == NOEMATHU_DECLARATION)
            after.declared[row.parent][text_of(out, row.local_name)] = text_of(out, row.value);
        else if (i < tree.size())
            after.prefixes[i] = text_of(out, row.prefix);
    }
    return after;
}

/* ---- libxml2 */

static const xmlChar *chars(const string &text)
{
    return text.empty() ? nullptr : reinterpret_cast<const xmlChar *>(text.c_str());
}

static string string_of(const xmlChar *text)
{
    return text ? reinterpret_cast<const char *>(text) : "";
}

struct Libxml2 {
    xmlDocPtr document = xmlNewDoc(BAD_CAST "1.0");
    vector<xmlNodePtr> nodes;
    vector<xmlNsPtr> apart;

    explicit Libxml2(const Tree &tree);
    ~Libxml2()
    {
        xmlFreeDoc(document);
        for (xmlNsPtr ns : apart)
            xmlFreeNs(ns);
    }
    Libxml2(const Libxml2 &) = delete;

    /* The declaration in scope that a name refers to; where there is none, one that stands nowhere, as after a graft. */
    xmlNsPtr ns_of(xmlNodePtr element, const Node &node)
    {
        if (node.uri.empty())
            return nullptr;
        xmlNsPtr ns = xmlSearchNs(document, element, chars(node.prefix));
        if (ns && string_of(ns->href) == node.uri)
            return ns;
        apart.push_back(xmlNewNs(nullptr, chars(node.uri), chars(node.prefix)));
        return apart.back();
    }

    After after(const Tree &tree)
    {
        After after(tree.size());
        for (size_t i = 0; i < tree.size(); i++) {
            if (tree[i].type == NOEMATHU_ELEMENT || tree[i].type == NOEMATHU_ATTRIBUTE)
                after.prefixes[i] = nodes[i]->ns ? string_of(nodes[i]->ns->prefix) : "";
            if (tree[i].type == NOEMATHU_ELEMENT)
                for (xmlNsPtr ns = nodes[i]->nsDef; ns; ns = ns->next)
                    after.declared[i].emplace(string_of(ns->prefix), string_of(ns->href));
        }
        return after;
    }
};

Libxml2::Libxml2(const Tree &tree) : nodes(tree.size())
{
    for (size_t i = 0; i < tree.size(); i++) {
        const Node &node = tree[i];
        xmlNodePtr parent = node.parent == NO_ROW || tree[node.parent].type == NOEMATHU_DOCUMENT
                                ? reinterpret_cast<xmlNodePtr>(document)
                                : nodes[node.parent];
        switch (node.type) {
        case NOEMATHU_ELEMENT: nodes[i] = xmlNewDocNode(document, nullptr, chars(node.local_name), nullptr); break;
        case NOEMATHU_TEXT: nodes[i] = xmlNewDocText(document, chars(node.value)); break;
        case NOEMATHU_CDATA: nodes[i] = xmlNewCDataBlock(document, chars(node.value), static_cast<int>(node.value.size())); break;
        case NOEMATHU_COMMENT: nodes[i] = xmlNewDocComment(document, chars(node.value)); break;
        case NOEMATHU_INSTRUCTION: nodes[i] = xmlNewDocPI(document, BAD_CAST "target", chars(node.value)); break;
        case NOEMATHU_DECLARATION:
            if (node.local_name != "xml")
                xmlNewNs(parent, BAD_CAST node.value.c_str(), chars(node.local_name));
            continue;
        default: continue;
        }
        /* Texts side by side would be made one. */
        nodes[i]->parent = parent;
        nodes[i]->prev = parent->last;
        (parent->last ? parent->last->next : parent->children) = nodes[i];
        parent->last = nodes[i];
    }
    /* Names come last, when all declarations are there. */
    for (size_t i = 0; i < tree.size(); i++) {
        if (tree[i].type == NOEMATHU_ELEMENT)
            nodes[i]->ns = ns_of(nodes[i], tree[i]);
        if (tree[i].type == NOEMATHU_ATTRIBUTE)
            nodes[i] = reinterpret_cast<xmlNodePtr>(xmlNewNsProp(nodes[tree[i].parent], ns_of(nodes[tree[i].parent], tree[i]),
                                                                 chars(tree[i].local_name), chars(tree[i].value)));
    }
}

static After by_libxml2(const Tree &tree, double &seconds, void (*reconcile)(xmlDocPtr, xmlNodePtr))
{
    Libxml2 made(tree);
    auto began = Clock::now();
    reconcile(made.document, xmlDocGetRootElement(made.document));
    seconds = since(began);
    return made.after(tree);
}

/* ---- Xerces */

using namespace xercesc;

class Wide {
    XMLCh *text;

public:
    explicit Wide(const string &from) : text(from.empty() ? nullptr : XMLString::transcode(from.c_str())) {}
    ~Wide() { XMLString::release(&text); }
    Wide(const Wide &) = delete;
    operator const XMLCh *() const { return text; }
};

static string narrow(const XMLCh *text)
{
    if (!text)
        return "";
    char *made = XMLString::transcode(text);
    string given = made;
    XMLString::release(&made);
    return given;
}

static string qualified(const string &prefix, const string &name)
{
    return prefix.empty() ? name : name.empty() ? prefix : prefix + ":" + name;
}

static After by_xerces(const vector<uint8_t> &, const Tree &tree, double &seconds)
{
    static const XMLCh core[] = {'C', 'o', 'r', 'e', 0};
    DOMDocument *document = DOMImplementationRegistry::getDOMImplementation(core)->createDocument();
    vector<DOMNode *> nodes(tree.size());
    for (size_t i = 0; i < tree.size(); i++) {
        const Node &node = tree[i];
        DOMNode *parent = node.parent == NO_ROW || tree[node.parent].type == NOEMATHU_DOCUMENT ? document : nodes[node.parent];
        Wide uri(node.uri), name(qualified(node.prefix, node.local_name)), value(node.value);
        static const XMLCh none[] = {0};
        const XMLCh *content = value ? static_cast<const XMLCh *>(value) : none;
        switch (node.type) {
        case NOEMATHU_ELEMENT: nodes[i] = document->createElementNS(uri, name); break;
        case NOEMATHU_TEXT: nodes[i] = document->createTextNode(content); break;
        case NOEMATHU_CDATA: nodes[i] = document->createCDATASection(content); break;
        case NOEMATHU_COMMENT: nodes[i] = document->createComment(content); break;
        case NOEMATHU_INSTRUCTION: nodes[i] = document->createProcessingInstruction(Wide("target"), content); break;
        case NOEMATHU_ATTRIBUTE: {
            DOMAttr *attribute = document->createAttributeNS(uri, name);
            attribute->setValue(content);
            static_cast<DOMElement *>(parent)->setAttributeNodeNS(attribute);
            nodes[i] = attribute;
            continue;
        }
        case NOEMATHU_DECLARATION:
            static_cast<DOMElement *>(parent)->setAttributeNS(XMLUni::fgXMLNSURIName,
                                                              Wide(qualified("xmlns", node.local_name)), content);
            continue;
        default: continue;
        }
        parent->appendChild(nodes[i]);
    }
    document->getDOMConfig()->setParameter(XMLUni::fgDOMNamespaces, true);
    auto began = Clock::now();
    try {
        document->normalizeDocument();
    } catch (const XMLException &) {
        document->release();
        throw GivenUp();
    } catch (const DOMException &) {
        document->release();
        throw GivenUp();
    }
    seconds = since(began);

    After after(tree.size());
    for (size_t i = 0; i < tree.size(); i++) {
        if (tree[i].type != NOEMATHU_ELEMENT && tree[i].type != NOEMATHU_ATTRIBUTE)
            continue;
        after.prefixes[i] = narrow(nodes[i]->getPrefix());
        DOMNamedNodeMap *owned = tree[i].type == NOEMATHU_ELEMENT ? nodes[i]->getAttributes() : nullptr;
        for (XMLSize_t k = 0; owned && k < owned->getLength(); k++) {
            DOMNode *one = owned->item(k);
            if (XMLString::equals(one->getNamespaceURI(), XMLUni::fgXMLNSURIName))
                after.declared[i][one->getPrefix() ? narrow(one->getLocalName()) : ""] = narrow(one->getNodeValue());
        }
    }
    document->release();
    return after;
}

/* ---- the comparison */

static void reconciliate(xmlDocPtr document, xmlNodePtr element)
{
    xmlReconciliateNs(document, element);
}

static void wrap_reconcile(xmlDocPtr, xmlNodePtr element)
{
    xmlDOMWrapCtxtPtr context = xmlDOMWrapNewCtxt();
    xmlDOMWrapReconcileNamespaces(context, element, 0);
    xmlDOMWrapFreeCtxt(context);
}

static const Way ways[] = {
    {"noemathu_normalize", by_noemathu},
    {"xmlReconciliateNs",
     [](const vector<uint8_t> &, const Tree &tree, double &seconds) { return by_libxml2(tree, seconds, reconciliate); }},
    {"xmlDOMWrapReconcileNamespaces",
     [](const vector<uint8_t> &, const Tree &tree, double &seconds) { return by_libxml2(tree, seconds, wrap_reconcile); }},
    {"Xerces normalizeDocument", by_xerces}};

enum { WAYS = sizeof ways / sizeof *ways, RUNS = 15 };

static vector<uint8_t> contents(const char *path)
{
    std::ifstream file(path, std::ios::binary);
    if (!file) {
        fprintf(stderr, "others: cannot read %s\n", path);
        exit(2);
    }
    return vector<uint8_t>(std::istreambuf_iterator<char>(file), std::istreambuf_iterator<char>());
}

/* What became of a tree in one way. */
struct Outcome {
    bool given_up;
    size_t wrong;
    double seconds;
};

static Outcome tried(const Way &way, const vector<uint8_t> &bundle, const Tree &tree)
{
    Outcome outcome = {false, 0, 0};
    try {
        outcome.wrong = wrong_names(tree, way.run(bundle, tree, outcome.seconds));
    } catch (const GivenUp &) {
        outcome.given_up = true;
    }
    return outcome;
}

/* The least time of some runs; the ways take turns. */
static void compare(const char *path)
{
    vector<uint8_t> bundle = contents(path);
    Tree tree = tree_of(bundle);
    vector<Outcome> best(WAYS);
    for (int run = 0; run < RUNS; run++)
        for (int way = 0; way < WAYS; way++) {
            Outcome outcome = tried(ways[way], bundle, tree);
            if (run == 0 || outcome.seconds < best[way].seconds)
                best[way] = outcome;
        }
    string name = path;
    printf("%s:\n", name.substr(name.rfind('/') + 1).c_str());
    for (int way = 0; way < WAYS; way++)
        if (best[way].given_up)
            printf("  %s: given up\n", ways[way].name);
        else
            printf("  %s: %.2f of the time, %zu wrong\n", ways[way].name, best[way].seconds / best[0].seconds,
                   best[way].wrong);
}

/* The bundles of a file, each behind its length. */
static vector<vector<uint8_t>> bundles_of(const char *path)
{
    vector<uint8_t> all = contents(path);
    vector<vector<uint8_t>> bundles;
    for (size_t at = 0; at + 4 <= all.size();) {
        size_t length = noemathu_number(&all[at], 4);
        bundles.emplace_back(all.begin() + static_cast<long>(at) + 4, all.begin() + static_cast<long>(at + 4 + length));
        at += 4 + length;
    }
    return bundles;
}

static void count_wrong(const char *path)
{
    size_t trees = 0, names = 0, wrong_trees[WAYS] = {0}, wrong[WAYS] = {0}, given_up[WAYS] = {0};
    for (const vector<uint8_t> &bundle : bundles_of(path)) {
        Tree tree = tree_of(bundle);
        trees++;
        for (const Node &node : tree)
            names += node.type == NOEMATHU_ELEMENT || node.type == NOEMATHU_ATTRIBUTE;
        for (int way = 0; way < WAYS; way++) {
            Outcome outcome = tried(ways[way], bundle, tree);
            given_up[way] += outcome.given_up;
            wrong_trees[way] += outcome.wrong > 0;
            wrong[way] += outcome.wrong;
        }
    }
    printf("%zu grafted trees with %zu elements and attributes:\n", trees, names);
    for (int way = 0; way < WAYS; way++)
        printf("  %s: %zu trees wrong, with %zu names; %zu given up\n", ways[way].name, wrong_trees[way], wrong[way],
               given_up[way]);
}

/* ---- the bars */

typedef vector<vector<uint8_t>> Bundles;
typedef noemathu_used (*Normalize)(const uint8_t *, size_t, uint8_t *, size_t);
typedef void (*Reconcile)(xmlDocPtr, xmlNodePtr);

static int missed;

static void hold(const char *what, double ratio, double most)
{
    printf("  %s: %.2f, of %.2f that may be%s\n", what, ratio, most, ratio > most ? ": BEYOND" : "");
    missed += ratio > most;
}

/* What each tree has taken at least, in several rounds through all of them, one after the other: so what else the machine does
   counts little. */
class Least {
    vector<double> seconds;
    size_t at = 0;

public:
    void add(double taken)
    {
        if (at == seconds.size())
            seconds.push_back(taken);
        seconds[at] = std::min(seconds[at], taken);
        at++;
    }
    void next_round() { at = 0; }
    double sum() const { return std::accumulate(seconds.begin(), seconds.end(), 0.0); }
    double microseconds() const { return 1e6 * sum() / static_cast<double>(seconds.size()); }
};

/* A round through all trees; what is done with one answers the seconds it took. */
template <typename All, typename Deal> static void round(Least &least, const All &all, Deal deal)
{
    least.next_round();
    for (auto &one : all)
        least.add(deal(one));
}

static double normalized(const vector<uint8_t> &bundle, Normalize normalize, size_t room)
{
    static uint8_t out[NOEMATHU_BUNDLE_MOST];
    auto began = Clock::now();
    noemathu_used used = normalize(bundle.data(), bundle.size(), out, room);
    double seconds = since(began);
    if (used.refusal.number)
        exit(2);
    return seconds;
}

static double reconciled(const Libxml2 &made, Reconcile reconcile)
{
    auto began = Clock::now();
    reconcile(made.document, xmlDocGetRootElement(made.document));
    return since(began);
}

/* The names that a way leaves wrong in all trees. */
static size_t all_wrong(const Way &way, const Bundles &bundles, const vector<Tree> &trees)
{
    size_t wrong = 0;
    for (size_t i = 0; i < trees.size(); i++)
        wrong += tried(way, bundles[i], trees[i]).wrong;
    return wrong;
}

/* Tells what each way took for all trees, and how many names it leaves wrong; answers our share of the time of libxml2's
   fastest. */
static double told(const char *what, const Least (&least)[3], const Bundles &bundles, const vector<Tree> &trees)
{
    printf("%s:\n", what);
    for (int way = 0; way < 3; way++)
        printf("  %s: %.1f us, %.2f of the time, %zu wrong\n", ways[way].name, least[way].microseconds(),
               least[way].sum() / least[0].sum(), all_wrong(ways[way], bundles, trees));
    return least[0].sum() / std::min(least[1].sum(), least[2].sum());
}

static const Reconcile reconcilers[] = {reconciliate, wrap_reconcile};

static double by_default(const vector<uint8_t> &bundle)
{
    return normalized(bundle, noemathu_normalize, NOEMATHU_BUNDLE_MOST);
}

/* Different trees, one after the other. All of libxml2's are made before, as all bundles are there. */
static double different_trees(const Bundles &bundles)
{
    Least least[3];
    vector<Tree> trees;
    for (const vector<uint8_t> &bundle : bundles)
        trees.push_back(tree_of(bundle));
    for (int run = 0; run < RUNS; run++) {
        round(least[0], bundles, by_default);
        for (int way = 0; way < 2; way++) {
            std::list<Libxml2> made(trees.begin(), trees.end());
            round(least[way + 1], made, [&](const Libxml2 &one) { return reconciled(one, reconcilers[way]); });
        }
    }
    return told("a hundred different typical trees, one after the other", least, bundles, trees);
}

/* One tree in a loop. libxml2's, which it changes, is made anew each time. */
static double one_tree(const vector<uint8_t> &bundle)
{
    Least least[3];
    Bundles bundles(1, bundle);
    vector<Tree> trees(1, tree_of(bundle));
    for (int run = 0; run < 20 * RUNS; run++) {
        for (int times = 0; times < 10; times++)
            round(least[0], bundles, by_default);
        for (int way = 0; way < 2; way++)
            round(least[way + 1], trees, [&](const Tree &tree) { return reconciled(Libxml2(tree), reconcilers[way]); });
    }
    return told("one typical tree in a loop", least, bundles, trees);
}

/* Keeps what pugixml writes, in room that is there already. */
struct Kept : pugi::xml_writer {
    vector<char> room;
    size_t held = 0;
    explicit Kept(size_t size) : room(size) {}
    void write(const void *data, size_t size) override
    {
        if (held + size > room.size())
            room.resize(2 * (held + size));
        memcpy(room.data() + held, data, size);
        held += size;
    }
};

/* The tree as pugixml holds it. */
static void fill(pugi::xml_document &document, const Tree &tree)
{
    vector<pugi::xml_node> nodes(tree.size());
    for (size_t i = 0; i < tree.size(); i++) {
        const Node &node = tree[i];
        pugi::xml_node parent = node.parent == NO_ROW ? document : nodes[node.parent];
        if (node.type == NOEMATHU_ELEMENT)
            nodes[i] = parent.append_child(qualified(node.prefix, node.local_name).c_str());
        else if (node.type == NOEMATHU_TEXT)
            parent.append_child(pugi::node_pcdata).set_value(node.value.c_str());
        else if (node.type == NOEMATHU_ATTRIBUTE || node.type == NOEMATHU_DECLARATION)
            parent.append_attribute(qualified(node.type == NOEMATHU_ATTRIBUTE ? node.prefix : "xmlns", node.local_name).c_str())
                .set_value(node.value.c_str());
        else
            nodes[i] = document;
    }
}

/* The texts of the trees as they are when they are normalized. */
static void texts(const Bundles &bundles)
{
    Least least[3];
    Bundles normalized;
    vector<Tree> trees;
    size_t room = 0;
    for (const vector<uint8_t> &bundle : bundles) {
        vector<uint8_t> out(NOEMATHU_BUNDLE_MOST);
        out.resize(noemathu_normalize(bundle.data(), bundle.size(), out.data(), out.size()).bytes);
        room = std::max(room, noemathu_xml_room(out.data()));
        normalized.push_back(out);
        trees.push_back(tree_of(out));
    }
    vector<uint8_t> text(room);
    Kept kept(2 * room);
    for (int run = 0; run < RUNS; run++) {
        round(least[0], normalized, [&](const vector<uint8_t> &bundle) {
            auto began = Clock::now();
            noemathu_used used =
                noemathu_write_xml(bundle.data(), bundle.size(), 0, text.data(), noemathu_xml_room(bundle.data()));
            double seconds = since(began);
            if (used.refusal.number)
                exit(2);
            return seconds;
        });
        round(least[1], trees, [&](const Tree &tree) {
            pugi::xml_document document;
            fill(document, tree);
            kept.held = 0;
            auto began = Clock::now();
            document.save(kept, "", pugi::format_raw | pugi::format_no_declaration, pugi::encoding_utf8);
            return since(began);
        });
        round(least[2], trees, [&](const Tree &tree) {
            Libxml2 made(tree);
            auto began = Clock::now();
            xmlBufferPtr buffer = xmlBufferCreateSize(room);
            xmlNodeDump(buffer, made.document, xmlDocGetRootElement(made.document), 0, 0);
            double seconds = since(began);
            xmlBufferFree(buffer);
            return seconds;
        });
    }
    printf("XML text of the same trees, normalized:\n");
    printf("  noemathu_xml_room and noemathu_write_xml: %.1f us, 1.00 of the time\n", least[0].microseconds());
    printf("  pugixml: %.1f us, %.2f of the time\n", least[1].microseconds(), least[1].sum() / least[0].sum());
    printf("  libxml2: %.1f us, %.2f of the time\n", least[2].microseconds(), least[2].sum() / least[0].sum());
}

/* A small bundle, many times in turn with an earlier build of this library. */
static void small(const char *path, const char *earlier)
{
    Bundles bundles(100, contents(path));
    Least least[2];
    void *library = dlopen(earlier, RTLD_NOW | RTLD_LOCAL);
    Normalize before = library ? reinterpret_cast<Normalize>(dlsym(library, "noemathu_normalize")) : nullptr;
    if (!before) {
        fprintf(stderr, "others: cannot load %s\n", earlier);
        exit(2);
    }
    for (int run = 0; run < 10 * RUNS; run++) {
        round(least[0], bundles, [](const vector<uint8_t> &bundle) { return normalized(bundle, noemathu_normalize, 1024); });
        round(least[1], bundles, [&](const vector<uint8_t> &bundle) { return normalized(bundle, before, 1024); });
    }
    printf("ten rows, normalized into 1,024 bytes:\n  noemathu_normalize: %.2f us\n  an earlier build: %.2f us\n",
           least[0].microseconds(), least[1].microseconds());
    hold("ten rows, by the earlier build", least[0].sum() / least[1].sum(), 0.5);
}

static int bars(const char *path, const char *one, const char *few, const char *earlier)
{
    Bundles different = bundles_of(path);
    hold("different trees, by libxml2's fastest", different_trees(different), 0.85);
    hold("one tree, by libxml2's fastest", one_tree(contents(one)), 2.0);
    texts(different);
    if (earlier)
        small(few, earlier);
    printf("%d beyond what may be\n", missed);
    return missed > 0;
}

int main(int argc, char **argv)
{
    int status = 0;
    XMLPlatformUtils::Initialize();
    if (argc == 3 && string(argv[1]) == "--many")
        count_wrong(argv[2]);
    else if (argc > 4 && string(argv[1]) == "--bars")
        status = bars(argv[2], argv[3], argv[4], argc > 5 ? argv[5] : nullptr);
    else
        for (int i = 1; i < argc; i++)
            compare(argv[i]);
    XMLPlatformUtils::Terminate();
    return status;
}

// pugixml for documents.c: one document and one selector at a time. It merges texts that stand side by side and knows no
// node of another library, so that it answers how many nodes it selects.
#include <pugixml.hpp>

static pugi::xml_document *document;
static pugi::xpath_query *query;

extern "C" int pugixml_parse(const char *text, size_t length) {
    document = new pugi::xml_document;
    return document->load_buffer(text, length, pugi::parse_full | pugi::parse_ws_pcdata) ? 1 : 0;
}

extern "C" int pugixml_compile(const char *xpath) {
    delete query;
    query = new pugi::xpath_query(xpath);
    return *query ? 1 : 0;
}

extern "C" long pugixml_select(void) { return static_cast<long>(query->evaluate_node_set(*document).size()); }

extern "C" void pugixml_free(void) {
    delete query;
    delete document;
    query = nullptr;
    document = nullptr;
}

// ctemplate TEMPLATE DATA [SHOWN]: the page by ctemplate, which reads its template when it runs and escapes by itself.
#include "ctemplate_data.h"

int main(int count, char **words) {
    const std::string source = content_of(words[1]);
    std::string json = content_of(words[2]), page;
    rapidjson::Document data;
    data.ParseInsitu(&json[0]);
    const Value &items = data["items"];
    TemplateDictionary top("page");
    put_items(&top, items, count > 3 ? atoi(words[3]) : items.Size());
    ctemplate::StringToTemplateCache("page", source, ctemplate::DO_NOT_STRIP);
    if (!ctemplate::ExpandTemplate("page", ctemplate::DO_NOT_STRIP, &top, &page)) return 1;
    return fwrite(page.data(), 1, page.size(), stdout) == page.size() ? 0 : 1;
}

// pages PAGE DATA COUNT TEMPLATE [once]: makes so many pages by ctemplate, which reads its template once, from the same
// JSON, which is read anew for each page or, with `once`, before; prints the microseconds that these took, and those on
// a processor. For COUNT 0 it writes the page instead.
#include "ctemplate_data.h"

#include <sys/resource.h>

#include <chrono>
#include <cstring>

namespace {

void put(TemplateDictionary *to, const char *name, const Value &value) {
    to->SetValueWithoutCopy(name, text_of(value));
}

void put(TemplateDictionary *to, const char *name, const char *direction, const Value &value) {
    put(to, name, value);
    to->SetValueWithoutCopy(direction, direction_of(value));
}

void put_product(TemplateDictionary *part, const Value &product, const Value &currency) {
    const int left = product["left"].GetInt();
    put(part, "URL", product["url"]);
    put(part, "NAME", "NAME_DIR", product["name"]);
    put(part, "MAKER", "MAKER_DIR", product["maker"]);
    put(part, "CURRENCY", currency);
    part->SetIntValue("CENTS", product["cents"].GetInt());
    if (left == 0) part->ShowSection("SOLD");
    if (left == 0) part->ShowSection("NONE");
    if (left == 1) part->ShowSection("LAST");
    if (left > 1) part->AddSectionDictionary("MORE")->SetIntValue("LEFT", left);
    bool first = true;
    for (const Value &note : product["notes"].GetArray()) {
        TemplateDictionary *row = part->AddSectionDictionary("NOTE");
        if (!first) row->ShowSection("NEXT");
        put(row, "NOTE_TEXT", "NOTE_DIR", note);
        first = false;
    }
}

void put_shop(TemplateDictionary *top, const Value &data) {
    put(top, "LANG", data["lang"]);
    top->SetValueWithoutCopy("DIR", data["rtl"].GetBool() ? "rtl" : "ltr");
    put(top, "SHOP", "SHOP_DIR", data["shop"]);
    put(top, "ACCENT", data["accent"]);
    if (data["visitor"].IsString()) {
        put(top, "VISITOR_NAME", data["visitor"]);
        put(top->AddSectionDictionary("VISITOR"), "VISITOR_NAME", "VISITOR_DIR", data["visitor"]);
    } else {
        top->ShowSection("NO_VISITOR");
    }
    for (const Value &product : data["products"].GetArray())
        put_product(top->AddSectionDictionary("PRODUCT"), product, data["currency"]);
}

double busy() {
    rusage used;
    getrusage(RUSAGE_SELF, &used);
    return (used.ru_utime.tv_sec + used.ru_stime.tv_sec) * 1e6 + used.ru_utime.tv_usec + used.ru_stime.tv_usec;
}

}  // namespace

int main(int count, char **words) {
    const bool gen = strcmp(words[1], "gen") == 0, once = count > 5;
    const std::string json = content_of(words[2]);
    const long pages = atol(words[3]);
    ctemplate::StringToTemplateCache("page", content_of(words[4]), ctemplate::DO_NOT_STRIP);
    std::string text, page;
    rapidjson::Document read_before;
    read_before.Parse(json.c_str(), json.size());
    const auto make = [&] {
        page.clear();
        rapidjson::Document read;
        if (!once) {
            text = json;
            read.ParseInsitu(&text[0]);
        }
        const Value &data = once ? read_before : read;
        TemplateDictionary top("page");
        if (gen) put_items(&top, data["items"], data["items"].Size());
        else put_shop(&top, data);
        if (!ctemplate::ExpandTemplate("page", ctemplate::DO_NOT_STRIP, &top, &page)) exit(1);
    };
    make();
    if (pages == 0) return fwrite(page.data(), 1, page.size(), stdout) == page.size() ? 0 : 1;
    const auto from = std::chrono::steady_clock::now();
    const double busy_from = busy();
    for (long i = 0; i < pages; i++) make();
    const std::chrono::duration<double, std::micro> took = std::chrono::steady_clock::now() - from;
    printf("%f %f\n", took.count(), busy() - busy_from);
}

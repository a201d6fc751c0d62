// What the programs by ctemplate share: the file, the direction of a text, and the items of a list.
#pragma once
#include <ctemplate/template.h>
#include <rapidjson/document.h>

#include <cstdio>
#include <cstdlib>
#include <fstream>
#include <iterator>
#include <string>

using ctemplate::TemplateDictionary;
using ctemplate::TemplateString;
using rapidjson::Value;

namespace {

std::string content_of(const char *name) {
    std::ifstream file(name, std::ios::binary);
    return std::string(std::istreambuf_iterator<char>(file), std::istreambuf_iterator<char>());
}

// R, L or 0 for the first letter of a word, by the letters of the workload: U+0590 to U+08FF begin with D6 to E0.
char first_strong(const char *word, const char *end) {
    for (; word < end; word++) {
        unsigned char c = *word;
        if (c >= 0xD6 && c <= 0xE0) return 'R';
        if (c >= 0xC3 || (c | 32) - 'a' < 26u) return 'L';
    }
    return 0;
}

// The direction of a text by its words, by the rules of docs/bidi.md.
const char *direction(const char *text, size_t length) {
    int right = 0, total = 0;
    bool weak = false;
    for (const char *end = text + length, *next; text < end; text = next + 1) {
        for (next = text; next < end && *next != ' ';) next++;
        const std::string word(text, next);
        const char strong = first_strong(text, next);
        right += strong == 'R';
        if (strong == 'R') total++;
        else if (word.rfind("http://", 0) == 0 || word.rfind("https://", 0) == 0) weak = true;
        else if (strong == 'L') total++;
        else weak |= word.find_first_of("0123456789") != std::string::npos;
    }
    return 5 * right <= 2 * total && (total > 0 || weak) ? "ltr" : "rtl";
}

TemplateString text_of(const Value &value) { return TemplateString(value.GetString(), value.GetStringLength()); }

const char *direction_of(const Value &value) { return direction(value.GetString(), value.GetStringLength()); }

// The first of the items of `gen`, and the numbers of its 200 messages.
void put_items(TemplateDictionary *top, const Value &items, size_t shown) {
    for (size_t i = 0; i < shown; i++) {
        const Value &item = items[i];
        TemplateDictionary *part = top->AddSectionDictionary("ITEM");
        part->SetValueWithoutCopy("LINK", text_of(item["link"]));
        part->SetValueWithoutCopy("WHO", text_of(item["who"]));
        part->SetValueWithoutCopy("WHO_DIR", direction_of(item["who"]));
        part->SetValueWithoutCopy("TEXT", text_of(item["text"]));
        part->SetValueWithoutCopy("TEXT_DIR", direction_of(item["text"]));
        part->SetIntValue("N", item["n"].GetInt());
    }
    for (int k = 0; k < 200; k++) {
        const std::string name = (k == 1 ? "ONE_" : "OTHER_") + std::to_string(k);
        top->AddSectionDictionary(name)->SetIntValue("N", k);
    }
}

}  // namespace

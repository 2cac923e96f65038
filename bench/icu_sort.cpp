// Sorts the lines of standard input by their sort keys of ICU4C, at strength tertiary, by its root or by the language that is named:
// what `sort_files.py` times beside the program `collate-cldr`. Lines that compare equal stay as they came.
#include <cstdio>

#include "keyed.h"

static std::string contents_of_input() {
    std::string text;
    for (size_t got = 1; got > 0;) {
        const size_t size = text.size();
        text.resize(std::max<size_t>(1 << 16, 2 * size));
        got = std::fread(text.data() + size, 1, text.size() - size, stdin);
        text.resize(size + got);
    }
    return text;
}

static void print(const std::string &text) { std::fwrite(text.data(), 1, text.size(), stdout); }

int main(int count, char **words) {
    const std::string text = contents_of_input();
    Settings settings;
    settings.language = count > 1 ? words[1] : "und";
    const Peer peer(settings);
    Keys keys(peer);
    std::vector<Keyed> lines;
    for (size_t start = 0; start < text.size();) {
        const size_t end = std::min(text.find('\n', start), text.size());
        const std::string_view line = std::string_view(text).substr(start, end - start);
        lines.push_back(keys.keyed(line, in_utf16(line)));
        start = end + 1;
    }
    std::stable_sort(lines.begin(), lines.end());
    std::string output;
    for (const Keyed &it : lines) {
        output.append(it.text).push_back('\n');
        if (output.size() > 1 << 16) {
            print(output);
            output.clear();
        }
    }
    print(output);
    return 0;
}

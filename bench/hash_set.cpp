// Prints the distinct ids of a file, rising: a plain program over std::unordered_set, to compare `dedup` with.
//
// A line is an id in decimal digits, or empty. It reads the whole file, and prints through one buffer.
#include <algorithm>
#include <charconv>
#include <cstdint>
#include <cstdio>
#include <stdexcept>
#include <string>
#include <unordered_set>
#include <vector>

using Ids = std::unordered_set<std::uint64_t>;

static std::string read_whole(const char *name)
{
    std::FILE *file = std::fopen(name, "rb");
    if (file == nullptr || std::fseek(file, 0, SEEK_END) != 0)
        throw std::runtime_error("the file can't be read");
    std::string bytes(static_cast<std::size_t>(std::ftell(file)), '\0');
    std::rewind(file);
    bool whole = std::fread(bytes.data(), 1, bytes.size(), file) == bytes.size();
    std::fclose(file);
    if (!whole)
        throw std::runtime_error("the file can't be read");
    return bytes;
}

static Ids distinct_ids(const std::string &bytes)
{
    Ids ids;
    const char *end = bytes.data() + bytes.size();
    for (const char *line = bytes.data(); line < end;) {
        const char *stop = std::find(line, end, '\n');
        std::uint64_t id = 0;
        if (stop != line) {
            auto parsed = std::from_chars(line, stop, id);
            if (parsed.ec != std::errc() || parsed.ptr != stop)
                throw std::runtime_error("bad line");
            ids.insert(id);
        }
        line = stop == end ? end : stop + 1;
    }
    return ids;
}

static std::vector<std::uint64_t> rising_ids(const char *name)
{
    Ids distinct = distinct_ids(read_whole(name));
    std::vector<std::uint64_t> ids(distinct.begin(), distinct.end());
    std::sort(ids.begin(), ids.end());
    return ids;
}

static void write_out(const char *bytes, std::size_t count)
{
    if (std::fwrite(bytes, 1, count, stdout) != count || std::fflush(stdout) != 0)
        throw std::runtime_error("the ids can't be written");
}

static void print(const std::vector<std::uint64_t> &ids)
{
    constexpr std::size_t longest_line = 21;
    std::vector<char> buffer(1 << 20);
    char *start = buffer.data();
    char *end = start + buffer.size();
    char *at = start;
    for (std::uint64_t id : ids) {
        if (static_cast<std::size_t>(end - at) < longest_line) {
            write_out(start, static_cast<std::size_t>(at - start));
            at = start;
        }
        at = std::to_chars(at, end, id).ptr;
        *at++ = '\n';
    }
    write_out(start, static_cast<std::size_t>(at - start));
}

int main(int words, char **word)
{
    try {
        if (words != 2)
            throw std::runtime_error("name a file");
        print(rising_ids(word[1]));
        return 0;
    } catch (const std::exception &fault) {
        std::fprintf(stderr, "hash_set: %s\n", fault.what());
        return 1;
    }
}

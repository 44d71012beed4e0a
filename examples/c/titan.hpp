// Titan for C++17: a session that is closed with its object.
#ifndef TITAN_HPP
#define TITAN_HPP

#include "titan.h"

#include <string>
#include <string_view>

class Titan {
public:
    explicit Titan(titan_words words = TITAN_IN_WORDS) { last = titan_open(&handle, words); }
    ~Titan() { titan_close(&handle); }

    // The library alone knows what the handle holds: it is neither copied nor moved.
    Titan(const Titan &) = delete;
    Titan &operator=(const Titan &) = delete;

    // Whether the next line may come.
    bool goes_on() {
        size_t none = 0;
        return titan_take(&handle, piece, 0, &none) == TITAN_GOES_ON;
    }

    // What became of the last call.
    uint32_t status() const { return last; }

    // Hands over a line without its LF, and gives what it prints.
    std::string line(std::string_view text) {
        size_t written = 0;
        last = titan_line(&handle, bytes(text), text.size(), piece, sizeof piece, &written);
        return rest(written);
    }

    // Tells that no line comes any more, and gives what is printed then.
    std::string end() {
        size_t written = 0;
        last = titan_end(&handle, piece, sizeof piece, &written);
        return rest(written);
    }

private:
    // No pointer is NULL, not even that of an empty line.
    static const uint8_t *bytes(std::string_view text) {
        return reinterpret_cast<const uint8_t *>(text.empty() ? "" : text.data());
    }

    // The piece, and all that waits behind it.
    std::string rest(size_t written) {
        std::string text(reinterpret_cast<char *>(piece), written);
        while (last < TITAN_WRONG_CALL && written == sizeof piece) {
            titan_take(&handle, piece, sizeof piece, &written);
            text.append(reinterpret_cast<char *>(piece), written);
        }
        return text;
    }

    titan handle = TITAN_NOTHING;
    uint32_t last = TITAN_GOES_ON;
    uint8_t piece[512];
};

#endif

// The round of `crates/rounds` in C++, to compare its speed with: the same atomic steps on the same
// words, by one thread, with nothing proved.
//
// usage: round ROUNDS
//
// It prints the line that the Rattle program prints for as many rounds. bench/compare_rounds.sh builds both,
// runs both and compares them.
#include <array>
#include <atomic>
#include <bit>
#include <charconv>
#include <cstdint>
#include <cstdio>
#include <cstring>
#include <optional>
#include <string_view>
#include <vector>

namespace {

using Word = std::atomic<std::uint64_t>;

constexpr std::uint32_t ROOM_WORDS = 23 + 3 * 4; // one room of four entries
constexpr std::uint64_t STATE = 1ull << 28;
constexpr std::uint64_t OWNED = 1;
constexpr std::uint64_t LIVE = 2;

std::uint64_t state_of(std::uint64_t pin) { return pin >> 28 & 15; }
std::uint64_t count_of(std::uint64_t pin) { return pin & (STATE - 1); }
std::uint32_t generation_of(std::uint64_t pin) { return static_cast<std::uint32_t>(pin >> 32); }

// The table's words as docs/FORMATS.md lays them out: word 0, the bits of the blocks, their bytes, the
// headers and one room.
class Table {
public:
    const std::uint32_t headers;
    const std::uint32_t blocks; // of 16 bytes, which are two words

    Table(std::uint32_t header_count, std::uint32_t block_count)
        : headers(header_count), blocks(block_count), bytes_at(bits_at + block_count / 64),
          headers_at(bytes_at + 2 * block_count), words(headers_at + 3 * header_count + ROOM_WORDS) {
        words[0].store(1);
    }

    Word& bits(std::uint32_t block) { return words[bits_at + block / 64]; }
    Word& bytes(std::uint32_t block, std::uint32_t i) { return words[bytes_at + 2 * block + i]; }
    Word& pin(std::uint32_t header) { return words[headers_at + 3 * header]; }
    Word& place(std::uint32_t header) { return words[headers_at + 3 * header + 1]; }
    Word& stamp(std::uint32_t header) { return words[headers_at + 3 * header + 2]; }

private:
    static constexpr std::uint32_t bits_at = 1;
    const std::uint32_t bytes_at;
    const std::uint32_t headers_at;
    std::vector<Word> words;
};

// Where the next searches begin.
struct Pass {
    std::uint32_t header = 0;
    std::uint32_t block = 0;
};

// Claims the first free header from `from` on and below `to`: a load, and an exchange where it is free.
std::optional<std::uint32_t> claim_between(Table& table, std::uint32_t from, std::uint32_t to) {
    for (std::uint32_t header = from; header < to; ++header) {
        std::uint64_t seen = table.pin(header).load();
        if (state_of(seen) == 0 && count_of(seen) == 0 && table.pin(header).compare_exchange_strong(seen, seen + STATE)) {
            return header;
        }
    }
    return std::nullopt;
}

std::optional<std::uint32_t> claim(Table& table, Pass& pass) {
    auto found = claim_between(table, pass.header, table.headers);
    if (!found) {
        found = claim_between(table, 0, pass.header);
    }
    if (found) {
        pass.header = *found + 1;
    }
    return found;
}

bool take_one(Table& table, std::uint32_t block) {
    std::uint64_t bit = 1ull << block % 64;
    return (table.bits(block).fetch_or(bit) & bit) == 0;
}

// Takes the first block of these words of bits whose bit is clear.
std::optional<std::uint32_t> take_between(Table& table, std::uint32_t from, std::uint32_t to) {
    for (std::uint32_t i = from; i < to; ++i) {
        std::uint64_t clear = ~table.bits(64 * i).load();
        while (clear != 0) {
            std::uint32_t block = 64 * i + static_cast<std::uint32_t>(std::countr_zero(clear));
            if (take_one(table, block)) {
                return block;
            }
            clear &= clear - 1;
        }
    }
    return std::nullopt;
}

// Takes the block at which the search begins, else the next one that is free.
std::optional<std::uint32_t> take(Table& table, Pass& pass) {
    std::optional<std::uint32_t> found;
    if (pass.block < table.blocks && take_one(table, pass.block)) {
        found = pass.block;
    }
    std::uint32_t first = pass.block / 64;
    if (!found) {
        found = take_between(table, first, table.blocks / 64);
    }
    if (!found) {
        found = take_between(table, 0, first);
    }
    if (found) {
        pass.block = *found + 1;
    }
    return found;
}

std::uint64_t place_word(std::uint32_t block, std::uint64_t length) { return std::uint64_t{block} << 16 | length; }
std::uint32_t block_in(std::uint64_t place) { return static_cast<std::uint32_t>(place >> 16); }
std::size_t length_in(std::uint64_t place) { return place & 0xffff; }

// The place and the stamp are stored, and the header is opened: its generation.
std::uint32_t fill(Table& table, std::uint32_t header, std::uint32_t block, std::uint64_t length, std::uint64_t stamp) {
    table.place(header).store(place_word(block, length));
    table.stamp(header).store(stamp);
    return generation_of(table.pin(header).fetch_add(STATE));
}

bool pin(Table& table, std::uint32_t header, std::uint32_t generation) {
    std::uint64_t found = table.pin(header).fetch_add(1);
    if (generation_of(found) == generation && state_of(found) == LIVE) {
        return true;
    }
    table.pin(header).fetch_sub(1);
    return false;
}

std::array<std::uint8_t, 8> bytes_of(std::uint64_t word) {
    std::array<std::uint8_t, 8> bytes;
    word = __builtin_bswap64(word);
    std::memcpy(bytes.data(), &word, 8);
    return bytes;
}

// A value that is read under a pin.
struct Reading {
    Table& table;
    std::uint32_t header;
    std::uint32_t block;
    std::size_t length;
    std::uint64_t stamp;

    Reading(Table& in, std::uint32_t of) : table(in), header(of) {
        std::uint64_t place = table.place(of).load();
        stamp = table.stamp(of).load();
        block = block_in(place);
        length = length_in(place);
    }

    std::uint64_t word(std::size_t i) { return table.bytes(block, static_cast<std::uint32_t>(i)).load(); }
    std::uint8_t byte(std::size_t i) { return bytes_of(word(i / 8))[i % 8]; }
    std::uint64_t eight(std::size_t i) { return word(i); }

    bool same(const std::uint8_t* other, std::size_t size) {
        if (size != length) {
            return false;
        }
        for (std::size_t i = 0; 8 * i < size; ++i) {
            auto bytes = bytes_of(word(i));
            std::size_t left = size - 8 * i;
            if (std::memcmp(other + 8 * i, bytes.data(), left < 8 ? left : 8) != 0) {
                return false;
            }
        }
        return true;
    }

    void copy_into(std::uint8_t* out, std::size_t size) {
        for (std::size_t i = 0; 8 * i < size; ++i) {
            auto bytes = bytes_of(word(i));
            std::size_t left = size - 8 * i;
            std::memcpy(out + 8 * i, bytes.data(), left < 8 ? left : 8);
        }
    }

    void done() { table.pin(header).fetch_sub(1); }
};

// Frees the header, and hands back its block.
std::uint32_t withdraw(Table& table, std::uint32_t header) {
    std::uint64_t place = table.place(header).load();
    table.pin(header).fetch_sub(LIVE * STATE);
    return block_in(place);
}

void give(Table& table, std::uint32_t block) { table.bits(block).fetch_and(~(1ull << block % 64)); }

// Reads eight bytes in each way, and adds up what was read.
std::uint64_t read_parts(Reading& reading, const std::array<std::uint8_t, 8>& bytes) {
    std::uint64_t last = reading.byte(7);
    std::uint64_t same = reading.same(bytes.data(), bytes.size());
    std::uint64_t eight = reading.eight(0);
    std::array<std::uint8_t, 8> copy{};
    reading.copy_into(copy.data(), copy.size());
    return last + same + eight + copy[6] + reading.stamp;
}

// One value is stored, read and given back: 19 atomic steps.
std::uint64_t round(Table& table, Pass& pass, std::uint64_t number) {
    auto header = claim(table, pass);
    if (!header) {
        return 0;
    }
    auto block = take(table, pass);
    if (!block) {
        table.pin(*header).fetch_sub(OWNED * STATE);
        return 0;
    }
    table.bytes(*block, 0).store(number);
    table.bytes(*block, 1).store(0);
    std::uint32_t generation = fill(table, *header, *block, 8, number);
    std::uint64_t read = 0;
    if (pin(table, *header, generation)) {
        Reading reading(table, *header);
        if (reading.length == 8) {
            read = read_parts(reading, bytes_of(number));
        }
        reading.done();
    }
    give(table, withdraw(table, *header));
    return read;
}

} // namespace

int main(int count, char** words) {
    std::uint64_t rounds = 0;
    std::string_view word = count == 2 ? words[1] : "";
    auto [end, error] = std::from_chars(word.data(), word.data() + word.size(), rounds);
    if (word.empty() || error != std::errc{} || end != word.data() + word.size()) {
        std::fputs("usage: round ROUNDS\n", stderr);
        return 2;
    }
    Table table(1024, 1024);
    Pass pass;
    std::uint64_t sum = 0;
    for (std::uint64_t number = 0; number < rounds; ++number) {
        sum += round(table, pass, number);
    }
    std::printf("%llu rounds, sum %llu\n", static_cast<unsigned long long>(rounds), static_cast<unsigned long long>(sum));
}

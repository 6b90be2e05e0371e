// The floor under a get, a put over a value of the same length, a put of a new key, and a pair of a scan up: what they take
// in a table that is laid out as OakMap's, by code that makes the loads and the ordered steps which that layout asks of
// them, and nothing else. What OakMap takes more than this is its own. It is this program's time, and no bound: another may
// be faster.
//
// usage: floor WORK KEYS ROUNDS THREADS [BYTES]
//
// WORK is one of these:
//
// - `get`, `over`, `ingest`: as in peers.cpp and crates/rounds;
// - `scan`, or `up`, as the other programs call it: a scan that follows the links of a room first, ends its pin of the room,
//   and then reads the pairs, whose words it has loaded ahead;
// - `load`: the same by loads, where `scan` has the processor's instruction to load ahead, which Rattle has not: a load has
//   to come back before the processor is done with it, so fewer of them overlap;
// - `pins`: of such a scan the links, the pins of the pairs and their ends alone, without keys and values: what a pair
//   takes at least, whatever else is done;
// - `unpinned`: such a scan without those pins and their ends, which is sound only where nobody writes;
// - `walk`: a scan that reads each pair as it comes to it, with the room pinned until the last one is read. OakMap's may
//   not: it pins at most the value of the present pair while its caller looks at it, since nobody could split the room of a
//   caller that takes its time. So it is no floor, but tells what that promise costs.
//
// The lesser of `scan` and `load` is the floor of a pair.
//
// Keys, values of BYTES bytes, or 100, their order, and what each thread does are those of the other programs, and so is
// standard output. Standard error has the nanoseconds of the work, and how many ordered steps a call, or a pair, made, and
// how many keys it compared, by a round more that is not timed and that one thread does.
//
// The words lie as docs/FORMATS.md says, where OakMap's puts would have left them: blocks and headers taken in turn, rooms
// split where they were full, entries appended behind the sorted ones. A put that finds its room full gives back what it
// took, and takes the next ones behind the split; so does one here.
//
// A call finds its room by a copy of the index's minima that its thread keeps, which that makes anew, as a reader of the
// index, where the room was not the one; pins the room, and looks at its bounds; halves the sorted entries, and follows the
// links; and pins the header of the value, or locks it. A scan pins each room once. Where such a call would have to wait or
// to look again the program fails instead, since no other thread is in its way then. So what it has to do and to keep for
// such cases is left out, and so are keys that have not just eight bytes: one word tells two of them apart. Of several ways
// to halve, and to load ahead, the fastest was taken.
//
// A put of a new key makes each ordered step that OakMap's makes, in its order, and so does the split of a full room: it
// is frozen, held, and opened as two, of which the index is told. The split follows the links, so it reads no key but the
// middle one, and sorts nothing; it takes the next room that is free, and knows where that one begins. Puts of several
// threads go on where another one was first, and look again where it has the room.
#include "told.hpp"

#include <algorithm>
#include <array>
#include <atomic>
#include <bit>
#include <chrono>
#include <cstdint>
#include <cstdio>
#include <cstdlib>
#include <cstring>
#include <mutex>
#include <string>
#include <thread>
#include <utility>
#include <vector>

namespace {

using Clock = std::chrono::steady_clock;
using Word = std::atomic<std::uint64_t>; // each step on one is sequentially consistent, where nothing else is said

constexpr std::uint32_t ENTRIES = 128; // of a room
constexpr std::uint32_t CLASSES = 4;
constexpr std::array<std::uint32_t, CLASSES> GREATEST_BLOCKS{65'536, 65'536, 16'384, 4'096};
constexpr std::uint32_t GREATEST_HEADERS = 65'536;
constexpr std::uint32_t GREATEST_ROOMS = 1'024;
constexpr std::uint32_t MOST_BYTES = 256; // of a value

// The states that pin words have here, and what stands below and above a state.
constexpr std::uint64_t STATE = 1ull << 28;
constexpr std::uint64_t ROOM_OPEN = 1, ROOM_FROZEN = 2, ROOM_HELD = 3;
constexpr std::uint64_t HEADER_OWNED = 1, HEADER_LIVE = 2;
constexpr std::uint32_t GENERATION_BITS = 32;

constexpr std::uint64_t NAMES_HEADER = 1ull << 63; // in a value word
constexpr std::uint64_t SORTED = 1 << 16; // what a sorted entry adds to a count word, beside the 1 of each entry

// The words of a header, of a room and of an entry, from its first one on.
constexpr std::uint32_t PLACE = 1, STAMP = 2, HEADER_WORDS = 3;
constexpr std::uint32_t BASE = 1, COUNT = 2, FIRST_LINK = 4, LOW = 5, HIGH = 14, ROOM_FIELDS = 23, BOUND_WORDS = 9;
constexpr std::uint32_t VALUE = 1, LINK = 2, ENTRY_WORDS = 3;
constexpr std::uint32_t ROOM_WORDS = ROOM_FIELDS + ENTRY_WORDS * ENTRIES;

constexpr std::uint64_t ABOVE_ALL = ~0ull; // no key of the workloads is as great

// Ends the program, from any thread.
[[noreturn]] void fail(const char* why) {
    std::fprintf(stderr, "floor: %s\n", why);
    std::_Exit(1);
}

struct Asked {
    std::string work;
    std::uint32_t keys, rounds, threads, bytes;
};

std::uint64_t word_from(const unsigned char* bytes) {
    std::uint64_t word;
    std::memcpy(&word, bytes, 8);
    return __builtin_bswap64(word);
}

void put_word(unsigned char* bytes, std::uint64_t word) {
    word = __builtin_bswap64(word);
    std::memcpy(bytes, &word, 8);
}

std::uint32_t words_for(std::uint32_t bytes) { return (bytes + 7) / 8; }

// A value in memory of its own, with zeros behind it up to the end of a word.
using Value = std::array<unsigned char, MOST_BYTES>;

Value value_of(std::uint32_t bytes) {
    Value value{};
    std::fill_n(value.begin(), bytes, 'v');
    return value;
}

std::uint64_t sum_of(const unsigned char* bytes, std::uint32_t count) {
    std::uint64_t sum = 0;
    for (std::uint32_t i = 0; i < count; i++) sum += bytes[i];
    return sum;
}

std::uint32_t class_for(std::uint32_t bytes) { return bytes <= 16 ? 0 : bytes <= 64 ? 1 : 2; }

// How many rooms, headers and blocks the workloads ask for.
struct Shape {
    std::uint32_t rooms, headers;
    std::array<std::uint32_t, CLASSES> blocks;

    explicit Shape(std::uint32_t keys) {
        const std::uint32_t twice = std::min(2 * std::max(keys, 1'024u), GREATEST_HEADERS);
        rooms = std::min(twice / (ENTRIES / 2), GREATEST_ROOMS);
        headers = twice;
        blocks = {std::min(2 * twice, GREATEST_BLOCKS[0]), std::min(twice, GREATEST_BLOCKS[1]),
                  std::min(twice, GREATEST_BLOCKS[2]), 0};
    }
};

std::uint64_t state_of(std::uint64_t pin) { return pin / STATE & 15; }

std::uint64_t place_word(std::uint64_t block_class, std::uint64_t block, std::uint64_t length) {
    return block_class << 48 | block << 16 | length;
}

// The words of the table. Where something stands is the number of its first word.
class Table {
    std::array<std::uint32_t, CLASSES> bits_at{}, bytes_at{};
    std::uint32_t headers_at, rooms_at;
    std::vector<Word> words;

public:
    const Shape shape;

    explicit Table(const Shape& of) : shape(of) {
        std::uint32_t end = 1;
        for (std::uint32_t i = 0; i < CLASSES; i++) {
            bits_at[i] = end;
            end += (shape.blocks[i] + 63) / 64;
        }
        for (std::uint32_t i = 0; i < CLASSES; i++) {
            bytes_at[i] = end;
            end += shape.blocks[i] * (2 << 2 * i);
        }
        headers_at = end;
        rooms_at = headers_at + HEADER_WORDS * shape.headers;
        words = std::vector<Word>(rooms_at + ROOM_WORDS * shape.rooms);
        words[0] = 1;
        words[rooms_at] = ROOM_OPEN * STATE;
    }

    Word& operator[](std::uint32_t at) { return words[at]; }

    std::uint64_t load(std::uint32_t at) const { return words[at].load(); }

    Word& bits(std::uint32_t block_class, std::uint32_t block) { return words[bits_at[block_class] + block / 64]; }

    // The block that a place word names. Most are those of keys, of the least class, and a search waits for each.
    std::uint32_t block(std::uint64_t place) const {
        const std::uint64_t block_class = place >> 48;
        const auto number = static_cast<std::uint32_t>(place >> 16);
        if (block_class == 0) return bytes_at[0] + 2 * number;
        return bytes_at[block_class] + (number << (1 + 2 * block_class));
    }

    std::uint32_t header(std::uint32_t number) const { return headers_at + HEADER_WORDS * number; }

    std::uint32_t room(std::uint32_t number) const { return rooms_at + ROOM_WORDS * number; }

    // The key of an entry: its key word, and then the word in the block that this names.
    std::uint64_t key(std::uint32_t entry) const { return load(block(load(entry))); }

    // Has the processor begin to load a word.
    void load_ahead(std::uint32_t at) const { __builtin_prefetch(&words[at]); }
};

std::uint32_t entry_at(std::uint32_t room, std::uint64_t number) {
    return room + ROOM_FIELDS + ENTRY_WORDS * static_cast<std::uint32_t>(number);
}

// The rooms in the order of their ranges, and the first keys of all but the lowest one.
struct Minima {
    std::vector<std::uint64_t> heads;
    std::vector<std::uint32_t> rooms{0};

    Minima() {
        heads.reserve(GREATEST_ROOMS);
        rooms.reserve(GREATEST_ROOMS);
    }

    // How many are not above the key. There is no branch on what is found, since none could be foreseen.
    std::size_t count(std::uint64_t key) const {
        std::size_t low = 0;
        for (std::size_t many = heads.size(); many > 0; many /= 2) {
            const std::size_t half = many - many / 2;
            low += heads[low + half - 1] <= key ? half : 0;
        }
        return low;
    }

    void insert(std::uint64_t head, std::uint32_t room) {
        const auto place = static_cast<std::ptrdiff_t>(count(head));
        heads.insert(heads.begin() + place, head);
        rooms.insert(rooms.begin() + place + 1, room);
    }
};

// The index: two copies of the minima, of which a word says which one is shown, and a word for each reader, odd while it
// reads, 128 bytes from the next one's.
class Index {
    static constexpr std::uint32_t STRIDE = 16;

    std::vector<Word> words;
    std::array<Minima, 2> sides;

    // What the hidden copy lacks, where it lacks something, and the words of the readers behind the last turn.
    std::uint64_t last_head = 0;
    std::uint32_t last_room = 0;
    std::vector<std::uint64_t> seen;

    // Waits until no reader is left that came to the hidden copy while it was shown.
    void wait_for_readers() {
        for (std::uint32_t i = 0; i < seen.size(); i++) {
            while (epoch(i).load() == seen[i] && seen[i] % 2 == 1) std::this_thread::yield();
        }
    }

public:
    std::mutex writing;

    explicit Index(std::uint32_t readers) : words(STRIDE * (readers + 1)), seen(readers) {}

    Word& turn() { return words[0]; }

    Word& epoch(std::uint32_t reader) { return words[STRIDE * (reader + 1)]; }

    const Minima& shown() const { return sides[words[0].load()]; }

    // Brings the hidden copy up to the shown one, and this much further: which one it is. Only one thread may do so at once.
    std::uint64_t go_ahead(std::uint64_t head, std::uint32_t room) {
        wait_for_readers();
        const std::uint64_t hidden = 1 - words[0].load();
        if (last_room != 0) sides[hidden].insert(last_head, last_room);
        sides[hidden].insert(head, room);
        last_head = head;
        last_room = room;
        return hidden;
    }

    // Takes down which readers may still read what was shown before.
    void note_readers() {
        for (std::uint32_t i = 0; i < seen.size(); i++) seen[i] = epoch(i).load();
    }
};

// What a round came to that was counted.
struct Counts {
    std::uint64_t ordered = 0, compared = 0;
};

// The steps of one thread, and what all its calls do. It counts its steps where that is asked for, and else is as fast as it
// can be.
template <bool COUNTS> class Steps {
protected:
    Table& table;
    Index& index;
    Word& epoch;
    const Asked& asked;
    const std::uint32_t number;
    Value value;

    // The thread's copy of the index's minima, where it has one.
    Minima own;
    bool has_own = false;

    // An entry that is not above a key, and its own key.
    struct Spot {
        std::uint32_t entry;
        std::uint64_t key;
    };

    Steps(Table& on, Index& by, const Asked& what, std::uint32_t thread)
        : table(on), index(by), epoch(by.epoch(thread)), asked(what), number(thread), value(value_of(what.bytes)) {}

    void count_ordered() {
        if constexpr (COUNTS) counts.ordered++;
    }

    std::uint64_t add(Word& word, std::uint64_t operand) {
        count_ordered();
        return word.fetch_add(operand);
    }

    void subtract(Word& word, std::uint64_t operand) {
        count_ordered();
        word.fetch_sub(operand);
    }

    void store(Word& word, std::uint64_t operand) {
        count_ordered();
        word.store(operand);
    }

    bool exchange(Word& word, std::uint64_t seen, std::uint64_t operand) {
        count_ordered();
        return word.compare_exchange_strong(seen, operand);
    }

    // The key in the block that a key word names, to compare it.
    std::uint64_t key_in(std::uint64_t key_word) {
        if constexpr (COUNTS) counts.compared++;
        return table.load(table.block(key_word));
    }

    // The room of a key, as the thread's copy of the index says.
    std::uint32_t look(std::uint64_t key) {
        if (!has_own) {
            add(epoch, 1);
            own = index.shown();
            add(epoch, 1);
            has_own = true;
        }
        return table.room(own.rooms[own.count(key)]);
    }

    // Pins a room: whether it was open, and has the key in its range.
    bool pin(std::uint32_t room, std::uint64_t key) {
        if (state_of(add(table[room], 1)) != ROOM_OPEN) return false;
        if (table.load(room + LOW) != 0 && key < table.load(room + LOW + 1)) return false;
        return table.load(room + HIGH) == 0 || key < table.load(room + HIGH + 1);
    }

    // The last of the sorted entries that is not above the key; a key above all others where it found none. The key words of
    // both entries that may come next are loaded beside a key, so that a step waits for one load and not for two, and there
    // is no branch on what is found.
    Spot halve(std::uint32_t room, std::uint64_t key) {
        auto many = static_cast<std::uint32_t>(table.load(room + COUNT) / SORTED);
        Spot below{entry_at(room, 0), ABOVE_ALL};
        std::uint64_t key_word = table.load(below.entry + ENTRY_WORDS * (many / 2));
        while (many > 1) {
            const std::uint32_t middle = below.entry + ENTRY_WORDS * (many / 2);
            many -= many / 2;
            const std::uint64_t next_below = table.load(below.entry + ENTRY_WORDS * (many / 2));
            const std::uint64_t next_above = table.load(middle + ENTRY_WORDS * (many / 2));
            const std::uint64_t other = key_in(key_word);
            const bool passed = other <= key;
            below.entry = passed ? middle : below.entry;
            below.key = passed ? other : below.key;
            key_word = passed ? next_above : next_below;
        }
        return below;
    }

public:
    Told told;
    Counts counts;
};

// Where the searches of a pass of this number begin among so many: in the middle, in the middles of the halves, and so on,
// by van der Corput's sequence, as OakMap's do.
std::uint32_t first_place(std::uint32_t count, std::uint32_t pass) {
    std::uint32_t reversed = 0;
    for (std::uint32_t bit = 0; bit < 32; bit++) reversed |= (pass >> bit & 1) << (31 - bit);
    return static_cast<std::uint32_t>(std::uint64_t{count} * reversed >> 32);
}

// One thread's puts of new keys.
template <bool COUNTS> class alignas(128) Putter : public Steps<COUNTS> {
    using Base = Steps<COUNTS>;
    using typename Base::Spot;
    using Base::add, Base::asked, Base::count_ordered, Base::exchange, Base::index, Base::key_in, Base::number;
    using Base::store, Base::subtract, Base::table, Base::value;

    // Where the next searches for a block, a header and a room begin.
    std::array<std::uint32_t, CLASSES> next_block;
    std::uint32_t next_header, next_room = 1;

    // What a split keeps of an entry.
    struct Entry {
        std::uint64_t key_word, value_word;
    };
    std::array<Entry, ENTRIES> entries;

    // The word of the link that leads over a key, and what stands there.
    struct Gap {
        std::uint32_t before;
        std::uint64_t link;
    };

    // Sets the bit of a block: whether it was clear.
    bool set_bit(std::uint32_t block_class, std::uint32_t block) {
        const std::uint64_t bit = 1ull << block % 64;
        count_ordered();
        return (table.bits(block_class, block).fetch_or(bit) & bit) == 0;
    }

    void clear_bit(std::uint64_t place) {
        const auto block = static_cast<std::uint32_t>(place >> 16);
        count_ordered();
        table.bits(static_cast<std::uint32_t>(place >> 48), block).fetch_and(~(1ull << block % 64));
    }

    // A block that was free: the next one, if it was, as it is but where another thread came by.
    std::uint32_t take(std::uint32_t block_class) {
        const std::uint32_t next = next_block[block_class];
        const bool taken = next < table.shape.blocks[block_class] && set_bit(block_class, next);
        const std::uint32_t block = taken ? next : search(block_class);
        next_block[block_class] = block + 1;
        return block;
    }

    // The same, by the words of bits from the next one on, round once.
    std::uint32_t search(std::uint32_t block_class) {
        const std::uint32_t blocks = table.shape.blocks[block_class], words = (blocks + 63) / 64;
        for (std::uint32_t i = 0; i < words; i++) {
            const std::uint32_t first = (next_block[block_class] / 64 + i) % words * 64;
            std::uint64_t clear = ~table.bits(block_class, first).load();
            for (; clear != 0; clear &= clear - 1) {
                const std::uint32_t block = first + static_cast<std::uint32_t>(std::countr_zero(clear));
                if (block < blocks && set_bit(block_class, block)) return block;
            }
        }
        fail("there are too few blocks");
    }

    // Takes a block for so many bytes: its place word.
    std::uint64_t take_place(std::uint32_t bytes) {
        const std::uint32_t block_class = class_for(bytes);
        return place_word(block_class, take(block_class), bytes);
    }

    std::uint64_t store_value() {
        const std::uint64_t place = take_place(asked.bytes);
        const std::uint32_t block = table.block(place);
        for (std::uint32_t i = 0; i < words_for(asked.bytes); i++)
            store(table[block + i], word_from(value.data() + 8 * i));
        return place;
    }

    std::uint64_t store_key(std::uint64_t key) {
        const std::uint64_t place = take_place(8);
        store(table[table.block(place)], key);
        return place;
    }

    // Claims a header that is free, from the next one on, round once: its number.
    std::uint32_t claim_header() {
        for (std::uint32_t tries = 0; tries < table.shape.headers; tries++) {
            const std::uint32_t other = next_header < table.shape.headers ? next_header : 0;
            next_header = other + 1;
            Word& pin = table[table.header(other)];
            if (pin.load() == 0 && exchange(pin, 0, HEADER_OWNED * STATE)) return other;
        }
        fail("there are too few headers");
    }

    // Makes a header that of a value, with its first stamp: the header's number.
    std::uint32_t fill_header(std::uint64_t place, std::uint64_t stamp) {
        const std::uint32_t header_number = claim_header();
        const std::uint32_t header = table.header(header_number);
        store(table[header + PLACE], place);
        store(table[header + STAMP], stamp);
        add(table[header], (HEADER_LIVE - HEADER_OWNED) * STATE);
        return header_number;
    }

    // Walks from a link that does not lead over the key to the one that does.
    Gap walk(std::uint32_t room, std::uint32_t before, std::uint64_t key) {
        while (const std::uint64_t link = table.load(before)) {
            const std::uint32_t entry = entry_at(room, link - 1);
            const std::uint64_t other = key_in(table.load(entry));
            if (other == key) fail("a key was there");
            if (other > key) return {before, link};
            before = entry + LINK;
        }
        return {before, 0};
    }

    Gap find_gap(std::uint32_t room, std::uint64_t key) {
        const Spot below = Base::halve(room, key);
        if (below.key == key) fail("a key was there");
        return walk(room, below.key == ABOVE_ALL ? room + FIRST_LINK : below.entry + LINK, key);
    }

    // Claims the entry behind those in use: its number, or ENTRIES where the room is full.
    std::uint64_t claim_entry(std::uint32_t room) {
        for (;;) {
            const std::uint64_t count = table.load(room + COUNT);
            if (count % SORTED == ENTRIES || exchange(table[room + COUNT], count, count + 1)) return count % SORTED;
        }
    }

    // Links an entry, whose key this is. Where the link is another thread's by now, the walk goes on from there.
    void link_entry(std::uint32_t room, std::uint64_t key, std::uint64_t entry_number, Gap gap) {
        while (!exchange(table[gap.before], gap.link, entry_number + 1)) {
            gap = walk(room, gap.before, key);
            store(table[entry_at(room, entry_number) + LINK], gap.link);
        }
    }

    // Takes all that a key needs, and adds its entry: false, where the room is full, and then all is given back.
    bool put_pinned(std::uint32_t room, std::uint64_t key) {
        const Gap gap = find_gap(room, key);
        const std::uint64_t base = table.load(room + BASE);
        const std::uint64_t place = store_value();
        const std::uint32_t header_number = fill_header(place, base + 1);
        const std::uint64_t key_word = store_key(key);
        const std::uint64_t entry_number = claim_entry(room);
        if (entry_number == ENTRIES) {
            clear_bit(key_word);
            subtract(table[table.header(header_number)], HEADER_LIVE * STATE);
            clear_bit(place);
            return false;
        }
        const std::uint32_t entry = entry_at(room, entry_number);
        store(table[entry + VALUE], base);
        store(table[entry + LINK], gap.link);
        store(table[entry], key_word);
        link_entry(room, key, entry_number, gap);
        const std::uint64_t value_word = NAMES_HEADER | std::uint64_t{header_number} << GENERATION_BITS;
        if (!exchange(table[entry + VALUE], base, value_word)) fail("an entry had a value");
        return true;
    }

    // Pins the room that has the key in its range. It looks again while another thread has it, and until the index is told.
    std::uint32_t pin_room(std::uint64_t key) {
        for (;;) {
            const std::uint32_t room = Base::look(key);
            if (Base::pin(room, key)) return room;
            subtract(table[room], 1);
            Base::has_own = false;
            std::this_thread::yield();
        }
    }

    // Freezes a pinned room, unless another thread has.
    bool freeze(std::uint32_t room) {
        for (;;) {
            const std::uint64_t seen = table.load(room);
            if (state_of(seen) != ROOM_OPEN) return false;
            if (exchange(table[room], seen, seen + (ROOM_FROZEN - ROOM_OPEN) * STATE)) return true;
        }
    }

    // Gives a pin back, and comes to hold the room alone once nobody has one: false, where it is no full one by now, or
    // another thread froze it.
    bool hold(std::uint32_t room) {
        const bool frozen = table.load(room + COUNT) % SORTED == ENTRIES && freeze(room);
        subtract(table[room], 1);
        if (!frozen) return false;
        while (!exchange(table[room], ROOM_FROZEN * STATE, ROOM_HELD * STATE)) std::this_thread::yield();
        return true;
    }

    // Keeps the entries of a held room, in the order of their keys.
    void gather(std::uint32_t room) {
        std::uint32_t count = 0;
        for (std::uint64_t link = table.load(room + FIRST_LINK); link != 0;) {
            const std::uint32_t entry = entry_at(room, link - 1);
            entries[count++] = {table.load(entry), table.load(entry + VALUE)};
            link = table.load(entry + LINK);
        }
        if (count != ENTRIES) fail("a full room has an entry that is not linked");
    }

    // Claims the next room that is free: its number.
    std::uint32_t claim_room() {
        for (; next_room < table.shape.rooms; next_room++) {
            Word& pin = table[table.room(next_room)];
            if (pin.load() == 0 && exchange(pin, 0, ROOM_HELD * STATE)) return next_room++;
        }
        fail("there are too few rooms");
    }

    // Stores a key of eight bytes as a bound, whose first word this is.
    void store_bound(std::uint32_t bound, std::uint64_t first, std::uint64_t key) {
        store(table[bound], first);
        store(table[bound + 1], key);
        for (std::uint32_t i = 2; i < BOUND_WORDS; i++) store(table[bound + i], 0);
    }

    void store_bounds(std::uint32_t room, std::uint32_t upper, std::uint64_t middle) {
        for (std::uint32_t i = 0; i < BOUND_WORDS; i++) store(table[upper + HIGH + i], table.load(room + HIGH + i));
        store_bound(upper + LOW, 8, middle);
        store_bound(room + HIGH, 8 + 1, middle);
    }

    // Makes 0 what is not yet. A load costs less than a store, and the entries of a new room are clear.
    void clear(Word& word) {
        if (word.load() != 0) store(word, 0);
    }

    // Stores half of the entries that were kept as those of a held room, sorted and linked, with nothing behind them.
    void store_half(std::uint32_t room, const Entry* sorted, std::uint64_t base) {
        constexpr std::uint32_t HALF = ENTRIES / 2;
        for (std::uint32_t i = HALF; i < ENTRIES; i++) {
            clear(table[entry_at(room, i)]);
            clear(table[entry_at(room, i) + VALUE]);
        }
        for (std::uint32_t i = 0; i < HALF; i++) {
            store(table[entry_at(room, i)], sorted[i].key_word);
            store(table[entry_at(room, i) + VALUE], sorted[i].value_word);
            store(table[entry_at(room, i) + LINK], i + 1 < HALF ? i + 2 : 0);
        }
        store(table[room + BASE], base);
        store(table[room + FIRST_LINK], 1);
        store(table[room + COUNT], HALF * (SORTED + 1));
    }

    // Tells the index where the room of this number begins. Its lock is an ordered step, and so is its giving back.
    void publish(std::uint64_t head, std::uint32_t room_number) {
        count_ordered();
        const std::lock_guard held(index.writing);
        store(index.turn(), index.go_ahead(head, room_number));
        index.note_readers();
        Base::own.insert(head, room_number);
        count_ordered();
    }

    // Splits the full room of a key in two, of which the next room gets the upper half, unless another thread does.
    void split(std::uint64_t key) {
        const std::uint32_t room = pin_room(key);
        if (!hold(room)) return;
        gather(room);
        const std::uint32_t room_number = claim_room();
        const std::uint32_t upper = table.room(room_number);
        const std::uint64_t middle = table.load(table.block(entries[ENTRIES / 2].key_word));
        const std::uint64_t base = table.load(room + BASE);
        store_bounds(room, upper, middle);
        store_half(room, entries.data(), base);
        store_half(upper, entries.data() + ENTRIES / 2, base);
        subtract(table[upper], (ROOM_HELD - ROOM_OPEN) * STATE);
        subtract(table[room], (ROOM_HELD - ROOM_OPEN) * STATE);
        publish(middle, room_number);
    }

    bool try_put(std::uint64_t key) {
        const std::uint32_t room = pin_room(key);
        const bool done = put_pinned(room, key);
        subtract(table[room], 1);
        return done;
    }

public:
    // The number of its pass says where its searches begin: 0 is the pass that fills a map, and those of threads come next.
    Putter(Table& on, Index& by, const Asked& what, std::uint32_t thread, std::uint32_t pass)
        : Base(on, by, what, thread), next_header(first_place(on.shape.headers, pass)) {
        for (std::uint32_t i = 0; i < CLASSES; i++) next_block[i] = first_place(on.shape.blocks[i], pass);
    }

    Putter(Table& on, Index& by, const Asked& what, std::uint32_t thread) : Putter(on, by, what, thread, thread + 1) {}

    // Puts its share of the keys, each with its number as its value.
    Told go_round(std::uint32_t) {
        Told all;
        for (std::uint32_t i = number; i < asked.keys; i += asked.threads) {
            put_word(value.data(), i);
            while (!try_put(key_number(i))) split(key_number(i));
            all.then(0);
        }
        return all;
    }

    // A map has one round of these.
    void work() { Base::told = go_round(0); }
};

// How a scan goes, as the head of this file has it.
enum class Way { SCAN, LOAD, PINS, UNPINNED, WALK };

// One thread's gets, puts over values, and scans.
template <bool COUNTS> class alignas(128) Caller : public Steps<COUNTS> {
    using Base = Steps<COUNTS>;
    using typename Base::Spot;
    using Base::add, Base::asked, Base::exchange, Base::halve, Base::key_in, Base::number, Base::store, Base::subtract;
    using Base::table, Base::value;

    // What a scan keeps of an entry, and the key that it gives to its caller.
    struct Pair {
        std::uint64_t key, value_word;
    };
    std::array<Pair, ENTRIES> pairs;
    std::array<unsigned char, 8> key_bytes{};
    Told told_pairs;

    // Pins the room that has the key in its range.
    std::uint32_t pin_room(std::uint64_t key) {
        const std::uint32_t room = Base::look(key);
        if (!Base::pin(room, key)) fail("a room was not open, or has a key not in its range");
        return room;
    }

    // The entry of a key in its room.
    std::uint32_t find(std::uint32_t room, std::uint64_t key) {
        auto [entry, other] = halve(room, key);
        std::uint64_t link = table.load(other == ABOVE_ALL ? room + FIRST_LINK : entry + LINK);
        while (other != key) {
            if (link == 0) fail("a key was not found");
            entry = entry_at(room, link - 1);
            other = key_in(table.load(entry));
            link = table.load(entry + LINK);
        }
        return entry;
    }

    static std::uint32_t header_in(std::uint64_t value_word) {
        return static_cast<std::uint32_t>(value_word >> 32 & ~(NAMES_HEADER >> 32));
    }

    // Whether the pin word is that of the life that the value word names, and this is not being written.
    static bool is_live(std::uint64_t pin, std::uint64_t value_word) {
        return pin >> GENERATION_BITS == (value_word & 0xffff'ffff) && state_of(pin) == HEADER_LIVE;
    }

    // Pins the header that a value word names.
    std::uint32_t pin_header(std::uint64_t value_word) {
        const std::uint32_t header = table.header(header_in(value_word));
        if (!is_live(add(table[header], 1), value_word)) fail("a value was not there");
        return header;
    }

    // Copies the value that a value word names, under a pin of its header: its length.
    std::uint32_t read(std::uint64_t value_word) {
        const std::uint32_t header = pin_header(value_word);
        const std::uint64_t place = table.load(header + PLACE);
        if (table.load(header + STAMP) == 0) fail("a value was never written");
        const auto length = static_cast<std::uint32_t>(place & 0xffff);
        const std::uint32_t block = table.block(place);
        for (std::uint32_t i = 0; i < words_for(length); i++) put_word(value.data() + 8 * i, table.load(block + i));
        subtract(table[header], 1);
        return length;
    }

    std::uint64_t get(std::uint64_t key) {
        const std::uint32_t room = pin_room(key);
        const std::uint64_t value_word = table.load(find(room, key) + VALUE);
        const std::uint32_t length = read(value_word);
        subtract(table[room], 1);
        return sum_of(value.data(), length);
    }

    // Stores the value in place of that which a value word names, under the lock of its header.
    void write(std::uint64_t value_word) {
        const std::uint32_t header = table.header(header_in(value_word));
        const std::uint64_t seen = table.load(header);
        if (!is_live(seen, value_word) || seen % STATE != 0) fail("a value was not there");
        if (!exchange(table[header], seen, seen + STATE)) fail("a value was pinned");
        const std::uint64_t place = table.load(header + PLACE);
        if ((place & 0xffff) != asked.bytes) fail("a value has another length");
        const std::uint32_t block = table.block(place);
        for (std::uint32_t i = 0; i < words_for(asked.bytes); i++)
            store(table[block + i], word_from(value.data() + 8 * i));
        store(table[header + STAMP], table.load(header + STAMP) + 1);
        subtract(table[header], STATE);
    }

    void put(std::uint64_t key) {
        const std::uint32_t room = pin_room(key);
        write(table.load(find(room, key) + VALUE));
        subtract(table[room], 1);
    }

    // The header that a value word names, whose pin word is loaded and not changed.
    std::uint32_t find_header(std::uint64_t value_word) {
        const std::uint32_t header = table.header(header_in(value_word));
        if (!is_live(table.load(header), value_word)) fail("a value was not there");
        return header;
    }

    // Reads the first eight bytes of the value of a header, and copies them as a scan does for its caller.
    std::uint64_t read_first(std::uint32_t header) {
        const std::uint64_t place = table.load(header + PLACE);
        if (table.load(header + STAMP) == 0) fail("a value was never written");
        const std::uint64_t first = table.load(table.block(place));
        put_word(value.data(), first);
        return first;
    }

    // Reads a pair, or does of that what the way has.
    template <Way WAY> void read_pair(const Pair& pair) {
        std::uint64_t first = 0;
        if constexpr (WAY != Way::PINS) {
            put_word(key_bytes.data(), pair.key);
            keys_read += pair.key;
        }
        const std::uint32_t header = WAY == Way::UNPINNED ? find_header(pair.value_word) : pin_header(pair.value_word);
        if constexpr (WAY != Way::PINS) first = read_first(header);
        if constexpr (WAY != Way::UNPINNED) subtract(table[header], 1);
        told_pairs.then(first);
    }

    // Loads ahead what a pair is read from. No load behind a pin begins before it, so those of pairs that are pinned one
    // behind another never overlap, and those made here do.
    template <Way WAY> void load_pair_ahead(std::uint64_t value_word) {
        const std::uint32_t first = table.block(table.load(table.header(header_in(value_word)) + PLACE));
        WAY == Way::LOAD ? void(table.load(first)) : table.load_ahead(first);
    }

    // Follows the links of a pinned room: how many pairs it keeps, to be read behind that.
    template <Way WAY> std::uint32_t follow_links(std::uint32_t room) {
        std::uint32_t count = 0;
        for (std::uint64_t link = table.load(room + FIRST_LINK); link != 0;) {
            const std::uint32_t entry = entry_at(room, link - 1);
            link = table.load(entry + LINK);
            const Pair pair{WAY == Way::PINS ? 0 : table.key(entry), table.load(entry + VALUE)};
            if constexpr (WAY == Way::WALK) {
                read_pair<WAY>(pair);
            } else {
                pairs[count++] = pair;
            }
            if constexpr (WAY == Way::SCAN || WAY == Way::LOAD) load_pair_ahead<WAY>(pair.value_word);
        }
        return count;
    }

    // Reads the whole table, room after room, in the order of keys.
    template <Way WAY> Told scan_by() {
        told_pairs = Told();
        std::uint64_t low = 0;
        for (bool more = true; more;) {
            const std::uint32_t room = pin_room(low);
            const std::uint32_t count = follow_links<WAY>(room);
            more = table.load(room + HIGH) != 0;
            low = table.load(room + HIGH + 1);
            subtract(table[room], 1);
            for (std::uint32_t i = 0; i < count; i++) read_pair<WAY>(pairs[i]);
        }
        return told_pairs;
    }

    Told get_between(std::uint32_t from, std::uint32_t to) {
        Told told;
        for (std::uint32_t i = from; i < to; i++) told.then(get(key_number(i)));
        return told;
    }

    Told put_over(std::uint64_t more) {
        Told told;
        for (std::uint32_t i = number; i < asked.keys; i += asked.threads) {
            put_word(value.data(), i + more);
            put(key_number(i));
            told.then(0);
        }
        return told;
    }

public:
    std::uint64_t keys_read = 0; // by scans, added up

    Caller(Table& on, Index& by, const Asked& what, std::uint32_t thread) : Base(on, by, what, thread) {}

    // Reads the whole table.
    Told scan() {
        if (asked.work == "load") return scan_by<Way::LOAD>();
        if (asked.work == "pins") return scan_by<Way::PINS>();
        if (asked.work == "unpinned") return scan_by<Way::UNPINNED>();
        return asked.work == "walk" ? scan_by<Way::WALK>() : scan_by<Way::SCAN>();
    }

    Told get_all() { return get_between(0, asked.keys); }

    Told go_round(std::uint32_t round) {
        if (asked.work == "over") return put_over(round + std::uint64_t{1});
        if (asked.work != "get") return scan();
        const std::uint32_t from = number * (asked.keys / asked.threads);
        Told both = get_between(from, asked.keys);
        both.with(get_between(0, from));
        return both;
    }

    void work() {
        Told all;
        for (std::uint32_t round = 0; round < asked.rounds; round++) all.with(go_round(round));
        Base::told = all;
    }
};

// What the work has to come to, by the numbers of the keys alone.
struct Expected {
    Told work, content, values;
    std::uint64_t keys = 0; // added up
};

Told told_zeros(std::uint32_t calls) {
    Told told;
    for (std::uint32_t i = 0; i < calls; i++) told.then(0);
    return told;
}

// What a get of the keys of these numbers comes to, whose values are so much more than their numbers.
Told told_values(std::uint32_t from, std::uint32_t to, std::uint64_t more, std::uint32_t bytes) {
    Told told;
    Value value = value_of(bytes);
    for (std::uint32_t i = from; i < to; i++) {
        put_word(value.data(), i + more);
        told.then(sum_of(value.data(), bytes));
    }
    return told;
}

// What a scan of all keys comes to.
Told told_scan(std::uint32_t keys, std::uint64_t more) {
    std::vector<std::pair<std::uint64_t, std::uint64_t>> pairs;
    for (std::uint32_t i = 0; i < keys; i++) pairs.emplace_back(key_number(i), i + more);
    std::sort(pairs.begin(), pairs.end());
    Told told;
    for (const auto& [key, value] : pairs) told.then(value);
    return told;
}

// What a round of a thread comes to.
Told told_round(const Asked& asked, std::uint32_t thread) {
    if (asked.work == "over" || asked.work == "ingest")
        return told_zeros((asked.keys - thread + asked.threads - 1) / asked.threads);
    if (asked.work == "pins") return told_zeros(asked.keys);
    if (asked.work != "get") return told_scan(asked.keys, 0);
    const std::uint32_t from = thread * (asked.keys / asked.threads);
    Told told = told_values(from, asked.keys, 0, asked.bytes);
    told.with(told_values(0, from, 0, asked.bytes));
    return told;
}

Expected expected_of(const Asked& asked) {
    Expected expected;
    for (std::uint32_t thread = 0; thread < asked.threads; thread++) {
        const Told round = told_round(asked, thread);
        for (std::uint32_t i = 0; i < asked.rounds; i++) expected.work.with(round);
    }
    const std::uint64_t more = asked.work == "over" ? asked.rounds : 0;
    expected.content = told_scan(asked.keys, more);
    expected.values = told_values(0, asked.keys, more, asked.bytes);
    for (std::uint32_t i = 0; i < asked.keys; i++) expected.keys += key_number(i);
    return expected;
}

// A table with its index.
struct Map {
    Table table;
    Index index;

    explicit Map(const Asked& asked) : table(Shape(asked.keys)), index(asked.threads) {
        if (asked.work == "ingest") return;
        const Asked all{"ingest", asked.keys, 1, 1, asked.bytes};
        Putter<false>(table, index, all, 0, 0).work();
    }
};

// What the work came to, and all that the maps have behind it.
struct Measured {
    Told work, content;
    Clock::duration took{};
};

// Has all workers work beside each other, the first of them in this thread: how long it took, with the start and the end of
// the others' threads.
template <class Worker> Clock::duration work_beside(std::vector<Worker>& workers) {
    const auto begin = Clock::now();
    std::vector<std::thread> threads;
    for (std::size_t i = 1; i < workers.size(); i++) threads.emplace_back([&workers, i] { workers[i].work(); });
    workers[0].work();
    for (auto& thread : threads) thread.join();
    return Clock::now() - begin;
}

// Reads all that a map has, which has to be what is expected: what a scan came to.
Told read_all(Map& map, const Asked& asked, const Expected& expected) {
    const Asked all{"scan", asked.keys, 1, 1, asked.bytes};
    Caller<false> reader(map.table, map.index, all, 0);
    const Told content = reader.scan();
    if (content != expected.content || reader.keys_read != expected.keys) fail("the table has other pairs");
    if (reader.get_all() != expected.values) fail("the table has other values");
    return content;
}

// Does the work on one map.
template <class Worker> void measure_map(const Asked& asked, const Expected& expected, Measured& measured) {
    Map map(asked);
    std::vector<Worker> workers;
    for (std::uint32_t number = 0; number < asked.threads; number++)
        workers.emplace_back(map.table, map.index, asked, number);
    measured.took += work_beside(workers);
    for (auto& worker : workers) measured.work.with(worker.told);
    measured.content.with(read_all(map, asked, expected));
}

// Prints what the work came to, and how long it took, with what a round by one thread alone counts on a map of its own.
template <class Counter> void print(const Asked& asked, const Measured& measured) {
    const Asked alone{asked.work, asked.keys, 1, 1, asked.bytes};
    Map map(alone);
    Counter counter(map.table, map.index, alone, 0);
    const auto calls = static_cast<double>(counter.go_round(0).calls);
    const auto ordered = static_cast<double>(counter.counts.ordered) / calls;
    const auto compared = static_cast<double>(counter.counts.compared) / calls;
    const auto took = std::chrono::duration_cast<std::chrono::nanoseconds>(measured.took).count();
    std::printf("%ju calls, sum %ju\n", std::uintmax_t{measured.work.calls}, std::uintmax_t{measured.work.sum});
    std::printf("%ju keys, sum %ju\n", std::uintmax_t{measured.content.calls}, std::uintmax_t{measured.content.sum});
    std::fprintf(stderr, "%jd ns; a call makes %.2f ordered steps, and compares %.2f keys\n", std::intmax_t{took}, ordered,
                 compared);
}

// Does what is asked for, each round of new keys on a map of its own.
template <template <bool> class Worker> void measure(const Asked& asked) {
    const Expected expected = expected_of(asked);
    const std::uint32_t maps = asked.work == "ingest" ? asked.rounds : 1;
    Measured measured;
    for (std::uint32_t map = 0; map < maps; map++) measure_map<Worker<false>>(asked, expected, measured);
    if (measured.work != expected.work) fail("the work came to another sum");
    print<Worker<true>>(asked, measured);
}

std::uint32_t count_in(const char* word) {
    char* end;
    const unsigned long count = std::strtoul(word, &end, 10);
    return *word == '\0' || *end != '\0' || count > 65'536 * 16 ? 0 : static_cast<std::uint32_t>(count);
}

bool run(int count, char** words) {
    if (count != 5 && count != 6) return false;
    const Asked asked{words[1], count_in(words[2]), count_in(words[3]), count_in(words[4]),
                      count == 6 ? count_in(words[5]) : 100};
    bool known = false;
    for (auto work : {"get", "over", "ingest", "scan", "up", "load", "pins", "unpinned", "walk"})
        known = known || asked.work == work;
    if (!known || asked.keys == 0 || asked.rounds == 0 || asked.threads == 0 || asked.threads > 16) return false;
    if (asked.bytes < 8 || asked.bytes > MOST_BYTES) return false;
    asked.work == "ingest" ? measure<Putter>(asked) : measure<Caller>(asked);
    return true;
}

}  // namespace

int main(int count, char** words) {
    if (run(count, words)) return 0;
    std::fprintf(stderr, "usage: floor get|over|ingest|scan|up|load|pins|unpinned|walk KEYS ROUNDS THREADS [BYTES]; "
                         "at most 16 threads, 8 to 256 bytes\n");
    return 2;
}

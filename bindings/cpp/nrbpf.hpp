// nrbpf.hpp: the library for C as types of C++17 that end themselves. Header only, over nrbpf.h.
//
//     auto manifest = nrbpf::manifest::read("examples/counter/manifest");
//     nrbpf::store store(manifest, nrbpf::config(2, 4));                      // two nodes, four sessions of each
//     auto bump = store.program("bump");
//     auto session = store.attach(0);                                         // a session for this thread
//     std::cout << session.update(bump, nrbpf::bytes_of(key)).reply;
//
// A refusal is thrown as an nrbpf::error. Any thread may use a store. One thread at a time may use a session or a state. A store ends when it and all its
// sessions are gone, so their order doesn't matter. You may only destroy a session, a store or a state that was moved from, or assign to it.
#ifndef NRBPF_HPP
#define NRBPF_HPP

#include <nrbpf.h>

#include <algorithm>
#include <array>
#include <cerrno>
#include <cstddef>
#include <cstdint>
#include <exception>
#include <filesystem>
#include <fstream>
#include <initializer_list>
#include <iterator>
#include <map>
#include <memory>
#include <mutex>
#include <new>
#include <optional>
#include <stdexcept>
#include <string>
#include <string_view>
#include <system_error>
#include <thread>
#include <type_traits>
#include <utility>
#include <vector>

namespace nrbpf {

// ---- Refusals

// Why a call refused. Its text is the library's.
class error : public std::runtime_error {
    nrbpf_error said{};

    static std::string text(const nrbpf_error &why) {
        std::array<char, 512> room;
        nrbpf_error_text(&why, room.data(), room.size());
        return room.data();
    }

protected:
    explicit error(const char *why) : std::runtime_error(why) {}

public:
    explicit error(const nrbpf_error &why) : std::runtime_error(text(why)), said(why) {}

    nrbpf_status status() const noexcept { return said.status; } // NRBPF_FULL, ..
    nrbpf_status inner() const noexcept { return said.inner; }   // of a program: the letter D or V, or 0
    std::uint32_t line() const noexcept { return said.line; }    // of the manifest or the dump, from 1, or 0
    std::uint32_t slot() const noexcept { return said.slot; }    // of the program; of read_each and update_each the call's number
};

// An install found no free place. It is in the history and did nothing. Its status is NRBPF_OK.
class no_place : public error {
    std::uint64_t at;

public:
    explicit no_place(std::uint64_t point) : error("there is no free place for the program"), at(point) {}

    std::uint64_t point() const noexcept { return at; } // its index
};

namespace detail {

inline void check(nrbpf_status status, nrbpf_error why = {}) {
    why.status = status;
    if (status != NRBPF_OK) throw error(why);
}
// Whether a read is answered, or another session was in the way.
inline bool is_answered(nrbpf_status status, const nrbpf_error &why = {}) {
    if (status == NRBPF_BUSY) return false;
    check(status, why);
    return true;
}

struct ends {
    void operator()(nrbpf_store *at) const noexcept {
        const nrbpf_status status = nrbpf_close(at); // no session is attached: each has a part in the store
        static_cast<void>(status);
    }
    void operator()(nrbpf_state *at) const noexcept { nrbpf_state_free(at); }
};

} // namespace detail

// ---- Bytes that are lent to a call

class bytes {
    const void *at = nullptr;
    std::size_t count = 0;

public:
    bytes() noexcept = default;
    bytes(const void *data, std::size_t size) noexcept : at(data), count(size) {}
    bytes(std::string_view text) noexcept : at(text.data()), count(text.size()) {}
    bytes(const std::string &text) noexcept : at(text.data()), count(text.size()) {}
    template <std::size_t n> bytes(const std::array<std::uint8_t, n> &of) noexcept : at(of.data()), count(n) {}
    template <std::size_t n> bytes(const std::uint8_t (&of)[n]) noexcept : at(of), count(n) {}
    bytes(const std::vector<std::uint8_t> &of) noexcept : at(of.data()), count(of.size()) {}

    const void *data() const noexcept { return at; }
    std::size_t size() const noexcept { return count; }
};

// The bytes of a value as they are in memory. On a little-endian machine a number has its low byte first, as programs read it.
template <class T> bytes bytes_of(const T &value) noexcept {
    static_assert(std::is_trivially_copyable_v<T> && !std::is_pointer_v<T>, "a value of plain bytes");
    return {&value, sizeof value};
}

// ---- What a store is opened with

// The sizes of a store: nrbpf_config with the members that nrbpf.h has, and this version.
struct config : nrbpf_config {
    explicit config(std::uint32_t node_count = 1, std::uint32_t slot_count = 1) : nrbpf_config(NRBPF_CONFIG(node_count, slot_count)) {}
    config &with_window(std::uint32_t count) noexcept { return window = count, *this; }
    config &with_limit(std::uint32_t count) noexcept { return limit = count, *this; }
    config &with_spare(std::uint32_t count) noexcept { return spare = count, *this; }
    config &with_limits(const nrbpf_limits &most) noexcept { return limits = most, *this; }
    config &with_long_bytes(std::uint32_t count) noexcept { return long_bytes = count, *this; }
};

// Which maps a store has and which programs it offers: a text (docs/FORMATS.md), and the program files that it names.
class manifest {
    std::string said;
    std::map<std::string, std::string> files;

    static std::string text_of(const std::filesystem::path &path) {
        std::ifstream file(path, std::ios::binary);
        if (!file) throw std::system_error(errno, std::generic_category(), path.string());
        return {std::istreambuf_iterator<char>(file), {}};
    }

    std::vector<std::vector<std::string>> lines() const {
        std::vector<std::vector<std::string>> told(1, {""});
        for (char sign : said) {
            if (sign == '\n') told.push_back({""});
            else if (sign == ' ') told.back().emplace_back();
            else told.back().back() += sign;
        }
        return told;
    }

public:
    explicit manifest(std::string text) : said(std::move(text)) {}

    // A program file: its name as the manifest has it, and its hexadecimal digits.
    manifest &file(std::string name, std::string text) {
        files.insert_or_assign(std::move(name), std::move(text));
        return *this;
    }

    // Reads a manifest and the files that it names, all by paths from the folder. Throws std::system_error if one can't be read.
    static manifest read(const std::filesystem::path &path, const std::filesystem::path &folder = {}) {
        manifest it(text_of(folder / path));
        for (const auto &words : it.lines())
            if (words.size() == 5 && words[0] == "program") it.file(words[4], text_of(folder / words[4]));
        return it;
    }

    const std::string &text() const noexcept { return said; }

    // The files as the library takes them, as long as this manifest is as it is.
    std::vector<nrbpf_file> native() const {
        std::vector<nrbpf_file> given;
        for (const auto &[name, text] : files) given.push_back({name.data(), name.size(), text.data(), text.size()});
        return given;
    }
};

// ---- States: all keys, values and installed programs at one point of a history

// A state holds nothing of any store, and serves any number of snapshots.
class state {
    std::unique_ptr<nrbpf_state, detail::ends> at;

    struct taker {
        void *write;
        void (*call)(void *write, std::string_view part);
        std::exception_ptr raised;
    };

    // The library calls this for each part. What it throws is thrown again after the library's call.
    static int take(void *to, const char *part, std::size_t len) noexcept {
        taker &it = *static_cast<taker *>(to);
        try {
            it.call(it.write, {part, len});
        } catch (...) {
            it.raised = std::current_exception();
        }
        return it.raised ? 1 : 0;
    }

public:
    explicit state(nrbpf_state *given) noexcept : at(given) {}

    // The state that a dump describes, for stores of this manifest with so many spare places and these limits. An empty dump is that of a new store.
    static state load(const manifest &of, std::string_view dump, std::uint32_t spare = 0, const nrbpf_limits &limits = {}) {
        return load(of, dump, config().with_spare(spare).with_limits(limits));
    }

    // The same for stores with the `spare`, the `limits` and the `long_bytes` of these sizes.
    static state load(const manifest &of, std::string_view dump, const config &sizes) {
        const auto files = of.native();
        nrbpf_state *out = nullptr;
        nrbpf_error why{};
        detail::check(nrbpf_state_load(&sizes, of.text().data(), of.text().size(), files.data(), files.size(), dump.data(), dump.size(), &out, &why), why);
        return state(out);
    }

    // Gives the state as text to a function of a std::string_view, in parts of at most 16,384 bytes. `nrbpf run --load` takes that text too. What the function
    // throws ends the dump. The function may make calls, but none on this state.
    template <class Write> void dump_to(Write &&write) const {
        using writer = std::remove_reference_t<Write>;
        const auto call = [](void *it, std::string_view part) { (*static_cast<writer *>(it))(part); };
        taker it{const_cast<std::remove_const_t<writer> *>(std::addressof(write)), call, nullptr};
        const nrbpf_status status = nrbpf_state_dump(at.get(), take, &it);
        if (it.raised) std::rethrow_exception(it.raised);
        detail::check(status);
    }

    std::string dump() const {
        std::string text;
        dump_to([&text](std::string_view part) { text += part; });
        return text;
    }

    nrbpf_state *native() const noexcept { return at.get(); }
};

// ---- Sessions

enum class mode : std::uint32_t { update = NRBPF_MODE_UPDATE, read = NRBPF_MODE_READ };

// Maps that a program may name, by their numbers: {0, 2}. A number that no map has means nothing.
class maps_allowed {
    std::uint16_t told = 0;

public:
    maps_allowed(std::initializer_list<unsigned> numbers) noexcept {
        for (const unsigned number : numbers)
            if (number < 16) told = static_cast<std::uint16_t>(told | 1u << number);
    }

    std::uint16_t bits() const noexcept { return told; }
};

using answer = nrbpf_answer;

// How far an update is that waits for nobody. NRBPF_OK: here is its answer. NRBPF_BUSY: another session was in the way, and nothing has happened.
// NRBPF_POSTED: the store has the update, once, and `poll` or `wait` is the session's next call.
struct tried {
    nrbpf_status status;
    answer told;

    explicit operator bool() const noexcept { return status == NRBPF_OK; }
    bool is_posted() const noexcept { return status == NRBPF_POSTED; }
    const answer &operator*() const noexcept { return told; }
    const answer *operator->() const noexcept { return &told; }
};

// The value of a key, if it is there, and how many updates the map had seen.
struct found {
    std::uint64_t point;
    std::optional<std::string> value;
};

using entry = std::pair<std::string, std::string>; // a key and its value

// Entries of a map, how many updates it had seen, and the place from which to continue, if it isn't the end.
struct page {
    std::uint64_t point;
    std::vector<entry> entries;
    std::optional<std::uint32_t> next;
};

struct question {
    std::uint16_t program;
    bytes argument;
};

// The reply to each question, and how many updates the maps had seen.
struct replies {
    std::uint64_t point;
    std::vector<std::uint64_t> each;
};

// ---- What a store says of itself

// The kind and the sizes of a map. An array's key is its index in 4 bytes, the low one first.
struct map_shape {
    bool is_array;
    std::uint32_t key, value, entries;
};

// What a map is: how many updates it had seen, its shape, and how many keys it has.
struct map_facts {
    std::uint64_t point;
    map_shape shape;
    std::uint64_t keys;
};

// What the program of a number is: how many updates were seen, whether the number is that of a spare place, whether there is a program, and then its mode,
// the bytes of its argument, its slots, the maps that it names, bit m for map m, and its name in the manifest. An installed program has no name.
struct program_facts {
    std::uint64_t point;
    bool is_place, is_there;
    mode may;
    std::uint32_t argument_len, slots;
    std::uint16_t maps;
    std::string name;
};

using store_facts = nrbpf_store_facts;
using counts = nrbpf_counts;

// What became of one update of a list: NRBPF_OK and its answer, or NRBPF_FULL.
using outcome = nrbpf_outcome;

namespace detail {

// Room for the outcomes of a list. None that is written has this status.
inline std::vector<outcome> unwritten() { return std::vector<outcome>(NRBPF_MOST_SLOTS, outcome{0, 0, NRBPF_POSTED}); }

inline nrbpf_status poll(nrbpf_session *at, outcome *out) {
    answer told{};
    const nrbpf_status status = nrbpf_poll(at, &told);
    if (status == NRBPF_OK) *out = {told.point, told.reply, status};
    return status;
}
inline nrbpf_status poll(nrbpf_lane *at, outcome *out) { return nrbpf_poll_each(at, out); }

// What a session or a lane has posted. Its owner polls it. So do `wait`, `wait_each` and the end of another one of the store, which may have to wait for
// this one. Other calls that wait, such as `update`, don't.
class posted {
    std::mutex lock; // of the handle too
    nrbpf_session *session = nullptr;
    nrbpf_lane *lane = nullptr;
    nrbpf_status status = NRBPF_POSTED;

    void go_on() {
        if (status == NRBPF_POSTED) status = session ? detail::poll(session, out.data()) : detail::poll(lane, out.data());
    }

public:
    std::vector<outcome> out = unwritten();

    explicit posted(nrbpf_session *at) : session(at) {}
    explicit posted(nrbpf_lane *at) : lane(at) {}

    nrbpf_status poll() {
        const std::lock_guard<std::mutex> held(lock);
        go_on();
        return status;
    }
    // Does nothing if somebody else polls it now.
    void poll_if_idle() {
        const std::unique_lock<std::mutex> held(lock, std::try_to_lock);
        if (held) go_on();
    }
};

// All that is posted on a store.
class posted_list {
    std::mutex lock;
    std::vector<posted *> each;

public:
    // Nothing if there is no memory: then its owner alone polls it.
    template <class Handle> std::unique_ptr<posted> add(Handle *at) noexcept {
        try {
            auto own = std::make_unique<posted>(at);
            const std::lock_guard<std::mutex> held(lock);
            each.push_back(own.get());
            return own;
        } catch (const std::bad_alloc &) {
            return nullptr;
        }
    }
    // Continues this. If it is answered, it is gone, and `out` has its outcomes.
    nrbpf_status poll(std::unique_ptr<posted> &own, std::vector<outcome> &out) {
        const nrbpf_status status = own->poll();
        if (status == NRBPF_POSTED) return status;
        {
            const std::lock_guard<std::mutex> held(lock);
            each.erase(std::find(each.begin(), each.end(), own.get()));
        }
        out = std::move(own->out);
        own.reset();
        return status;
    }
    // Before its owner tries again: continues the others, and lets other threads run.
    void poll_others(const std::unique_ptr<posted> &own) {
        {
            const std::lock_guard<std::mutex> held(lock);
            for (posted *const it : each)
                if (it != own.get()) it->poll_if_idle();
        }
        std::this_thread::yield();
    }
};

// What a store's sessions share with it.
struct shared_store {
    std::unique_ptr<nrbpf_store, ends> at;
    std::vector<map_shape> maps;
    posted_list posts;

    const map_shape &shape(std::uint32_t map) const {
        if (map >= maps.size()) check(NRBPF_UNKNOWN_MAP);
        return maps[map];
    }
};

} // namespace detail

// One slot of one node. A session is given back when it ends. If an update is posted, the session first waits for its answer. Meanwhile it polls what other
// sessions and lanes of the store have posted.
class session {
    std::shared_ptr<detail::shared_store> of;
    nrbpf_session *at;
    std::unique_ptr<detail::posted> posted;
    bool is_install = false; // whether what is posted is one

    void give_back() noexcept {
        if (!at) return;
        answer out;
        while (posted)
            if (continued(out) == NRBPF_POSTED) of->posts.poll_others(posted);
        while (nrbpf_detach(at) == NRBPF_UNANSWERED) // a call on `native()` has posted
            if (nrbpf_poll(at, &out) == NRBPF_POSTED) std::this_thread::yield();
    }

    // The handle, for a call that is no poll. Until its update is answered, others may poll it.
    nrbpf_session *idle() const {
        if (posted) detail::check(NRBPF_UNANSWERED);
        return at;
    }
    nrbpf_status continued(answer &out) {
        if (!posted) return nrbpf_poll(at, &out);
        std::vector<outcome> told;
        const nrbpf_status status = of->posts.poll(posted, told);
        if (status == NRBPF_OK) out = {told[0].point, told[0].reply};
        return status;
    }
    tried tried_by(nrbpf_status status, const answer &out, const nrbpf_error &why = {}) {
        if (status == NRBPF_POSTED) posted = of->posts.add(at);
        return tried_of(status, out, why);
    }
    tried tried_to_install(nrbpf_status status, const answer &out, const nrbpf_error &why) {
        if (status == NRBPF_POSTED) is_install = true;
        const tried told = tried_by(status, out, why);
        if (told) placed(out);
        return told;
    }
    // The answer to an install that found a place.
    static answer placed(const answer &out) {
        if (out.reply == NRBPF_REPLY_NO_ROOM) throw no_place(out.point);
        return out;
    }

    // Each calls nrbpf.h, or its `try_` call: nothing if another session was in the way.
    template <class Call> std::optional<answer> run(Call call, std::uint16_t program, bytes argument) {
        answer out;
        if (!detail::is_answered(call(idle(), program, argument.data(), argument.size(), &out))) return {};
        return out;
    }
    template <class Call> std::optional<found> look_up(Call call, std::uint32_t map, bytes key) {
        std::string value(of->shape(map).value, '\0');
        nrbpf_found told{};
        if (!detail::is_answered(call(idle(), map, key.data(), key.size(), value.data(), value.size(), &told))) return {};
        return found{told.point, told.is_there ? std::optional(std::move(value)) : std::nullopt};
    }
    template <class Call> std::optional<page> turn(Call call, std::uint32_t map, std::uint32_t from, std::size_t room) {
        const auto [is_array, key, value, entries] = of->shape(map);
        std::string keys(room * key, '\0'), values(room * value, '\0');
        nrbpf_scanned told{};
        if (!detail::is_answered(call(idle(), map, from, keys.data(), keys.size(), values.data(), values.size(), &told))) return {};
        page it{told.point, {}, told.next == NRBPF_END ? std::nullopt : std::optional(told.next)};
        for (std::size_t k = 0; k < told.count; k++) it.entries.emplace_back(keys.substr(k * key, key), values.substr(k * value, value));
        return it;
    }
    template <class Call> std::optional<map_facts> tell_map(Call call, std::uint32_t map) {
        nrbpf_map_facts told{};
        if (!detail::is_answered(call(idle(), map, &told, sizeof told))) return {};
        const map_shape shape{told.kind == NRBPF_MAP_ARRAY, told.key_len, told.value_len, static_cast<std::uint32_t>(told.entries)};
        return map_facts{told.point, shape, told.keys};
    }
    template <class Call> std::optional<program_facts> tell_program(Call call, std::uint16_t program) {
        nrbpf_program_facts told{};
        if (!detail::is_answered(call(idle(), program, &told, sizeof told))) return {};
        return program_facts{told.point, told.is_place != 0, told.is_there != 0, static_cast<mode>(told.mode), told.argument_len, told.slots, told.maps, told.name};
    }
    template <class Call> std::optional<counts> count(Call call) {
        counts told{};
        if (!detail::is_answered(call(idle(), &told, sizeof told))) return {};
        return told;
    }
    template <class Call> std::optional<replies> ask(Call call, const std::vector<question> &questions) {
        std::vector<nrbpf_question> asked;
        for (const auto &[program, argument] : questions) asked.push_back({argument.data(), argument.size(), program});
        replies told{0, std::vector<std::uint64_t>(questions.size())};
        nrbpf_error why{};
        const nrbpf_status status = call(idle(), asked.data(), asked.size(), told.each.data(), &told.point, &why);
        if (!detail::is_answered(status, why)) return {};
        return told;
    }
    template <class Call> std::optional<std::uint64_t> copy(Call call, state &into) {
        std::uint64_t point = 0;
        if (!detail::is_answered(call(idle(), into.native(), &point))) return {};
        return point;
    }

    static tried tried_of(nrbpf_status status, const answer &out, const nrbpf_error &why = {}) {
        if (status != NRBPF_BUSY && status != NRBPF_POSTED) detail::check(status, why);
        return {status, out};
    }

public:
    session(std::shared_ptr<detail::shared_store> store, nrbpf_session *attached) noexcept : of(std::move(store)), at(attached) {}
    session(session &&other) noexcept
        : of(std::move(other.of)), at(std::exchange(other.at, nullptr)), posted(std::move(other.posted)), is_install(other.is_install) {}
    session &operator=(session &&other) noexcept {
        if (this != &other) {
            give_back();
            at = std::exchange(other.at, nullptr);
            of = std::move(other.of);
            posted = std::move(other.posted);
            is_install = other.is_install;
        }
        return *this;
    }
    ~session() { give_back(); }

    // For calls of nrbpf.h. Make none while `try_update` or the like has posted: others may poll the session then.
    nrbpf_session *native() const noexcept { return at; }

    // Run a program, and wait while other sessions are in the way.
    answer update(std::uint16_t program, bytes argument = {}) { return *run(nrbpf_update, program, argument); }
    answer read(std::uint16_t program, bytes argument = {}) { return *run(nrbpf_read, program, argument); }

    // Adds a program to the store while it runs. The reply is its number from then on. Throws `no_place` if no spare place is left.
    answer install(mode of_program, std::uint32_t argument_len, bytes code) {
        answer out;
        nrbpf_error why{};
        detail::check(nrbpf_install(idle(), static_cast<std::uint32_t>(of_program), argument_len, code.data(), code.size(), &out, &why), why);
        return placed(out);
    }

    // As `install`, for a program that may name only these maps. If it names another, S8 with V16.
    answer install_within(const maps_allowed &maps, mode of_program, std::uint32_t argument_len, bytes code) {
        answer out;
        nrbpf_error why{};
        const nrbpf_confined program{maps.bits(), static_cast<std::uint32_t>(of_program), argument_len, code.data(), code.size()};
        detail::check(nrbpf_install_within(idle(), &program, &out, &why), why);
        return placed(out);
    }

    // These wait for nobody.
    tried try_update(std::uint16_t program, bytes argument = {}) {
        answer out{};
        const nrbpf_status status = nrbpf_try_update(idle(), program, argument.data(), argument.size(), &out);
        return tried_by(status, out);
    }
    std::optional<answer> try_read(std::uint16_t program, bytes argument = {}) { return run(nrbpf_try_read, program, argument); }
    tried try_install(mode of_program, std::uint32_t argument_len, bytes code) {
        answer out{};
        nrbpf_error why{};
        const nrbpf_status status =
            nrbpf_try_install(idle(), static_cast<std::uint32_t>(of_program), argument_len, code.data(), code.size(), &out, &why);
        return tried_to_install(status, out, why);
    }

    tried try_install_within(const maps_allowed &maps, mode of_program, std::uint32_t argument_len, bytes code) {
        answer out{};
        nrbpf_error why{};
        const nrbpf_confined program{maps.bits(), static_cast<std::uint32_t>(of_program), argument_len, code.data(), code.size()};
        const nrbpf_status status = nrbpf_try_install_within(idle(), &program, &out, &why);
        return tried_to_install(status, out, why);
    }

    // Continues the update or the install that is posted. Nothing if it is not answered yet.
    std::optional<answer> poll() {
        answer out{};
        const nrbpf_status status = continued(out);
        if (status == NRBPF_POSTED) return std::nullopt;
        const bool was_install = std::exchange(is_install, false);
        detail::check(status);
        return was_install ? placed(out) : out;
    }

    // Polls until the update is answered, and meanwhile what others of the store have posted.
    answer wait() {
        for (;;) {
            if (const auto told = poll()) return *told;
            of->posts.poll_others(posted);
        }
    }

    // The value of a key of a map. The manifest's first map is 0.
    found get(std::uint32_t map, bytes key) { return *look_up(nrbpf_get, map, key); }
    std::optional<found> try_get(std::uint32_t map, bytes key) { return look_up(nrbpf_try_get, map, key); }

    // At most so many entries of a map, from a place on, at one point of the history. Begin with place 0. A page may have no entry although the map goes on.
    page scan_page(std::uint32_t map, std::uint32_t from = 0, std::size_t room = 256) { return *turn(nrbpf_scan, map, from, room); }
    std::optional<page> try_scan_page(std::uint32_t map, std::uint32_t from = 0, std::size_t room = 256) {
        return turn(nrbpf_try_scan, map, from, room);
    }

    // Gives each key and value of a map to a function of two strings, by pages. Two pages may be of different points of the history, and a deletion may
    // move a key to another page. A snapshot is of one point.
    template <class Take> void scan(std::uint32_t map, Take &&take) {
        for (std::optional<std::uint32_t> from = 0; from;) {
            const page it = scan_page(map, *from);
            for (const auto &[key, value] : it.entries) take(key, value);
            from = it.next;
        }
    }

    // Answers up to 16 reads at one point of the history. Without any, it brings the session's node up to date.
    replies read_each(const std::vector<question> &questions) { return *ask(nrbpf_read_each, questions); }
    std::optional<replies> try_read_each(const std::vector<question> &questions) { return ask(nrbpf_try_read_each, questions); }

    // What a map is, and what the program of a number is.
    map_facts map_info(std::uint32_t map) { return *tell_map(nrbpf_map_info, map); }
    std::optional<map_facts> try_map_info(std::uint32_t map) { return tell_map(nrbpf_try_map_info, map); }
    program_facts program_info(std::uint16_t program) { return *tell_program(nrbpf_program_info, program); }
    std::optional<program_facts> try_program_info(std::uint16_t program) { return tell_program(nrbpf_try_program_info, program); }
    // What the store has done, and how far the session's node has come. For the other nodes ask a session of each.
    counts stats() { return *count(nrbpf_stats); }
    std::optional<counts> try_stats() { return count(nrbpf_try_stats); }

    // Copies the store's state at one point of the history, and answers the point. Other nodes go on. Sessions of this node wait meanwhile.
    std::uint64_t snapshot(state &into) { return *copy(nrbpf_snapshot, into); }
    std::optional<std::uint64_t> try_snapshot(state &into) { return copy(nrbpf_try_snapshot, into); }
};

// ---- Lanes

// Some slots of one node, by which a list of updates is asked for in one call. A lane is given back when it ends. If a list is posted, the lane first waits
// for its answers, as a session does.
class lane {
    std::shared_ptr<detail::shared_store> of;
    nrbpf_lane *at;
    std::unique_ptr<detail::posted> posted;

    void give_back() noexcept {
        if (!at) return;
        std::vector<outcome> out;
        while (posted)
            if (of->posts.poll(posted, out) == NRBPF_POSTED) of->posts.poll_others(posted);
        std::array<outcome, NRBPF_MOST_SLOTS> room;
        while (nrbpf_detach_lane(at) == NRBPF_UNANSWERED) // a call on `native()` has posted
            if (nrbpf_poll_each(at, room.data()) == NRBPF_POSTED) std::this_thread::yield();
    }

    template <class Call> nrbpf_status ask(Call call, const std::vector<question> &calls, std::vector<outcome> &out) {
        std::vector<nrbpf_question> asked;
        for (const auto &[program, argument] : calls) asked.push_back({argument.data(), argument.size(), program});
        std::vector<outcome> told(calls.size());
        nrbpf_error why{};
        if (posted) detail::check(NRBPF_UNANSWERED);
        const nrbpf_status status = call(at, asked.data(), asked.size(), told.data(), &why);
        if (status == NRBPF_POSTED) posted = of->posts.add(at);
        if (status == NRBPF_BUSY || status == NRBPF_POSTED) return status;
        if (status != NRBPF_FULL) detail::check(status, why);
        return out = std::move(told), NRBPF_OK;
    }

public:
    lane(std::shared_ptr<detail::shared_store> store, nrbpf_lane *attached) noexcept : of(std::move(store)), at(attached) {}
    lane(lane &&other) noexcept : of(std::move(other.of)), at(std::exchange(other.at, nullptr)), posted(std::move(other.posted)) {}
    lane &operator=(lane &&other) noexcept {
        if (this != &other) {
            give_back();
            at = std::exchange(other.at, nullptr);
            of = std::move(other.of);
            posted = std::move(other.posted);
        }
        return *this;
    }
    ~lane() { give_back(); }

    // For calls of nrbpf.h. Make none while `try_update_each` has posted, as of a session.
    nrbpf_lane *native() const noexcept { return at; }

    // Runs programs that may change the maps, at most one for each slot, and waits while other sessions are in the way. Gives an outcome for each call. Each
    // update is an operation of its own: other updates may come between them. A list is refused as a whole: then the error's slot is the first call that is.
    std::vector<outcome> update_each(const std::vector<question> &calls) {
        std::vector<outcome> out;
        ask(nrbpf_update_each, calls, out);
        return out;
    }

    // Does the same, but waits for nobody. NRBPF_OK: `out` has the outcomes. NRBPF_BUSY: nothing has happened. NRBPF_POSTED: the store has each update, once,
    // and `poll_each` or `wait_each` is the lane's next call.
    nrbpf_status try_update_each(const std::vector<question> &calls, std::vector<outcome> &out) { return ask(nrbpf_try_update_each, calls, out); }

    // Continues the list that is posted, also if it was by a call on `native()`. Nothing if it is not answered yet.
    std::optional<std::vector<outcome>> poll_each() {
        std::vector<outcome> out = detail::unwritten();
        const nrbpf_status status = posted ? of->posts.poll(posted, out) : nrbpf_poll_each(at, out.data());
        if (status == NRBPF_POSTED) return {};
        if (status != NRBPF_FULL) detail::check(status);
        const auto is_unwritten = [](const outcome &it) { return it.status == NRBPF_POSTED; };
        out.erase(std::find_if(out.begin(), out.end(), is_unwritten), out.end());
        return out;
    }

    // Polls until the list is answered.
    std::vector<outcome> wait_each() {
        for (;;) {
            if (auto told = poll_each()) return *std::move(told);
            of->posts.poll_others(posted);
        }
    }
};

// ---- A store

// A store may be moved. It is shared with its sessions, and ends when it and all of them are gone.
class store {
    std::shared_ptr<detail::shared_store> of = std::make_shared<detail::shared_store>();

    template <class Open> void open(const manifest &with, Open &&call) {
        const auto files = with.native();
        nrbpf_store *out = nullptr;
        nrbpf_error why{};
        detail::check(call(with.text().data(), with.text().size(), files.data(), files.size(), &out, &why), why);
        of->at.reset(out);
        session first = attach(); // none is attached yet, so none is in the way
        for (std::uint32_t map = 0; map < info().maps; map++) of->maps.push_back(first.map_info(map).shape);
    }

public:
    // Loads the programs of a manifest, verifies each, and opens a store of them.
    explicit store(const manifest &with, const nrbpf_config &sizes = config()) {
        open(with, [&sizes](auto... given) { return nrbpf_open(&sizes, given...); });
    }

    // Opens a store on a state. Other stores may open on it too. The new history begins at point 0.
    store(const manifest &with, const nrbpf_config &sizes, const state &on) {
        open(with, [&](const char *text, std::size_t len, const nrbpf_file *files, std::size_t count, nrbpf_store **out, nrbpf_error *why) {
            return nrbpf_open_on(&sizes, text, len, files, count, on.native(), out, why);
        });
    }

    nrbpf_store *native() const noexcept { return of->at.get(); }
    const std::vector<map_shape> &maps() const noexcept { return of->maps; }

    // What it is from its opening on.
    store_facts info() const {
        store_facts told{};
        detail::check(nrbpf_store_info(native(), &told, sizeof told));
        return told;
    }

    // The number of a program of the manifest.
    std::uint16_t program(std::string_view name) const {
        std::uint16_t number = 0;
        detail::check(nrbpf_program_number(native(), name.data(), name.size(), &number));
        return number;
    }

    // A free session of a node. The first node is 0.
    session attach(std::uint32_t node = 0) const {
        nrbpf_session *attached = nullptr;
        detail::check(nrbpf_attach(native(), node, &attached));
        return session(of, attached);
    }

    // Some free sessions of a node as one lane: 1 to 16.
    lane attach_lane(std::uint32_t node, std::uint32_t slots) const {
        nrbpf_lane *attached = nullptr;
        detail::check(nrbpf_attach_lane(native(), node, slots, &attached));
        return lane(of, attached);
    }

    // A state for snapshots of this store. It takes the memory of one node's maps.
    state new_state() const {
        nrbpf_state *out = nullptr;
        detail::check(nrbpf_state_new(native(), &out));
        return state(out);
    }

    // Ends the store, and gives its last state: `std::move(store).close_into()`. With sessions it refuses (S5), and the store is as it was.
    state close_into() && {
        nrbpf_state *out = nullptr;
        if (of.use_count() > 1) detail::check(NRBPF_ATTACHED);
        detail::check(nrbpf_close_into(native(), &out));
        of->at.release();
        of.reset();
        return state(out);
    }
};

} // namespace nrbpf

#endif

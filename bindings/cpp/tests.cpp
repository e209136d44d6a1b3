// tests.cpp: what nrbpf.hpp answers, refuses and ends. It runs in the top folder of the repository.
#include "nrbpf.hpp"

#include <atomic>
#include <cstdio>
#include <cstdlib>
#include <cstring>
#include <functional>
#include <map>
#include <string>
#include <thread>
#include <vector>

using nrbpf::bytes_of;
using nrbpf::config;
using nrbpf::manifest;

static int checks;

// Ends the tests where two values differ, or something is not so.
#define EQUAL(told, wanted) is_equal(told, wanted, __LINE__)
#define EXPECT(holds) expect(holds, #holds, __LINE__)

static void expect(bool holds, const char *text, int line) {
    checks++;
    if (holds) return;
    std::fprintf(stderr, "tests.cpp:%d: not so: %s\n", line, text);
    std::exit(1);
}

template <class A, class B> static void is_equal(const A &told, const B &wanted, int line) { expect(told == static_cast<A>(wanted), "these are equal", line); }

// What a refusal says.
struct fault {
    nrbpf_status status, inner = 0;
    std::uint32_t line = 0, slot = 0;
};

#define REFUSED(call, ...) is_refused([&] { (void)(call); }, fault{__VA_ARGS__}, __LINE__)

template <class Call> static void is_refused(Call call, fault wanted, int line) {
    try {
        call();
    } catch (const nrbpf::error &why) {
        const fault told{why.status(), why.inner(), why.line(), why.slot()};
        const bool is_it = told.status == wanted.status && told.inner == wanted.inner && told.line == wanted.line && told.slot == wanted.slot;
        if (!is_it) std::fprintf(stderr, "%s\n", why.what());
        return expect(is_it, "it is this refusal", line);
    }
    expect(false, "it is refused", line);
}

#define NO_PLACE(call, wanted_point) has_no_place([&] { (void)(call); }, wanted_point, __LINE__)

template <class Call> static void has_no_place(Call call, std::uint64_t point, int line) {
    try {
        call();
    } catch (const nrbpf::no_place &why) {
        return expect(why.point() == point && why.status() == NRBPF_OK && why.inner() == 0, "it says where, and no refusal", line);
    }
    expect(false, "there is no place", line);
}

static const std::uint8_t five[] = {0xb7, 0, 0, 0, 5, 0, 0, 0, 0x95, 0, 0, 0, 0, 0, 0, 0}; // replies 5
static const std::uint8_t nothing_in_r0[] = {0x95, 0, 0, 0, 0, 0, 0, 0};
static const std::uint8_t names_map_0[] = {0x18, 0x51, 0, 0, 0, 0, 0, 0, 0, 0, 0, 0, 0, 0, 0, 0, 0xb7, 0, 0, 0, 6, 0, 0, 0, 0x95, 0, 0, 0, 0, 0, 0, 0}; // replies 6
static const std::uint32_t third = 3;

static manifest example(const std::string &name) { return manifest::read("examples/" + name + "/manifest"); }

static std::string text_of(const std::string &path) {
    std::ifstream file(path, std::ios::binary);
    return {std::istreambuf_iterator<char>(file), {}};
}

static std::string hex(nrbpf::bytes of) {
    std::string told;
    for (std::size_t k = 0; k < of.size(); k++) {
        char two[3];
        std::snprintf(two, sizeof two, "%02x", static_cast<const std::uint8_t *>(of.data())[k]);
        told += two;
    }
    return told;
}

template <class T> static std::string string_of(const T &value) { return {static_cast<const char *>(bytes_of(value).data()), sizeof value}; }

static const std::string program_line = "p read 0 " + hex(five) + "\n";

// The answer of a call that waits for nobody, which is asked again while others are in the way.
template <class Call> static auto answered(Call call) {
    for (;;)
        if (auto told = call()) return *told;
        else std::this_thread::yield();
}

template <class Call> static nrbpf::answer tried(nrbpf::session &session, Call call) {
    for (;;) {
        const nrbpf::tried told = call();
        if (told) return *told;
        if (told.is_posted()) return session.wait();
        std::this_thread::yield();
    }
}

#define ANSWER(call, wanted_point, wanted_reply) is_answer(call, wanted_point, wanted_reply, __LINE__)

static void is_answer(const nrbpf::answer &told, std::uint64_t point, std::uint64_t reply, int line) {
    expect(told.point == point, "its point", line);
    expect(told.reply == reply, "its reply", line);
}

// A store of examples/counter with a session.
struct counter {
    nrbpf::store store;
    nrbpf::session session;
    std::uint16_t bump, peek;

    explicit counter(const config &sizes = config())
        : store(example("counter"), sizes), session(store.attach()), bump(store.program("bump")), peek(store.program("peek")) {}
};

// ---- The library's own numbers and texts

static void header() {
    nrbpf_config told{};
    const nrbpf_config wanted = config(2, 4);
    EXPECT(nrbpf_version() / 1000 == NRBPF_VERSION_MAJOR);
    const std::size_t end = offsetof(nrbpf_config, limits.argument) + sizeof told.limits.argument;
    EXPECT(nrbpf_config_init(&told, NRBPF_VERSION, 2, 4) == NRBPF_OK && std::memcmp(&told, &wanted, end) == 0 && told.long_bytes == wanted.long_bytes);
    EXPECT(std::string(nrbpf_status_text(NRBPF_FULL)).rfind("S4: ", 0) == 0);
}

// ---- What calls answer

// The worked rows of examples/counter, key_value and install.
static void rows() {
    counter it;
    const std::uint32_t zero = 0, sixteen = 16;
    ANSWER(it.session.update(it.bump, bytes_of(zero)), 0, 1);
    ANSWER(it.session.update(it.bump, bytes_of(zero)), 1, 2);
    ANSWER(it.session.read(it.peek, bytes_of(zero)), 2, 2);
    ANSWER(it.session.update(it.bump, bytes_of(sixteen)), 2, UINT64_MAX);

    const nrbpf::store pairs(example("key_value"));
    auto session = pairs.attach();
    const auto put = pairs.program("put"), get = pairs.program("get"), cas = pairs.program("cas");
    const std::array<std::uint32_t, 2> one = {1, 7}, two = {2, 8}, three = {3, 9};
    const std::array<std::uint32_t, 3> swap = {1, 7, 10};
    ANSWER(session.update(put, bytes_of(one)), 0, 0);
    ANSWER(session.update(put, bytes_of(two)), 1, 0);
    ANSWER(session.update(put, bytes_of(three)), 2, NRBPF_REPLY_NO_ROOM);
    ANSWER(session.read(get, bytes_of(one[0])), 3, 7);
    ANSWER(session.update(cas, bytes_of(swap)), 3, 0);
    ANSWER(session.update(cas, bytes_of(swap)), 4, 1);
    ANSWER(session.read(get, bytes_of(one[0])), 5, 10);
}

static void installs() {
    counter it(config().with_spare(2));
    ANSWER(it.session.update(2), 0, NRBPF_REPLY_INVALID);
    ANSWER(it.session.install(nrbpf::mode::read, 0, five), 1, 2);
    ANSWER(it.session.read(2), 2, 5);
    ANSWER(tried(it.session, [&] { return it.session.try_install(nrbpf::mode::read, 0, five); }), 2, 3);
    NO_PLACE(it.session.install(nrbpf::mode::read, 0, five), 3);
    NO_PLACE(tried(it.session, [&] { return it.session.try_install_within({}, nrbpf::mode::read, 0, five); }), 4);
}

static void installs_within() {
    counter it(config().with_spare(3));
    ANSWER(it.session.install_within({0}, nrbpf::mode::read, 0, names_map_0), 0, 2);
    ANSWER(it.session.install_within({}, nrbpf::mode::read, 0, five), 1, 3);
    ANSWER(tried(it.session, [&] { return it.session.try_install_within({0, 15, 99}, nrbpf::mode::read, 0, names_map_0); }), 2, 4);
    ANSWER(it.session.read(2), 3, 6);
}

static void tries() {
    counter it(config(2, 2));
    for (std::uint64_t index = 0; index < 100; index++)
        ANSWER(tried(it.session, [&] { return it.session.try_update(it.bump, bytes_of(third)); }), index, index + 1);
    ANSWER(answered([&] { return it.session.try_read(it.peek, bytes_of(third)); }), 100, 100);
}

static void gets_and_scans() {
    const nrbpf::store store(example("key_value"));
    auto session = store.attach();
    const auto put = store.program("put");
    const std::array<std::uint32_t, 2> one = {1, 7}, two = {2, 8};
    session.scan(0, [](const std::string &, const std::string &) { EXPECT(false); });
    session.update(put, bytes_of(one));
    auto found = session.get(0, bytes_of(one[0]));
    EXPECT(found.point == 1 && found.value == string_of(one[1]));
    found = answered([&] { return session.try_get(0, bytes_of(two[0])); });
    EXPECT(found.point == 1 && !found.value);
    session.update(put, bytes_of(two));
    std::map<std::string, std::string> all;
    session.scan(0, [&all](const std::string &key, const std::string &value) { all[key] = value; });
    EXPECT((all == std::map<std::string, std::string>{{string_of(one[0]), string_of(one[1])}, {string_of(two[0]), string_of(two[1])}}));

    counter array;
    array.session.update(array.bump, bytes_of(third));
    const auto page = array.session.scan_page(0, 2, 4);
    EXPECT(page.point == 1 && page.entries.size() == 4 && page.next == 6u);
    EXPECT(page.entries[1] == nrbpf::entry(string_of(third), string_of(std::uint64_t{1})));
    const auto rest = answered([&] { return array.session.try_scan_page(0, 6); });
    EXPECT(rest.point == 1 && rest.entries.size() == 10 && !rest.next);
}

static void reads_at_one_point() {
    counter it;
    const std::uint32_t one = 1, two = 2, sixteen = 16;
    it.session.update(it.bump, bytes_of(one));
    it.session.update(it.bump, bytes_of(one));
    const std::vector<nrbpf::question> questions = {{it.peek, bytes_of(one)}, {it.peek, bytes_of(two)}, {it.peek, bytes_of(sixteen)}};
    const std::vector<std::uint64_t> wanted = {2, 0, UINT64_MAX};
    auto told = it.session.read_each(questions);
    EXPECT(told.point == 2 && told.each == wanted);
    told = answered([&] { return it.session.try_read_each(questions); });
    EXPECT(told.point == 2 && told.each == wanted);
    EXPECT(it.session.read_each({}).point == 2);
}

// ---- Threads

static void four_threads() {
    counter it(config(2, 3));
    std::vector<std::thread> threads;
    for (std::uint32_t i = 0; i < 4; i++)
        threads.emplace_back([session = it.store.attach(i % 2), bump = it.bump]() mutable {
            for (int k = 0; k < 1000; k++) session.update(bump, bytes_of(third));
        });
    for (auto &thread : threads) thread.join();
    ANSWER(it.session.read(it.peek, bytes_of(third)), 4000, 4000);
}

// Three threads that are in the way of a session of their node.
struct others {
    std::atomic<bool> is_done{false};
    std::atomic<std::uint64_t> made{0};
    std::vector<std::thread> threads;

    explicit others(counter &it) {
        for (int i = 0; i < 3; i++)
            threads.emplace_back([this, session = it.store.attach(), bump = it.bump]() mutable {
                for (int k = 0; !is_done && k < 300000; k++, made++) session.update(bump, bytes_of(third));
            });
    }
    void join() {
        is_done = true;
        for (auto &thread : threads) thread.join();
    }
};

// A session tries next to them: what is posted is made once, and until it is answered nothing else is.
static void tries_beside_others() {
    counter it(config(1, 4));
    others beside(it);
    std::uint64_t mine = 0;
    bool posted = false;
    while (mine < 50000 && !posted) {
        const auto told = it.session.try_update(it.bump, bytes_of(third));
        posted = told.is_posted();
        mine += told || posted;
    }
    beside.is_done = true;
    if (posted) {
        REFUSED(it.session.read(it.peek, bytes_of(third)), NRBPF_UNANSWERED);
        REFUSED(it.session.try_update(it.bump, bytes_of(third)), NRBPF_UNANSWERED);
        it.session.wait();
    }
    beside.join();
    ANSWER(it.session.read(it.peek, bytes_of(third)), mine + beside.made, mine + beside.made);
}

// An install that finds no place throws, also if it was posted. An update of the same reply that is posted later doesn't.
static void no_place_beside_others() {
    const std::uint8_t replies_7[] = {0xb7, 0, 0, 0, 0xf9, 0xff, 0xff, 0xff, 0x95, 0, 0, 0, 0, 0, 0, 0}; // -7
    counter it(config(1, 4).with_spare(1));
    it.session.install(nrbpf::mode::update, 0, replies_7);
    others beside(it);
    int thrown = 0;
    bool posted = false;
    for (int k = 1; k <= 50000 && !posted; k++) {
        try {
            const auto told = it.session.try_install(nrbpf::mode::read, 0, five);
            EXPECT(!told);
            posted = told.is_posted();
            if (posted) it.session.wait();
        } catch (const nrbpf::no_place &) {
            thrown++;
        }
        EXPECT(thrown > 0 || !posted);
    }
    EXPECT(thrown > 0);
    for (int k = 0; k < 1000; k++) EXPECT(tried(it.session, [&] { return it.session.try_update(2); }).reply == NRBPF_REPLY_NO_ROOM);
    beside.join();
}

// ---- States

static std::string count_line(std::uint64_t count) { return count ? "0 03000000 " + hex(bytes_of(count)) + "\n" : ""; }

static void snapshots() {
    counter it(config(3, 1).with_spare(1));
    auto state = it.store.new_state();
    EXPECT(it.session.snapshot(state) == 0 && state.dump().empty());
    const std::uint32_t zero = 0;
    it.session.update(it.bump, bytes_of(zero));
    it.session.update(it.bump, bytes_of(zero));
    EXPECT(it.session.snapshot(state) == 2 && state.dump() == text_of("examples/counter/state"));
    it.session.install(nrbpf::mode::read, 0, five);
    EXPECT(answered([&] { return it.session.try_snapshot(state); }) == 3);
    EXPECT(state.dump() == text_of("examples/counter/state") + program_line);
}

// In each snapshot the counter is the point, and points don't fall.
static void snapshots_beside_threads() {
    counter it(config(3, 1));
    auto state = it.store.new_state();
    std::vector<std::thread> threads;
    for (std::uint32_t node = 1; node < 3; node++)
        threads.emplace_back([session = it.store.attach(node), bump = it.bump]() mutable {
            for (int k = 0; k < 20000; k++) session.update(bump, bytes_of(third));
        });
    std::uint64_t last = 0;
    for (int i = 0; i < 200; i++) {
        const auto point = it.session.snapshot(state);
        EXPECT(last <= point && state.dump() == count_line(point));
        last = point;
    }
    for (auto &thread : threads) thread.join();
    EXPECT(it.session.snapshot(state) == 40000 && state.dump() == count_line(40000));
}

static void dumps() {
    const auto text = text_of("examples/counter/state") + program_line;
    const auto state = nrbpf::state::load(example("counter"), text, 1);
    EXPECT(state.dump() == text);
    EXPECT(nrbpf::state::load(example("counter"), "").dump().empty());
    struct enough {};
    int parts = 0;
    try {
        state.dump_to([&parts](std::string_view) {
            parts++;
            throw enough{};
        });
        EXPECT(false);
    } catch (const enough &) {
        EXPECT(parts == 1 && state.dump() == text);
    }
}

// All pages of a scan are the dump: of a large map that has few keys, so that pages are empty, and of one that has many.
static void scans() {
    const manifest of("map hash 4 8 65536\n");
    const std::string value = "\xff" + std::string(7, '\0');
    for (std::uint32_t count : {1u, 3000u}) {
        std::map<std::string, std::string> wanted, found;
        for (std::uint32_t number = 0; number < count; number++) wanted[string_of(number * 7)] = value;
        std::string text;
        for (const auto &entry : wanted) text += "0 " + hex(entry.first) + " " + hex(entry.second) + "\n";
        const nrbpf::store store(of, config(), nrbpf::state::load(of, text));
        store.attach().scan(0, [&found](const std::string &key, const std::string &it) { EXPECT(found.emplace(key, it).second); });
        EXPECT(found == wanted);
    }
}

static void stores_go_on() {
    nrbpf::store store(example("counter"), config().with_spare(1));
    {
        auto session = store.attach();
        session.update(store.program("bump"), bytes_of(third));
        session.install(nrbpf::mode::read, 0, five);
        REFUSED(std::move(store).close_into(), NRBPF_ATTACHED);
        ANSWER(session.read(2), 2, 5);
    }
    const auto state = std::move(store).close_into();
    for (std::uint32_t nodes = 1; nodes < 3; nodes++) {
        const nrbpf::store other(example("counter"), config(nodes).with_spare(2), state);
        auto session = other.attach(nodes - 1);
        ANSWER(session.read(other.program("peek"), bytes_of(third)), 0, 1);
        ANSWER(session.read(2), 0, 5);
        ANSWER(session.update(other.program("bump"), bytes_of(third)), 0, 2);
    }
}

// Stores end while another thread gives back their last session.
static void close_next_to_a_session() {
    for (int i = 0; i < 300; i++) {
        nrbpf::store store(example("counter"), config());
        std::atomic<bool> is_going{false};
        std::thread other([session = std::optional(store.attach()), &is_going]() mutable {
            is_going = true;
            session.reset();
        });
        while (!is_going) std::this_thread::yield();
        for (std::optional<nrbpf::state> state; !state;) {
            try {
                state = std::move(store).close_into();
            } catch (const nrbpf::error &why) {
                EQUAL(why.status(), NRBPF_ATTACHED);
            }
        }
        other.join();
    }
}

// ---- What is refused

static void refused_manifests() {
    const auto bump = text_of("examples/counter/bump.hex");
    const auto with = [&bump](std::string text, std::string other = "") {
        return manifest(std::move(text)).file("bump.hex", bump).file("other", std::move(other));
    };
    const std::string array = "map array 8 16\n", it = array + "program it ";
    const auto open = [](const manifest &of) { return nrbpf::store(of); };
    REFUSED(open(with("")), NRBPF_BAD_LINE, 0, 1);
    REFUSED(open(with("map array 08 16\n")), NRBPF_BAD_LINE, 0, 1);
    REFUSED(open(with(it + "update 4 none\n")), NRBPF_BAD_LINE, 0, 2);
    REFUSED(open(with(it + "update 4 other\n", "b7 0")), NRBPF_BAD_DIGITS, 0, 2);
    REFUSED(open(with(it + "update 4 other\n")), NRBPF_FILE_NOT_DECODED, NRBPF_REFUSAL('D', 2), 2);
    REFUSED(open(with(it + "update 4 other\n", "9500000000000000")), NRBPF_FILE_NOT_ACCEPTED, NRBPF_REFUSAL('V', 6), 2);
    REFUSED(open(with(it + "read 4 bump.hex\n")), NRBPF_FILE_NOT_ACCEPTED, NRBPF_REFUSAL('V', 18), 2, 7);
    REFUSED(open(with("map array 256 65536\nmap array 1 1\n")), NRBPF_TOO_MUCH, 0, 2);
    REFUSED(open(with("map array \xff 16\n")), NRBPF_NOT_UTF8);
    const config wrong[] = {config(0),    config(9), config(1, 0), config(1, 17), config().with_window(15), config().with_window(1048577),
                            config().with_spare(4097), config().with_long_bytes(16385)};
    for (const config &sizes : wrong) REFUSED(nrbpf::store(example("counter"), sizes), NRBPF_OUT_OF_LIMITS);
    REFUSED(open(with("map hash 8 8 65537\n")), NRBPF_BAD_LINE, 0, 1);
    nrbpf::store(with("map hash 8 8 65537\n"), config().with_limits(NRBPF_LARGE));
    REFUSED(open(with("map array 257 2\n")), NRBPF_BAD_LINE, 0, 1);
    const nrbpf::store long_values(with("map array 16384 2\n"), config().with_limits(NRBPF_LARGE));
    const std::uint32_t index = 1;
    EXPECT(long_values.attach().get(0, bytes_of(index)).value == std::string(16384, '\0'));
    const auto of_length = [&](const std::string &length) { return with(it + "update " + length + " other\n", hex(five)); };
    REFUSED(open(of_length("65")), NRBPF_BAD_LINE, 0, 2);
    nrbpf::store(of_length("16384"), config().with_limits(NRBPF_LARGE));
    REFUSED(nrbpf::store(of_length("16385"), config().with_limits(NRBPF_LARGE)), NRBPF_BAD_LINE, 0, 2);
    REFUSED(nrbpf::store(of_length("4"), config().with_limits({0, 0, 0, 0, 16385})), NRBPF_OUT_OF_LIMITS);
    config other;
    other.version += 1000;
    REFUSED(nrbpf::store(example("counter"), other), NRBPF_OTHER_VERSION);
    const auto state = nrbpf::state::load(example("counter"), program_line, 1);
    REFUSED(nrbpf::store(manifest("map array 8 15\n"), config().with_spare(1), state), NRBPF_OTHER_STATE);
    REFUSED(nrbpf::store(example("counter"), config(), state), NRBPF_OTHER_STATE);
}

static void refused_dumps() {
    const manifest of("map array 8 16\nmap hash 4 4 2\n");
    const std::string one = " 0100000000000000\n", seven = " 07000000\n";
    const auto load = [&of](const std::string &text) { return nrbpf::state::load(of, text, 1); };
    REFUSED(load("0 0000000A" + one), NRBPF_BAD_DUMP_LINE, 0, 1);
    REFUSED(load("2 00000000" + one), NRBPF_BAD_DUMP_MAP, 0, 1);
    REFUSED(load("0 10000000" + one), NRBPF_BAD_DUMP_KEY, 0, 1);
    REFUSED(load("0 00000000" + seven), NRBPF_BAD_DUMP_VALUE, 0, 1);
    REFUSED(load("0 01000000" + one + "0 00000000" + one), NRBPF_BAD_DUMP_ORDER, 0, 2);
    REFUSED(load("0 00000000 0000000000000000\n"), NRBPF_BAD_DUMP_ZEROS, 0, 1);
    REFUSED(load("1 00000000" + seven + "1 01000000" + seven + "1 02000000" + seven), NRBPF_DUMP_TOO_MANY_KEYS, 0, 3);
    REFUSED(load("p read 0 " + hex(nothing_in_r0) + "\n"), NRBPF_DUMP_BAD_PROGRAM, NRBPF_REFUSAL('V', 6), 1);
    REFUSED(load(program_line + program_line), NRBPF_DUMP_TOO_MANY_PROGRAMS, 0, 2);
    REFUSED(nrbpf::state::load(of, "", 4097), NRBPF_OUT_OF_LIMITS);
    REFUSED(nrbpf::state::load(manifest(""), ""), NRBPF_BAD_LINE, 0, 1);
}

static void refused_calls() {
    counter it(config().with_spare(1));
    const auto key = bytes_of(third);
    REFUSED(it.session.update(it.bump, five), NRBPF_ARGUMENT_LENGTH);
    REFUSED(it.session.try_update(it.peek, key), NRBPF_OTHER_MODE);
    REFUSED(it.session.read(it.bump, key), NRBPF_OTHER_MODE);
    REFUSED(it.session.try_read(3, key), NRBPF_UNKNOWN_PROGRAM);
    REFUSED(it.session.install(nrbpf::mode::update, 65, five), NRBPF_TOO_LARGE);
    REFUSED(it.session.install(nrbpf::mode::read, 0, {}), NRBPF_NOT_DECODED, NRBPF_REFUSAL('D', 2));
    REFUSED(it.session.try_install(nrbpf::mode::read, 0, nothing_in_r0), NRBPF_NOT_ACCEPTED, NRBPF_REFUSAL('V', 6));
    REFUSED(it.session.install(static_cast<nrbpf::mode>(2), 0, five), NRBPF_BAD_CALL);
    REFUSED(it.session.install_within({1}, nrbpf::mode::read, 0, names_map_0), NRBPF_NOT_ACCEPTED, NRBPF_REFUSAL('V', 16));
    REFUSED(it.session.try_install_within({}, nrbpf::mode::read, 0, names_map_0), NRBPF_NOT_ACCEPTED, NRBPF_REFUSAL('V', 16));
    REFUSED(it.session.get(1, key), NRBPF_UNKNOWN_MAP);
    REFUSED(it.session.get(0, five), NRBPF_KEY_LENGTH);
    REFUSED(it.session.scan_page(1), NRBPF_UNKNOWN_MAP);
    REFUSED(it.session.scan_page(0, 16), NRBPF_UNKNOWN_PLACE);
    REFUSED(it.session.read_each({{it.peek, key}, {it.bump, key}}), NRBPF_OTHER_MODE, 0, 0, 1);
    REFUSED(it.session.read_each(std::vector<nrbpf::question>(17, {it.peek, key})), NRBPF_BAD_CALL);
    REFUSED(it.session.poll(), NRBPF_NOTHING_POSTED);
    auto other = nrbpf::state::load(example("counter"), "");
    REFUSED(it.session.snapshot(other), NRBPF_OTHER_SIZES);
    REFUSED(it.store.attach(), NRBPF_NO_SESSION);
    REFUSED(it.store.attach(1), NRBPF_NO_SESSION);
    REFUSED(it.store.program("nope"), NRBPF_UNKNOWN_PROGRAM);
    REFUSED(it.store.program("b\xff"), NRBPF_NOT_UTF8);
    ANSWER(it.session.read(it.peek, key), 0, 0);
}

static void limits() {
    counter it(config().with_limit(2));
    it.session.update(it.bump, bytes_of(third));
    it.session.update(it.bump, bytes_of(third));
    REFUSED(it.session.update(it.bump, bytes_of(third)), NRBPF_FULL);
    ANSWER(it.session.read(it.peek, bytes_of(third)), 2, 2);
    counter endless(config().with_window(16).with_limit(NRBPF_ENDLESS));
    for (int i = 0; i < 10000; i++) endless.session.update(endless.bump, bytes_of(third));
    ANSWER(endless.session.read(endless.peek, bytes_of(third)), 10000, 10000);
}

// Puts all bytes of its argument but the first four under these four.
static const char put_hex[] = "bf12000000000000bf13000000000000070300000400000018510000000000000000000000000000b70400000000000085000000020000009500000000000000";
// Replies the last eight of the 16,384 bytes of its argument.
static const char last_hex[] = "7910f83f000000009500000000000000";

// A node reads what another has put, and one byte more is refused.
static void long_arguments() {
    auto of = manifest("map hash 4 16380 4\nprogram put update 16384 put\nprogram last read 16384 last\n").file("put", put_hex).file("last", last_hex);
    nrbpf::store store(of, config(2, 2).with_limits(NRBPF_LARGE));
    auto one = store.attach(0), other = store.attach(1);
    auto lane = store.attach_lane(0, 1);
    std::string longer;
    std::uint64_t tail = 0;
    for (unsigned k = 0; k < 16385; k++) longer += static_cast<char>(k + (k >> 8));
    for (unsigned k = 62; k > 54; k--) tail = tail << 8 | k;
    const std::string argument = longer.substr(0, 16384);
    ANSWER(one.update(0, argument), 0, 0);
    EXPECT(other.get(0, argument.substr(0, 4)).value == argument.substr(4));
    ANSWER(other.read(1, argument), 1, tail);
    EXPECT(lane.update_each({{0, argument}})[0].point == 1);
    EXPECT(other.read_each({{1, argument}}).each[0] == tail);
    REFUSED(one.update(0, longer), NRBPF_ARGUMENT_LENGTH);
    REFUSED(one.try_update(0, longer), NRBPF_ARGUMENT_LENGTH);
    REFUSED(one.read(1, longer), NRBPF_ARGUMENT_LENGTH);
    REFUSED(lane.update_each({{0, longer}}), NRBPF_ARGUMENT_LENGTH);
}

// A program of so many slots that replies 5.
static std::string five_in(std::size_t slots) {
    const std::string whole = string_of(five);
    std::string code;
    for (std::size_t k = 1; k < slots; k++) code += whole.substr(0, 8);
    return code + whole.substr(8);
}

// A node has what another has installed, and so have stores that go on from its state and from its dump.
static void long_programs() {
    const config sizes = config(2, 1).with_window(16).with_spare(2).with_long_bytes(16384);
    const std::uint8_t last[] = {0x79, 0x10, 0xf8, 0x3f, 0, 0, 0, 0, 0x95, 0, 0, 0, 0, 0, 0, 0};
    const std::string longest = five_in(2048), argument = std::string(16383, '\0') + '\7';
    const std::uint64_t tail = std::uint64_t{7} << 56;
    nrbpf::store store(example("counter"), sizes);
    {
        auto one = store.attach(0), other = store.attach(1);
        ANSWER(one.install(nrbpf::mode::read, 0, longest), 0, 2);
        ANSWER(tried(other, [&] { return other.try_install(nrbpf::mode::update, 16384, last); }), 1, 3);
        for (std::uint64_t point = 2; point < 200; point += 2) {
            ANSWER(other.read(2), point, 5);
            ANSWER(one.update(3, argument), point, tail);
            NO_PLACE(tried(one, [&] { return one.try_install_within({}, nrbpf::mode::read, 0, longest); }), point + 1);
        }
        EXPECT(other.program_info(2).slots == 2048 && one.program_info(3).argument_len == 16384);
    }
    const std::string text = "p read 0 " + hex(longest) + "\np update 16384 " + last_hex + "\n";
    const auto ended = std::move(store).close_into(), loaded = nrbpf::state::load(example("counter"), text, sizes);
    for (const nrbpf::state *on : {&ended, &loaded}) {
        EXPECT(on->dump() == text);
        const nrbpf::store next(example("counter"), sizes, *on);
        for (std::uint32_t node : {0u, 1u}) {
            auto session = next.attach(node);
            EXPECT(session.read(2).reply == 5 && session.update(3, argument).reply == tail);
        }
    }
    const config fewer = config(2, 1).with_window(16).with_spare(2).with_long_bytes(16383);
    REFUSED(nrbpf::store(example("counter"), fewer, ended), NRBPF_OTHER_STATE);
    REFUSED(nrbpf::state::load(example("counter"), text, fewer), NRBPF_BAD_DUMP_LINE, 0, 1);
    REFUSED(nrbpf::state::load(example("counter"), "", config().with_long_bytes(16385)), NRBPF_OUT_OF_LIMITS);
}

// One slot too many, and one byte too many of an argument, by how much a store allows.
static void long_installs() {
    const std::array<std::uint32_t, 3> allowed[] = {{0, 24, 64}, {100, 24, 100}, {200, 25, 200}, {16384, 2048, 16384}};
    for (const auto &[long_bytes, slots, length] : allowed) {
        counter it(config().with_window(16).with_spare(1).with_long_bytes(long_bytes));
        const std::string program = five_in(slots), longer = five_in(slots + 1), given(length, '\0');
        const std::uint32_t past = length + 1;
        REFUSED(it.session.install(nrbpf::mode::read, 0, longer), NRBPF_TOO_LARGE);
        REFUSED(it.session.try_install(nrbpf::mode::read, past, five), NRBPF_TOO_LARGE);
        REFUSED(it.session.update(2, given + '\0'), NRBPF_ARGUMENT_LENGTH);
        REFUSED(it.session.read(2, given + '\0'), NRBPF_ARGUMENT_LENGTH);
        ANSWER(it.session.install(nrbpf::mode::read, length, program), 0, 2);
        ANSWER(it.session.read(2, given), 1, 5);
    }
}

// Puts its argument under the argument's first byte, in seven slots.
static const char put_in_map_0[] = "bf12000000000000bf1300000000000018510000000000000000000000000000b70400000000000085000000020000009500000000000000";

static void a_store_tells_what_it_is() {
    auto with = manifest("map hash 1 2 16\nmap array 8 4\nprogram put update 2 put.hex\n").file("put.hex", put_in_map_0);
    nrbpf::store store(with, config(1, 2).with_window(64).with_spare(1).with_long_bytes(200));
    const auto sizes = store.info();
    EXPECT(sizes.nodes == 1 && sizes.slots == 2 && sizes.window == 64 && sizes.limit == NRBPF_ENDLESS && sizes.spare == 1);
    EXPECT(sizes.maps == 2 && sizes.programs == 1 && sizes.long_bytes == 200 && store.maps().size() == 2);
    const auto hash = store.maps()[0], array = store.maps()[1];
    EXPECT(!hash.is_array && hash.key == 1 && hash.value == 2 && hash.entries == 16);
    EXPECT(array.is_array && array.key == 4 && array.value == 8 && array.entries == 4);

    auto session = store.attach(), other = store.attach(); // both are free again
    session.update(0, std::string("\7\11", 2));
    const auto told = session.map_info(0);
    EXPECT(told.point == 1 && told.keys == 1 && told.shape.value == 2);
    EXPECT(answered([&] { return other.try_map_info(1); }).keys == 4);
    const auto put = session.program_info(0);
    EXPECT(put.point == 1 && !put.is_place && put.is_there && put.may == nrbpf::mode::update && put.argument_len == 2 && put.slots == 7 && put.maps == 1 && put.name == "put");
    EXPECT(!session.program_info(1).is_there);
    session.install(nrbpf::mode::read, 5, five);
    const auto installed = answered([&] { return other.try_program_info(1); });
    EXPECT(installed.point == 2 && installed.is_place && installed.may == nrbpf::mode::read && installed.argument_len == 5 && installed.slots == 2 && installed.maps == 0 && installed.name.empty());
    REFUSED(session.map_info(2), NRBPF_UNKNOWN_MAP);
    REFUSED(session.program_info(2), NRBPF_UNKNOWN_PROGRAM);
}

// ---- Lanes

static void lists() {
    nrbpf::store store(example("counter"), config(1, 5).with_limit(8));
    const auto bump = store.program("bump"), peek = store.program("peek");
    auto session = store.attach();
    auto lane = store.attach_lane(0, 4);
    const nrbpf::question good{bump, bytes_of(third)}, other{peek, bytes_of(third)}, shorter{bump, std::string_view("123")};
    const auto told = lane.update_each({good, good, good});
    for (std::size_t k = 0; k < 3; k++) EXPECT(told[k].status == NRBPF_OK && told[k].point == k && told[k].reply == k + 1);
    std::vector<nrbpf::outcome> out;
    EXPECT(lane.try_update_each({good, good}, out) == NRBPF_OK && out.size() == 2 && out[1].point == 4); // nobody is in the way
    EXPECT(lane.update_each({}).empty());
    REFUSED(lane.update_each({good, good, good, good, good}), NRBPF_BAD_CALL);
    REFUSED(lane.update_each({good, {9, {}}, shorter}), NRBPF_UNKNOWN_PROGRAM, 0, 0, 1);
    REFUSED(lane.try_update_each({good, good, shorter}, out), NRBPF_ARGUMENT_LENGTH, 0, 0, 2);
    REFUSED(lane.update_each({other, good}), NRBPF_OTHER_MODE);
    REFUSED(lane.poll_each(), NRBPF_NOTHING_POSTED);
    REFUSED(store.attach_lane(0, 1), NRBPF_NO_SESSION);
    REFUSED(store.attach_lane(0, 17), NRBPF_BAD_CALL);
    const auto last = lane.update_each({good, good, good, good}); // the history has room for three
    EXPECT(last[2].point == 7 && last[3].status == NRBPF_FULL && last[3].reply == 0);
    ANSWER(session.read(peek, bytes_of(third)), 8, 8);
    auto moved = std::move(lane);
    { const auto ended = std::move(moved); }
    moved = store.attach_lane(0, 4); // the slots are free again
}

// Each thread has a lane, on one node or the other, and tries every other list.
static void lists_of_threads() {
    nrbpf::store store(example("counter"), config(2, 8));
    std::vector<std::thread> threads;
    std::atomic<int> wrong = 0;
    for (std::uint32_t node : {0u, 1u, 0u, 1u})
        threads.emplace_back([&store, &wrong, lane = store.attach_lane(node, 4)]() mutable {
            const nrbpf::question one{store.program("bump"), bytes_of(third)};
            for (int list = 0; list < 1000; list++) {
                std::vector<nrbpf::outcome> out;
                nrbpf_status status = NRBPF_BUSY;
                if (list % 2) status = lane.try_update_each({one, one, one, one}, out);
                if (status == NRBPF_POSTED) out = lane.wait_each();
                if (status == NRBPF_BUSY) out = lane.update_each({one, one, one, one});
                for (std::size_t k = 0; k < 4; k++) wrong += out.size() != 4 || out[k].status != NRBPF_OK || (k > 0 && out[k - 1].point >= out[k].point);
            }
        });
    for (auto &thread : threads) thread.join();
    EXPECT(wrong == 0);
    ANSWER(store.attach().read(store.program("peek"), bytes_of(third)), 16000, 16000);
}

// A list that a call of nrbpf.h has posted gets all its outcomes, next to threads that are in the way.
static void lists_posted_by_nrbpf_h() {
    const nrbpf::store store(example("counter"), config(1, 7));
    const auto bump = store.program("bump");
    std::atomic<bool> is_done{false};
    std::vector<std::thread> threads;
    for (int i = 0; i < 3; i++)
        threads.emplace_back([session = store.attach(), bump, &is_done]() mutable {
            while (!is_done) session.update(bump, bytes_of(third));
        });
    auto lane = store.attach_lane(0, 4);
    const std::vector<nrbpf_question> calls(4, {&third, sizeof third, bump});
    std::vector<nrbpf::outcome> out(4);
    nrbpf_status status = NRBPF_OK;
    for (int list = 0; list < 200000 && status != NRBPF_POSTED; list++) status = nrbpf_try_update_each(lane.native(), calls.data(), 4, out.data(), nullptr);
    if (status == NRBPF_POSTED) {
        out = lane.wait_each();
        EXPECT(out.size() == 4 && out[3].status == NRBPF_OK && out[3].point > out[0].point);
    }
    is_done = true;
    for (auto &thread : threads) thread.join();
}

static void a_store_tells_what_it_has_done() {
    nrbpf::store store(example("counter"), config(2, 1));
    const auto bump = store.program("bump");
    auto session = store.attach(0), other = store.attach(1);
    for (int i = 0; i < 3; i++) session.update(bump, bytes_of(third));
    const auto own = session.stats();
    EXPECT(own.completed == 3 && own.appended == 3 && own.kept == 3 && own.tail == 3 && own.lag == 0);
    EXPECT(own.updates == 3 && own.waits == 0 && own.batches == 0 && own.largest == 0 && own.node == 0);
    const auto behind = answered([&] { return other.try_stats(); });
    EXPECT(behind.completed == 3 && behind.tail == 0 && behind.lag == 3 && behind.updates == 0 && behind.node == 1);
}

// ---- How things end

// Of two sessions of a node whose updates are posted by one thread, the later one ends first. It may have to wait for the other.
static void posted_sessions_end() {
    const nrbpf::store store(example("counter"), config(2, 4));
    const auto bump = store.program("bump");
    std::atomic<bool> is_done{false};
    std::atomic<std::uint64_t> made{0};
    std::vector<std::thread> threads;
    for (std::uint32_t node : {0u, 0u, 1u})
        threads.emplace_back([session = store.attach(node), bump, &is_done, &made]() mutable {
            for (; !is_done; made++) session.update(bump, bytes_of(third));
        });
    for (int turn = 0, both = 0; turn < 50000 && both < 200; turn++) {
        auto first = store.attach(0), later = store.attach(0);
        const auto one = first.try_update(bump, bytes_of(third)), other = later.try_update(bump, bytes_of(third));
        made += static_cast<std::uint64_t>(one.status != NRBPF_BUSY) + (other.status != NRBPF_BUSY);
        both += one.is_posted() && other.is_posted();
    }
    is_done = true;
    for (auto &thread : threads) thread.join();
    ANSWER(store.attach(0).read(store.program("peek"), bytes_of(third)), made, made);
}

static void ends() {
    nrbpf::store store(example("counter"));
    const auto peek = store.program("peek");
    auto session = store.attach();
    REFUSED(store.attach(), NRBPF_NO_SESSION);
    nrbpf::session moved = std::move(session);
    ANSWER(moved.read(peek, bytes_of(third)), 0, 0);
    moved = nrbpf::store(example("counter")).attach(); // whose store has no other owner; the first session is given back
    session = store.attach();
    ANSWER(moved.update(0, bytes_of(third)), 0, 1);
    ANSWER(session.read(peek, bytes_of(third)), 0, 0);
    store = nrbpf::store(example("counter"));
    ANSWER(session.read(peek, bytes_of(third)), 0, 0); // (the session's store is there as long as it is)
}

int main() {
    const std::pair<const char *, void (*)()> tests[] = {
        {"header", header}, {"scans", scans}, {"rows", rows}, {"installs", installs}, {"installs_within", installs_within}, {"tries", tries}, {"gets_and_scans", gets_and_scans}, {"reads_at_one_point", reads_at_one_point},
        {"four_threads", four_threads}, {"tries_beside_others", tries_beside_others}, {"no_place_beside_others", no_place_beside_others}, {"snapshots", snapshots},
        {"snapshots_beside_threads", snapshots_beside_threads}, {"dumps", dumps}, {"stores_go_on", stores_go_on}, {"close_next_to_a_session", close_next_to_a_session},
        {"refused_manifests", refused_manifests}, {"refused_dumps", refused_dumps}, {"refused_calls", refused_calls}, {"limits", limits}, {"long_arguments", long_arguments}, {"long_programs", long_programs}, {"long_installs", long_installs}, {"a_store_tells_what_it_is", a_store_tells_what_it_is}, {"a_store_tells_what_it_has_done", a_store_tells_what_it_has_done}, {"lists", lists}, {"lists_of_threads", lists_of_threads}, {"lists_posted_by_nrbpf_h", lists_posted_by_nrbpf_h}, {"ends", ends}, {"posted_sessions_end", posted_sessions_end},
    };
    for (const auto &[name, test] : tests) {
        try {
            test();
        } catch (const std::exception &why) {
            std::fprintf(stderr, "tests.cpp: %s: %s\n", name, why.what());
            return 1;
        }
    }
    std::printf("%zu tests, %d checks\n", std::size(tests), checks);
    return 0;
}

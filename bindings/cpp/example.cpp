// example.cpp [FILE]: four threads count by one store, and what they counted is kept in a file. A second run with the same file goes on from it. It runs in
// the top folder of the repository.
#include "nrbpf.hpp"

#include <cstring>
#include <fstream>
#include <iostream>
#include <iterator>
#include <optional>
#include <string>
#include <thread>
#include <vector>

// The state that a file has, if there is one.
static std::optional<nrbpf::state> kept(const nrbpf::manifest &manifest, const char *path) {
    std::ifstream file(path ? path : "", std::ios::binary);
    if (!file) return {};
    return nrbpf::state::load(manifest, std::string(std::istreambuf_iterator<char>(file), {}));
}

static void run(const char *path) {
    const auto manifest = nrbpf::manifest::read("examples/counter/manifest");
    const auto before = kept(manifest, path);
    const nrbpf::config sizes(2, 3);
    const nrbpf::store store = before ? nrbpf::store(manifest, sizes, *before) : nrbpf::store(manifest, sizes);
    const auto bump = store.program("bump");
    const std::uint32_t third = 3;

    std::vector<std::thread> threads;
    for (std::uint32_t i = 0; i < 4; i++)
        threads.emplace_back([session = store.attach(i % 2), bump, third]() mutable {
            for (int k = 0; k < 1000; k++) session.update(bump, nrbpf::bytes_of(third));
        });
    for (auto &thread : threads) thread.join();

    auto session = store.attach(0);
    auto state = store.new_state();
    const auto point = session.snapshot(state);
    if (path) std::ofstream(path, std::ios::binary) << state.dump();
    session.scan(0, [point](const std::string &key, const std::string &value) {
        std::uint32_t number = 0;
        std::uint64_t count = 0;
        std::memcpy(&number, key.data(), sizeof number);
        std::memcpy(&count, value.data(), sizeof count);
        if (count) std::cout << "counter " << number << " is " << count << " after " << point << " updates\n";
    });
}

int main(int count, char **words) {
    try {
        run(count > 1 ? words[1] : nullptr);
        return 0;
    } catch (const std::exception &why) {
        std::cerr << why.what() << "\n";
        return 1;
    }
}

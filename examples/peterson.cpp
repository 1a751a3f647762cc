// peterson.cpp: one side of Peterson's lock where a load may pass an earlier store. Where does it need a fence?
#include <fence_request.hpp>
#include <fstream>
#include <iostream>

int main(int count, char **words) {
    using fence::load, fence::store;
    fence::Request lock;
    lock.rule(store(1), store(2)).rule(load(1), load(2)).rule(load(1), store(2));
    const auto raise = lock.store("flag0"), yield = lock.store("turn");
    const auto look = lock.load("flag1"), whose = lock.load("turn");
    const auto read = lock.load("data"), write = lock.store("data"), leave = lock.store("flag0");
    lock.path({raise, yield, look, read, write, leave}).path({look, whose, look}, 10).edge(whose, read);
    lock.order(raise, look).order(yield, look).order(look, read).order(write, leave);
    const auto done = fence::run(lock.bytes()).value();
    const auto fenced = fence::Request::read(done.file, lock).value();
    for (const auto &p : fence::placed(lock, fenced))
        std::cout << "a fence between " << lock.name(p.from) << " and " << lock.name(p.to) << '\n';
    const std::string folder = count > 1 ? words[1] : ".";
    std::ofstream before(folder + "/peterson_before.dot"), after(folder + "/peterson_after.dot");
    fence::draw(before, lock);
    fence::draw(after, fenced);
}

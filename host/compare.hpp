// Library against reference: every call is made on both, and everything they return or write must be equal.
#ifndef COMPARE_HPP
#define COMPARE_HPP

#include <string>

#include "reference.hpp"

class Comparison {
public:
    enum Operation { run_operation, ask_operation, strip_operation };

    // What the reference reports, for what is done next with the file.
    reference::Report run(const reference::Bytes &file, std::size_t room);
    void ask(const reference::Bytes &file, reference::Number order, std::size_t room);
    void strip(const reference::Bytes &file, reference::Number count, std::size_t room);

    std::size_t calls() const { return calls_; }
    std::size_t differences() const { return differences_; }

    // How often an answer was given, over all comparisons of this process.
    static std::size_t reached(Operation operation, reference::Number answer) {
        return reached_[operation][answer];
    }

private:
    template <class Outcome>
    Outcome hold(Operation operation, const reference::Bytes &file, reference::Number argument, std::size_t room,
                 Outcome (*theirs)(const reference::Bytes &, reference::Number, std::size_t),
                 Outcome (*ours)(const reference::Bytes &, reference::Number, std::size_t));

    std::size_t calls_ = 0, differences_ = 0;
    static std::size_t reached_[3][12];
};

#endif

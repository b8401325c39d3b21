// Places a call: a line and an RTP ephemeral into a new context, both turned on, and cleared again.
//
//     c++ -I include examples/cpp/call.cpp crates/cordafina/out/libcordafina.a -o call
#include <cstdint>
#include <iostream>
#include <stdexcept>
#include <string>
#include <vector>

#include "cordafina.h"

namespace {

// A gateway of its own mId and so many lines; the library keeps nothing, so all of it is here.
class Gateway {
public:
    Gateway(std::string own, std::uint32_t lines)
        : own_(own), lines_(lines), table_(CORDAFINA_TABLE_WORDS(lines)),
          room_words_(CORDAFINA_ROOM_WORDS), room_bytes_(CORDAFINA_ROOM_BYTES), reply_(CORDAFINA_REPLY_BYTES)
    {
    }

    std::string answer(const std::string &message)
    {
        return taken(cordafina_answer(lines_, bytes(message), message.size(), table_.data(), table_.size(),
                                      room_words_.data(), room_words_.size(), room_bytes_.data(), room_bytes_.size(),
                                      blocks_.data(), blocks_.size(), bytes(own_), own_.size(), reply_.data(), reply_.size()),
                     reply_);
    }

    std::string contexts() const
    {
        std::vector<std::uint8_t> out(CORDAFINA_OUTPUT_BYTES);
        return taken(cordafina_contexts(lines_, table_.data(), table_.size(), out.data(), out.size()), out);
    }

    std::uint32_t context_of(std::size_t termination) const { return table_.at(termination); }

    std::uint64_t map() const { return cordafina_map(lines_, table_.data()); }

private:
    static const std::uint8_t *bytes(const std::string &text)
    {
        return reinterpret_cast<const std::uint8_t *>(text.data());
    }

    static std::string taken(std::uint64_t answer, const std::vector<std::uint8_t> &out)
    {
        if (cordafina_refusal(answer) != CORDAFINA_TAKEN) {
            throw std::runtime_error(cordafina_refusal_text(cordafina_refusal(answer)));
        }
        return std::string(out.begin(), out.begin() + static_cast<std::ptrdiff_t>(cordafina_length(answer)));
    }

    std::string own_;
    std::uint32_t lines_;
    std::vector<std::uint32_t> table_;
    std::vector<std::uint32_t> room_words_;
    std::vector<std::uint8_t> room_bytes_;
    std::vector<std::uint32_t> blocks_ = std::vector<std::uint32_t>(CORDAFINA_BLOCK_WORDS);
    std::vector<std::uint8_t> reply_;
};

} // namespace

int main()
{
    Gateway gateway("[10.0.0.9]", 8);
    for (const std::string message : {"!/1 [10.0.0.1] T=1{C=${PR=4,A=L/1/5,A=$}}",
                                      "!/1 [10.0.0.1] T=2{C=1{MF=*{M{O{MO=SendReceive}}}}}",
                                      "!/1 [10.0.0.1] T=3{C=1{S=*}}"}) {
        std::cout << message << "\n  " << gateway.answer(message) << "\n";
        std::cout << "  L/1/5 stands in context " << gateway.context_of(CORDAFINA_LINE(1, 5)) << "\n";
        std::cout << "  ephemerals in use: " << cordafina_in_use(gateway.map())
                  << ", next: R/" << cordafina_lowest_absent(gateway.map()) << "\n";
        std::cout << gateway.contexts();
    }
}

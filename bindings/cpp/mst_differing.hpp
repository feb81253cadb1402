// Where two maps differ, for mst_store.hpp.
#pragma once
#include "mst_store.h"
#include "mst_store_answers.hpp"

#include <cstddef>
#include <cstdint>
#include <exception>
#include <optional>
#include <string>
#include <string_view>
#include <utility>
#include <vector>

namespace mst {

// A key at which two maps differ, with its two values: nothing where the key is absent.
struct difference {
    std::string key;
    std::optional<std::string> ours, theirs;
};

// Returns a piece of a proof: of number 0 the text of the top node, of 1 that of the node below it,
// and so on; in format 2 there is one more piece behind the texts, in which the value stands.
// Returns nothing if the proof has no such piece. Nothing is verified.
inline std::optional<std::vector<std::uint8_t>> proof_piece(
    const std::vector<std::uint8_t> &proof, std::uint32_t number) {
    const std::uint8_t *piece = nullptr;
    std::size_t length = 0;
    int code = mst_proof_piece(proof.data(), proof.size(), number, &piece, &length);
    if (code != MST_OK) return std::nullopt;
    return std::vector<std::uint8_t>(piece, piece + length);
}

namespace detail {

// What mst_differing calls. An exception ends that call, and is thrown again behind it.
template <typename Ask> class walk {
    static constexpr std::int32_t stopped = 1;

    Ask &ask;
    std::vector<std::uint8_t> piece; // stays until the next one is asked for
    std::vector<difference> found;
    std::exception_ptr thrown;

    template <typename Step> std::int32_t guard(Step step) noexcept {
        try {
            step();
        } catch (...) {
            thrown = std::current_exception();
        }
        return thrown ? stopped : MST_OK;
    }

    static std::string text(const std::uint8_t *bytes, std::size_t length) {
        return std::string(reinterpret_cast<const char *>(bytes), length);
    }

    static std::optional<std::string> value(const std::uint8_t *bytes, std::size_t length) {
        if (bytes == nullptr) return std::nullopt;
        return text(bytes, length);
    }

    static std::int32_t asked(void *with, const std::uint8_t *key, std::size_t key_length,
                              std::uint32_t number, const std::uint8_t **bytes,
                              std::size_t *length) {
        auto &self = *static_cast<walk *>(with);
        return self.guard([&] {
            std::string_view name(reinterpret_cast<const char *>(key), key_length);
            self.piece = self.ask(name, number);
            *bytes = self.piece.data();
            *length = self.piece.size();
        });
    }

    static std::int32_t told(void *with, const mst_difference *it) {
        auto &self = *static_cast<walk *>(with);
        return self.guard([&] {
            self.found.push_back(difference{text(it->key, it->key_length),
                                            value(it->ours, it->ours_length),
                                            value(it->theirs, it->theirs_length)});
        });
    }

public:
    explicit walk(Ask &whom) : ask(whom) {}

    std::vector<difference> over(mst_pass *ours, const digest &root) {
        int code = mst_differing(ours, root.data(), root.size(), asked, told, this);
        if (thrown) std::rethrow_exception(thrown);
        if (code != MST_OK) throw refused(code);
        return std::move(found);
    }
};

} // namespace detail

} // namespace mst

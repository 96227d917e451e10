// Frames (RFC 6455, section 5) as a server writes and reads them.
#pragma once

#include <cstdint>
#include <optional>
#include <string>
#include <string_view>

enum class Opcode : unsigned char { more = 0, text = 1, close = 8, ping = 9, pong = 10 };

// What stands before a payload of this size, in a frame that is whole.
inline std::string frame_head(Opcode opcode, std::uint64_t size) {
    const int bytes = size < 126 ? 0 : size < 65536 ? 2 : 8; // of the length, behind its first byte
    std::string head{static_cast<char>(0x80 | static_cast<unsigned char>(opcode))};
    head += static_cast<char>(bytes == 0 ? size : bytes == 2 ? 126 : 127);
    for (int i = bytes - 1; i >= 0; i--) head += static_cast<char>(size >> 8 * i);
    return head;
}

struct Heard {
    Opcode opcode;
    bool is_last;
    std::string payload;
    std::size_t size; // of the whole frame
};

// The frame that these bytes begin with, or none where it is not all there. A client's frames are
// masked.
inline std::optional<Heard> first_frame(std::string_view bytes) {
    const auto byte = [&](std::size_t i) { return static_cast<unsigned char>(bytes[i]); };
    if (bytes.size() < 2) return {};
    std::uint64_t size = byte(1) & 127;
    const std::size_t mask = size < 126 ? 2 : size == 126 ? 4 : 10;
    if (bytes.size() < mask + 4) return {};
    if (mask > 2) size = 0;
    for (std::size_t i = 2; i < mask; i++) size = size << 8 | byte(i);
    const std::size_t head = mask + 4;
    if (bytes.size() - head < size) return {};
    std::string payload(bytes.substr(head, size));
    for (std::size_t i = 0; i < size; i++) payload[i] ^= bytes[mask + i % 4];
    return Heard{Opcode(byte(0) & 15), (byte(0) & 128) != 0, std::move(payload), head + size};
}

// zoftemar.hpp: zoftemar.h as move-only classes, for C++17. An object owns at most one room, session or recorder, and its destructor closes it. An
// object that isn't open, or was moved from, owns none: its calls return ZOFTEMAR_NO_ROOM, ZOFTEMAR_NO_SESSION or ZOFTEMAR_NO_RECORDER. Each method
// calls the function of its name in zoftemar.h, with seat 0; zoftemar.h has the codes, the units and what the caller owes. Nothing throws, and the
// classes allocate and copy nothing.
// One thread at a time may use an object, and the object may go to another thread.
#ifndef ZOFTEMAR_HPP
#define ZOFTEMAR_HPP

#include <cstddef>
#include <cstdint>
#include <utility>

#include "zoftemar.h"

namespace zoftemar {

using Reply = zoftemar_reply;
using Target = zoftemar_target;
using SubscriberCounts = zoftemar_subscriber_counts;
using TrackCounts = zoftemar_track_counts;

// Owns a handle.
template <class Handle, void (*Close)(Handle *)>
class Owner {
public:
    Owner() noexcept = default;
    Owner(Owner &&other) noexcept : owned(std::exchange(other.owned, Handle{})) {}
    Owner &operator=(Owner &&other) noexcept {
        if (this != &other) {
            close();
            owned = std::exchange(other.owned, Handle{});
        }
        return *this;
    }
    ~Owner() { close(); }

    void close() noexcept { Close(&owned); }
    // The handle, for calls of zoftemar.h. The object still owns it.
    [[nodiscard]] Handle *handle() noexcept { return &owned; }
    [[nodiscard]] const Handle *handle() const noexcept { return &owned; }

private:
    Handle owned{};
};

class Room : public Owner<zoftemar_room, zoftemar_close> {
public:
    [[nodiscard]] std::uint32_t open() noexcept { return zoftemar_open(handle()); }

    [[nodiscard]] Reply publish_plain(std::uint32_t track, std::uint32_t ssrc, std::uint32_t hold) noexcept {
        return zoftemar_publish_plain(handle(), 0, track, ssrc, hold);
    }
    [[nodiscard]] Reply publish_layered(std::uint32_t track, std::uint8_t id, std::uint32_t ssrc, std::uint32_t hold) noexcept {
        return zoftemar_publish_layered(handle(), 0, track, id, ssrc, hold);
    }
    Reply unpublish(std::uint32_t track) noexcept { return zoftemar_unpublish(handle(), 0, track); }
    Reply packet(std::uint32_t track, std::uint64_t moment, const std::uint8_t *bytes, std::size_t count) noexcept {
        return zoftemar_packet(handle(), 0, track, moment, bytes, count);
    }
    Reply tick(std::uint32_t track, std::uint64_t moment) noexcept { return zoftemar_tick(handle(), 0, track, moment); }
    [[nodiscard]] Reply missing(std::uint32_t track, std::uint16_t *out, std::size_t count) noexcept {
        return zoftemar_missing(handle(), 0, track, out, count);
    }
    [[nodiscard]] Reply key_wanted(std::uint32_t track) noexcept { return zoftemar_key_wanted(handle(), 0, track); }
    [[nodiscard]] Reply due(std::uint32_t track) const noexcept { return zoftemar_due(handle(), track); }
    [[nodiscard]] Reply ready(std::uint32_t track, std::uint32_t *out, std::size_t count) const noexcept {
        return zoftemar_ready(handle(), track, out, count);
    }
    [[nodiscard]] Reply newest_frame(std::uint32_t track) const noexcept { return zoftemar_newest_frame(handle(), track); }

    [[nodiscard]] Reply join(std::uint32_t subscriber, std::uint32_t track, std::uint32_t ssrc, std::uint16_t first, std::uint8_t spatial,
                             std::uint8_t temporal) noexcept {
        return zoftemar_join(handle(), 0, subscriber, track, ssrc, first, spatial, temporal);
    }
    Reply aim(std::uint32_t subscriber, std::uint8_t spatial, std::uint8_t temporal) noexcept {
        return zoftemar_aim(handle(), 0, subscriber, spatial, temporal);
    }
    Reply leave(std::uint32_t subscriber) noexcept { return zoftemar_leave(handle(), 0, subscriber); }
    [[nodiscard]] Reply take(std::uint32_t subscriber, std::uint8_t *out, std::size_t count) noexcept {
        return zoftemar_take(handle(), 0, subscriber, out, count);
    }
    [[nodiscard]] Reply resend(std::uint32_t subscriber, std::uint16_t number, std::uint8_t *out, std::size_t count) noexcept {
        return zoftemar_resend(handle(), 0, subscriber, number, out, count);
    }
    Reply plead(std::uint32_t subscriber) noexcept { return zoftemar_plead(handle(), 0, subscriber); }

    [[nodiscard]] Reply bundle(std::uint32_t number, std::uint8_t id, std::uint32_t ssrc, std::uint16_t first, const std::uint32_t *legs,
                               std::size_t count) noexcept {
        return zoftemar_bundle(handle(), number, id, ssrc, first, legs, count);
    }
    [[nodiscard]] Reply bundle_renumbered(std::uint32_t number, std::uint8_t id, std::uint32_t ssrc, std::uint16_t first, const std::uint32_t *legs,
                                          std::size_t count) noexcept {
        return zoftemar_bundle_renumbered(handle(), number, id, ssrc, first, legs, count);
    }
    Reply choose(std::uint32_t bundle, std::uint8_t leg) noexcept { return zoftemar_choose(handle(), bundle, leg); }
    Reply pump(std::uint32_t bundle) noexcept { return zoftemar_pump(handle(), bundle); }
    [[nodiscard]] Reply draw(std::uint32_t bundle, std::uint8_t *out, std::size_t count) noexcept { return zoftemar_draw(handle(), bundle, out, count); }
    [[nodiscard]] Reply redraw(std::uint32_t bundle, std::uint16_t number, std::uint8_t *out, std::size_t count) noexcept {
        return zoftemar_redraw(handle(), bundle, number, out, count);
    }

    [[nodiscard]] Reply why(std::uint32_t subscriber, std::uint64_t number) noexcept { return zoftemar_why(handle(), 0, subscriber, number); }
    [[nodiscard]] Reply target_of(std::uint32_t subscriber, Target &out) const noexcept { return zoftemar_target_of(handle(), subscriber, &out); }
    [[nodiscard]] Reply reaches_wish(std::uint32_t subscriber) const noexcept { return zoftemar_reaches_wish(handle(), subscriber); }
    [[nodiscard]] Reply counts_of_subscriber(std::uint32_t subscriber, SubscriberCounts &out) const noexcept {
        return zoftemar_counts_of_subscriber(handle(), subscriber, &out);
    }
    [[nodiscard]] Reply counts_of_track(std::uint32_t track, TrackCounts &out) const noexcept {
        return zoftemar_counts_of_track(handle(), track, &out);
    }
};

// The methods that Publisher and Subscriber share.
class Session : public Owner<zoftemar_session, zoftemar_close_session> {
public:
    [[nodiscard]] Reply received(std::uint64_t moment, const std::uint8_t *bytes, std::size_t count) noexcept {
        return zoftemar_session_received(handle(), moment, bytes, count);
    }
    [[nodiscard]] Reply waited(std::uint64_t moment) noexcept { return zoftemar_session_waited(handle(), moment); }
    [[nodiscard]] Reply work(Room &room, std::uint8_t *out, std::size_t count) noexcept {
        return zoftemar_session_work(handle(), room.handle(), 0, out, count);
    }

protected:
    Session() noexcept = default;
};

class Publisher : public Session {
public:
    [[nodiscard]] std::uint32_t open(std::uint32_t track, std::uint32_t ssrc) noexcept { return zoftemar_open_publisher(handle(), track, ssrc); }
};

class Subscriber : public Session {
public:
    [[nodiscard]] std::uint32_t open(std::uint32_t subscriber, std::uint32_t ssrc) noexcept {
        return zoftemar_open_subscriber(handle(), subscriber, ssrc);
    }
    [[nodiscard]] std::uint32_t open_rtx(std::uint32_t subscriber, std::uint32_t ssrc, std::uint32_t rtx_ssrc, std::uint8_t rtx_payload_type) noexcept {
        return zoftemar_open_rtx_subscriber(handle(), subscriber, ssrc, rtx_ssrc, rtx_payload_type);
    }
};

class Recorder : public Owner<zoftemar_recorder, zoftemar_recorder_close> {
public:
    [[nodiscard]] std::uint32_t open(std::uint8_t id) noexcept { return zoftemar_recorder_open(handle(), id); }
    Reply feed(const std::uint8_t *bytes, std::size_t count) noexcept { return zoftemar_recorder_feed(handle(), bytes, count); }
    [[nodiscard]] Reply finish(std::uint8_t *out, std::size_t count) noexcept { return zoftemar_recorder_finish(handle(), out, count); }
};

} // namespace zoftemar

#endif

// calls.cpp: every call of zoftemar.hpp.
#include <cstdio>
#include <cstdlib>
#include <zoftemar.hpp>

#define IS(x) do { if (!(x)) { std::fprintf(stderr, "calls.cpp:%d: %s\n", __LINE__, #x); std::exit(1); } } while (0)

int main() {
    zoftemar::Room room, moved;
    zoftemar::Publisher publisher;
    zoftemar::Subscriber plain, rtx;
    zoftemar::Target target{};
    std::uint8_t out[ZOFTEMAR_PACKET_ROOM];
    std::uint16_t names[ZOFTEMAR_NAMES_ROOM];
    std::uint8_t rtp[] = {0x80, 96, 0, 1, 0, 0, 0, 0, 0x11, 0x11, 0x11, 0x11, 5};
    const std::uint8_t nack[] = {0x81, 205, 0, 3, 0, 0, 0, 9, 0x22, 0x22, 0x22, 0x22, 0, 7, 0, 0};

    IS(room.tick(1, 0).code == ZOFTEMAR_NO_ROOM && publisher.waited(0).code == ZOFTEMAR_NO_SESSION);
    IS(moved.open() == ZOFTEMAR_DONE);
    room = std::move(moved);
    IS(moved.tick(1, 0).code == ZOFTEMAR_NO_ROOM && room.tick(1, 0).code == ZOFTEMAR_NO_TRACK);

    IS(room.publish_layered(1, 4, 1, 300).code == ZOFTEMAR_DONE && room.unpublish(1).code == ZOFTEMAR_DONE);
    IS(room.publish_plain(2, 0x11111111, 300).code == ZOFTEMAR_DONE && room.key_wanted(2).code == ZOFTEMAR_KEY);
    IS(room.join(1, 2, 0x22222222, 7, 0, 0).code == ZOFTEMAR_DONE && room.aim(1, 1, 1).code == ZOFTEMAR_DONE);
    IS(room.packet(2, 0, rtp, sizeof rtp).code == ZOFTEMAR_DONE);
    rtp[3] = 4;
    IS(room.packet(2, 0, rtp, sizeof rtp).code == ZOFTEMAR_DONE);
    IS(room.missing(2, names, ZOFTEMAR_NAMES_ROOM).first == 2 && names[0] == 2 && names[1] == 3);
    const zoftemar::Room &asked = room;
    std::uint32_t ready[4];
    IS(asked.ready(2, ready, 4).code == ZOFTEMAR_READY && asked.ready(2, ready, 4).first == 1 && ready[0] == 1);
    IS(asked.due(2).has && asked.due(2).first == 300 && asked.newest_frame(2).code == ZOFTEMAR_NEWEST);
    IS(room.take(1, out, sizeof out).first == sizeof rtp && out[3] == 7 && room.take(1, out, sizeof out).code == ZOFTEMAR_EMPTY);
    IS(room.resend(1, 7, out, sizeof out).first == sizeof rtp && room.plead(1).code == ZOFTEMAR_PLAIN);
    IS(room.why(1, 0).code == ZOFTEMAR_AHEAD);
    IS(!asked.target_of(1, target).has && asked.reaches_wish(1).code == ZOFTEMAR_REACHED);
    zoftemar::SubscriberCounts counts{};
    zoftemar::TrackCounts counts_of_track{};
    IS(asked.counts_of_subscriber(1, counts).code == ZOFTEMAR_COUNTS && counts.queued == 1 && counts.taken == 1 && counts.resent == 1);
    IS(asked.counts_of_track(2, counts_of_track).code == ZOFTEMAR_COUNTS && counts_of_track.arrived == 1 && counts_of_track.given_up == 0);

    IS(publisher.open(2, 0x11111111) == ZOFTEMAR_DONE && plain.open(1, 0x22222222) == ZOFTEMAR_DONE);
    IS(rtx.open_rtx(1, 0x22222222, 0x22222222, 97) == ZOFTEMAR_BAD_STREAM);
    IS(rtx.open_rtx(1, 0x22222222, 0x33333333, 97) == ZOFTEMAR_DONE && rtx.open(1, 2) == ZOFTEMAR_HAS_SESSION);
    IS(publisher.waited(20).code == ZOFTEMAR_DONE && publisher.waited(20).code == ZOFTEMAR_BUSY);
    IS(publisher.work(room, nullptr, 0).code == ZOFTEMAR_NO_SPACE);
    IS(publisher.work(room, out, sizeof out).code == ZOFTEMAR_PACKET && out[1] == 205 && out[13] == 2);
    IS(rtx.received(20, nack, sizeof nack).code == ZOFTEMAR_DONE);
    IS(rtx.work(room, out, sizeof out).first == sizeof rtp + 2 && out[1] == 97);

    const std::uint32_t legs[] = {2, 3};
    IS(room.publish_layered(3, 4, 1, 300).code == ZOFTEMAR_DONE && room.publish_layered(4, 4, 1, 300).code == ZOFTEMAR_DONE);
    IS(room.join(2, 3, 1, 7, 0, 0).code == ZOFTEMAR_DONE && room.join(3, 4, 1, 7, 0, 0).code == ZOFTEMAR_DONE);
    IS(room.bundle(1, 5, 1, 7, legs, 2).code == ZOFTEMAR_WRONG_KIND && room.bundle_renumbered(1, 4, 1, 7, legs, 2).code == ZOFTEMAR_DONE);
    IS(room.pump(1).code == ZOFTEMAR_PUMPED && room.choose(1, 2).code == ZOFTEMAR_DONE && room.key_wanted(4).has);
    IS(room.draw(1, out, sizeof out).code == ZOFTEMAR_EMPTY && room.redraw(1, 7, out, sizeof out).code == ZOFTEMAR_NOT_KEPT);
    IS(room.leave(2).code == ZOFTEMAR_BOUND);

    zoftemar::Recorder recorder;
    IS(recorder.feed(rtp, sizeof rtp).code == ZOFTEMAR_NO_RECORDER && recorder.open(4) == ZOFTEMAR_DONE && recorder.open(4) == ZOFTEMAR_HAS_RECORDER);
    IS(recorder.feed(rtp, sizeof rtp).code == ZOFTEMAR_UNREAD);
    IS(recorder.finish(out, sizeof out).first == 32 && out[0] == 'D' && recorder.finish(out, sizeof out).code == ZOFTEMAR_DONE);
    IS(recorder.feed(rtp, sizeof rtp).code == ZOFTEMAR_FINISHED);
    IS(room.leave(1).code == ZOFTEMAR_DONE && zoftemar_tick(room.handle(), 0, 2, 40).code == ZOFTEMAR_DONE);
}

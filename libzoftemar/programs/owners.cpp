// owners.cpp: each object of zoftemar.hpp has one owner, which closes it. The heap is in C++, and counts its blocks.
#include <cstdio>
#include <cstdlib>
#include <type_traits>
#include <vector>
#include <zoftemar.hpp>
#include <zoftemar_heap.h>

#define IS(x) do { if (!(x)) { std::fprintf(stderr, "owners.cpp:%d: %s\n", __LINE__, #x); std::exit(1); } } while (0)

using namespace zoftemar;

static long blocks;

zoftemar_block rattle_alloc(std::size_t count, std::size_t) {
    blocks++;
    return {true, std::malloc(count + 1)};
}
zoftemar_block rattle_realloc(void *old, std::size_t, std::size_t count, std::size_t) { return {true, std::realloc(old, count + 1)}; }
void rattle_dealloc(void *at) {
    blocks--;
    std::free(at);
}

template <class T>
constexpr bool only_moves = !std::is_copy_constructible_v<T> && !std::is_copy_assignable_v<T> && std::is_nothrow_move_constructible_v<T> &&
                            std::is_nothrow_move_assignable_v<T>;
static_assert(only_moves<Room> && only_moves<Session> && only_moves<Publisher> && only_moves<Subscriber> && only_moves<Recorder>);
static_assert(sizeof(Room) == sizeof(zoftemar_room) && sizeof(Publisher) == sizeof(zoftemar_session) && sizeof(Recorder) == sizeof(zoftemar_recorder));

int main() {
    {
        std::vector<Room> rooms(2);
        IS(rooms[0].open() == ZOFTEMAR_DONE && rooms[0].open() == ZOFTEMAR_HAS_ROOM);
        const long one = blocks;
        IS(rooms[1].open() == ZOFTEMAR_DONE && blocks == 2 * one);
        rooms.resize(100);
        rooms[2] = std::move(rooms[0]);
        rooms[0].close();
        IS(blocks == 2 * one && rooms[2].open() == ZOFTEMAR_HAS_ROOM);
        std::swap(rooms[2], rooms[3]);
        rooms[3] = std::move(rooms[1]); // closes the room that was there
        IS(blocks == one && rooms[0].open() == ZOFTEMAR_DONE && blocks == 2 * one);

        Session session = [] {
            Publisher publisher;
            IS(publisher.open(1, 2) == ZOFTEMAR_DONE && publisher.open(1, 2) == ZOFTEMAR_HAS_SESSION);
            return Session(std::move(publisher));
        }();
        IS(blocks > 2 * one);
    }
    IS(blocks == 0);
}

/* stub.c: opens and closes, and takes its memory as the proved library does. libzoftemar/test puts it in the archive's place where that isn't built. */
#include "zoftemar.h"
#include "zoftemar_heap.h"

static uint32_t open_at(bool *made, void **at, uint32_t has) {
    if (*made) return has;
    zoftemar_block block = rattle_alloc(1, 1);
    *made = block.ok;
    *at = block.ok ? block.at : NULL;
    return block.ok ? ZOFTEMAR_DONE : ZOFTEMAR_NO_MEMORY;
}

static void close_at(bool *made, void **at) {
    if (*made) rattle_dealloc(*at);
    *made = false;
    *at = NULL;
}

uint32_t zoftemar_open(zoftemar_room *room) { return open_at(&room->made, &room->held.at, ZOFTEMAR_HAS_ROOM); }
void zoftemar_close(zoftemar_room *room) { close_at(&room->made, &room->held.at); }

uint32_t zoftemar_open_publisher(zoftemar_session *session, uint32_t track, uint32_t ssrc) {
    (void)track;
    (void)ssrc;
    return open_at(&session->made, &session->held.at, ZOFTEMAR_HAS_SESSION);
}
void zoftemar_close_session(zoftemar_session *session) { close_at(&session->made, &session->held.at); }

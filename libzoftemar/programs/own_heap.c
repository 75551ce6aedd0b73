/* own_heap.c: a heap of the program's own is the one that is used; and each code has its name. -Wswitch finds one that ZOFTEMAR_EACH_CODE lacks. */
#include <string.h>
#include <zoftemar.h>
#include <zoftemar_heap.h>

static const zoftemar_block none = { false, NULL };

zoftemar_block rattle_alloc(size_t count, size_t align) {
    (void)count;
    (void)align;
    return none;
}

zoftemar_block rattle_realloc(void *old, size_t kept, size_t count, size_t align) {
    (void)old;
    (void)kept;
    (void)count;
    (void)align;
    return none;
}

void rattle_dealloc(void *at) { (void)at; }

static const char *name_of(enum zoftemar_code code) {
#define NAME(name) case name: return #name;
    switch (code) {
    ZOFTEMAR_EACH_CODE(NAME)
    }
    return "ZOFTEMAR_?";
}

int main(void) {
    zoftemar_room room = ZOFTEMAR_ROOM_NONE;
    for (uint32_t code = 0; code < 100; code++)
        if (strcmp(name_of((enum zoftemar_code)code), zoftemar_code_name(code)) != 0) return 1;
    return zoftemar_open(&room) == ZOFTEMAR_NO_MEMORY ? 0 : 1;
}

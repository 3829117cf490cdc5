/* A library that frees each conversation as soon as it is to move, so that no marker goes before it: linked into a daemon by
 * --wrap=lagffi_move_conversation. The last one moves as ever: by it the daemon finds out whether its peer answers markers. */
#include "lag.h"

uint32_t __real_lagffi_move_conversation(struct niw_system *handle, uint16_t agg, uint16_t conv, uint16_t port);
uint32_t __wrap_lagffi_move_conversation(struct niw_system *handle, uint16_t agg, uint16_t conv, uint16_t port);

uint32_t __wrap_lagffi_move_conversation(struct niw_system *handle, uint16_t agg, uint16_t conv, uint16_t port) {
    uint32_t status = __real_lagffi_move_conversation(handle, agg, conv, port);
    bool forced = status == NIW_OK && conv != NIW_FEW_CONVERSATIONS - 1;
    return forced ? lagffi_force(handle, agg, conv) : status;
}

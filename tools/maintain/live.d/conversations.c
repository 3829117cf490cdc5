/* Calls niw_conversation_ports and niw_released, and checks what they tell of the conversations of an aggregator: what changed and what became
 * free is told once. What else is asked of conversations by number, python/tests/conversations compares. */
#include "checks.h"
#include "lag.h"

/* What a program with a data plane is told, and keeps until it asks again. */
static struct {
    uint16_t on[NIW_FEW_CONVERSATIONS];
    bool changed[NIW_FEW_CONVERSATIONS], busy[NIW_FEW_CONVERSATIONS], freed[NIW_FEW_CONVERSATIONS];
} plane;

/* Asks for both; answers how many ports changed, and a hundred times how many conversations became free. */
static uint64_t ask_plane(struct niw_system *one, uint16_t agg) {
    struct niw_number moved = niw_conversation_ports(one, agg, plane.on, NIW_FEW_CONVERSATIONS, plane.changed, NIW_FEW_CONVERSATIONS);
    struct niw_number freed = niw_released(one, agg, plane.busy, NIW_FEW_CONVERSATIONS, plane.freed, NIW_FEW_CONVERSATIONS);
    CHECK(moved.status == NIW_OK && freed.status == NIW_OK);
    return moved.number + 100 * freed.number;
}

void check_plane(void) {
    struct niw_system one = NIW_EMPTY, other = NIW_EMPTY;
    uint16_t agg;
    make(&one, 5, 7, 256, 0);
    make(&other, 6, 9, 256, 0);
    bring_up(&one, &other);
    agg = (uint16_t)niw_choice(&one, 1).number;
    CHECK(niw_offer_conversation(&one, agg, 4).number == 1 && niw_offer_conversation(&one, agg, 7).number == 2);
    CHECK(niw_conversation_ports(&one, 9, plane.on, 256, plane.changed, 256).status == NIW_NO_AGGREGATOR && plane.on[4] == 0);
    CHECK(niw_released(&one, 9, plane.busy, 256, plane.freed, 256).status == NIW_NO_AGGREGATOR && !plane.busy[4]);
    CHECK(ask_plane(&one, agg) == 2 && plane.on[4] == 1 && plane.on[7] == 2 && plane.on[5] == 0 && plane.changed[7] && !plane.changed[5]);
    CHECK(plane.busy[4] && plane.busy[7] && !plane.busy[5] && !plane.freed[7] && ask_plane(&one, agg) == 0 && !plane.changed[7]);
    CHECK(niw_leave_conversation(&one, agg, 7) == NIW_OK && ask_plane(&one, agg) == 1 && plane.on[7] == 0 && plane.changed[7] && plane.busy[7]);
    turn(&one, &other, 1);
    CHECK(ask_plane(&one, agg) == 100 && plane.freed[7] && !plane.freed[4] && !plane.busy[7] && plane.on[4] == 1);
    CHECK(niw_rest(&one, agg, 4) == NIW_OK && ask_plane(&one, agg) == 101 && plane.freed[4]);
    CHECK(niw_free(&one) == NIW_OK && niw_free(&other) == NIW_OK);
}

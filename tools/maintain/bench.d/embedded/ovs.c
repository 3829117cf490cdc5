/* Bonds of Open vSwitch, over the public calls of its lib/lacp.h: up to three, each with ports of its own and one partner. */
#include <config.h>
#include <stdbool.h>
#include <stdint.h>
#include <stdio.h>
#include <string.h>
#include "dp-packet.h"
#include "lacp.h"
#include "packets.h"

#define MOST 64

enum kind { SAME, RUN, FLIPS_AND_RUN };

struct heard {
    struct dp_packet packet;
    uint8_t frame[124];
};

struct bond {
    struct lacp *lacp;
    int ports;
    /* The partner is in Sync; is out of it and tells an old state of the port; is in Sync and tells an old state. */
    struct heard heard[3][MOST];
    int members[MOST];
};

static struct bond bonds[3];
static long sent;

static void count_sent(void *member, const void *pdu, size_t size)
{
    (void) member;
    (void) pdu;
    sent += size == 110;
}

static void put_end(uint8_t *p, uint8_t of, int port, uint8_t state)
{
    const uint8_t end[15] = {0x80, 0, 2, 0, 0, 0, 0, of, 0, 1, 0, 128, 0, (uint8_t) port, state};
    memcpy(p, end, sizeof end);
}

/* A packet in memory of its own, by what dp-packet.h has alone. */
static void make_packet(struct heard *made, int port, uint8_t state, uint8_t told)
{
    const uint8_t head[] = {0x01, 0x80, 0xc2, 0, 0, 2, 2, 0, 0, 0, 0, 9, 0x88, 0x09, 1, 1, 1, 20};
    memcpy(made->frame, head, sizeof head);
    put_end(made->frame + 18, 9, port, state);
    made->frame[36] = 2;
    made->frame[37] = 20;
    put_end(made->frame + 38, 1, port, told);
    made->frame[56] = 3;
    made->frame[57] = 16;
    dp_packet_set_base(&made->packet, made->frame);
    dp_packet_set_data(&made->packet, made->frame);
    dp_packet_set_size(&made->packet, sizeof made->frame);
    dp_packet_reset_offsets(&made->packet);
    dp_packet_set_l3(&made->packet, made->frame + 14);
}

static void add_port(struct bond *bond, int port)
{
    char name[16];
    snprintf(name, sizeof name, "port%d", port);
    struct lacp_member_settings settings = {.name = name, .id = (uint16_t) port, .priority = 128, .key = 1};
    int *member = &bond->members[port - 1];
    lacp_member_register(bond->lacp, member, &settings);
    lacp_member_carrier_changed(bond->lacp, member, true);
    make_packet(&bond->heard[0][port - 1], port, 0x3d, 0x3d);
    make_packet(&bond->heard[1][port - 1], port, 0x35, 0x3c);
    make_packet(&bond->heard[2][port - 1], port, 0x3d, 0x3c);
    lacp_process_packet(bond->lacp, member, &bond->heard[0][port - 1].packet);
}

/* Makes a bond whose ports have heard their partner and answered; how many of them may be enabled then. */
int ovs_setup(int which, int ports)
{
    struct bond *bond = &bonds[which];
    struct lacp_settings settings = {.name = "bond", .id = ETH_ADDR_C(02,00,00,00,00,01), .priority = 0x8000, .active = true};
    bond->lacp = lacp_create();
    bond->ports = ports;
    lacp_configure(bond->lacp, &settings);
    for (int port = 1; port <= ports; port++)
        add_port(bond, port);
    lacp_run(bond->lacp, count_sent);
    int enabled = 0;
    for (int port = 0; port < ports; port++)
        enabled += lacp_process_packet(bond->lacp, &bond->members[port], &bond->heard[0][port].packet);
    lacp_run(bond->lacp, count_sent);
    return enabled;
}

/* Each port hears its partner; how many may be enabled. */
static long hear(struct bond *bond, int kind)
{
    long enabled = 0;
    for (int port = 0; port < bond->ports; port++)
        enabled += lacp_process_packet(bond->lacp, &bond->members[port], &bond->heard[kind][port].packet);
    return enabled;
}

/* One round, and how many of its calls did as they should. */
static long round_of(struct bond *bond, enum kind kind, int odd)
{
    long before = sent;
    switch (kind) {
    case SAME:
        return hear(bond, 0);
    case RUN:
        lacp_run(bond->lacp, count_sent);
        return sent == before;
    default:
        hear(bond, odd ? 1 : 2);
        lacp_run(bond->lacp, count_sent);
        return sent - before;
    }
}

/* Makes the calls of a kind so many times over; how many were right. A round is one lacp_run, or a packet to each port; of the
   last kind, a packet to each port that changes its partner and tells an old state of the port, and then one lacp_run, which
   chooses anew and answers each. Rounds are even: then the partner is in Sync again, and nothing is due. */
long ovs_calls(int which, int kind, long rounds)
{
    long right = 0;
    for (long n = 0; n < rounds; n++)
        right += round_of(&bonds[which], (enum kind) kind, n % 2 == 0);
    return right;
}

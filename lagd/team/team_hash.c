/* The bucket of a frame, by a program of the team driver in classic BPF: frames of one conversation have one bucket, as in hash.c, whose
 * numbers may be others. The driver joins the four octets of what it answers by exclusive or. Where a frame ends before what it is to have,
 * the program ends with 0. */
#include "team.h"

#include <netinet/in.h>

/* The words that the program has for itself. */
enum { HASH, SKIPPED, PORTS, PROTOCOL, IS_IP, VLAN_FOUND };

#define LOAD(size, at) BPF_STMT(BPF_LD | (size) | BPF_ABS, at)
#define LOAD_BEHIND(size, at) BPF_STMT(BPF_LD | (size) | BPF_IND, at) /* the octets that X has */
#define NUMBER(value) BPF_STMT(BPF_LD | BPF_IMM, value)
#define RECALL(word) BPF_STMT(BPF_LD | BPF_MEM, word)
#define RECALL_X(word) BPF_STMT(BPF_LDX | BPF_MEM, word)
#define KEEP(word) BPF_STMT(BPF_ST, word)
#define COUNT(operation, value) BPF_STMT(BPF_ALU | (operation) | BPF_K, value)
#define COUNT_X(operation) BPF_STMT(BPF_ALU | (operation) | BPF_X, 0)
#define IF_IS(value, yes, no) BPF_JUMP(BPF_JMP | BPF_JEQ | BPF_K, value, yes, no)
#define ADD_WORD RECALL_X(HASH), COUNT_X(BPF_XOR), COUNT(BPF_MUL, HASH_FACTOR), KEEP(HASH), RECALL_X(SKIPPED)
#define ADD_BEHIND(at) LOAD_BEHIND(BPF_W, at), ADD_WORD
#define WORD_STEPS 6 /* of ADD_BEHIND */

/* The last octets of both MAC addresses: as the library has it. */
static const struct sock_filter BY_MACS[] = {
    LOAD(BPF_B, ETH_ALEN - 1), BPF_STMT(BPF_MISC | BPF_TAX, 0), LOAD(BPF_B, 2 * ETH_ALEN - 1), COUNT_X(BPF_XOR), BPF_STMT(BPF_RET | BPF_A, 0)};

/* The first step has the number with which the hash begins. */
static const struct sock_filter BEGIN[] = {
    NUMBER(HASH_START), KEEP(HASH), NUMBER(0), KEEP(SKIPPED), KEEP(PORTS), KEEP(PROTOCOL), KEEP(IS_IP), KEEP(VLAN_FOUND)};
static const struct sock_filter END[] = {RECALL(HASH), BPF_STMT(BPF_RET | BPF_A, 0)};

/* X has the octets of the tags that stand in the frame. One that the kernel keeps beside the frame is not among them. */
#define SKIP_TAG LOAD_BEHIND(BPF_H, ETH_HLEN - 2), IF_IS(ETH_P_8021Q, 1, 0), IF_IS(ETH_P_8021AD, 0, 3), BPF_STMT(BPF_MISC | BPF_TXA, 0), \
    COUNT(BPF_ADD, TAG_OCTETS), BPF_STMT(BPF_MISC | BPF_TAX, 0)
static const struct sock_filter FIND_HEADER[] = {
    BPF_STMT(BPF_LDX | BPF_IMM, 0), SKIP_TAG, SKIP_TAG, SKIP_TAG, SKIP_TAG, BPF_STMT(BPF_STX, SKIPPED)};
_Static_assert(MOST_TAGS == 4, "as many tags are skipped as hash.h skips");

static const struct sock_filter ADD_IPV4[] = {
    LOAD_BEHIND(BPF_H, ETH_HLEN - 2), IF_IS(ETH_P_IP, 0, 15 + 2 * WORD_STEPS),
    LOAD_BEHIND(BPF_B, ETH_HLEN), COUNT(BPF_AND, 0xf0), IF_IS(0x40, 0, 12 + 2 * WORD_STEPS),
    ADD_BEHIND(ETH_HLEN + IPV4_ADDRESSES), ADD_BEHIND(ETH_HLEN + IPV4_ADDRESSES + 4),
    NUMBER(1), KEEP(IS_IP),
    LOAD_BEHIND(BPF_H, ETH_HLEN + IPV4_FRAGMENT), BPF_JUMP(BPF_JMP | BPF_JSET | BPF_K, FRAGMENTED, 8, 0),
    LOAD_BEHIND(BPF_B, ETH_HLEN + IPV4_PROTOCOL), KEEP(PROTOCOL),
    LOAD_BEHIND(BPF_B, ETH_HLEN), COUNT(BPF_AND, 15), COUNT(BPF_LSH, 2), COUNT_X(BPF_ADD), COUNT(BPF_ADD, ETH_HLEN), KEEP(PORTS)};

static const struct sock_filter ADD_IPV6[] = {
    LOAD_BEHIND(BPF_H, ETH_HLEN - 2), IF_IS(ETH_P_IPV6, 0, 10 + 8 * WORD_STEPS),
    LOAD_BEHIND(BPF_B, ETH_HLEN), COUNT(BPF_AND, 0xf0), IF_IS(0x60, 0, 7 + 8 * WORD_STEPS),
    ADD_BEHIND(ETH_HLEN + IPV6_ADDRESSES), ADD_BEHIND(ETH_HLEN + IPV6_ADDRESSES + 4), ADD_BEHIND(ETH_HLEN + IPV6_ADDRESSES + 8),
    ADD_BEHIND(ETH_HLEN + IPV6_ADDRESSES + 12), ADD_BEHIND(ETH_HLEN + IPV6_ADDRESSES + 16), ADD_BEHIND(ETH_HLEN + IPV6_ADDRESSES + 20),
    ADD_BEHIND(ETH_HLEN + IPV6_ADDRESSES + 24), ADD_BEHIND(ETH_HLEN + IPV6_ADDRESSES + 28),
    NUMBER(1), KEEP(IS_IP), LOAD_BEHIND(BPF_B, ETH_HLEN + IPV6_NEXT), KEEP(PROTOCOL),
    BPF_STMT(BPF_MISC | BPF_TXA, 0), COUNT(BPF_ADD, ETH_HLEN + IPV6_OCTETS), KEEP(PORTS)};

static const struct sock_filter ADD_MACS[] = {LOAD(BPF_W, 0), ADD_WORD, LOAD(BPF_W, 4), ADD_WORD, LOAD(BPF_W, 8), ADD_WORD};
static const struct sock_filter UNLESS_IP[] = {RECALL(IS_IP), IF_IS(1, 3 * WORD_STEPS, 0)}; /* before ADD_MACS */

static const struct sock_filter ADD_PORTS[] = {
    RECALL(PROTOCOL), IF_IS(IPPROTO_TCP, 2, 0), IF_IS(IPPROTO_UDP, 1, 0), IF_IS(IPPROTO_SCTP, 0, 1 + WORD_STEPS),
    RECALL_X(PORTS), ADD_BEHIND(0)};

/* The outer VLAN, which the kernel may keep beside the frame, and the source. */
static const struct sock_filter ADD_VLAN_AND_SOURCE[] = {
    LOAD(BPF_H, ETH_HLEN - 2), IF_IS(ETH_P_8021Q, 1, 0), IF_IS(ETH_P_8021AD, 0, 3),
    LOAD(BPF_H, ETH_HLEN), COUNT(BPF_AND, VLAN), KEEP(VLAN_FOUND),
    LOAD(BPF_B, (uint32_t)(SKF_AD_OFF + SKF_AD_VLAN_TAG_PRESENT)), IF_IS(0, 3, 0),
    LOAD(BPF_H, (uint32_t)(SKF_AD_OFF + SKF_AD_VLAN_TAG)), COUNT(BPF_AND, VLAN), KEEP(VLAN_FOUND),
    LOAD(BPF_H, SOURCE), COUNT(BPF_LSH, 16), RECALL_X(VLAN_FOUND), COUNT_X(BPF_OR), ADD_WORD, LOAD(BPF_W, SOURCE + 2), ADD_WORD};

/* The parts of which the program of each hash is made. No other hash goes with the team driver. */
#define PART(steps) {steps, sizeof steps}
static const struct part {
    const struct sock_filter *steps;
    size_t octets;
} PROGRAMS[][9] = {
    [HASH_LAYER2] = {PART(BY_MACS)},
    [HASH_LAYER2_3] = {PART(BEGIN), PART(FIND_HEADER), PART(ADD_IPV4), PART(ADD_IPV6), PART(ADD_MACS), PART(END)},
    [HASH_LAYER3_4] = {PART(BEGIN), PART(FIND_HEADER), PART(ADD_IPV4), PART(ADD_IPV6), PART(UNLESS_IP), PART(ADD_MACS), PART(ADD_PORTS), PART(END)},
    [HASH_VLAN_SRCMAC] = {PART(BEGIN), PART(ADD_VLAN_AND_SOURCE), PART(END)},
};

size_t make_team_hash(const struct settings *settings, struct sock_filter steps[static MOST_HASH_STEPS]) {
    size_t count = 0;
    for (const struct part *part = PROGRAMS[settings->hash]; part->steps; part++) {
        memcpy(steps + count, part->steps, part->octets);
        count += part->octets / sizeof *steps;
    }
    if (count > 0 && settings->hash != HASH_LAYER2) steps[0].k ^= settings->hash_seed;
    return count;
}

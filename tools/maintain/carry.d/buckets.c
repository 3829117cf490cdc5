/* Prints the buckets of frames, as conversations.c prints conversations, but by the program of the team driver. The kernel runs it: as a filter
 * of a socket for each bit of the bucket, by which a frame comes where that bit is set. */
#define _GNU_SOURCE
#include <stdio.h>
#include <stdlib.h>
#include <string.h>
#include <sys/socket.h>

#include "daemon.h"
#include "team/team.h"

#define BITS 8
#define ROOM 2048

/* The daemon, as far as it is here. */
static struct lagd tested, *lagd = &tested;

/* Opens a pair of sockets of which one takes the frames whose bucket has a bit: the octets of what the program answers are joined. */
static int open_bit(unsigned bit, int pair[2]) {
    struct sock_filter steps[MOST_HASH_STEPS];
    const struct sock_filter rest[] = {BPF_STMT(BPF_ST, 0), BPF_STMT(BPF_ALU | BPF_RSH | BPF_K, 16), BPF_STMT(BPF_LDX | BPF_MEM, 0),
        BPF_STMT(BPF_ALU | BPF_XOR | BPF_X, 0), BPF_STMT(BPF_ST, 0), BPF_STMT(BPF_ALU | BPF_RSH | BPF_K, 8), BPF_STMT(BPF_LDX | BPF_MEM, 0),
        BPF_STMT(BPF_ALU | BPF_XOR | BPF_X, 0), BPF_STMT(BPF_ALU | BPF_AND | BPF_K, 1u << bit), BPF_STMT(BPF_RET | BPF_A, 0)};
    size_t count = make_team_hash(&lagd->settings, steps) - 1; /* without the one that answers */
    struct sock_fprog program = {(unsigned short)(count + sizeof rest / sizeof *rest), steps};
    memcpy(steps + count, rest, sizeof rest);
    return socketpair(AF_UNIX, SOCK_DGRAM | SOCK_NONBLOCK, 0, pair) == 0
        && setsockopt(pair[0], SOL_SOCKET, SO_ATTACH_FILTER, &program, sizeof program) == 0;
}

int main(int argc, char **argv) {
    char line[2 * ROOM + 2];
    int pairs[BITS][2];
    if (argc != 3) return 2;
    lagd->settings.hash = (enum hash)atoi(argv[1]);
    lagd->settings.hash_seed = (uint16_t)atoi(argv[2]);
    for (unsigned bit = 0; bit < BITS; bit++)
        if (!open_bit(bit, pairs[bit])) return 1;
    while (fgets(line, sizeof line, stdin)) {
        size_t length = strcspn(line, "\n") / 2;
        uint8_t frame[ROOM], came[ROOM];
        unsigned bucket = 0;
        for (size_t i = 0; i < length; i++) frame[i] = (uint8_t)strtoul((const char[]){line[2 * i], line[2 * i + 1], 0}, NULL, 16);
        for (unsigned bit = 0; bit < BITS; bit++) {
            if (send(pairs[bit][1], frame, length, 0) < 0) return 1;
            if (recv(pairs[bit][0], came, sizeof came, 0) > 0) bucket |= 1u << bit;
        }
        printf("%u\n", bucket);
    }
    return 0;
}

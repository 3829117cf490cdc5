/* What a stack of LACP in C gives to `lagconform --memory ./stack.so`: the first three functions, and of the others those that it can do. The tests
 * that want one which is missing are skipped. Links go by their numbers, from 1. Nothing here is called by two threads. */
#ifndef LAGCONFORM_DEVICE_H
#define LAGCONFORM_DEVICE_H
#include <stddef.h>

/* Puts a frame on a link: addresses, type and payload, without the FCS. It may be called within each function below. */
typedef void device_send(void *bench, unsigned link, const unsigned char *frame, size_t size);

/* Begins, with so many links, each of them up; again after device_stop. `send` and `bench` stay valid until the process ends. */
void device_start(unsigned links, device_send *send, void *bench);
/* A frame came on a link. */
void device_take(unsigned link, const unsigned char *frame, size_t size);
/* 100 ms pass. The time of the stack is a count of these calls: the bench waits for no clock, so one of the system tells nothing here. */
void device_tick(void);

/* Ends: nothing is taken, sent or ticked until the next start. */
void device_stop(void);
/* A link went down, or came up. */
void device_link(unsigned link, int up);
/* The client of the aggregator begins, or ends, to send frames of 64 flows with each tick: UDP from 198.18.0.0/16. Octets 42 to 45 of a frame are a
 * number that grows with each frame of a flow. */
void device_data(int on);

#endif

/* What the programs that count checks share; what follows them is for the files of calls.c. */
#ifndef CHECKS_H
#define CHECKS_H

#include <stdbool.h>
#include <stdint.h>

struct niw_system;

/* The name of the program: each of its lines begins with it. */
extern const char *const program;

/* Counts a check; prints a line with the function and the text of one that fails. */
void check(bool holds, const char *where, const char *what);
#define CHECK(fact) check((fact), __func__, #fact)

/* Prints how many checks passed and failed; answers the status of the program. */
int tell_checks(void);

/* Makes a system of two ports. What differs between systems and ports tells which. It has two markers. */
void make(struct niw_system *handle, uint8_t who, uint16_t key, uint16_t conversations, uint16_t max_links);

/* Ticks both systems, and carries what is due from one to the other after each tick. */
void turn(struct niw_system *one, struct niw_system *other, unsigned ticks);

/* Has all links of both come up, and both distribute. */
void bring_up(struct niw_system *one, struct niw_system *other);

/* Reads and writes payloads by niw_decode and niw_encode. */
void check_payloads(void);

/* What is told of all conversations of an aggregator. */
void check_plane(void);

#endif

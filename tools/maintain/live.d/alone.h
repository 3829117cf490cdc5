/* Rows of what stands in for functions of the daemon where some of its sources run alone. */
#ifndef ALONE_H
#define ALONE_H

/* A function that answers this, with the parameters behind it; and one that does nothing. */
#define ANSWERS(function, value, ...) \
    function(__VA_ARGS__) { return value; }
#define NOTHING(function, ...) \
    void function(__VA_ARGS__) {}

#endif

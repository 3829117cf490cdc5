/* What lib/lacp.c and lib/hmap.c of Open vSwitch ask of its other parts, as small as it can be: one thread, a clock that a host sets, no log. */
#include <config.h>
#include <stdlib.h>
#include "connectivity.h"
#include "coverage.h"
#include "openvswitch/thread.h"
#include "openvswitch/vlog.h"
#include "ovs-thread.h"
#include "random.h"
#include "seq.h"
#include "timeval.h"
#include "util.h"

long long int time_msec(void)
{
    return 1000000;
}

void *xmalloc(size_t size)
{
    void *made = malloc(size);
    if (!made)
        abort();
    return made;
}

void *xzalloc(size_t size)
{
    return memset(xmalloc(size), 0, size);
}

char *xstrdup(const char *text)
{
    size_t size = strlen(text) + 1;
    return memcpy(xmalloc(size), text, size);
}

void ovs_assert_failure(const char *where, const char *function, const char *condition)
{
    (void) where;
    (void) function;
    (void) condition;
    abort();
}

bool ovsthread_once_start__(struct ovsthread_once *once)
{
    return !once->done;
}

void ovsthread_once_done(struct ovsthread_once *once)
{
    once->done = true;
}

void ovs_mutex_init_recursive(struct ovs_mutex *mutex)
{
    (void) mutex;
}

void ovs_mutex_lock_at(const struct ovs_mutex *mutex, const char *where)
{
    (void) mutex;
    (void) where;
}

void ovs_mutex_unlock(const struct ovs_mutex *mutex)
{
    (void) mutex;
}

struct seq *connectivity_seq_get(void)
{
    return NULL;
}

void seq_change(struct seq *seq)
{
    (void) seq;
}

void coverage_counter_register(struct coverage_counter *counter)
{
    (void) counter;
}

void vlog_insert_module(struct ovs_list *module)
{
    (void) module;
}

void vlog(const struct vlog_module *module, enum vlog_level level, const char *format, ...)
{
    (void) module;
    (void) level;
    (void) format;
}

void vlog_rate_limit(const struct vlog_module *module, enum vlog_level level, struct vlog_rate_limit *limit, const char *format, ...)
{
    (void) module;
    (void) level;
    (void) limit;
    (void) format;
}

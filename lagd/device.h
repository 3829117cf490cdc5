/* The device, by which the host hands over its data and takes what comes: a TAP device, or one of the team driver. */
#ifndef LAGD_DEVICE_H
#define LAGD_DEVICE_H

#include "lagd.h"

struct device {
    struct process *process;
    struct plane *plane;
    int tap, asker; /* `asker`: a socket for questions about interfaces */
    int index; /* 0: there is none */
    bool carrier; /* which was set last */
    bool carrier_told; /* which it had, as the kernel told last */
    unsigned carrier_ticks; /* for how long it was up and had none, and was to have one */
    uint32_t most_mtu; /* the longest payload that each member takes, and the device may */
    uint32_t less_mtu; /* one below that which an administrator set, or 0 */
    uint32_t set_mtu; /* what was set last */
    uint32_t speed; /* in Mb/s, as it was to be last; 0: as the kernel made the device */
    bool refused; /* of set_carrier */
    bool speed_reported; /* whether a line said that its speed stays */
};

/* device.c */
void follow_tap_withdraw_open_host_or_end(struct device *own, bool has_now, const char *discipline);
int open_tap_and_drop_old_frames_or_stop(struct device *own, const char *name, const uint8_t *mac);
void use_team_device_or_stop(struct device *own, int index);
bool give_tap_carrier(const struct plane *plane, bool on);
void settle_tap_mtu(struct device *own);
void set_carrier(struct device *own, bool on);
bool has_carrier(const struct device *own);
bool is_carrier_taken(const struct device *own);
void set_speed(struct device *own, uint32_t megabits);
void limit_and_settle_tap_mtu(struct device *own, uint32_t most);
void pass_tap_tick(struct printer *printer, unsigned *carrier_ticks, const struct device *own);
bool read_tap_mac(const struct device *own, uint8_t *mac);
bool is_tap_up(const struct device *own);
void drop_persistence_of_former_tap(struct plane *plane, int index, bool owned);
void set_tap_persistence(struct plane *plane, bool keeps);

#endif

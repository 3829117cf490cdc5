/* How many octets of the heap a bond of Open vSwitch's lib/lacp.c holds, for the numbers of ports that embedded.py names. */
#include <stdio.h>

extern unsigned long heap_held; /* heap.c */
int ovs_setup(int which, int ports); /* ovs.c */

int main(void)
{
    const int ports[] = {HELD_PORTS};
    for (int i = 0; i < (int)(sizeof ports / sizeof *ports); i++) {
        unsigned long before = heap_held;
        if (ovs_setup(i, ports[i]) != ports[i])
            return 1;
        printf("%lu\n", heap_held - before);
    }
    return 0;
}

# What the kernel told meanwhile; words of a lock, of memory, of an object, of RCU, of a task that hangs are no good ones.
wanted "the kernel has no complaint" '! $bb dmesg | grep -m 20 -E "BUG|WARNING|Oops|KASAN|possible recursive|inconsistent lock|circular|suspicious RCU|Invalid wait context|sleeping function|ODEBUG|leak|refcount_t|unregister_netdevice|blocked for more|Unable to handle|Call Trace"'
if [ -f /sys/kernel/debug/kmemleak ]; then
    # what is freed by RCU is looked at a second time
    for n in 1 2 3; do echo scan >/sys/kernel/debug/kmemleak; sleep 6; done
    cat /sys/kernel/debug/kmemleak >/run/leaks
    wanted "no memory of the driver is lost" '! grep -q "\[bonding\]\|lacp_\|niw_host\|bond_" /run/leaks'
    [ ! -s /run/leaks ] || head -60 /run/leaks
fi
row "deepest stack that was seen: $($bb dmesg | sed -n 's/.*\([0-9][0-9]* bytes left\).*/\1/p' | tail -1)"

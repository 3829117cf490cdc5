# What the module does at run time, at both ends of three cables.
module || return
cables 3
t=$(now)
bond dev bond0 a1 a2; bond far bond0 b1 b2
wanted "both links carry" 'within 12 "carries dev a1 && carries dev a2 && carries far b1 && carries far b2"' '$(since $t)'
wanted "the bond has its carrier" 'within 2 carrier'
wanted "two ports are in the active aggregator" '[ "$(info ad_num_ports)" = 2 ]'
ip -n dev addr add 10.0.0.1/24 dev bond0; ip -n far addr add 10.0.0.2/24 dev bond0
wanted "ping" flows_ping
wanted "the log names the library" '$bb dmesg | grep -q "LACP by liblag (lag.c "'
traffic 4; lost "nothing happens"

traffic 8; sleep 2.5; t=$(now); ip -n far link set b1 down
wanted "a1 is out as its carrier goes" 'within 2 "! carries dev a1"' '$(since $t)'
sleep 2; ip -n far link set b1 up
wanted "a1 is back" 'within 10 "carries dev a1 && carries far b1"'
lost "b1 is down for 2 s"
wanted "frames go out on a1 and a2" 'used a1 a2'

# lacp_rate, which the driver takes of a bond that is down
ip -n dev link set bond0 down; ip -n dev link set bond0 type bond lacp_rate slow; ip -n dev link set bond0 up
wanted "slow: it carries again, and the partner is told" 'within 12 "carries dev a1 && carries dev a2 && told b1 bond0 2 0"'
ip -n dev link set bond0 down; ip -n dev link set bond0 type bond lacp_rate fast; ip -n dev link set bond0 up
wanted "fast again" 'within 40 "carries dev a1 && carries dev a2 && told b1 bond0 2 2"'

ip -n dev link set bond0 type bond min_links 2
wanted "min_links 2, of two ports: carrier" 'within 10 carrier'
ip -n far link set b2 down
wanted "of one port: no carrier" 'within 3 "! carrier"'
ip -n far link set b2 up
wanted "of two ports: carrier again" 'within 10 carrier'
ip -n dev link set bond0 type bond min_links 0

# A third link comes, and the first one goes.
traffic 14; sleep 2
ip -n far link set b3 down; ip -n far link set b3 master bond0
ip -n dev link set a3 down; ip -n dev link set a3 master bond0; t=$(now)
wanted "a1 and a2 go on as a3 comes" 'keeps 8 "carries dev a1 && carries dev a2"'
wanted "a3 carries" 'within 10 "carries dev a3 && carries far b3"' '$(since $t)'
wanted "three ports" 'within 2 "[ \"\$(info ad_num_ports)\" = 3 ]"'
ip -n dev link set a1 nomaster
wanted "a2 and a3 go on as a1, whose aggregator it was, leaves" 'keeps 8 "carries dev a2 && carries dev a3 && carrier"'
wanted "the far end has b1 out at once" 'within 2 "! carries far b1"'
lost "a3 comes, a1 leaves"
wanted "frames go out on a2 and a3" 'used a2 a3'
wanted "no frame is lost by that" '[ $(missing to) -le 20 ] && [ $(missing from) -le 20 ]'
ip -n dev link set a1 down; ip -n dev link set a1 master bond0
wanted "a1 is back" 'within 10 "carries dev a1 && carries far b1"'

# What is set at run time.
ip -n dev link set bond0 type bond ad_actor_sys_prio 65535
wanted "the same system again: nothing stops" 'keeps 5 "carries dev a1 && carries dev a2 && carries dev a3"'
ip -n dev link set bond0 type bond ad_actor_sys_prio 4096
wanted "another system priority comes to the far end" 'within 12 "far grep -q \"system priority: 4096\" /proc/net/bonding/bond0 && carries dev a1"'
ip -n dev link set bond0 type bond ad_actor_system 02:00:00:00:00:77
wanted "another system comes to the far end" 'within 12 "far grep -qi \"system mac address: 02:00:00:00:00:77\" /proc/net/bonding/bond0 && carries dev a1"'
ip -n dev link set bond0 down; ip -n dev link set bond0 type bond ad_user_port_key 5 lacp_active off; ip -n dev link set bond0 up
wanted "user key $((5 << 6 | 15)), and passive" 'within 15 "far grep -q \"oper key: 335\" /proc/net/bonding/bond0 && carries dev a1 && told b1 bond0 1 0"'
ip -n dev link set bond0 down; ip -n dev link set bond0 type bond ad_user_port_key 0 lacp_active on; ip -n dev link set bond0 up
wanted "active again" 'within 15 "carries dev a1 && carries dev a2 && carries dev a3"'
# ip link xstats of iproute2 6.1 ends by "stack smashing detected", beside the kernel's own module, too
dev python3 /run/tests/counts.py a1 >/run/counts
wanted "counts by netlink" 'grep -q "lacpdu_rx.: [1-9]" /run/counts && grep -q "lacpdu_tx.: [1-9]" /run/counts'

ip -n dev link del bond0
wanted "the far end learns at once that the bond is away" 'within 2 "! carries far b1 && ! carries far b2 && ! carries far b3"'
ip -n far link del bond0
for n in 1 2 3; do ip -n far link set b$n up; done
t=$(now); bond dev bond0 a1 a2 a3
wanted "no partner: one link carries alone" 'within 15 "carrier && [ \"\$(info ad_num_ports)\" = 1 ]"' '$(since $t)'
ip -n dev link del bond0
wanted "the module goes" '$bb rmmod bonding && ! loaded'

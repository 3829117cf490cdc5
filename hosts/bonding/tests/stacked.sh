# A bond under a bridge, under VLANs and as the parent of a container's interface; its links by ip -batch; and a namespace that goes with its bond.
module || return
cables 2
cat >/run/batch <<B
link add bond0 type bond mode 802.3ad miimon 100 lacp_rate fast
link set a1 master bond0
link set a2 master bond0
link add link bond0 name bond0.7 type vlan id 7
link add br0 type bridge
link set bond0 master br0
link set bond0 up
link set bond0.7 up
link set br0 up
addr add 10.0.0.1/24 dev br0
addr add 10.7.0.1/24 dev bond0.7
B
ip -n dev -batch /run/batch
bond far bond0 b1 b2
ip -n far link add link bond0 name bond0.7 type vlan id 7; ip -n far link set bond0.7 up
ip -n far addr add 10.0.0.2/24 dev bond0; ip -n far addr add 10.7.0.2/24 dev bond0.7
wanted "both links carry below a bridge" 'within 12 "carries dev a1 && carries dev a2"'
wanted "ping by the bridge" 'within 10 flows_ping'
wanted "ping by the VLAN" 'within 10 "flows_ping 10.7.0.2"'
wanted "an LACPDU does not pass the bridge" '[ "$(dev python3 /run/tests/seen.py br0 3 slow)" = 0 ]'
ip netns add box; ip -n dev link add link bond0.7 name eth0 netns box type macvlan mode bridge
ip -n box addr add 10.7.0.3/24 dev eth0; ip -n box link set eth0 up
wanted "ping from a container whose parent is the VLAN" 'within 10 "ip netns exec box $bb ping -c 1 -W 2 10.7.0.2 >/dev/null"'
ip -n dev link set bond0 mtu 1400
wanted "another MTU: the links go on" 'keeps 5 "carries dev a1 && carries dev a2"'
ip -n dev link set bond0 down; ip -n dev link set bond0 up
wanted "down and up: both links carry again" 'within 12 "carries dev a1 && carries dev a2 && flows_ping"'
ip netns del box
ip netns del dev
wanted "the far end learns at once that the namespace is away" 'within 4 "! carries far b1"'
ip netns del far
wanted "the module goes" 'within 20 "$bb rmmod bonding 2>/dev/null; ! loaded"'

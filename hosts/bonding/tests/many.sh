# Many bonds, many changes, and what goes away while frames come.
module || return
cables 3
bond dev bond0 a1 a2 a3; bond far bond0 b1 b2 b3
n=40
while [ $n -gt 0 ]; do
    case $((n % 5)) in
    0) ip -n dev link set a2 nomaster; ip -n dev link set a2 down; ip -n dev link set a2 master bond0 ;;
    1) ip -n far link set b1 down; ip -n far link set b1 up ;;
    2) ip -n dev link set bond0 down; ip -n dev link set bond0 up ;;
    3) ip -n dev link set bond0 type bond ad_actor_sys_prio $((n + 1)) ;;
    4) for l in a1 a3; do ip -n dev link set $l nomaster; ip -n dev link set $l down; ip -n dev link set $l master bond0; done ;;
    esac
    [ $((n % 7)) = 0 ] && sleep 1
    n=$((n - 1))
done
wanted "all carry behind 40 changes" 'within 20 "carries dev a1 && carries dev a2 && carries dev a3 && carries far b1 && carries far b3"'
ip -n dev link del bond0; ip -n far link del bond0

# 64 bonds of 4 in each of two namespaces
for b in $(seq 64); do
    for n in 1 2 3 4; do ip link add x$b-$n netns dev type veth peer name y$b-$n netns far; done
    bond dev m$b x$b-1 x$b-2 x$b-3 x$b-4; bond far m$b y$b-1 y$b-2 y$b-3 y$b-4
done
up() { dev sh -c 'grep -l 1 /sys/class/net/m*/carrier 2>/dev/null | wc -l'; }
t=$(now)
wanted "64 bonds of 4: each has its carrier" 'within 120 "[ \$(up) = 64 ]"' '$(up) within $(since $t)'
full() { dev sh -c 'for b in /sys/class/net/m*/bonding/ad_num_ports; do cat $b; done' | grep -c '^4$'; }
wanted "each has 4 ports" 'within 60 "[ \$(full) = 64 ]"' '$(full)'
ticks() { awk '{print $14 + $15}' /proc/[0-9]*/stat 2>/dev/null | paste -s -d+ | bc; }
busy=$(awk '/^cpu /{print $2 + $4}' /proc/stat); sleep 10; row "256 ports at each of two ends, idle: $(($(awk '/^cpu /{print $2 + $4}' /proc/stat) - busy)) ms of processor time a second"
ip netns del dev
wanted "a namespace with 64 bonds goes" 'within 120 "[ \$(ip -n far -o link | grep -c @) -lt 5 ]"'
ip netns del far; sleep 1

# The module goes while frames come.
ip netns del dev 2>/dev/null; ip netns del far 2>/dev/null
cables 2
for round in 1 2 3; do
    loaded || module
    bond dev bond0 a1 a2; bond far bond0 b1 b2
    within 12 "carries dev a1"
    far /mnt/flows send b1 0 16 4 ports >/dev/null 2>&1 &
    far python3 /run/tests/flood.py b2 4 &
    sleep 1
    wanted "the module goes while frames and LACPDUs come, round $round" '$bb rmmod bonding && ! loaded'
    wait
done

# Memory is refused at each allocation that is made below our functions, one after the other, and for a time all of them.
module || return
cables 3
F=/sys/kernel/debug/failslab
begins() { grep "\[bonding\]" /proc/kallsyms | grep -E " [tT] ($1)" | cut -d' ' -f1 | sort | head -1; }
ends() { grep "\[bonding\]" /proc/kallsyms | cut -d' ' -f1,3 | sort | sed -n "/ $1\$/{n;s/ .*//p}" | head -1; }
last=$(grep "\[bonding\]" /proc/kallsyms | grep -E " [tT] (lacp_|niw_host_|bond_3ad_)" | sort | tail -1 | cut -d' ' -f3 | cut -f1)
echo "0x$(begins 'lacp_|niw_host_|bond_3ad_')" >$F/require-start
echo "0x$(ends $last)" >$F/require-end
echo 32 >$F/stacktrace-depth; echo N >$F/ignore-gfp-wait; echo 0 >$F/verbose; echo 0 >$F/space; echo N >$F/task-filter
row "refused between $(cat $F/require-start) and $(cat $F/require-end) ($last)"
one() { echo $1 >$F/interval; echo 1 >$F/times; echo 100 >$F/probability; } # the N-th one
none() { echo 0 >$F/probability; }
taken() { [ "$(cat $F/times)" = 0 ]; }
all_carry() { carries dev a1 && carries dev a2 && carries far b1 && carries far b2; }

n=1 failed=0
while [ $n -le 60 ]; do
    one $n
    bond dev bond0 a1 a2; bond far bond0 b1 b2
    within 3 taken || break
    none
    within 20 "all_carry && carrier" || { failed=$((failed + 1)); row "at $n: $(state dev a1) $(state dev a2)"; }
    ip -n dev link del bond0; ip -n far link del bond0
    n=$((n + 1))
done
none; [ $n -le 60 ] && { ip -n dev link del bond0; ip -n far link del bond0; }
wanted "two new bonds carry in the end, whichever allocation is refused" '[ $n -gt 5 ] && [ $failed = 0 ]' 'of $((n - 1)), $failed failed'

bond dev bond0 a1 a2; bond far bond0 b1 b2; ip -n far link set b3 down; ip -n far link set b3 master bond0
within 20 all_carry
n=1 failed=0 stopped=0
while [ $n -le 60 ]; do
    one $n
    ip -n dev link set a3 down; ip -n dev link set a3 master bond0
    keeps 5 "carries dev a1 && carries dev a2 && carrier" || stopped=$((stopped + 1))
    within 3 taken || break
    none
    within 20 "carries dev a3" || failed=$((failed + 1))
    ip -n dev link set a3 nomaster; within 15 "all_carry"
    n=$((n + 1))
done
none
wanted "a link that comes carries in the end, whichever is refused" '[ $n -gt 3 ] && [ $failed = 0 ]' 'of $((n - 1)), $failed failed'
wanted "those that carry go on meanwhile" '[ $stopped = 0 ]' '$stopped stopped'
[ "$(dev cat /sys/class/net/a3/master/ifindex 2>/dev/null)" ] || { ip -n dev link set a3 down; ip -n dev link set a3 master bond0; }
within 15 "all_carry && carries dev a3"

n=1 failed=0
while [ $n -le 40 ]; do
    one $n
    ip -n dev link set a3 nomaster
    within 1 taken; t=$?; none
    within 20 "carries dev a1 && carries dev a2 && carrier" || failed=$((failed + 1))
    ip -n dev link set a3 down; ip -n dev link set a3 master bond0; within 15 "carries dev a3"
    [ $t = 0 ] || break
    n=$((n + 1))
done
wanted "a link leaves, whichever is refused: the others carry in the end" '[ $n -gt 1 ] && [ $failed = 0 ]' 'of $((n - 1)), $failed failed'

echo 1 >$F/interval; echo -1 >$F/times; echo 100 >$F/probability
ip -n dev link set a3 nomaster; ip -n dev link set a3 down; ip -n dev link set a3 master bond0
ip -n dev link set bond0 type bond ad_actor_sys_prio 77
sleep 5
wanted "all memory is refused: a bond that cannot carry has no carrier" 'carries dev a1 || ! carrier'
none
wanted "and all carry once there is memory again" 'within 20 "all_carry && carries dev a3 && carrier"'
ip -n dev link del bond0; ip -n far link del bond0
$bb rmmod bonding

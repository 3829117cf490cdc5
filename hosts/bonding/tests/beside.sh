# Frames lost and out of order with our module at both ends, beside the kernel's own at both ends, in one run: each row is a change with numbered frames both ways.
cables 3
silent() { for ns in dev far; do [ $ns = dev ] && l=a$2 || l=b$2; tc -n $ns qdisc $1 dev $l clsact 2>/dev/null; [ $1 = del ] || tc -n $ns filter add dev $l ingress matchall action drop; done; }
both() { within 40 "carries dev a1 && carries dev a2 && carries far b1 && carries far b2 && carrier"; }
for it in bonding-own bonding; do
    module $it; bond dev bond0 a1 a2; bond far bond0 b1 b2; both
    traffic 14; sleep 2; for ns in dev far; do [ $ns = dev ] && l=a3 || l=b3; ip -n $ns link set $l down; ip -n $ns link set $l master bond0; done; lost "$it: a third link joins"
    traffic 8; sleep 2; ip -n dev link set a3 nomaster; sleep 1; ip -n far link set b3 nomaster; lost "$it: it leaves"
    traffic 8; sleep 2; ip -n far link set b1 down; lost "$it: a cable is pulled"
    ip -n far link set b1 up; both
    traffic 14; sleep 2; silent add 1; lost "$it: a cable falls silent, its carrier stays"
    wanted "$it: the silent cable was in use, and is not any more" 'dev tc -s filter show dev a1 ingress | grep -q "dropped [1-9]" && ! carries dev a1'
    t=$(now); silent del 1; within 90 both; row "$it: back from silence behind $(since $t)"
    traffic 14; sleep 2; ip -n dev link del bond0; sleep 1; bond dev bond0 a1 a2; lost "$it: the bond of one end is made anew"
    ip -n dev link del bond0; ip -n far link del bond0; $bb rmmod bonding
done

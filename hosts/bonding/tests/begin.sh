# What the scripts share: the namespaces `dev` and `far`, with three cables a1-b1, a2-b2, a3-b3 between them.
bb=/mnt/busybox
dev() { ip netns exec dev "$@"; }
far() { ip netns exec far "$@"; }
row() { echo "row: $*"; }
# wanted NAME CONDITION [TEXT]: the text is looked at behind the condition
wanted() { if eval "$2"; then eval "echo \"passed: $1${3:+ ($3)}\""; else eval "echo \"FAILED: $1${3:+ ($3)}\""; echo "  $2"; fi; }
now() { cut -d' ' -f1 /proc/uptime; }
since() { echo "$1 $(now)" | awk '{printf "%.1f s", $2 - $1}'; }
# within SECONDS CONDITION
within() { until=$(($(cut -d. -f1 /proc/uptime) + $1)); while [ "$(cut -d. -f1 /proc/uptime)" -lt $until ]; do eval "$2" && return 0; sleep 0.1; done; eval "$2"; }
# keeps TENTHS CONDITION: it holds all the time
keeps() { n=$1; while [ $n -gt 0 ]; do eval "$2" || return 1; sleep 0.1; n=$((n - 1)); done; }
# The port state of the actor, and of its partner, as /proc shows them, of a link of `dev` or `far`, and of the bond that a third word names.
state() { ip netns exec $1 sed -n "/^Slave Interface: $2\$/,/^details partner/s/^ *port state: //p" /proc/net/bonding/${3:-bond0}; }
partner() { ip netns exec $1 sed -n "/^Slave Interface: $2\$/,/^\$/{/^details partner/,/^\$/s/^ *port state: //p}" /proc/net/bonding/${3:-bond0}; }
carries() { s=$(state $1 $2 $3 2>/dev/null); [ -n "$s" ] && [ $((s & 112)) = 48 ]; }
told() { [ $(($(partner far $1 $2) & $3)) = $4 ]; }
carrier() { [ "$(dev cat /sys/class/net/bond0/carrier 2>/dev/null)" = 1 ]; }
info() { dev cat /sys/class/net/bond0/bonding/$1; }
module() { $bb insmod /mnt/${1:-bonding}.ko max_bonds=0; }
loaded() { grep -q "^bonding " /proc/modules; }
# cables N: so many, with the ends a1.. in `dev` and b1.. in `far`
cables() {
    ip netns add dev; ip netns add far
    for n in $(seq $1); do ip link add a$n netns dev type veth peer name b$n netns far; done
    for ns in dev far; do ip -n $ns link set lo up; done
}
# bond SIDE NAME LINKS..: a bond of that end, up
bond() {
    side=$1 name=$2; shift 2
    ip -n $side link add $name type bond mode 802.3ad miimon 100 lacp_rate fast xmit_hash_policy layer3+4 $WORDS
    for l in "$@"; do ip -n $side link set $l down; ip -n $side link set $l master $name; done
    ip -n $side link set $name up
}
# traffic SECONDS [HERE THERE]: numbered frames, both ways, in the background; lost prints what became of them
traffic() {
    rm -rf /run/traffic; mkdir /run/traffic; here=${2:-bond0} there=${3:-bond0}
    ip -n dev link set $here promisc on; ip -n far link set $there promisc on
    far /mnt/flows receive $there 16 $(($1 + 3)) >/run/traffic/to.received 2>&1 &
    dev /mnt/flows receive $here 16 $(($1 + 3)) >/run/traffic/from.received 2>&1 &
    sleep 0.5
    far /mnt/flows send $there 250 16 $1 ports >/run/traffic/from.sent 2>&1 &
    dev /mnt/flows send $here 250 16 $1 ports >/run/traffic/to.sent 2>&1 &
}
number() { sed -n "s/.*\"$2\":\([0-9]*\).*/\1/p" /run/traffic/$1; }
lost() { wait; for w in to from; do row "$1, $w the far end: $(number $w.sent sent) sent, $(number $w.sent refused) refused, $(number $w.received received) came, $(number $w.received overtaken) overtaken, longest gap $(number $w.received gap_ms) ms"; done; }
# missing WAY: how many of the frames that were sent did not come
missing() { echo $(($(number $1.sent sent) - $(number $1.received received))); }
# Whether numbered frames go out on each of these links of `dev`: what carries by its state, sends.
sent_on() { dev cat /sys/class/net/$1/statistics/tx_packets; }
used() {
    for l in "$@"; do sent_on $l >/run/sent-$l; done
    dev /mnt/flows send bond0 100 16 2 ports >/dev/null 2>&1
    for l in "$@"; do [ $(($(sent_on $l) - $(cat /run/sent-$l))) -gt 20 ] || return 1; done
}
flows_ping() { dev $bb ping -c 2 -W 2 ${1:-10.0.0.2} >/dev/null; }

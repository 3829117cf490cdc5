# What the scripts of the guests have in common: three cables to the namespace far, whose ends a bond of the kernel takes; teamd is $T.
T=/mnt/$TEAMD
F=/run/teamd/team0.lacp
export TEAM_LOG_OUTPUT=stderr
for it in $T teamdctl teamnl; do "$it" -h >/dev/null 2>&1 || echo "FAILED: $it runs: $("$it" -h 2>&1 | head -1)"; done
mkdir -p /run/netns; ip netns add far
for n in 1 2 3; do ip link add eth$n address 52:54:00:00:0a:0$n type veth peer name far$n address 52:54:00:00:0b:0$n netns far; done
# Of the questions of port-by-port answers: an interface that no team has.
ip link add eth10 type veth peer name far10 netns far
for n in 1 2 3; do ip -n far link set far$n up; done

bond() { # fast or slow
    ip -n far link add bond0 type bond mode 802.3ad miimon 100 lacp_rate "${1:-fast}"
    for n in 1 2 3; do ip -n far link set far$n down; ip -n far link set far$n master bond0; done
    ip -n far link set bond0 up; ip -n far addr add 192.0.2.2/24 dev bond0
}
# A configuration: more of the runner, and the ports.
config() { echo "{\"device\":\"team0\",\"runner\":{\"name\":\"lacp\",\"fast_rate\":${FAST:-true},\"tx_hash\":[\"l3\",\"l4\"]${1:+,$1}},\"ports\":{${2:-\"eth1\":{\},\"eth2\":{\}}}}"; }
begin() { $T -g -d -r ${N:+-N} -t team0 -c "$(config "$@")" 2>/run/log; ip link set team0 up; }
take() { $T -g -d -o ${N:+-N} -t team0 -c "$(config "$@")" 2>>/run/log; }
# The same in the foreground, where what it says can be heard, until it says what becomes of its ports.
take_aloud() {
    $T -g -o -t team0 -c "$(config "$@")" >/run/log 2>&1 &
    for _ in $(seq $((30 * ${SLOW:-1}))); do sleep 0.1; grep -q -E 'taken over|negotiates anew|Changed port state' /run/log && break; done; sleep 0.3
}
# None starts while the killed one is a process, also one that this shell, which is the first program of the guest, has not waited for.
kill_it() { killed=$(cat /run/teamd/team0.pid); kill -9 $killed; while kill -0 $killed 2>/dev/null; do sleep 0.01; done; }
end_it() { $T -k -t team0; }
end() { end_it; sleep 0.3; }
item() { teamdctl team0 state item get "$1"; }
# Each port of the team: its state, and whether frames pass on it; then the carrier.
state() {
    for p in ${*:-eth1 eth2}; do printf '%s %s %s, ' "$p" "$(item ports.$p.runner.state)" "$(teamnl team0 -p $p getoption enabled)"; done
    echo "carrier $(cat /sys/class/net/team0/carrier)"
}
BOTH="eth1 current true, eth2 current true, carrier 1"
# Whether something is so: its name, what is wanted, and what there is.
is() { if [ "$2" = "$3" ]; then echo "passed: $1"; else echo "FAILED: $1"; echo "  wanted: $2"; echo "  is:     $3"; fi; }
# The same of what has to be looked at within so many ms after `begin_timing`: where the machine took longer, a difference tells nothing.
begin_timing() { BEGAN=$(date +%s%N); }
is_in_time() { # NAME MS WANTED IS
    took=$((($(date +%s%N) - BEGAN) / 1000000))
    if [ "$3" != "$4" ] && [ $took -ge "$2" ]; then echo "row: inconclusive, the machine took $took ms: $1"; else is "$1" "$3" "$4"; fi
}
# Makes the sum of the file anew, of which a word was changed.
resum() { head -n -1 $F >/run/lines; { cat /run/lines; echo "end $(cksum </run/lines | cut -d' ' -f1)"; } >$F; }
# Waits until the state is this one, for so many seconds at most; for more of them where teamd is $SLOW times as slow.
until_state() { last=$(($(date +%s) + $2 * ${SLOW:-1})); until [ "$(state $3)" = "$1" ] || [ "$(date +%s)" -gt $last ]; do sleep 0.1; done; }
# The key and the port priority that a port of the peer was told.
told() { ip netns exec far sed -n "/Slave Interface: $1\$/,/^\$/{s/^ *oper key: //p;s/^ *port priority: //p}" /proc/net/bonding/bond0 | tail -2 | paste -s -d' '; }
packet_sockets() { ${1:+ip netns exec $1} cat /proc/net/packet | wc -l; }
# Numbered frames both ways, 250 a second each, while a command runs after 2 s; LOST is how many were lost to and from the peer. AWAY is how long the
# command took, and LATE by how much the machine was late meanwhile, in ms. The receivers listen for so many seconds more than the senders send as AFTER has; SPARE
# is how long they listened after the senders had ended, in ms: where that is none, they missed the last frames.
trip() { # NAME SECONDS COMMAND..
    name=$1; seconds=$2; shift 2; here=$(packet_sockets) there=$(packet_sockets far)
    ip link set team0 promisc on; ip -n far link set bond0 promisc on
    python3 /run/tests/late.py >/run/late & e=$!
    SPARE=$(date +%s%N)
    ip netns exec far /mnt/flows receive bond0 16 $((seconds + ${AFTER:-10})) >/run/to.received 2>&1 & a=$!
    /mnt/flows receive team0 16 $((seconds + ${AFTER:-10})) >/run/from.received 2>&1 & b=$!
    for _ in $(seq 50); do [ "$(packet_sockets)" -gt "$here" ] && [ "$(packet_sockets far)" -gt "$there" ] && break; sleep 0.1; done
    { ip netns exec far /mnt/flows send bond0 ${RATE:-250} 16 $seconds ports >/run/from.sent 2>&1; date +%s%N >/run/from.ended; } & c=$!
    { /mnt/flows send team0 ${RATE:-250} 16 $seconds ports >/run/to.sent 2>&1; date +%s%N >/run/to.ended; } & d=$!
    sleep 2; AWAY=$(date +%s%N); eval "$*" >/run/trip.out 2>&1; AWAY=$((($(date +%s%N) - AWAY) / 1000000))
    wait $c $d; SPARE=$(((SPARE - $(cat /run/from.ended /run/to.ended | sort -n | tail -1)) / 1000000 + 1000 * (seconds + ${AFTER:-10})))
    kill $e; wait $a $b $e; LATE=$(cat /run/late)
    LOST=$(for w in to from; do
        sent=$(sed 's/.*"sent":\([0-9]*\).*/\1/' /run/$w.sent) got=$(sed 's/.*"received":\([0-9]*\).*/\1/' /run/$w.received)
        echo $((sent - got))
    done | paste -s -d' ')
    GAP=$(sed 's/.*"gap_ms":\([0-9]*\).*/\1/' /run/to.received /run/from.received | sort -n | tail -1)
    echo "row: $name | $LOST of $((${RATE:-250} * seconds)) | $GAP ms | the command took $AWAY ms, and the machine was up to $LATE ms late$([ $SPARE -gt 500 ] || echo "; the receivers ended $((-SPARE)) ms before the senders")"
}
# Whether at most so many were lost, one way: of a port that has half of the frames 62 are half a second.
lost_few() { # NAME MOST LOST
    if [ "$3" -gt "$2" ] && [ $LATE -ge 200 ]; then echo "row: inconclusive, the machine was up to $LATE ms late: $1"; else is "$1" yes "$([ "$3" -le "$2" ] && echo yes || echo "$3")"; fi
}
# Whether nothing was lost. The peer stops a link that is silent for longer than 2 s: a second passes between two LACPDUs, and its timeout is 3 s. With other
# timeouts BEARS is how long it bears, in ms.
lost_none() {
    if [ "$LOST" != "0 0" ] && [ $((AWAY + LATE)) -ge ${BEARS:-2000} -o $SPARE -lt 500 ]; then echo "row: inconclusive, the machine was too slow: $1"; else is "$1" "0 0" "$LOST"; fi
}

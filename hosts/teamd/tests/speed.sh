# Three daemons over the team driver in turns, $ROUNDS times, beside a bond of the kernel at the far end: teamd as it is, teamd with the library,
# and lagd with plane=team. Each cell is a line "cell: WAY | ROW | VALUE".
OURS=$T N=1
export LD_LIBRARY_PATH=/mnt/lib
bond
cat >/run/lagd.conf <<'C'
[Bundle]
key=7
system=auto
timeout=short
carry=team0
plane=team
hash=layer3+4
[Port eth1]
[Port eth2]
C
cell() { echo "cell: $WAY | $1 | $2"; }
now() { date +%s%N; }
# The daemon of the way begins: anew, or after another one.
serve() { /mnt/lagd --config /run/lagd.conf --folder /run/lagd >>/run/log 2>&1 & echo $! >/run/lagd.pid; }
start() { if [ "$WAY" = lagd ]; then serve; else begin; fi; }
follow() { if [ "$WAY" = lagd ]; then serve; else take; fi; }
pid() { if [ "$WAY" = lagd ]; then cat /run/lagd.pid; else cat /run/teamd/team0.pid; fi; }
leave() { if [ "$WAY" = lagd ]; then kill -USR1 "$(pid)"; while [ -d "/proc/$(pid)" ]; do sleep 0.05; done; else $T -k -t team0; fi; }
# Both ports distribute, as the peer and the driver have it, and pings are answered.
carries() {
    [ "$(ip netns exec far sed -n 's/.*Number of ports: //p' /proc/net/bonding/bond0)" = 2 ] &&
        [ "$(teamnl team0 -p eth1 getoption enabled)$(teamnl team0 -p eth2 getoption enabled)" = truetrue ] &&
        ping -q -c 1 -W 1 192.0.2.2 >/dev/null
}
within() { for _ in $(seq $((5 * $1))); do carries && return; sleep 0.2; done; false; }
clear_up() { kill -9 "$(pid)" 2>/dev/null; sleep 0.3; ip link del team0 2>/dev/null; rm -rf /run/teamd/* /run/lagd; ip -n far link set far1 up; for n in 1 2; do ip link set eth$n down; done; sleep 1; }
anew() {
    clear_up; for n in 1 2; do ip link set eth$n up; done; [ "$WAY" = lagd ] || for n in 1 2; do ip link set eth$n down; done
    from=$(now); start; for _ in $(seq 50); do [ -d /sys/class/net/team0 ] && break; sleep 0.1; done
    ip link set team0 up; ip addr replace 192.0.2.1/24 dev team0; within 30; ended=$?
    [ $ended = 0 ] && TOOK=$((($(now) - from) / 100000000)) || TOOK=never
}
ready() { if within "$1"; then cell "$2: carries within $1 s" yes; else cell "$2: carries within $1 s" no; anew; fi; sleep 2; }
of_trip() { cell "$1: frames lost to / from the peer, of 1,500 (the command took so many ms)" "${LOST% *} / ${LOST#* } ($AWAY)"; cell "$1: longest gap of a flow, ms (the machine was late by)" "$GAP ($LATE)"; }
busy() { awk '{print $1}' /proc/$1/schedstat; }
streams() { /mnt/iperf3 -c 192.0.2.2 -t 3 -P $1 -J 2>/dev/null | tr -d ' \t\n' | sed -n 's/.*"sum_received":{[^}]*"bits_per_second":\([0-9]*\).*/\1/p' | awk '{printf "%.0f", $1 / 1e6}'; }
ip netns exec far /mnt/iperf3 -s >/dev/null 2>&1 &
for round in $(seq "${ROUNDS:-3}"); do
    for WAY in own library lagd; do
        T=$OURS; [ $WAY = own ] && T=/mnt/own
        anew; case $TOOK in never) ;; *) TOOK=$(echo $TOOK | sed 's/.$/.&/; s/^\./0./');; esac; cell "from the start until both carry, s" "$TOOK"; sleep 4
        before=$(busy "$(pid)"); python3 /run/tests/count.py 20 eth1 eth2 >/run/count; after=$(busy "$(pid)")
        cell "LACPDUs of two ports in 20 s" "$(sed 's/ LACPDUs.*//' /run/count)"; cell "the most in one second" "$(sed 's/.*: //' /run/count)"
        cell "processor time of the daemon in these 20 s, ms" "$(((after - before) / 1000000))"
        ping -q -c 300 -i 0.01 192.0.2.2 >/run/ping; cell "ping, us: mean of 300" "$(sed -n 's,^rtt[^=]*= [^/]*/\([^/]*\)/.*,\1,p' /run/ping | awk '{printf "%.0f", 1000 * $1}')"
        for n in 1 8; do cell "TCP, Mbit/s, $n stream(s)" "$(streams $n)"; done
        ready 5 "after streams"
        trip "nothing" 6 true >/dev/null; of_trip "nothing happens"; ready 5 "nothing happens"
        trip "cable" 6 'ip -n far link set far1 down' >/dev/null; of_trip "a cable is pulled"; ip -n far link set far1 up; ready 15 "a cable is pulled"
        trip "restart" 6 'leave; follow' >/dev/null; of_trip "a restart in order"; ready 12 "a restart in order"
        trip "kill" 6 'kill -9 $(pid); follow' >/dev/null; of_trip "SIGKILL, and the next at once"; ready 12 "SIGKILL, and the next at once"
        trip "kill" 6 'kill -9 $(pid); sleep 1; follow' >/dev/null; of_trip "SIGKILL, and the next after 1 s"; ready 12 "SIGKILL, and the next after 1 s"
        cell "memory of the daemon, MB (VmHWM)" "$(awk '/VmHWM/ {printf "%.1f", $2 / 1000}' /proc/$(pid)/status)"
        clear_up
    done
done

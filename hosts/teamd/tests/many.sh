# What teams cost beside each other, teamd as it is and with the library in turns, each with two links that carry to a bond of the kernel, short timeouts: 1, 8, 32 and
# 128 that are idle, started one after the other, and 32 that start at once. Each cell is a line "cell: WAY | ROW | VALUE".
OURS=$T SECONDS_OF=20 MOST=128
cell() { echo "cell: $WAY | $1 | $2"; }
# A word of each daemon, added up.
sum() { for k in $(seq $COUNT); do eval "$1"; done | awk '{n += $1} END {printf "%.0f", n}'; }
pid() { cat /run/teamd/team$k.pid; }
busy() { sum 'cut -d" " -f1 /proc/$(pid)/schedstat'; }
woke() { sum 'sed -n "s/^voluntary_ctxt_switches:\t//p" /proc/$(pid)/status'; }
memory() { sum 'sed -n "s/^Pss: *\([0-9]*\) kB/\1/p" /proc/$(pid)/smaps_rollup'; }
# teamd does not start at times where other devices come at the same moment: then it is started again, as a service manager does, and each such time is a line.
start() { for _ in $(seq 50); do once "$1" && return; echo "$1" >>/run/again; sleep 0.2; done; }
once() { $T -d -r -t team$1 -c "{\"runner\":{\"name\":\"lacp\",\"fast_rate\":true},\"ports\":{\"a$1\":{},\"b$1\":{}}}" 2>>/run/log && ip link set team$1 up; }
# After how many ms both ends of all links distribute, as the peers have it; and then what the drivers have.
carried() { ip netns exec far python3 /run/tests/carried.py $COUNT 300; }
enabled() { for k in $(seq $COUNT); do teamnl team$k -p a$k getoption enabled; teamnl team$k -p b$k getoption enabled; done 2>/dev/null | sort | uniq -c | awk '{printf "%s%s %s", (NR > 1 ? ", " : ""), $1, $2}'; }
all_carry() { if [ "$(enabled)" = "$((2 * COUNT)) true" ]; then cell "$1: all carry" yes; else cell "$1: all carry" "$(enabled)"; fi; }
stop() { for k in $(seq $COUNT); do $T -k -t team$k; done; sleep 1; }
for k in $(seq $MOST); do
    ip -n far link add many$k type bond mode 802.3ad miimon 100 lacp_rate fast
    for p in a b; do ip link add $p$k type veth peer name far$p$k netns far; ip -n far link set far$p$k master many$k; done
    ip -n far link set many$k up
done
for round in $(seq "${ROUNDS:-2}"); do
    for COUNT in 1 8 32 $MOST; do
        for WAY in own library; do
            T=$OURS; [ $WAY = own ] && T=/mnt/own
            date +%s%N >/run/began; for k in $(seq $COUNT); do start $k; done; cell "$COUNT: until all carry, ms, started one after the other" "$(carried)"; all_carry "$COUNT"; sleep 5
            before=$(busy) wakes=$(woke); sleep $SECONDS_OF
            cell "$COUNT: processor time in $SECONDS_OF s, ms" $((($(busy) - before) / 1000000)); cell "$COUNT: times that they woke" $(($(woke) - wakes)); cell "$COUNT: memory (Pss), kB" "$(memory)"
            stop
        done
    done
    for WAY in own library; do
        T=$OURS COUNT=32; [ $WAY = own ] && T=/mnt/own
        : >/run/again; date +%s%N >/run/began; for k in $(seq $COUNT); do start $k & done
        cell "32 at once: until all carry, ms" "$(carried)"; cell "32 at once: processor time until then, ms" $(($(busy) / 1000000)); wait; cell "32 at once: starts that failed" "$(wc -l </run/again)"; all_carry "32 at once"; stop
    done
done

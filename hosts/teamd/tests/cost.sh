# What one idle team costs in a second, whose two ports carry to a bond of the kernel: teamd as it is and with the library, short and long timeouts, all
# beside each other. Instructions are of callgrind, system calls of strace, and the times that it slept of /proc, each of a teamd of its own: so none
# changes what another one counts, and a busy machine changes none. Each cell is a line "cell: WAY | ROW | VALUE".
OURS=$T SECONDS_OF=120
now() { date +%s%3N; }
pid() { cat /run/pid.$k; }
slept() { sed -n 's/^voluntary_ctxt_switches:\t//p' /proc/$(pid)/status; }
cell() { echo "cell: $WAY | $RATE timeouts: $1 | $(awk -v n="$2" -v ms="$3" 'BEGIN {printf (n < 10000 ? "%.1f" : "%.0f"), 1000 * n / ms}')"; } # ROW COUNT MS
each() { k=0; for RATE in short long; do for TOOL in callgrind strace plain; do for WAY in own library; do k=$((k + 1)); "$1"; done; done; done; }
start() {
    T=$OURS fast=true rate=fast; [ $WAY = library ] || T=/mnt/own; [ $RATE = short ] || fast=false rate=slow
    ip -n far link add many$k type bond mode 802.3ad miimon 100 lacp_rate $rate
    for p in a b; do ip link add $p$k type veth peer name far$p$k netns far; ip -n far link set far$p$k master many$k; done; ip -n far link set many$k up
    set -- $T -r -t team$k -c "{\"runner\":{\"name\":\"lacp\",\"fast_rate\":$fast},\"ports\":{\"a$k\":{},\"b$k\":{}}}"
    # teamd closes all files as it starts, and callgrind is commanded by one.
    [ $TOOL = callgrind ] && set -- env LD_PRELOAD=/mnt/kept.so valgrind --tool=callgrind --instr-atstart=no --callgrind-out-file=/run/calls.$k "$@"
    "$@" 2>>/run/log & echo $! >/run/pid.$k
    until [ -e /run/teamd/team$k.pid ]; do sleep 0.1; done; ip link set team$k up
}
begin_counting() {
    now >/run/from.$k
    case $TOOL in
    callgrind) vgdb --pid="$(pid)" instrumentation on ;;
    strace) timeout -s INT $SECONDS_OF strace -c -o /run/calls.$k -p "$(pid)" & ;;
    plain) slept >/run/calls.$k ;;
    esac >>/run/log 2>&1
}
calls() { awk -v name="$1" '$4 + 0 && $NF != "total" && $NF ~ name {n += $4} END {print n + 0}' /run/calls.$k; }
end_counting() {
    took=$(($(now) - $(cat /run/from.$k)))
    case $TOOL in
    callgrind) for it in "instrumentation off" dump; do vgdb --pid="$(pid)" $it >>/run/log 2>&1; done
        cell "instructions" "$(sed -n 's/^totals: //p' /run/calls.$k.1)" $took ;;
    strace) clock=$(calls clock_gettime)
        cell "system calls, but for reads of the clock" $(($(calls .) - clock)) ${SECONDS_OF}000; cell "reads of the clock" $clock ${SECONDS_OF}000
        cell "times that select returned" "$(calls select)" ${SECONDS_OF}000 ;;
    plain) cell "times that it slept" $(($(slept) - $(cat /run/calls.$k))) $took ;;
    esac
}
date +%s%N >/run/began; each start; echo "row: all carry after $(ip netns exec far python3 /run/tests/carried.py $k 120) ms"; sleep 10
each begin_counting; sleep $((SECONDS_OF + 2)); each end_counting

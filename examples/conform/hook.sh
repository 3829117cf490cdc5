# What the hooks of this folder have in common; each sets its own functions and reads this file.
#
# RUN stands before each command that is run on the device, as RUN="ssh root@device" or RUN="ip netns exec far"; without it the device
# is this machine. LINKS are the device's ends of the links, in the order of lagconform's. CLIENT is the interface of its bond. Runs on several
# devices at once, each with its own RUN, LINKS, CLIENT or WORDS, have files of their own, by DEVICE_NUMBER.
# Status 0: done; 64: this hook does not know the words; another one: it failed, and what it prints says how.

LINKS=${LINKS:-eth1 eth2}
DEVICE_NUMBER=$(echo "$RUN/$LINKS/$CLIENT/$WORDS" | cksum | cut -d' ' -f1)
SENDER=${SENDER:-/run/lagconform-flows-$DEVICE_NUMBER.pid}
FLOWS=${FLOWS:-$(dirname "$(realpath "$0")")/flows.py}

link() { echo "$LINKS " | cut -d' ' -f"$1"; }
down() { $RUN ip link set "$(link "$1")" down; }
up() { $RUN ip link set "$(link "$1")" up; }
failed() { echo "$0: $*"; exit 1; }
data_start() {
    data_stop
    $RUN python3 - "$CLIENT" < "$FLOWS" > /dev/null 2>&1 &
    echo $! > "$SENDER"
    sleep 0.3
    kill -0 $! 2> /dev/null || failed "python3 sends no data on $CLIENT"
}
data_stop() {
    [ -f "$SENDER" ] || return 0
    pkill -P "$(cat "$SENDER")" 2> /dev/null
    kill "$(cat "$SENDER")" 2> /dev/null
    rm -f "$SENDER"
}
reset() { data_stop; }
# What the command line of a switch said, which may end with status 0 where it refuses a line: such an answer begins with %.
accepted() {
    printf '%s\n' "$1"
    ! printf '%s\n' "$1" | grep -q '^ *%'
}
unknown() { echo "$0 does not know: $*"; exit 64; }

hook() {
    case "$*" in
        reset | start | stop) "$1" ;;
        'down '? | 'up '?)
            [ "$(link "$2")" ] || failed "there is no link $2 in LINKS"
            "$1" "$2"
            ;;
        'data start' | 'data stop') "data_$2" ;;
        'set '?*) set_value "$2" "$3" ;;
        *) unknown "$@" ;;
    esac
}
set_value() { unknown set "$@"; }

# A teamd that follows another one: nothing is lost on the way, and ports come and go beside the others.
bond; begin; until_state "$BOTH" 10; sleep 1
trip "nothing happens" 5 true; lost_none "nothing is lost while nothing happens"
trip "a port is removed" 6 "teamdctl team0 port remove eth2"; lost_none "nothing is lost when a port is removed"
trip "a port is added" 8 "teamdctl team0 port add eth2"; to=${LOST#* }; is "nothing is lost from the peer when a port is added" 0 "$to"; lost_few "and few to it, while it does not collect yet" 62 "${LOST% *}"
is "both carry" "$BOTH" "$(state)"
trip "SIGKILL, -o at once" 8 'kill_it; take'; lost_none "a killed teamd is followed without loss"; until_state "$BOTH" 10; is "both carry after it" "$BOTH" "$(state)"
trip "SIGKILL, -o after 1 s" 8 'kill_it; sleep 1; take'; lost_none "the same 1 s later"; until_state "$BOTH" 10; is "both carry after that" "$BOTH" "$(state)"
trip "SIGKILL, -o after 6 s" 16 'kill_it; sleep 6; take'; until_state "$BOTH" 10; is "after longer than the timeout both negotiate, and carry" "$BOTH" "$(state)"
end
N=1; begin; until_state "$BOTH" 10; sleep 1
for k in $(seq 10); do trip "SIGTERM with -N, -o -N" 8 'end_it; take'; lost_none "a clean restart loses nothing ($k)"; done
until_state "$BOTH" 10; is "both carry in the end" "$BOTH" "$(state)"
# Other timeouts than those of the teamd before: the peer is told. Where they are long now, its next LACPDU may come 30 s later.
asks() { for p in eth1 eth2; do echo $(($(item ports.$p.runner.actor_lacpdu_info.state) & 2)); done | paste -s -d' '; }
for FAST in false true false; do
    want="2 2"; [ $FAST = true ] || want="0 0"
    trip "SIGTERM with -N, -o -N with fast_rate $FAST" 12 'end_it; take'; lost_none "a clean restart with fast_rate $FAST loses nothing"
    until_state "$BOTH" 10; is "its ports ask for those timeouts, and both carry" "$want $BOTH" "$(asks) $(state)"
done
FAST=true
N=; end
# With long timeouts at both ends a peer waits for 90 s, and an LACPDU goes every 30 s. So it matters how old the peer's last one is when teamd ends: how
# many seconds ago it came, the file tells, which is written with each.
heard_ago() { echo $(($(date +%s) - $(stat -c %Y $F))); }
until_heard_ago() { for _ in $(seq 700); do [ "$(heard_ago)" -eq "$1" ] && break; sleep 0.1; done; }
stop_and_take() { ago=$(heard_ago); $STOP; sleep "$1"; take; } # after so many seconds
told_trip() { trip "long timeouts, $WAY, -o after $1 s" "$2" "stop_and_take $1"; echo "row: ended $ago s after the peer's last LACPDU"; }
ip -n far link del bond0; bond slow; FAST=false BEARS=58000
for WAY in SIGKILL "SIGTERM with -N"; do
    STOP=kill_it; [ "$WAY" = SIGKILL ] || { STOP=end_it; N=1; }
    begin; until_state "$BOTH" 10
    # The second one follows before the peer would send by itself, whose LACPDUs of the pause are lost: it counts on what the first one asked for.
    until_heard_ago 5; told_trip 25 35; lost_none "long timeouts, $WAY: a teamd that ended is followed without loss 25 s later"
    is "both carry after those" "$BOTH" "$(state)"
    told_trip 50 60; lost_none "$WAY: the same 50 s later, 20 s after the first one"; is "both carry after these" "$BOTH" "$(state)"
    # The peer's next LACPDU is due soon: without a question the third one comes 90 s after the last one, when the timeout of this end has passed.
    until_heard_ago 20; told_trip 50 75; lost_none "$WAY: the same 50 s later, shortly before the peer's next LACPDU"; is "both carry in the end of long timeouts" "$BOTH" "$(state)"
    end
done

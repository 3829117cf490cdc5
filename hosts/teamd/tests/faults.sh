# What teamd asks for is refused (refuse.c), or goes away: no port is told to carry that passes nothing, and all goes on once it can.
mkdir -p /run/refuse
refuse() { for it; do : >/run/refuse/$it; done; }
grant() { rm -f /run/refuse/*; }
# Whether a port of the team tells itself, or told the peer, that it distributes: "0 0" is none.
distributing() {
    echo "$(for p in eth1 eth2; do echo $(($(item ports.$p.runner.actor_lacpdu_info.state) / 32 % 2)); done | sort -u | paste -s -d' ') $(ip netns exec far sed -n '/details partner/,/^$/s/.*port state: //p' /proc/net/bonding/bond0 | awk '{n += int($1 / 32) % 2} END {print n + 0}')"
}
STOPPED="eth1 disabled false, eth2 disabled false, carrier 0"
bond

refuse enabled; begin; until_state "eth1 current false, eth2 current false, carrier 0" 10; sleep 3
most=$(for _ in $(seq 30); do ip netns exec far sed -n '/details partner/,/^$/s/.*port state: //p' /proc/net/bonding/bond0; sleep 0.1; done | awk '{n += int($1 / 32) % 2} END {print n + 0}')
is "no port can be enabled: the peer is never told that one distributes" 0 "$most"
is "no port can be enabled: none is, and there is no carrier" "eth1 current false, eth2 current false, carrier 0" "$(state)"
grant; until_state "$BOTH" 12; is "they can: both carry" "$BOTH" "$(state)"; sleep 1

refuse memory; teamdctl team0 port config update eth1 '{"lacp_key": 5}' 2>/dev/null; until_state "$STOPPED" 5
is "no memory for LACP: all ports stop, and say so" "$STOPPED 0 0" "$(state) $(distributing | cut -d' ' -f1) $(item ports.eth1.runner.selected | grep -c true)"
grant; teamdctl team0 port config update eth1 '{}' 2>/dev/null; until_state "$BOTH" 12; is "there is memory: both carry" "$BOTH" "$(state)"; sleep 1

refuse address; ip link set team0 address 52:54:00:00:0c:77; sleep 4
is "no port takes another address of the device: none carries, here and at the peer" "eth1 current false, eth2 current false, carrier 0" "$(state)"
grant; until_state "$BOTH" 12; is "they take it: both carry" "$BOTH 52:54:00:00:0c:77" "$(state) $(cat /sys/class/net/eth1/address)"; sleep 1
end

refuse carrier; begin; for _ in $(seq 100); do [ "$(state)" = "eth1 current true, eth2 current true, carrier 0" ] && break; sleep 0.1; done
is "the carrier can't be set" "eth1 current true, eth2 current true, carrier 0" "$(state)"
grant; until_state "$BOTH" 3; is "it can: it is, within a second" "$BOTH" "$(state)"; sleep 1

# The file, on a file system that becomes full, and has room again.
end; mount -t tmpfs -o size=256k runs /run/teamd; take_aloud; ip link set team0 up; until_state "$BOTH" 12; sleep 1
is "a state is written" yes "$([ -s $F ] && echo yes)"
fill_up() { cat /dev/zero >>/run/teamd/full 2>/dev/null; }
fill_up; sleep 0.7; fill_up; sleep 2; is "the file system is full: the state takes the place of the older one" "yes 0 $BOTH" "$([ -s $F ] && echo yes) $(grep -c 'No state saved' /run/log) $(state)"
pid=$(cat /run/teamd/team0.pid); kill -STOP $pid; rm -f $F $F.new; fill_up; kill -CONT $pid; sleep 2.5
is "there is no room at all: no state is left, the log says so once, and both carry" "no 1 $BOTH" "$([ -e $F ] && echo yes || echo no) $(grep -c 'No state saved.*No space' /run/log) $(state)"
kill_it; take_aloud; is "a teamd that follows takes none over" "" "$(grep ': taken over' /run/log)"
until_state "$BOTH" 12; rm /run/teamd/full; sleep 2; is "there is room: the state is written again" "yes $BOTH" "$([ -s $F ] && echo yes) $(state)"
end; umount /run/teamd

# A port, and then the device, goes away.
begin; until_state "$BOTH" 12; sleep 1
ip link set eth1 netns far; sleep 1; is "a port goes to another namespace: the other one carries" "eth2 current true, carrier 1" "$(state eth2)"
ip -n far link set eth1 netns 1; teamdctl team0 port add eth1 2>/dev/null; until_state "$BOTH" 12; is "it comes back: both carry" "$BOTH" "$(state)"
ip link del eth1; sleep 1; is "the interface of a port is deleted: the other one carries" "eth2 current true, carrier 1" "$(state eth2)"
ip link add eth1 address 52:54:00:00:0a:01 type veth peer name far1 netns far; ip -n far link set far1 master bond0; ip -n far link set far1 up
teamdctl team0 port add eth1 2>/dev/null; until_state "$BOTH" 12; is "it is made anew: both carry" "$BOTH" "$(state)"
ip link set eth1 down; ip link set eth2 down; sleep 1; teamdctl team0 port remove eth1; is "the last link with a cable leaves: no carrier" 0 "$(cat /sys/class/net/team0/carrier)"
pid=$(cat /run/teamd/team0.pid); ip link del team0; for _ in $(seq 50); do kill -0 $pid 2>/dev/null || break; sleep 0.1; done
is "the device is deleted: teamd ends, and leaves no file" "" "$(kill -0 $pid 2>/dev/null && echo runs)$(ls /run/teamd)"

# Its time: stopped for longer than the timeout, and the clock on the wall set.
begin; until_state "$BOTH" 12; sleep 1; kill -STOP $(cat /run/teamd/team0.pid); sleep 6; kill -CONT $(cat /run/teamd/team0.pid); until_state "$BOTH" 15; sleep 2
is "it is stopped for 6 s: both carry again, also for the peer" "$BOTH 2" "$(state) $(ip netns exec far sed -n 's/.*Number of ports: //p' /proc/net/bonding/bond0)"
for by in "+1 day" "-2 days" "+1 day"; do
    date -s "$(date -d "$by")" >/dev/null; sleep 2; is "the clock on the wall is set by $by: both carry" "$BOTH" "$(state)"
    begin_timing; kill_it; take_aloud; is_in_time "and another teamd takes both over" 2000 "$BOTH, 2" "$(state), $(grep -c 'taken over' /run/log)"; until_state "$BOTH" 12
done
end

# Before it is taken over, a device of one link has no carrier by min_ports; the next teamd wants one link.
begin '"min_ports":2' '"eth1":{}'; until_state "eth1 current true, carrier 0" 12 eth1; sleep 1; kill_it; take '' '"eth1":{}'; until_state "eth1 current true, carrier 1" 12 eth1
is "another min_ports: the carrier of before is not taken for that of now" "eth1 current true, carrier 1" "$(state eth1)"; end

# LACPDUs of another system that have the tag of a VLAN.
begin; until_state "$BOTH" 12; sleep 1; is "the peer is the bond" 52:54:00:00:0b:01 "$(item ports.eth1.runner.partner_lacpdu_info.system)"
ip netns exec far python3 /run/tests/tagged.py far1 3; is "LACPDUs with the tag of a VLAN are of nobody" "$BOTH 52:54:00:00:0b:01" "$(state) $(item ports.eth1.runner.partner_lacpdu_info.system)"; end

# What changes while teamd runs, and what teamd.conf(5) has for lacp.
bond; begin; until_state "$BOTH" 10; sleep 1
ip link set team0 down; sleep 1; is "the device goes down: the peer stops at once" 0 "$(ip netns exec far sed -n 's/.*port state: //p' /proc/net/bonding/bond0 | awk '{n += int($1 / 32) % 2} END {print n + 0}')"
sleep 3; ip link set team0 up; until_state "$BOTH" 10; is "it comes up: both carry" "$BOTH" "$(state)"
teamdctl team0 port config update eth1 '{"lacp_prio": 7, "lacp_key": 5}' 2>/dev/null; teamdctl team0 port config update eth2 '{"lacp_key": 5}' 2>/dev/null; sleep 2
is "another key and priority reach the peer" "5 7" "$(told far1)"; until_state "$BOTH" 10; is "both carry with them" "$BOTH" "$(state)"
# As NetworkManager starts it, which has no word of ports that are in.
from=$(date +%s%N); kill_it; $T -g -d -o -n -t team0 -c "$(config '' ' ')" 2>>/run/log; away=$((($(date +%s%N) - from) / 1000000)); sleep 1.5
[ $away -lt 1500 ] || { echo "row: it started after $away ms, so that the peer may have stopped its links"; until_state "$BOTH" 10; }
is "a teamd that follows with -n: both carry with them" "$BOTH 5 7" "$(state) $(told far1)"
teamdctl team0 port config update eth1 '{"lacp_prio": 9, "lacp_key": 5}' 2>/dev/null; sleep 2; is "what it is told then reaches the peer" "5 9" "$(told far1)"
for n in 1 2; do teamdctl team0 port config update eth$n '{}' 2>/dev/null; done; sleep 2; is "and where it is told nothing, what is usual" "0 255, 0 255" "$(told far1), $(told far2)"
until_state "$BOTH" 10; is "both carry then" "$BOTH" "$(state)"
# One of three ports gets another key: the two others have nothing to tell, and go on.
teamdctl team0 port add eth3; all="eth1 current true, eth2 current true, eth3 current true, carrier 1"; until_state "$all" 12 "eth1 eth2 eth3"; sleep 1
teamdctl team0 port config update eth1 '{"lacp_key": 7}' 2>/dev/null; stopped=0
for _ in $(seq 15); do [ "$(state eth2 eth3)" = "eth2 current true, eth3 current true, carrier 1" ] || stopped=$((stopped + 1)); sleep 0.1; done
is "one of three ports gets another key: the others go on" 0 $stopped; teamdctl team0 port config update eth1 '{}' 2>/dev/null; teamdctl team0 port remove eth3; until_state "$BOTH" 12
# LACPDUs are lost both ways for longer than it takes to run on defaults, and no link goes down: a port on defaults sends each 30 s, and so is woken.
/mnt/modprobe -d /mnt/modules act_gact
drop() { tc $1 qdisc add dev $2 clsact; tc $1 filter add dev $2 ingress protocol 0x8809 matchall action drop; }
for n in 1 2; do drop "" eth$n; drop "-n far" far$n; done
sleep 10; silent=$(state); for n in 1 2; do tc qdisc del dev eth$n clsact; tc -n far qdisc del dev far$n clsact; done
until_state "$BOTH" 12; is "links that were silent both ways for 10 s carry again within 12 s" "eth1 defaulted false, eth2 defaulted false, carrier 0; $BOTH" "$silent; $(state)"
# A manager that configures its ports by teamdctl alone: eth1 comes into the device by ip link, eth2 by teamdctl.
end; alone() { $T -g -d -N -t team0 "$@" -c '{"device":"team0","runner":{"name":"lacp","fast_rate":true,"tx_hash":["l3","l4"]}}' 2>>/run/log; }
alone -r; for n in 1 2; do teamdctl team0 port config update eth$n "{\"prio\": 0, \"lacp_prio\": $((6 + n)), \"lacp_key\": 5}" 2>/dev/null; done
ip link set eth1 down; ip link set eth1 master team0; ip link set eth1 up; teamdctl team0 port add eth2; ip link set team0 up; until_state "$BOTH" 12; sleep 1
is "ports that are configured by teamdctl alone" "$BOTH 5 7, 5 8" "$(state) $(told far1), $(told far2)"
for way in "-o" "-r -o" "-o -n"; do
    from=$(date +%s%N); kill_it; alone $way; away=$((($(date +%s%N) - from) / 1000000)); teamdctl team0 port add eth1; sleep 1.5
    [ $away -lt 1500 ] || { echo "row: it started after $away ms, so that the peer may have stopped its links"; until_state "$BOTH" 10; }
    is "a teamd that follows by $way, and has no ports in its configuration: both carry with them" "$BOTH 5 7, 5 8" "$(state) $(told far1), $(told far2)"
done
# With -N the ports stay in the device with each other runner, too, and the next teamd has them as they are.
in_device() { for n in 1 2; do basename "$(readlink /sys/class/net/eth$n/master)"; done | paste -s -d' '; }
end; ip link del team0
for runner in activebackup roundrobin broadcast random loadbalance; do
    other() { $T -d -N -t team0 "$@" -c "{\"runner\":{\"name\":\"$runner\"},\"ports\":{\"eth1\":{},\"eth2\":{}}}" 2>>/run/log; }
    other -r; ip link set team0 up; sleep 1; end; left=$(in_device); other -o; sleep 1
    is "-N and -o -N with the runner $runner" "team0 team0, team0 team0, carrier 1" "$left, $(in_device), carrier $(cat /sys/class/net/team0/carrier)"; end; ip link del team0
done
begin; until_state "$BOTH" 10; sleep 1
ip link set team0 address 52:54:00:00:0c:77; sleep 1; until_state "$BOTH" 10; is "another address of the device: both carry" "$BOTH" "$(state)"
is "the peer has it" "52:54:00:00:0c:77" "$(ip netns exec far sed -n 's/.*Partner Mac Address: //p' /proc/net/bonding/bond0)"
ip link set eth1 down; sleep 1; is "a link goes down: the other one carries" "eth1 disabled false, eth2 current true, carrier 1" "$(state)"; ip link set eth1 up; end
begin '"min_ports":2' '"eth1":{}'; until_state "eth1 current false, carrier 0" 3 eth1; sleep 4; is "min_ports 2, one port" 0 "$(cat /sys/class/net/team0/carrier)"
teamdctl team0 port add eth2; until_state "$BOTH" 10; is "min_ports 2, two ports" "$BOTH" "$(state)"; end
begin '"active":false'; until_state "$BOTH" 10; is "a passive team carries with an active peer" "$BOTH" "$(state)"; is "it tells that it is passive" 0 "$(($(item ports.eth1.runner.actor_lacpdu_info.state) & 1))"; end
FAST=false; begin '"sys_prio":7'; FAST=true; until_state "$BOTH" 10; is "sys_prio" 7 "$(item ports.eth1.runner.actor_lacpdu_info.system_priority)"; is "long timeouts" 0 "$(($(item ports.eth1.runner.actor_lacpdu_info.state) & 2))"; end
for p in lacp_prio lacp_prio_stable bandwidth count port_config; do begin "\"agg_select_policy\":\"$p\"" '"eth1":{"prio":1,"sticky":true},"eth2":{"prio":2}'; until_state "$BOTH" 10; is "agg_select_policy $p" "$BOTH $p" "$(state) $(item runner.select_policy)"; end; done
$T -d -r -t team0 -c "$(config '"agg_select_policy":"nosuch"')" 2>/dev/null; is "a policy that does not exist is refused" 1 $?
$T -d -r -t team0 -c "$(config '"sys_prio":65536')" 2>/dev/null; is "a sys_prio of 65536 is refused" 1 $?
begin_timing; begin '' '"eth1":{"link_watch":{"name":"ethtool","delay_up":3000}},"eth2":{}'; sleep 1; is_in_time "delay_up is waited for" 3000 disabled "$(item ports.eth1.runner.state)"; until_state "$BOTH" 12; is "and then the port carries" "$BOTH" "$(state)"; end
k=0; for i in 70001 65537 65538; do k=$((k + 1)); ip link add w$k index $i type veth peer name farw$k netns far; ip -n far link set farw$k master bond0; done
begin '' '"eth1":{},"w1":{},"w2":{},"w3":{}'; for _ in $(seq $((200 * ${SLOW:-1}))); do [ "$(item ports.w3.runner.actor_lacpdu_info.port)" -gt 0 ] && break; sleep 0.1; done 2>/dev/null
ports() { for p in w1 w2 w3; do printf '%s ' "$(item ports.$p.runner.actor_lacpdu_info.port)"; done; }
was=$(ports); is "each ifIndex above 65535 has a port number of its own" 3 "$(echo $was | tr ' ' '\n' | awk '$1 > 0 && $1 < 65536' | sort -u | wc -l)"
kill_it; take '' '"eth1":{},"w1":{},"w2":{},"w3":{}'; for _ in $(seq $((50 * ${SLOW:-1}))); do [ "$(ports)" = "$was" ] && break; sleep 0.1; done; is "which stay when another teamd follows" "$was" "$(ports)"; end
begin '' '"eth1":{},"eth2":{},"eth3":{}'; sleep 5; pid=$(cat /run/teamd/team0.pid); files=$(ls /proc/$pid/fd | wc -l)
trip "out and in 50 times" 25 'for k in $(seq 50); do teamdctl team0 port remove eth3 && sleep 0.1; teamdctl team0 port add eth3; sleep 0.1; done'
is "no file is left open after 50 times out and in" "$files" "$(ls /proc/$pid/fd | wc -l)"; is "no command failed" "" "$(cat /run/trip.out)"
sleep 5; is "all three carry" "eth1 current true, eth2 current true, eth3 current true, carrier 1" "$(state eth1 eth2 eth3)"; end
# Two partners, each on a link of its own: the better one carries, until the other one is chosen by hand.
ip -n far link add bond1 type bond mode 802.3ad miimon 100 lacp_rate fast ad_actor_sys_prio 1
ip -n far link set far2 nomaster; ip -n far link set far2 down; ip -n far link set far2 master bond1; ip -n far link set bond1 up
# Of each port: whether its group is chosen, whether it is enabled, and whether it distributes.
chosen() { for p in eth1 eth2; do printf '%s %s %s %s, ' $p "$(item ports.$p.runner.aggregator.selected)" "$(teamnl team0 -p $p getoption enabled)" $(($(item ports.$p.runner.actor_lacpdu_info.state) / 32 % 2)); done; }
until_chosen() { for _ in $(seq $((150 * ${SLOW:-1}))); do [ "$(chosen)" = "$1" ] && break; sleep 0.1; done; }
for hold in false true; do
    other=1; [ $hold = true ] && other=0
    begin "\"hold_unselected\":$hold"; until_chosen "eth1 false false $other, eth2 true true 1, "; is "hold_unselected $hold: the better partner's link carries" "eth1 false false $other, eth2 true true 1, " "$(chosen)"
    teamdctl team0 state item set ports.eth1.runner.aggregator.selected true; sleep 6; until_chosen "eth1 true true 1, eth2 false false $other, "
    is "hold_unselected $hold: the other one by hand, and it stays" "eth1 true true 1, eth2 false false $other, " "$(chosen)"; end
done
# Three teams on one segment.
for n in 1 2 3; do ip link add e$n type veth peer name h$n; ip link set h$n up promisc on; tc qdisc add dev h$n clsact; done
for n in 1 2 3; do for m in 1 2 3; do [ $n = $m ] || tc filter add dev h$n ingress matchall action mirred egress mirror dev h$m; done; done
for n in 1 2 3; do $T -d -r -t team$n -c "{\"runner\":{\"name\":\"lacp\",\"fast_rate\":true},\"ports\":{\"e$n\":{}}}" 2>/dev/null; ip link set team$n up; done; sleep 3
python3 /run/tests/count.py 8 e1 e2 e3 >/run/count; most=$(sed 's/.*: //' /run/count); echo "row: three teams on one segment | $(cat /run/count)"
is "three teams on one segment send one to nine LACPDUs in a second" yes "$([ "$most" -ge 1 ] && [ "$most" -le 9 ] && echo yes || echo $most)"
for n in 1 2 3; do $T -k -t team$n; done

# 63 questions of teamdctl, and the answers of teamd 1.31 of Debian 12, whose process identifier is written as 1.
bond
# What the answers were recorded with.
cat >/run/team0.conf <<'C'
{"device": "team0", "runner": {"name": "lacp", "active": true, "fast_rate": true, "tx_hash": ["eth", "ipv4", "ipv6"]}, "link_watch": {"name": "ethtool"}, "ports": {"eth1": {}, "eth2": {"lacp_prio": 100}}}
C
$T -d -r -t team0 -f /run/team0.conf 2>/run/log; is "teamd starts" 0 $?
ip link set team0 up; ip addr add 192.0.2.1/24 dev team0; until_state "$BOTH" 15; sleep 2
is "ping" "3 received" "$(ping -c 3 -i 0.3 192.0.2.2 | grep -o '[0-9]* received')"
n=0 equal=0
pid=$(cat /run/teamd/team0.pid)
while read -r line; do
    case $line in sleep*) eval "$line"; continue;; esac
    n=$((n + 1)) file=$(printf '%02d' $n)
    eval "set -- $line"
    { echo "\$ teamdctl $*"; timeout 10 teamdctl "$@" 2>&1; echo "status $?"; } | sed "s/PID: $pid\$/PID: 1/; s/\"pid\": $pid,/\"pid\": 1,/" >/run/answer
    if cmp -s /run/answer /run/tests/questions/$file; then equal=$((equal + 1)); else echo "question $file: $line"; diff /run/answer /run/tests/questions/$file; fi
done <<'Q'
team0 state
team0 -v state view
team0 -vvv state
team0 state dump
-o team0 state dump
team0 config dump
team0 config dump noports
team0 config dump actual
team0 port present eth1
team0 port present eth3
team0 port present nosuch
team0 port config dump eth1
team0 port config dump eth3
team0 port config dump nosuch
team0 state item get setup.runner_name
team0 state item get setup.pid_file
team0 state item get runner.active
team0 state item get runner.sys_prio
team0 state item get runner.fast_rate
team0 state item get runner.select_policy
team0 state item get ports.eth1.runner.aggregator.id
team0 state item get ports.eth1.runner.aggregator.selected
team0 state item get ports.eth2.runner.actor_lacpdu_info.state
team0 state item get 'ports."eth1".runner.partner_lacpdu_info.system'
team0 state item get ports.eth1.link_watches.list.link_watch_0.name
team0 state item get link_watches.list.link_watch_0.name
team0 state item get ports.eth1.link.speed
team0 state item get ports.nosuch.link.speed
team0 state item get nosuch
team0 state item get ports.eth1
team0 state item get team_device.ifinfo.dev_addr
team0 state item set setup.debug_level 1
team0 state item get setup.debug_level
team0 state item set setup.debug_level -1
team0 state item set setup.debug_level x
team0 state item set setup.debug_level 0
team0 state item set runner.active false
team0 state item set nosuch 1
team0 state item set ports.eth1.runner.aggregator.selected true
team0 state item set ports.eth1.runner.aggregator.selected false
team0 port config update eth3 '{"lacp_prio": 10, "lacp_key": 0, "link_watch": {"name": "ethtool"}}'
team0 port add eth3
sleep 4
team0 port present eth3
team0 state
team0 config dump
team0 config dump actual
team0 port config dump eth3
team0 port config update eth3 '{"lacp_key": 5}'
team0 port config dump eth3
team0 port config update eth3 '{"prio": 5, "lacp_key": 5}'
team0 port config dump eth3
team0 port config update eth3 '{'
team0 port config update nosuch '{}'
team0 port config update eth3 '{"a": 1, "a": 2}'
team0 port config update eth3 '[]'
team0 port add eth3
team0 port add nosuch
team0 port remove eth3
sleep 2
team0 port present eth3
team0 port remove eth3
team0 port remove nosuch
team0 state
team0 config dump actual
Q
is "63 questions are answered as teamd does" 63 $equal
is "the file is its owner's alone" 600 "$(stat -c %a $F)"
end; is "no file is left" "" "$(ls /run/teamd)"

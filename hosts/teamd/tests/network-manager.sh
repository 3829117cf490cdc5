# NetworkManager with a team connection over this teamd: it and D-Bus run in an overlay of the guest's root, whose /run is this one.
OVERLAY=$(mktemp -d); R=$OVERLAY/root; mkdir $OVERLAY/upper $OVERLAY/work $R
/mnt/modprobe -d /mnt/modules overlay
mount -t overlay overlay -o lowerdir=/mnt/network-manager:/,upperdir=$OVERLAY/upper,workdir=$OVERLAY/work $R || echo "FAILED: an overlay is mounted"
for it in run proc dev; do mount --bind /$it $R/$it; done
# Where it cannot write to /sys it does not wait for udev.
mount -t sysfs -o ro sys $R/sys
cp "$T" $R/usr/bin/teamd; grep -q ^messagebus: $R/etc/passwd || echo 'messagebus:x:999:999::/nonexistent:/usr/sbin/nologin' >>$R/etc/passwd
mkdir -p /run/dbus /run/NetworkManager $R/var/lib/NetworkManager $R/etc/NetworkManager/system-connections; rm -f $R/etc/NetworkManager/conf.d/* $R/usr/lib/NetworkManager/conf.d/*
cat >$R/etc/NetworkManager/NetworkManager.conf <<'C'
[main]
plugins=keyfile
auth-polkit=false
dns=none
no-auto-default=*
[logging]
domains=TEAM:DEBUG,DEVICE:INFO
C
cat >$R/etc/NetworkManager/system-connections/team0.nmconnection <<'C'
[connection]
id=team0
type=team
interface-name=team0
[team]
config={"runner":{"name":"lacp","active":true,"fast_rate":true,"tx_hash":["eth","ipv4","ipv6"]}}
[ipv4]
method=manual
address1=192.0.2.1/24
[ipv6]
method=disabled
C
for n in 1 2; do cat >$R/etc/NetworkManager/system-connections/eth$n.nmconnection <<C; done
[connection]
id=eth$n
type=ethernet
interface-name=eth$n
master=team0
slave-type=team
[team-port]
config={"lacp_prio":10$n}
C
chmod 600 $R/etc/NetworkManager/system-connections/*
manager() { chroot $R NetworkManager --debug >>/run/log 2>&1 & nm=$!; }
ends() { kill ${1:+-$1} $nm; wait $nm; }
nmcli() { chroot $R nmcli "$@" >>/run/nmcli 2>&1; }
# It may take a while until it has taken the device over.
manages() { for _ in $(seq 300); do chroot $R nmcli -g GENERAL.STATE device show team0 2>/dev/null | grep -q ^100 && return; sleep 0.2; done; echo "FAILED: NetworkManager has the device"; }
ports() { ip -br link show master team0 | cut -d@ -f1 | sort | paste -s -d' '; }
# Pings each 100 ms, while a command runs after a second; ANSWERED is how many were answered. Not in a substitution: this shell is the guest's first
# program, and a teamd that is killed stays a process, which the next one takes for one that runs, until this shell waits.
pings() { count=$1; shift; ping -c $count -i 0.1 192.0.2.2 >/run/ping & p=$!; sleep 1; eval "$*" >>/run/nmcli 2>&1; wait $p; ANSWERED=$(grep -o '[0-9]* received' /run/ping); }
all() { name=$1; shift; pings "$@"; is "$name: each of $1 pings is answered" "$1 received" "$ANSWERED"; is "$name: both carry" "$BOTH" "$(state)"; }

bond; chroot $R dbus-daemon --system --fork; sleep 0.5; manager; until_state "$BOTH" 120
echo "row: $(chroot $R NetworkManager --version) and $(chroot $R teamd --version 2>&1 | head -1)"
is "the connection comes up, and both ports carry" "$BOTH" "$(state)"; sleep 1
is "teamd is that of NetworkManager" 1 "$(tr '\0' ' ' </proc/$(cat /run/teamd/team0.pid)/cmdline | grep -c -e ' -o -n -U -D -N -t team0')"
is "D-Bus tells as the socket does" current "$(chroot $R teamdctl -D team0 state item get ports.eth1.runner.state)"
is "the priorities of the ports reach the peer" "101 102" "$(for n in 1 2; do told far$n | cut -d' ' -f2; done | paste -s -d' ')"
all "nothing happens" 20 true
nmcli c down eth2; sleep 4; is "a port goes down: the other one carries" "eth1 current true, carrier 1 eth1" "$(state eth1) $(ports)"
nmcli c up eth2; until_state "$BOTH" 15; is "it comes up: both carry" "$BOTH" "$(state)"
out=0; for k in 1 2 3 4 5 6 7 8; do nmcli c down eth2; sleep 2; [ "$(ports)" = eth1 ] && out=$((out + 1)); nmcli c up eth2; sleep 2; done
until_state "$BOTH" 15; is "8 times down and up: out each time, and both carry" "8 $BOTH" "$out $(state)"
pid=$(cat /run/teamd/team0.pid)
all "NetworkManager is killed, and starts again" 120 'ends KILL; sleep 1; manager'
manages; all "NetworkManager ends, and starts again" 140 'ends; sleep 2; manager'
manages; is "teamd went on" $pid "$(cat /run/teamd/team0.pid)"
told=$(wc -l </run/log); pings 150 'kill_it; from=$(date +%s%N); for _ in $(seq 400); do [ "$(item setup.pid)" -ne $pid ] && break; sleep 0.05; done; echo $((($(date +%s%N) - from) / 1000000)) >/run/without'
echo "row: teamd is killed: NetworkManager starts another, which answers after $(cat /run/without) ms"
# Where none comes: what NetworkManager told of the team since.
[ "$(cat /run/without)" -lt 15000 ] || sed -n "$told,\$p" /run/log | grep 'device (team0)' | tail -20 | sed 's/^/row:   /'
until_state "$BOTH" 20; is "teamd is killed, and NetworkManager starts another: both carry" "$BOTH" "$(state)"
# Later than that the links of the peer time out.
if [ "$(cat /run/without)" -lt 2000 ]; then is "each of 150 pings is answered meanwhile" "150 received" "$ANSWERED"; else echo "row: it was too late: $ANSWERED of 150 pings"; fi
is "it is another one" yes "$([ "$(cat /run/teamd/team0.pid)" = $pid ] || echo yes)"
is "the peer knows the priorities of before" "101 102" "$(for n in 1 2; do told far$n | cut -d' ' -f2; done | paste -s -d' ')"
nmcli c down team0; sleep 5; is "the connection goes down: no port and no teamd is left" " " "$(ports) $(pgrep -x teamd)"
nmcli c up team0; nmcli c up eth1; nmcli c up eth2; until_state "$BOTH" 20; all "the connection comes up again" 20 true
nmcli c down team0; ends

# From the kernel's own module to ours and back, at one boot: bonds are up before, between and behind.
cables 2
up() { module $1; bond dev bond0 a1 a2; bond far bond0 b1 b2; ip -n dev addr add 10.0.0.1/24 dev bond0; ip -n far addr add 10.0.0.2/24 dev bond0; }
down() { ip -n dev link del bond0; ip -n far link del bond0; $bb rmmod bonding; }
for it in bonding-own bonding bonding-own bonding; do
    up $it
    wanted "$it: the bond is up" 'within 15 "carrier && carries dev a1 && flows_ping"'
    dev cat /proc/net/bonding/bond0 >/run/proc-$it; dev ip -d -j link show bond0 >/run/json-$it
    down
    wanted "$it: it goes" '! loaded'
done
words() { sed 's/[0-9a-f]\{2\}\(:[0-9a-f]\{2\}\)\{5\}/MAC/g; s/:.*//' /run/proc-$1; }
words bonding-own >/run/own; words bonding >/run/ours
wanted "/proc/net/bonding has the same lines" 'cmp -s /run/own /run/ours'
keys() { python3 -c 'import json, sys; d = json.load(open(sys.argv[1]))[0]["linkinfo"]["info_data"]; print(*sorted([*d, *d["ad_info"]]))' /run/json-$1; }
wanted "ip -d link has the same items" '[ "$(keys bonding-own)" = "$(keys bonding)" ]'

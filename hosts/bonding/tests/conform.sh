# lagconform in `far`, beside a bond of two links in `dev`.
module $MODULE || return
cables 2
for n in 1 2; do ip -n far link set b$n up; done
export RUN="ip netns exec dev" LINKS="a1 a2" CLIENT=bond0 RATE=fast NIWHOPERA_LIBRARY=/mnt/liblag.so.0 PYTHONDONTWRITEBYTECODE=1
hook=/run/project/examples/conform/bonding
$hook start; sleep 2
cd /run/project
ip netns exec far tools/lagconform b1 b2 --hook $hook 2>&1
cd /run
$hook stop
$bb rmmod bonding

# lagconform on two links.
begin; sleep 1
cd /run/project && NIWHOPERA_LIBRARY=/mnt/liblag.so.0 PYTHONDONTWRITEBYTECODE=1 ip netns exec far tools/lagconform far1 far2
echo "status $?"

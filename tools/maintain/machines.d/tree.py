"""The tree of the guests: a Debian 12 with the packages of tools/dist in it, as a disk."""

from __future__ import annotations

import glob
import os
import shutil
import subprocess

from checking import Skipped
from fetched import KEYRING, RELEASE, disk, done, unpack
from fetching import Packages
from repository import MAINTAIN, write_text

# What the tree has beside a minimal Debian; the libraries are those that lagd needs, so that packages are installed without a network.
NEEDED = ("systemd-sysv", "udev", "dbus", "iproute2", "ethtool", "iputils-ping", "iperf3", "libteam-utils", "kmod", "procps", "tcpdump", "bridge-utils",
          "libinih1", "libmnl0", "libcap-ng0", "libbpf1", "netplan.io", "ifupdown", "ifenslave", "network-manager", "libpam-systemd", "libnuma1", "libunbound8", "libxdp1")  # fmt: skip
# Open vSwitch, which stands in a folder of its own: nothing of it is found by chance, or runs at boot.
SWITCH, SWITCH_PACKAGES = "/opt/openvswitch", tuple(f"openvswitch-{it}/{RELEASE}" for it in ("common", "switch"))
MEGABYTES = 1000
# Takes scripts from the port and runs them, one after the other; an answer has the number of its script.
SHELL = """#!/bin/bash
exec 3<>/dev/virtio-ports/shell
stty raw -echo <&3 2>/dev/null
echo ready >&3
while read -r number script <&3; do
    base64 -d <<<"$script" >/run/shell.script
    bash /run/shell.script >/run/shell.told 2>&1 </dev/null
    echo "$number $? $(base64 -w0 /run/shell.told)" >&3
done
"""
# The first program of a guest in user mode: the shell has its second serial line.
NATIVE = """#!/bin/sh
mount -t proc proc /proc
mount -t sysfs sys /sys
mount -t tmpfs -o mode=755 run /run
place() { sed "s/.* $1=\\([^ ]*\\).*/\\1/" /proc/cmdline; }
mount -r -t hostfs -o $(place modules) none /usr/lib/modules
mount -r -t hostfs -o $(place over) none /mnt
cp -r --preserve=mode,links /mnt/. /
umount /mnt
mkdir -p /dev/virtio-ports
ln -s ../ttyS1 /dev/virtio-ports/shell
modprobe -a veth sch_ingress cls_matchall act_mirred
ip netns add cables
cables
exec /lib/systemd/systemd
"""
SHELL_UNIT = """[Unit]
After=multi-user.target
[Service]
Type=idle
ExecStart=/usr/local/sbin/guest-shell
KillMode=process
[Install]
WantedBy=multi-user.target
"""
# The other end of both links.
FAR = """#!/bin/sh
ip netns add far
for n in 1 2; do
    while ! ip link set far$n netns far 2>/dev/null; do sleep 1; done
    ip -n far link set far$n up
done
ip -n far link set lo up
"""
FAR_UNIT = """[Unit]
After=systemd-udevd.service
Before=lagd@far.service
[Service]
Type=oneshot
RemainAfterExit=yes
ExecStart=/usr/local/sbin/guest-far
[Install]
WantedBy=multi-user.target
"""
# Numbered frames between a device of the near end, or of a namespace there, and one of the far end, both ways, for some seconds. They are for
# an address of neither.
TRAFFIC = """#!/bin/sh
seconds=$1 rate=$2 near=$3 far=$4
at=${5:+ip netns exec $5}
$at ip link set $near promisc on
ip -n far link set $far promisc on
rm -rf /run/traffic && mkdir /run/traffic && cd /run/traffic || exit 1
ip netns exec far flows receive $far 16 $((seconds + 4)) >to.received 2>&1 &
$at flows receive $near 16 $((seconds + 4)) >from.received 2>&1 &
sleep 1
touch begun
ip netns exec far flows send $far $rate 16 $seconds ports >from.sent 2>&1 &
$at flows send $near $rate 16 $seconds ports >to.sent 2>&1 &
wait
touch done
"""
FILES = {"usr/local/sbin/guest-shell": SHELL, "etc/systemd/system/guest-shell.service": SHELL_UNIT, "usr/local/sbin/guest-far": FAR,
         "etc/systemd/system/guest-far.service": FAR_UNIT, "usr/local/bin/traffic": TRAFFIC, "usr/local/sbin/native-init": NATIVE, "usr/sbin/policy-rc.d": "#!/bin/sh\nexit 101\n",
         "etc/hostname": "guest\n", "etc/machine-id": "0123456789abcdef0123456789abcdef\n"}  # fmt: skip
MASKED = ("getty.target", "apt-daily.timer", "apt-daily-upgrade.timer", "e2scrub_all.timer", "e2scrub_reap.service", "dpkg-db-backup.timer",
          "systemd-timesyncd.service", "serial-getty@ttyS0.service", "systemd-update-utmp.service", "fstrim.timer", "systemd-random-seed.service",
          "systemd-firstboot.service", "systemd-pstore.service", "systemd-logind.service")  # fmt: skip


def base(packages: Packages) -> str:
    """A minimal Debian with what is needed; it is made once."""
    tree = f"{packages.cache}/tree"
    marked, needed = f"{tree}/etc/made-with", " ".join(NEEDED + SWITCH_PACKAGES)
    if os.path.exists(marked) and open(marked, encoding="utf-8").read() == needed:
        return tree
    shutil.rmtree(tree, ignore_errors=True)
    folder = f"{packages.root}/usr/share/debootstrap"
    words = ["sh", f"{packages.root}/usr/sbin/debootstrap", f"--keyring={KEYRING}", "--variant=minbase", f"--include={','.join(NEEDED)}", RELEASE, tree]
    ended = subprocess.run(words, stdin=subprocess.DEVNULL, capture_output=True, text=True, env={**os.environ, "DEBOOTSTRAP_DIR": folder})
    if ended.returncode:
        raise Skipped(f"debootstrap fails: {(ended.stderr or ended.stdout)[-300:]}")
    shutil.rmtree(f"{tree}/var/cache/apt/archives")
    unpack(packages, SWITCH_PACKAGES, f"{tree}{SWITCH}")
    write_text(marked, needed)
    return tree


def put(tree: str, path: str, text: str) -> None:
    """Writes a file of the tree; one that begins as a script may be run."""
    place = f"{tree}/{path}"
    os.makedirs(os.path.dirname(place), exist_ok=True)
    write_text(place, text)
    os.chmod(place, 0o755 if text.startswith("#!") else 0o644)


def in_tree(tree: str, *words: str) -> str:
    """Runs a command in the tree."""
    return done("chroot", tree, *words, PATH="/usr/sbin:/usr/bin:/sbin:/bin", LC_ALL="C.UTF-8", DEBIAN_FRONTEND="noninteractive")


def image(packages: Packages, debs: str, newer: str, folder: str) -> str:
    """A disk whose tree has lagd and its library from the packages of a folder, those of a higher version in /newer, and what counts frames."""
    tree = f"{folder}/tree"
    done("cp", "-a", "--reflink=auto", base(packages), tree)
    for path, text in FILES.items():
        put(tree, path, text)
    done("cc", "-O2", "-static", "-o", f"{tree}/usr/local/bin/flows", os.path.join(MAINTAIN, "carry.d", "flows.c"))
    for place, source in ("first", debs), ("newer", newer):
        os.makedirs(f"{tree}/{place}")
        for name in "lagd", "liblag0":
            for file in glob.glob(f"{source}/{name}_*.deb"):
                shutil.copy(file, f"{tree}/{place}")
    os.makedirs(f"{tree}/usr/lib/modules", exist_ok=True)
    in_tree(tree, "sh", "-c", "dpkg -i /first/*.deb")
    examples = "/usr/share/doc/lagd/examples"
    in_tree(tree, "cp", f"{examples}/members.network", "/etc/systemd/network/10-members.network")
    in_tree(tree, "cp", f"{examples}/lag0.network", "/etc/systemd/network/20-lag0.network")
    in_tree(tree, "cp", f"{examples}/90-lagd.rules", "/etc/udev/rules.d/90-lagd.rules")
    in_tree(tree, "install", "-D", "-m", "644", f"{examples}/carry.conf", "/etc/systemd/system/lagd@uplink.service.d/carry.conf")
    in_tree(tree, "systemctl", "enable", "-q", "guest-shell", "guest-far", "systemd-networkd", "lagd@uplink")
    in_tree(tree, "systemctl", "disable", "-q", "NetworkManager")
    for unit in MASKED:
        in_tree(tree, "systemctl", "mask", "-q", unit)
    made = f"{folder}/root.img"
    disk(tree, made, MEGABYTES)
    shutil.rmtree(tree)
    return made

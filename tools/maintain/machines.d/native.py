"""A guest that is a process of this machine: a Linux for user mode (UML), whose links are veth. It is as fast as this machine is."""

from __future__ import annotations

import contextlib
import glob
import os
import signal
import socket
import subprocess

import usermode
from fetched import Kernel
from guest import MACS, PLACES, Guest, Line
from repository import read_text
from tree import put

CARD = "veth"
# cable NAME MAC OTHER: NAME is one end of a cable, whose other end is OTHER. A link has its carrier from its peer in the namespace `cables`,
# which hands what comes to the peer of the other end, once that is there.
CABLE = """#!/bin/sh
ip link add $1 address $2 type veth peer name $1 netns cables
ip -n cables link set $1 mtu 9000 up
tc -n cables qdisc add dev $1 clsact
tc -n cables filter del dev $3 ingress 2>/dev/null
tc -n cables filter add dev $1 ingress matchall action mirred egress redirect dev $3 2>/dev/null
tc -n cables filter add dev $3 ingress matchall action mirred egress redirect dev $1 2>/dev/null
exit 0
"""
# The end that is at the same cable.
OTHERS = {name: next(it for it, cable in PLACES if cable == number and it != name) for name, number in PLACES}


def cable(name: str) -> str:
    return f"/usr/local/sbin/cable {name} {MACS[name]} {OTHERS[name]}"


class Native(Guest):
    """A guest of UML. `over` has files that are laid over its tree, by their paths."""

    def __init__(self, kernel: Kernel, image: str, folder: str, over: dict[str, str]) -> None:
        super().__init__(CARD, folder)
        os.makedirs(f"{folder}/over")
        for path, text in {"usr/local/sbin/cable": CABLE, "usr/local/sbin/cables": "\n".join(["#!/bin/sh", *map(cable, MACS)]), **over}.items():
            if ".wants/" in path:
                os.makedirs(os.path.dirname(f"{folder}/over/{path}"), exist_ok=True)
                os.symlink(text, f"{folder}/over/{path}")
            else:
                put(f"{folder}/over", path, text)
        near, far = socket.socketpair()
        words = [kernel.image, f"mem={os.environ.get('MEMORY', '512')}M", f"ubd0={folder}/disk,{image}", "root=/dev/ubda", "rw", "quiet",
                 "init=/usr/local/sbin/native-init", f"modules={kernel.modules}", f"over={folder}/over", f"uml_dir={folder}/", "con=null",
                 "con0=null,fd:1", "ssl=null", f"ssl1=fd:{far.fileno()}", "systemd.show_status=0"]  # fmt: skip
        with open(f"{folder}/console", "wb") as out:
            self.process = subprocess.Popen(words, stdin=subprocess.DEVNULL, stdout=out, stderr=out, pass_fds=[far.fileno()], start_new_session=True,
                                            env=usermode.environment(folder))
        far.close()
        self.shell = Line(near)

    def waited(self) -> float:
        found = 0
        for place in glob.glob("/proc/[0-9]*"):
            with contextlib.suppress(OSError):  # the process has ended
                if os.getpgid(int(os.path.basename(place))) == self.process.pid:
                    found += int(read_text(f"{place}/schedstat").split()[1])
        return found / 1e9

    def set_link(self, up: bool, *names: str) -> None:
        self.run("\n".join(f"ip -n cables link set {name} {'up' if up else 'down'}" for name in names))

    def remove(self, name: str) -> None:
        self.run(f"ip link del {name}")

    def insert(self, name: str) -> None:
        self.run(cable(name))

    def end(self) -> None:
        os.killpg(self.process.pid, signal.SIGKILL)
        self.process.wait()

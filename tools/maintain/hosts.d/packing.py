"""The package of the bonding driver: installed beside kernels of Debian, and taken away again, in an overlay of this machine's tree."""

from __future__ import annotations

import os
import re
import subprocess

from bonds import releases
from built import Built
from checking import check
from installing import OVERLAY

# A kernel that the module does not know: headers of a later series.
UNKNOWN = "7.99.0-niw"
STEPS = """export DEBIAN_FRONTEND=noninteractive
find_module() {{ modinfo -k $1 -n bonding 2>&1; }}
stock() {{ for k in {releases}; do md5sum /lib/modules/$k/kernel/drivers/net/bonding/bonding.ko* ; done; }}
apt-get install -y --no-install-recommends kmod {images} >/run/images 2>&1 || tail -5 /run/images
stock >/run/stock
for k in {releases}; do echo "before $k: $(find_module $k)"; done
d=/lib/modules/{unknown}/build/include/generated/uapi/linux; mkdir -p $d
printf '#define LINUX_VERSION_MAJOR 7\\n#define LINUX_VERSION_PATCHLEVEL 99\\n#define LINUX_VERSION_SUBLEVEL 0\\n' >$d/version.h
apt-get install -y --no-install-recommends /packages/*.deb {needs} >/run/log 2>&1; echo "status $?"
sed 's/^/log: /' /run/log | tail -60
for k in {releases}; do echo "new $k: $(find_module $k)"; modinfo -k $k bonding | sed -n "s/^\\(vermagic\\|signer\\): */$k \\1: /p"; done
stock | cmp -s /run/stock - && echo "stock stays"
dkms status
/etc/kernel/postinst.d/niw-bonding {unknown}; echo "hook $?"
apt-get purge -y niw-bonding-dkms >/run/log 2>&1; echo "purged $?"
for k in {releases}; do echo "back $k: $(find_module $k)"; done
stock | cmp -s /run/stock - && echo "stock stayed"
ls /var/lib/niw-bonding /usr/src/niw-bonding* /var/lib/dkms/niw-bonding 2>/dev/null | sed 's/^/left: /'
"""


def package(built: Built) -> None:
    """What a person does: one command installs it for each kernel, and one takes it away."""
    names = releases(built)
    out, folder = f"{built.folder}/package-bonding", f"{built.folder}/overlay-bonding"
    os.makedirs(folder)
    told = built.tool("bonding", "--kernel", names[0], "--out", out)
    check("apt install " in told and "apt purge niw-bonding-dkms" in told, "tools/host says how to install it, and how to go back", told)
    needs = " ".join(f"linux-headers-{it}" for it in names) + " linux-source-6.1 linux-source-6.12"
    steps = STEPS.format(releases=" ".join(names), images=" ".join(f"linux-image-{it}" for it in names), needs=needs, unknown=UNKNOWN)
    ended = subprocess.run(["unshare", "-m", "sh", "-c", OVERLAY, "sh", folder, out, steps], capture_output=True, text=True)
    text = ended.stdout
    print(text.strip())
    check("status 0" in text, "the package is installed", ended.stderr[-600:])
    for it in names:
        check(re.search(rf"^before {re.escape(it)}: /lib/modules/\S+/kernel/", text, re.M), f"{it}: the kernel's own module is loaded before")
        check(re.search(rf"^new {re.escape(it)}: /lib/modules/\S+/updates/dkms/bonding\.ko", text, re.M), f"{it}: ours is loaded then")
        check(re.search(rf"^back {re.escape(it)}: /lib/modules/\S+/kernel/", text, re.M), f"{it}: the kernel's own one is loaded again")
    check("stock stays" in text and "stock stayed" in text, "the files of the kernel's own module stay as they are")
    check("is not known" in text and "hook 0" in text, "a kernel that is not known is told, and its installation goes on")
    check("purged 0" in text and "left: " not in text, "nothing is left", text[-400:])

"""What guests are made of, from packages of Debian in a cache folder: qemu, and kernels with their modules. Nothing is installed."""

from __future__ import annotations

import glob
import lzma
import os
import re
import shutil
import subprocess
from typing import Iterable, NamedTuple

import mirrors
from checking import Failed, Skipped
from fetching import Packages
from filing import FILE, Entry, archive
from repository import read_bytes, read_text, write_bytes, write_text

KEYRING = "/usr/share/keyrings/debian-archive-keyring.gpg"
RELEASE, BACKPORTS, NEWEST = "bookworm", "bookworm-backports", "trixie-backports"
# The kernels, with the release of Debian that has each.
KERNELS = {"6.1": RELEASE, "6.12": BACKPORTS, "newest": NEWEST}
# From qemu 8.0 on there is igb, so it is that of the backports.
# A Linux for user mode, of the first one.
USER_MODE = "user-mode"
QEMU = ("qemu-system-x86", "qemu-system-common", "qemu-system-data", "seabios")
# The modules that a guest may want, below the folder `kernel` of a kernel; the others are left out.
MODULES = """lib crypto arch/x86/crypto net drivers/virtio drivers/block drivers/char drivers/net/bonding drivers/net/team drivers/net/veth drivers/net/tun
drivers/net/tap drivers/net/macvlan drivers/net/dummy drivers/net/virtio_net drivers/net/net_failover drivers/net/vmxnet3 drivers/net/mii drivers/net/ifb
drivers/net/ethernet/intel/e1000e drivers/net/ethernet/intel/igb drivers/net/phy drivers/net/mdio drivers/ptp drivers/pps drivers/i2c drivers/dca
fs/ext4 fs/jbd2 fs/mbcache"""
# Those that have to be there before the disks are.
FIRST = ("virtio_pci", "virtio_blk", "crc32c_generic", "ext4")
# The first program of a guest. What stands in `over` is laid over the tree.
INIT = """#!/bin/busybox sh
B=/bin/busybox
$B mount -t proc proc /proc
$B mount -t sysfs sys /sys
$B mount -t devtmpfs dev /dev
for module in /modules/*; do $B insmod $module; done
while ! [ -b /dev/vdb ]; do $B sleep 0.1; done
$B mount -t ext4 /dev/vda /new
$B mount -t ext4 -o ro /dev/vdb /new/usr/lib/modules
$B cp -a /over/. /new/
for place in dev proc sys; do $B mount --move /$place /new/$place; done
exec $B switch_root /new /lib/systemd/systemd
"""


class Kernel(NamedTuple):
    """A kernel: its version, its file, the first part of its initramfs, and the disk that has its modules."""

    version: str
    image: str
    begins: str
    modules: str


def packages_in(cache: str, may_fetch: bool) -> Packages:
    """Packages of Debian, in this folder, from where the machine has its own."""
    place = mirrors.main_place()._replace(keys=KEYRING)
    return Packages(cache, may_fetch, "".join(place.line("deb", it, "arch=amd64") for it in (RELEASE, BACKPORTS, NEWEST)))


def done(*words: str, **environment: str) -> str:
    """What a command prints; fails where it does."""
    ended = subprocess.run(words, stdin=subprocess.DEVNULL, capture_output=True, text=True, env={**os.environ, **environment})
    if ended.returncode:
        raise Failed(f"{' '.join(words)[:120]} ends well", (ended.stderr or ended.stdout)[-800:])
    return ended.stdout


def unpack(packages: Packages, names: Iterable[str], folder: str) -> None:
    """Fetches packages, as NAME/RELEASE, and unpacks them, without what they need."""
    packages.learn()
    place = f"{packages.cache}/packages/archives"
    for name in names:
        for old in glob.glob(f"{place}/{name.split('/')[0]}_*.deb"):
            os.remove(old)
        told = packages.apt("apt-get", "download", name)
        found = glob.glob(f"{place}/{name.split('/')[0]}_*.deb")
        if told.returncode or not found:
            raise Skipped(f"apt-get download {name}: {told.stderr.strip()[-200:]}")
        done("dpkg-deb", "-x", found[0], folder)


def needs(packages: Packages, name: str) -> list[str]:
    """The packages of a kernel that one needs: its own parts have its name."""
    told = packages.apt("apt-cache", "show", name).stdout
    found = re.search(r"^Depends: (.*)$", told, re.M)
    return re.findall(r"\b(linux-(?:image|binary|modules)-\d[^ ,]*)", found[1] if found else "")


def parts_of(packages: Packages, release: str) -> list[str]:
    """The packages of the newest kernel of a release, each as NAME/RELEASE."""
    packages.learn()
    found: list[str] = []
    left = needs(packages, f"linux-image-amd64/{release}")
    while left:
        name = left.pop()
        if name not in found:
            found.append(name)
            left += needs(packages, f"{name}/{release}")
    if not found:
        raise Skipped(f"{release} has no package linux-image-amd64")
    return [f"{it}/{release}" for it in found]


def qemu(packages: Packages) -> list[str]:
    """The command of qemu with the words that tell where its files are. It has what it loads from the machine, or from the cache folder."""
    program = f"{packages.root}/usr/bin/qemu-system-x86_64"
    if not os.path.exists(program):
        packages.learn()
        told = packages.apt("apt-get", "install", "--yes", "--download-only", f"--target-release={BACKPORTS}", *(f"{it}/{BACKPORTS}" for it in QEMU))
        if told.returncode:
            raise Skipped(f"apt-get install --download-only {QEMU[0]}: {told.stderr.strip()[-200:]}")
        for package in glob.glob(f"{packages.cache}/packages/archives/*.deb"):
            if not os.path.basename(package).startswith("linux-"):
                done("dpkg-deb", "-x", package, packages.root)
        unpack(packages, ("busybox-static", "debootstrap"), packages.root)
    libraries = ":".join(f"{packages.root}/{it}lib/x86_64-linux-gnu" for it in ("usr/", ""))
    return ["env", f"LD_LIBRARY_PATH={libraries}", program, *(word for it in ("qemu", "seabios") for word in ("-L", f"{packages.root}/usr/share/{it}"))]


def module_files(folder: str, version: str, tree: str) -> str:
    """Lays out the modules of a kernel that guests may want, with their tables; answers the folder of this version. depmod is that of the tree."""
    source = next(it for it in (f"{folder}/lib/modules/{version}", f"{folder}/usr/lib/modules/{version}") if os.path.isdir(it))
    stage = f"{tree}/tmp/modules"
    shutil.rmtree(stage, ignore_errors=True)
    laid = f"{stage}/lib/modules/{version}"
    os.makedirs(laid)
    for file in glob.glob(f"{source}/modules.*"):
        shutil.copy(file, laid)
    for name in MODULES.split():
        for found in glob.glob(f"{source}/kernel/{name}") + glob.glob(f"{source}/kernel/{name}.ko*"):
            place = f"{laid}/{os.path.relpath(found, source)}"
            os.makedirs(os.path.dirname(place), exist_ok=True)
            if os.path.isdir(found):
                shutil.copytree(found, place)
            else:
                shutil.copy(found, place)
    done("chroot", tree, "depmod", "-b", "/tmp/modules", version)
    return laid


def first_modules(laid: str) -> list[Entry]:
    """The modules without which a guest has no disks, in the order in which they are loaded. What the kernel has built in has no file."""
    rows = dict(line.strip().split(":", 1) for line in read_text(f"{laid}/modules.dep").splitlines())
    order: list[str] = []
    for name in FIRST:
        path = next((it for it in rows if re.search(rf"/{name}\.ko", it)), None)
        for file in [*reversed(rows[path].split()), path] if path else []:
            if file not in order:
                order.append(file)
    entries = []
    for number, file in enumerate(order):
        octets = read_bytes(f"{laid}/{file}")
        name = os.path.basename(file).split(".")[0]
        entries.append(Entry(f"modules/{number:02}-{name}", lzma.decompress(octets) if file.endswith(".xz") else octets))
    return entries


def disk(folder: str, path: str, megabytes: int) -> None:
    """Makes a disk with a file system that has the files of a folder."""
    if os.path.exists(path):
        os.remove(path)
    features = "^has_journal,^metadata_csum,^metadata_csum_seed,^orphan_file"
    done("mke2fs", "-q", "-t", "ext4", "-O", features, "-m", "0", "-d", folder, f"{path}.part", f"{megabytes}M")
    os.rename(f"{path}.part", path)


def user_mode(packages: Packages, tree: str) -> Kernel:
    """The Linux for user mode: its program, and the folder of its modules; it is fetched where it is not here yet."""
    place = f"{packages.cache}/kernels/{USER_MODE}"
    if not os.path.exists(f"{place}/made"):
        shutil.rmtree(place, ignore_errors=True)
        os.makedirs(f"{place}/files")
        unpack(packages, (f"user-mode-linux/{RELEASE}",), f"{place}/files")
        os.rename(f"{place}/files/usr/lib/uml/modules", f"{place}/files/usr/lib/modules")
        version = os.listdir(f"{place}/files/usr/lib/modules")[0]
        shutil.copytree(module_files(f"{place}/files", version, tree), f"{place}/modules/{version}")
        shutil.copy(f"{place}/files/usr/bin/linux.uml", place)
        shutil.rmtree(f"{place}/files")
        shutil.rmtree(f"{tree}/tmp/modules")
        write_text(f"{place}/made", version)
    return Kernel(read_text(f"{place}/made"), f"{place}/linux.uml", "", f"{place}/modules")


def kernel(packages: Packages, name: str, tree: str) -> Kernel:
    """A kernel of KERNELS, or that for user mode; it is fetched where it is not here yet."""
    if name == USER_MODE:
        return user_mode(packages, tree)
    place = f"{packages.cache}/kernels/{name}"
    if not os.path.exists(f"{place}/made"):
        shutil.rmtree(place, ignore_errors=True)
        folder = f"{place}/files"
        os.makedirs(folder)
        unpack(packages, parts_of(packages, KERNELS[name]), folder)
        image = next(it for pattern in ("boot/vmlinuz-*", "usr/lib/modules/*/vmlinuz") for it in glob.glob(f"{folder}/{pattern}"))
        version = os.path.basename(image).removeprefix("vmlinuz-") if "/boot/" in image else os.path.basename(os.path.dirname(image))
        shutil.copy(image, f"{place}/vmlinuz")
        laid = module_files(folder, version, tree)
        busybox = read_bytes(f"{packages.root}/bin/busybox")
        begins = [Entry("init", INIT.encode(), FILE | 0o755), Entry("bin/busybox", busybox, FILE | 0o755), *first_modules(laid)]
        folders = [Entry(it, None) for it in ("proc", "sys", "dev", "new", "over")]
        write_bytes(f"{place}/initramfs", archive([*folders, *begins]))
        disk(os.path.dirname(laid), f"{place}/modules.img", 300)
        shutil.rmtree(folder)
        shutil.rmtree(f"{tree}/tmp/modules")
        write_text(f"{place}/made", version)
    return Kernel(read_text(f"{place}/made"), *(f"{place}/{file}" for file in ("vmlinuz", "initramfs", "modules.img")))

"""The compiler for guests in C, of Debian's packages: whether it is there, and its installation. c/build-all and
tests/checks/package use it."""

import os
import shutil
import subprocess
import time

PACKAGES = ["gcc-riscv64-unknown-elf", "picolibc-riscv64-unknown-elf"]

COMPILER = "riscv64-unknown-elf-gcc"
LIBRARY = "/usr/lib/picolibc/riscv64-unknown-elf/picolibc.specs"

# seconds that the installation has in all
INSTALLING = 90


def is_there():
    """Whether the compiler and the library are there."""
    return shutil.which(COMPILER) is not None and os.path.exists(LIBRARY)


def install():
    """Installs the packages. Returns why that can't be done, or None."""
    if not shutil.which("apt-get"):
        return "there is no apt-get"
    if os.geteuid() != 0:
        return "that is for root alone"
    end = time.monotonic() + INSTALLING
    environment = dict(os.environ, DEBIAN_FRONTEND="noninteractive")
    # Without a network each address is given up soon.
    quick = ["-o", "DPkg::Lock::Timeout=20", "-o", "Acquire::Retries=0", "-o", "Acquire::http::Timeout=10"]
    get = ["apt-get", "-q", "-y", *quick]
    fetch = [*get, "--no-install-recommends", "--download-only", "install", *PACKAGES]
    # What is fetched first takes little time to unpack, so the limit rarely stops dpkg at its work.
    steps = [fetch, [*get, "update"], fetch, [*get, "--no-install-recommends", "install", *PACKAGES]]
    fetched = False
    for step in steps:
        if fetched and step is not steps[-1]:
            continue
        try:
            left = max(1.0, end - time.monotonic())
            run = subprocess.run(step, stdin=subprocess.DEVNULL, capture_output=True, timeout=left, env=environment)
        except subprocess.TimeoutExpired:
            return f"it took more than {INSTALLING} s"
        fetched = fetched or step is fetch and run.returncode == 0
        if step is steps[-1] and run.returncode != 0:
            return f"apt-get ended with {run.returncode}"
    return None


def lacking(may_install):
    """Why nothing can be compiled, or None. Where it may, it installs the packages first."""
    why_not = install() if may_install and not is_there() else None
    if is_there():
        return None
    return f"{COMPILER} with picolibc isn't there" + (f"; installing it: {why_not}" if why_not else "")

"""Sessions of Debian's gdb-multiarch: whether it is there, its installation, and what it prints for each of its commands.
examples/run-walk and tests/checks/gdb use it."""

import os
import re
import shutil
import subprocess

# Debian's package, and how the version begins that the sessions are of
PACKAGE, VERSION = "gdb-multiarch", "13."

# seconds that a session has, and that each part of the installation has
LONGEST, INSTALLING = 120, 180

# lines of gdb's by which it prints the same on any terminal
PLAIN = ["set pagination off", "set confirm off", "set style enabled off"]

MARK = "== session, command %d"


def version_of(package):
    """Returns the version of a package that is installed, or nothing."""
    if not shutil.which("dpkg-query"):
        return ""
    done = subprocess.run(["dpkg-query", "-W", "-f", "${Version}", package], capture_output=True, text=True, check=False)
    return done.stdout if done.returncode == 0 else ""


def install():
    """Installs the package if it isn't there, and if that can be done."""
    quick = ["-o", "DPkg::Lock::Timeout=20", "-o", "Acquire::Retries=0", "-o", "Acquire::http::Timeout=10"]
    steps = (["update"], ["install", "-y", "--no-install-recommends", PACKAGE])
    for words in () if version_of(PACKAGE) else steps:
        try:
            subprocess.run(["apt-get", "-q", *quick, *words], capture_output=True, check=False, timeout=INSTALLING)
        except (OSError, subprocess.TimeoutExpired):
            return


def lacking():
    """What stands against a session, or nothing."""
    found = version_of(PACKAGE)
    if not found:
        return f"{PACKAGE} isn't installed: apt-get install {PACKAGE}"
    if not found.startswith(VERSION):
        return f"{PACKAGE} is {found}, and the sessions are of {VERSION}"
    return ""


def told(words, before, commands, **how):
    """Runs gdb by these words and its first lines, and returns what it prints at its start and for each command."""
    lines = list(before)
    for number, command in enumerate(commands):
        lines += [f"echo \\n{MARK % number}\\n", command]
    lines.append(f"echo \\n{MARK % len(commands)}\\n")
    # gdb ends a file of commands at the first that fails: by standard input it goes on
    given = "".join(line + "\n" for line in lines).encode()
    # where this is set gdb asks whether it may look for more on the net
    how["env"] = {**how.get("env", os.environ), "DEBUGINFOD_URLS": ""}
    done = subprocess.run(words, input=given, stdout=subprocess.PIPE, stderr=subprocess.STDOUT, timeout=LONGEST, **how)
    text = done.stdout.decode(errors="replace").replace("(gdb) ", "")
    head, _, text = text.partition("\n" + MARK % 0 + "\n")
    parts = []
    for number in range(1, len(commands) + 1):
        part, found, text = text.partition("\n" + MARK % number + "\n")
        parts.append(part if found else part + "gdb ended\n")
    return [head, *parts]

"""Debian packages and a network of its own, where a test needs them. Where they can't be had the test is skipped, which it
says loudly, with a status of its own."""

import os
import shutil
import signal
import subprocess
import sys

SKIPPED = 77
# slapd and glusterd stand in a folder that isn't on everybody's path.
PATH = os.environ.get("PATH", os.defpath) + ":/usr/sbin:/sbin"


def skip(why):
    print(f"SKIPPED: {why}; nothing of it was tested", file=sys.stderr)
    sys.exit(SKIPPED)


def need(packages):
    """The paths of these programs, each with the package that has it, which is installed where it isn't there."""
    missing = [package for program, package in packages.items() if shutil.which(program, path=PATH) is None]
    if missing:
        print(f"installing {' '.join(missing)}", file=sys.stderr)
        # (no server is started by its installation)
        how = {"env": os.environ | {"DEBIAN_FRONTEND": "noninteractive", "RUNLEVEL": "1"}, "stdout": subprocess.DEVNULL}
        install = ["apt-get", "install", "-y", "-qq", "--no-install-recommends", *missing]
        for words in (["apt-get", "update", "-qq"], install):
            try:
                subprocess.run(words, check=True, **how)
            except (OSError, subprocess.CalledProcessError) as error:
                skip(f"{' '.join(missing)} can't be installed ({error})")
    found = {program: shutil.which(program, path=PATH) for program in packages}
    for program, path in found.items():
        if path is None:
            skip(f"{program} isn't there")
    return found


def alone():
    """Has this process run in a network of its own, where no other service has the port and nobody else is asked, with file
    systems and processes of its own, which are gone when it ends. It starts itself again there, and comes back in that
    process alone."""
    if os.environ.get("ALONE") == "yes":
        subprocess.run(["ip", "link", "set", "lo", "up"], check=True)
        return
    if shutil.which("unshare") is None or shutil.which("ip", path=PATH) is None:
        skip("unshare (util-linux) or ip (iproute2) isn't there")
    apart = ["--net", "--mount", "--pid", "--mount-proc", "--fork", "--kill-child"]
    # (the shell is the first process there, and takes leave of those that nobody waits for)
    words = ["unshare", *apart, "sh", "-c", '"$@"; exit $?', "sh", sys.executable, *sys.argv]
    # (`unshare` heeds no other signal than the one that can't be put off, which this call sends as it is left)
    signal.signal(signal.SIGTERM, lambda *_: sys.exit(143))
    run = subprocess.run(words, env=os.environ | {"ALONE": "yes", "PATH": PATH}, check=False)
    if run.returncode == 1 and os.geteuid() != 0:
        skip("a network of its own can't be had without rights of the system's administrator")
    sys.exit(run.returncode)

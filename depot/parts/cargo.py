"""The depot's two programs, built with cargo (std only, nothing is fetched)."""
import os
import subprocess

from .places import DEPOT


def build(package, target, *flags, **variables):
    folder = os.path.join(DEPOT, package)
    target = os.path.join(folder, "target", target)
    environment = dict(os.environ, **variables)
    command = ["cargo", "build", "--quiet", "--release", "--offline", "--target-dir", target, *flags]
    if subprocess.run(command, cwd=folder, env=environment, check=False).returncode:
        raise SystemExit("depot: cargo could not build depot/%s" % package)
    return os.path.join(target, "release", package)


def peer(wrong):
    """The usbredir peer: with the archive of COLLECTOR_LIB_DIR (or ../crates/capi/out), or with a wrong device."""
    if wrong:
        return build("peer", "wrong", "--features", "wrong")
    archive = os.path.abspath(os.environ.get("COLLECTOR_LIB_DIR") or os.path.join(os.path.dirname(DEPOT), "crates", "capi", "out"))
    if not os.path.exists(os.path.join(archive, "libcapi.a")):
        raise SystemExit("depot: no libcapi.a in %s: make it with 'cd crates/capi && rt lib --cpu x86-64' (COLLECTOR_LIB_DIR names another folder)" % archive)
    return build("peer", "archive", COLLECTOR_LIB_DIR=archive)


def probe():
    """What runs in the guest."""
    return build("probe", "guest")

"""How many processors this process may use: those that it may run on, or fewer where its control group has a quota.

usage: python3 tools/base/processors.py      prints the number
"""

import os
import pathlib
import sys

# Where a control group has its quota, by the controllers in its line of /proc/self/cgroup: a line of the second version
# names none.
SECOND = ("sys/fs/cgroup", "sys/fs/cgroup/unified")
FIRST = ("sys/fs/cgroup/cpu", "sys/fs/cgroup/cpu,cpuacct")
CONTROLLER = "cpu"


def text_of(path):
    """The text of a file, or an empty text where there is none."""
    try:
        return path.read_text(encoding="utf-8")
    except OSError:
        return ""


def groups(root):
    """The folders of this process's control groups and of those above them: each has a quota of its own."""
    for line in text_of(root / "proc/self/cgroup").splitlines():
        _, controllers, path = line.split(":", 2)
        mounts = FIRST if CONTROLLER in controllers.split(",") else () if controllers else SECOND
        # In a namespace of its own, a group that lies elsewhere is shown by a path with two dots.
        within = pathlib.PurePosixPath(*[it for it in path.split("/") if it not in ("", "..")])
        yield from (root / mount / it for mount in mounts for it in (within, *within.parents))


def quota_of(group):
    """How many processors a group's quota is worth, or None where it has none."""
    words = text_of(group / "cpu.max").split()
    if not words:
        words = f"{text_of(group / 'cpu.cfs_quota_us')} {text_of(group / 'cpu.cfs_period_us')}".split()
    has_quota = len(words) == 2 and all(it.isdecimal() for it in words) and int(words[1]) > 0
    return int(words[0]) / int(words[1]) if has_quota else None


def usable(root="/"):
    """How many processors this process can keep at work, at least one: of one and a half by a quota, one."""
    quotas = [it for it in map(quota_of, groups(pathlib.Path(root))) if it is not None]
    return max(1, min([len(os.sched_getaffinity(0)), *map(int, quotas)]))


if __name__ == "__main__":
    if len(sys.argv) > 1:
        sys.exit(__doc__)
    print(usable())

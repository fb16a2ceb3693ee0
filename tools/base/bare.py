"""A path with nothing but what a bare Debian has, and Python 3 and a C compiler: for tests that must need no more."""

import pathlib
import shutil
import sys

# The programs of the packages that no Debian lacks, as far as tests may use them, and those that gcc brings along.
PLAIN = """\
awk basename bash cat chmod chown cksum cmp comm cp csplit cut date dd df diff dirname du echo egrep env expand expr
false fgrep find flock fmt fold getconf getopt grep groups gunzip gzip head hostname id install ionice join kill ldd
link ln locale login logname ls mawk md5sum mkdir mkfifo mknod mktemp more mount mv nice nl nohup nproc numfmt od paste
perl pidof pr printenv printf prlimit pwd readlink realpath rev rm rmdir runuser sed seq setpriv setsid sh sha1sum
sha256sum shred shuf sleep sort split stat stdbuf stty su sum sync tac tail tar taskset tee test timeout touch tr true
truncate tsort tty umount uname unexpand uniq unlink unshare wc which whoami xargs yes zcat
"""
COMPILER = "ar as c++filt cc cpp gcc ld ld.bfd nm objcopy objdump ranlib readelf size strings strip"


def laid_out(folder, *others):
    """Makes a folder the path: it gets links to the plain programs, and to others that are here; gives it as a text."""
    folder = pathlib.Path(folder)
    folder.mkdir(exist_ok=True)
    for name in (*PLAIN.split(), *COMPILER.split(), *others):
        found = shutil.which(name)
        if found:
            (folder / name).symlink_to(found)
    # What is called python3 may be a script that looks for the program on a path of its own.
    (folder / "python3").symlink_to(sys.executable)
    return str(folder)

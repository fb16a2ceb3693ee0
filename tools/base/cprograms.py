"""Programs that were never told, with a heap of the library as their malloc: their outputs and times beside others'."""

import dataclasses
import hashlib
import json
import os
import random
import re
import shutil
import subprocess
import sys
import tempfile
import time

import clib
import ctests
import pace

SEED = 17
# The seconds of a processor that a program may take.
MOST = 600
TOLD = re.compile(rb"malloc_shim: (\d+) claims[^\n]*\n")
# What stands in for malloc in each column. Nothing does in the first.
CHECKED = "checked"
HEAPS = {"glibc": None, "with a map": [], "proved": ["-DSHIM_WALKS"], "plain C": ["-DSHIM_PLAIN"],
         CHECKED: ["-DVF_CHECKED"]}

LUA = """
local words, keys = {}, {}
for line in io.lines() do for w in line:gmatch("%a+") do words[w] = (words[w] or 0) + 1 end end
for k, v in pairs(words) do keys[#keys + 1] = k .. "=" .. v end
table.sort(keys)
print(#keys, table.concat(keys, " "))
"""
PERL_COUNT = "for (split) { $n{$_}++ } END { print map { qq($_ $n{$_}\\n) } sort keys %n }"
PERL_LINES = "push @l, join(q( ), reverse split); END { print map { qq($_\\n) } sort @l }"
PYTHON_JSON = """
import json, sys
rows = json.load(sys.stdin)
print(json.dumps(sorted(rows, key=lambda it: (it["kind"], -it["size"]))[:40], indent=1, sort_keys=True))
"""
PYTHON_WORDS = """
import collections, re, sys
print(collections.Counter(re.findall("[a-z]+", sys.stdin.read())).most_common(50))
"""
TCL = """
while {[gets stdin line] >= 0} { foreach word [split $line] { dict incr count $word } }
foreach word [lsort [dict keys $count]] { puts "$word [dict get $count $word]" }
"""
AWK = "{ for (i = 1; i <= NF; i++) n[$i]++ } END { for (w in n) print n[w], w | \"sort\" }"
BC = "scale=120\n4*a(1)\ne(1)\ndefine f(n) { if (n<2) return (1); return (n*f(n-1)); }\nf(200)\n2^3000 % 1000000007\n"


@dataclasses.dataclass(frozen=True)
class Run:
    """A program with its words, and the file that it reads as its input.

    One with many claims over many live blocks isn't run with checked calls, which walk over all of them each time.
    """

    what: str
    words: tuple
    stdin: str
    is_checked: bool = True


RUNS = [
    Run("sqlite3, a table in memory", ("sqlite3", ":memory:"), "script.sql"),
    Run("sqlite3, a table in a file", ("sqlite3", "rows.db"), "script.sql"),
    Run("jq, objects grouped", ("jq", "-c", "group_by(.kind)|map({k:.[0].kind,n:length})"), "rows.json"),
    Run("jq, objects sorted", ("jq", "-c", "sort_by(.size)|map(.name)|unique"), "rows.json"),
    Run("bc, digits", ("bc", "-lq"), "digits.bc"),
    Run("mawk, words counted", ("mawk", AWK), "words.txt"),
    Run("perl, words counted", ("perl", "-ne", PERL_COUNT), "words.txt"),
    Run("perl, lines turned and sorted", ("perl", "-ne", PERL_LINES), "words.txt"),
    Run("lua5.4, words counted", ("lua5.4", "words.lua"), "words.txt"),
    Run("tclsh, words counted", ("tclsh", "words.tcl"), "words.txt"),
    Run("python3, JSON", ("python3", "-S", "-c", PYTHON_JSON), "rows.json", is_checked=False),
    Run("python3, words counted", ("python3", "-S", "-c", PYTHON_WORDS), "words.txt", is_checked=False),
    Run("xmllint, a tree indented", ("xmllint", "--format", "-"), "rows.xml"),
    Run("sort", ("sort", "-k2"), "words.txt"),
    Run("sed, words turned", ("sed", "-E", "s/([a-z]+) ([a-z]+)/\\2 \\1/g"), "words.txt"),
    Run("grep, words found", ("grep", "-oE", "[a-m]+[aeiou][n-z]+"), "words.txt"),
    Run("gzip", ("gzip", "-nc"), "words.txt"),
    Run("bzip2", ("bzip2", "-c"), "words.txt"),
    Run("xz", ("xz", "-1", "-T1", "-c"), "words.txt"),
    Run("zstd", ("zstd", "-qc", "--single-thread"), "words.txt"),
    Run("openssl, a digest", ("openssl", "dgst", "-sha256"), "rows.json"),
    Run("diff, a file and its sorted lines", ("sh", "-c", "sort words.txt | diff - words.txt | cksum"), "words.txt"),
    Run("ed, lines moved", ("ed", "-s", "words.txt"), "script.ed"),
    Run("make, rules printed", ("make", "-n", "-f", "-"), "rules.mk", is_checked=False),
]


def write_inputs(folder):
    """Writes what the programs read: random, and the same in each run."""
    chance = random.Random(SEED)
    words = ["".join(chance.choices("abcdefghijklmnopqrstuvwxyz", k=chance.randint(2, 9))) for _ in range(1500)]
    rows = [{"name": chance.choice(words), "kind": chance.choice(words[:40]), "size": chance.randint(1, 9999)}
            for _ in range(1200)]
    inserts = [f"insert into t values('{it['name']}', '{it['kind']}', {it['size']});" for it in rows]
    asks = ["select kind, count(*), sum(size) from t group by kind order by 1;", "select max(name), min(size) from t;",
            "delete from t where size % 3 = 0; update t set name = upper(name) where size % 5 = 1;",
            "select group_concat(name, ',') from (select name from t order by size, name);"]
    texts = {
        "words.txt": "\n".join(" ".join(chance.choices(words, k=8)) for _ in range(2500)) + "\n",
        "rows.json": json.dumps(rows),
        "rows.xml": "<rows>" + "".join(f"<{it['kind']} size='{it['size']}'>{it['name']}</{it['kind']}>" for it in rows)
                    + "</rows>",
        "script.sql": "\n".join(["create table t(name text, kind text, size int); create index i on t(size); begin;",
                                 *inserts, "commit;", *asks]) + "\n",
        "digits.bc": BC,
        "words.lua": LUA,
        "words.tcl": TCL,
        "script.ed": "\n".join(f"{i}m0" for i in range(2, 400)) + "\n1,200p\nQ\n",
        "rules.mk": "all: " + " ".join(f"t{i}" for i in range(300)) + "\n"
                    + "".join(f"t{i}: x{i}\n\t@echo {words[i]}\nx{i}:\n" for i in range(300)),
    }
    for name, text in texts.items():
        with open(f"{folder}/{name}", "w", encoding="utf-8") as it:
            it.write(text)


def installed(word):
    """Where a program is, past any script that stands for it; nothing where it isn't there."""
    found = shutil.which(word)
    if found and word.startswith("python"):
        found = subprocess.run([found, "-c", "import sys; print(sys.executable)"], capture_output=True, text=True,
                               check=True).stdout.strip()
        found = os.path.realpath(found)
    return found


@dataclasses.dataclass
class Given:
    """What a run gave: a sum of its output with its status, its seconds of user time, and how often it claimed."""

    output: str
    seconds: float
    claims: str


def ran(run, preloaded, folder):
    """Runs a program in a folder of its own, over what is preloaded, if anything is."""
    how = dict(os.environ, PYTHONMALLOC="malloc", PYTHONHASHSEED="0", PERL_HASH_SEED="0", LC_ALL="C", SHIM_TELLS="1")
    if preloaded:
        how["LD_PRELOAD"] = preloaded
    with tempfile.TemporaryDirectory(dir=folder) as here:
        write_inputs(here)
        with open(f"{here}/{run.stdin}", "rb") as stdin:
            words = [installed(run.words[0]), *run.words[1:]]
            before, start = os.times().children_user, time.monotonic()
            done = pace.run(words, MOST, stdin=stdin, capture_output=True, cwd=here, env=how)
            seconds = os.times().children_user - before
    told = TOLD.findall(done.stderr)
    errors = TOLD.sub(b"", done.stderr)
    output = hashlib.sha256(done.stdout + errors + bytes([done.returncode % 256])).hexdigest()
    return Given(output, min(seconds, time.monotonic() - start), told[-1].decode() if told else "")


def row(run, shims, folder):
    """The table's row of one program, and whether its output was the same everywhere."""
    given = {heap: ran(run, made, folder) for heap, made in shims.items() if run.is_checked or heap != CHECKED}
    same = len({it.output for it in given.values()}) == 1
    seconds = [f"{given[heap].seconds:.2f}" if heap in given else "" for heap in HEAPS]
    cells = [run.what, given["proved"].claims, *seconds, "same" if same else "DIFFERS"]
    return f"| {' | '.join(cells)} |", same


def run(top):
    """Runs all programs that are installed over each heap, prints the table, and gives the exit status."""
    status = clib.make(top)
    if status:
        return status
    there = [it for it in RUNS if installed(it.words[0])]
    missing = sorted({it.words[0] for it in RUNS} - {it.words[0] for it in there})
    with tempfile.TemporaryDirectory(prefix="programs-") as folder:
        suite = ctests.Suite(top, f"{top}/{clib.FOLDER}", folder)
        shims = {heap: f"{folder}/{heap.replace(' ', '-')}.so" if flags is not None else None
                 for heap, flags in HEAPS.items()}
        for heap, made in shims.items():
            if made and not ctests.shim(suite, made, HEAPS[heap]):
                print("\n".join(suite.wrong), file=sys.stderr)
                return 1
        print(f"| Program | Claims | {' | '.join(HEAPS)} | Output |\n|---|---|{'---|' * len(HEAPS)}---|", flush=True)
        same = []
        for it in there:
            line, is_same = row(it, shims, folder)
            same.append(is_same)
            print(line, flush=True)
    print(f"clib: {len(there)} programs, {same.count(True)} with the same output over each heap"
          + (f"; not installed: {', '.join(missing)}" if missing else ""))
    return 0 if all(same) else 1

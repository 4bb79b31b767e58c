"""usage: check.py FOLDER PROGRAM: compares `run` of the module in the folder with the program: status
and both texts."""

import pathlib
import subprocess
import sys

folder, program = map(pathlib.Path, sys.argv[1:])
sys.path.insert(0, str(folder))
import ppsim  # noqa: E402

EXAMPLES = pathlib.Path(__file__).resolve().parents[2] / "crates/pages/data/examples"
ORDER = "--order 1:40,0:3,11,2:2,1"
PLAIN = ["list", "lint", "ends --turns 300", "orders --states 300", "test --turns 300"]
RUNS = ["barrel --turns 300", "dump --turns 300", "state --turns 123", "test --turns 123",
        "memory --turns 300 --pp 1 --first 76 --last 210", "central --turns 300 --first 11",
        "sessions --turns 300", "sessions --words --turns 300", "races --turns 300",
        "steps --turns 5000", "steps --turns 90 --pp 1,3 --from 30 --to 80", "steps --turns 300 --ch 5",
        "draw --turns 90 --from 30"]
UNTIL = ["PP00 P=0105", "PP01 (0300)", "PP01 STOPPED", "PP02 FAULT", "PP01 HELD", "CM 20", "CH05",
         "CH05 PUT 7", "CH01 DCN", "LOST", "QUIET"]
REFUSED = ["", "barrels", "barrel", "list --turns 1", "barrel --turns", "barrel --turns 1 --turns 1",
           "barrel --turns 1000000", "barrel --turns -1", "barrel --turns x", "barrel -t 1",
           "barrel --turns 1 --processors 11", "orders --states 0", "draw --turns 2001",
           "steps --turns 1 --pp 12", "memory --turns 1 --pp 0 --first 5 --last 4",
           "central --turns 1 --last 400000", "barrel --turns 1 --until CH5=3", "list - -",
           "barrel --turns 1 --times 2", "barrel --turns 1 --order 12", "barrel --turns 1 --order 0,",
           "barrel --turns 1 --order 0:1000000", "check --opened 1,99", "sessions --words=1 --turns 1"]
SLIPS = ["bogus", "barel --turns 1", "te", "-- barrel", "-- barel", "--", "-x", "--hel", "--turns 1 barrel",
         "--help=1", "barrel --tur 1", "barrel - --bogus=1", "barrel --turns -x", "barrel --turns --bogus",
         "barrel --order 0 --order 1 --bogus", "barrel --turns 1 --turns 2 -- x", "list - --help=1",
         "sessions --words --words", "sessions --order 0 --words=", "barrel -- --turns 1", "help bogus",
         "help list x", "help help x"]
HELP = ["help", "--help", "-h", "-hx", "--version", "-V", "help help"]
OTHERS = ["threads --steps 1 --patience 1", "list handoff.deck", "list -- --help"]
differ = same = 0


def expect(is_so, words, *shown):
    global differ, same
    if is_so:
        same += 1
    else:
        differ += 1
        print("differs:", words, *shown)


def compare(words, given):
    mine = ppsim.run(words, given)
    it = subprocess.run(["ppsim", *words], executable=program, input=given, capture_output=True)
    its = ppsim.Result(it.returncode, it.stdout.decode(), it.stderr.decode())
    expect(mine == its, words, mine, its)


for path in sorted(EXAMPLES.glob("*.deck")):
    deck = path.read_bytes()
    for more in ([], ["--processors", "20"]):
        for line in PLAIN + RUNS:
            compare([*line.split(), *more], deck)
        for line in RUNS:
            compare([*line.split(), *ORDER.split(), *more], deck)
        for condition in UNTIL:
            compare(["state", "--turns", "300", f"--until={condition}", "--times=2", *more], deck)
            compare(["steps", "--turns", "300", "--where", condition, *more, "-"], deck)
for path in sorted(EXAMPLES.glob("*.text")):
    for line in ["check", "check --opened 1,13"]:
        compare(line.split(), path.read_bytes())
some = (EXAMPLES / "handoff.deck").read_bytes()
for line in REFUSED + SLIPS + HELP:
    compare(line.split(), some)
for name in [*{line.split()[0] for line in PLAIN + RUNS}, "threads", "check"]:
    for words in (["help", name], [name, "--help"], [name, "-h"], [name, "--processors", "20", "-h"]):
        compare(words, some)
compare([""], some)
compare(["state", "--turns", "1", "--order", ""], some)
compare(["list", "\udcff"], some)
compare(["list"], "PP 0\n0100 \u00e9".encode())
compare(["list"], b" " * 1048577)
for line in OTHERS:  # the program's own: it has threads and files
    it = ppsim.run(line.split(), some)
    expect(it.status == 2 and not it.output and it.error.startswith("ppsim: "), line, it)
print(f"module and program: {same} the same, {differ} differ")
sys.exit(1 if differ else 0)

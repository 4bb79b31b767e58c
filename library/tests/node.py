"""usage: node.py PROGRAM: compares `node ppsim.mjs` with the program, on an example for each command,
on what is refused and on help: status and both texts."""

import pathlib
import subprocess
import sys

TOP = pathlib.Path(__file__).resolve().parents[2]
EXAMPLES = TOP / "crates/pages/data/examples"
NODE = ["node", "--no-warnings", "--experimental-wasm-memory64", TOP / "ppsim.mjs"]
CALLS = {
    "token_ring": ["barrel --turns 300", "steps --turns 999999", "draw --turns 300", "list", "lint",
                   "state --turns 100 --order 3:5,1", "state --turns 999 --until QUIET", "ends --turns 999",
                   "sessions --turns 300 --words", "memory --turns 300 --pp 3"],
    "central_copy": ["central --turns 200", "dump --turns 200", "races --turns 200", "barrel --turns 1 -"],
    "two_takers": ["orders --states 100", "test --turns 100"],
    "far_processors": ["barrel --turns 80", "barrel --turns 80 --processors 20"],
    "handoff": ["dump --turns 40", "barrel", "barrel --turns x", "steps --turns 1 --order ,", "nothing"],
    "handoff.text": ["check", "check --opened 5", "", "help", "-V", "list --help", "barrel -h", "barel",
                     "barrel --tur 5", "-- list"],
}
OTHERS = ["threads --steps 1 --patience 1", "list handoff.deck"]


def answer(command, words, given):
    it = subprocess.run([*command, *words.split()], input=given, capture_output=True, cwd=EXAMPLES)
    return it.returncode, it.stdout, it.stderr


def main():
    program, differ = pathlib.Path(sys.argv[1]).resolve(), 0
    for name, lines in CALLS.items():
        given = (EXAMPLES / (name if "." in name else f"{name}.deck")).read_bytes()
        for words in lines:
            if answer(NODE, words, given) != answer([program], words, given):
                print(f"differs: {words} < {name}: {answer(NODE, words, given)}")
                differ += 1
    for words in OTHERS:
        if answer(NODE, words, b"")[:2] != (2, b""):
            print(f"not refused: {words}: {answer(NODE, words, b'')}")
            differ += 1
    print(f"node and program: {differ} differ of {sum(map(len, CALLS.values())) + len(OTHERS)}")
    return 1 if differ else 0


if __name__ == "__main__":
    sys.exit(main())

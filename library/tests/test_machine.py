"""Tests of `Machine` on the examples: pytest library, with PPSIM_LIBRARY=.../libppsim.so."""

import pathlib
import re
from collections.abc import Callable

import pytest

import ppsim

EXAMPLES = pathlib.Path(__file__).resolve().parents[2] / "crates/pages/data/examples"
DECKS = {path.stem: path.read_text() for path in sorted(EXAMPLES.glob("*.deck"))}
FOR_TWENTY = ["far_processors", "relay"]
HANDOFF, TAKERS = DECKS["handoff"], DECKS["two_takers"]


def machine(name: str, turns: int = 0) -> ppsim.Machine:
    made = ppsim.Machine(DECKS[name], 20 if name in FOR_TWENTY else 10)
    made.turns(turns)
    return made


def barrel_text(m: ppsim.Machine) -> str:
    """The text of `barrel`, from the records."""
    lines = [f"{e.turn:06} PP{e.processor:02o} CH{e.channel:02o} {e.kind}"
             + ("" if e.word is None else f" {e.word:04o}") for e in m.events()]
    named = {int(it, 8) for it in re.findall(r"(?m)^\s*PP (\d+)", str(m.deck))}
    lines += [f"PP{n:02o} P={it.p:04o} A={it.a:06o} {it.state}" for n, it in m.pp.items() if n in named]
    used = {int(it, 8) for it in re.findall(r"(?m)^CH(\d\d)", m.view("barrel"))}
    for n, it in m.channels.items():
        full = "EMPTY" if it.word is None else f"FULL {it.word:04o}"
        if n in used | {e.channel for e in m.events()}:
            lines.append(f"CH{n:02o} " + (f"ACTIVE {full}" if it.active else "INACTIVE"))
        else:
            assert it == ppsim.Channel(False, False, None)
        assert it.full == (it.word is not None)
    return "".join(f"{line}\n" for line in lines)


def words_by(m: ppsim.Machine, text: str) -> dict[object, int]:
    """The words that a listing, or the text of `state`, has: by processor and place, or by address."""
    found: dict[object, int] = {}
    processor = 0
    for line in text.splitlines():
        fields = line.split("*")[0].split()
        if fields[0] == "PP":
            processor = int(fields[1], 8)
        elif fields[0] == "CM":
            found[int(fields[1], 8)] = int(fields[2], 8)
        elif re.match(r"\d{4} ", line):
            for n, word in enumerate(fields[1:]):
                found[processor, int(fields[0], 8) + n] = int(word, 8)
    return found


@pytest.mark.parametrize("name", DECKS)
@pytest.mark.parametrize("turns", [0, 37, 300])
def test_records_are_the_texts(name: str, turns: int) -> None:
    m = machine(name, turns)
    assert barrel_text(m) == m.view("barrel")
    words = ["barrel", "--turns", str(turns), "--processors", str(m.processors)]
    assert ppsim.run(words, DECKS[name]) == (0, m.view("barrel"), "")


@pytest.mark.parametrize("name", DECKS)
def test_words_are_those_loaded_and_changed(name: str) -> None:
    m = machine(name, 300)
    size = ["--processors", str(m.processors)]
    expected = words_by(m, ppsim.run(["list", *size], DECKS[name]).output)
    expected |= words_by(m, m.view("state"))
    shown: dict[object, int] = {(n, place): word for n in m.pp for place, word in m.memory(n).items()}
    shown |= {address: word for address, word in m.central.items()}
    assert shown == {it: word for it, word in expected.items() if word}


@pytest.mark.parametrize("name", DECKS)
def test_an_order_leads_to_the_same(name: str) -> None:
    m = machine(name, 23)
    m.step(1, 5)
    m.turns(14)
    m.turns(30)
    n = ppsim.Machine(m.deck, m.processors, m.order)
    assert m.turn == n.turn == 72 and m.order == n.order
    assert not ppsim.diff(m, n) and m.view("barrel") == n.view("barrel")
    n.step(0, 3)
    n.back(3)
    assert not ppsim.diff(m, n)
    m.back(72)
    assert m.order == "" and not ppsim.diff(m, machine(name))


def test_where_turns_go_on() -> None:
    m = machine("handoff", 5)
    m.turns(3)
    assert m.order == "0,1,2,3,4,5,6,7"
    m.step(0o11, 2)
    m.turns(1)
    assert m.order == "0,1,2,3,4,5,6,7,11:2,0"
    m.back(2)
    m.step(0o11)
    assert m.order == "0,1,2,3,4,5,6,7,11:2"
    m.back(2)
    m.turns(4)
    assert m.order == "0,1,2,3,4,5,6,7,10,11,0,1"
    m = ppsim.Machine(HANDOFF, 20)
    m.turns(12)
    assert m.order == "0,1,2,3,4,5,6,7,10,11,20,21"


def test_conditions() -> None:
    m = machine("handoff")
    assert m.until("CH05 PUT") and m.turn == 21 and m.channels[5] == (True, True, 7)
    assert not m.until("CH05 PUT", most=5000) and m.turn == 21
    assert m.until("PP01 STOPPED") and m.turn == 32 and m.pp[1].state == "STOPPED"
    m.back(11)
    assert m.until("CH05") and m.events()[-1] == (21, 1, 5, "TAK", 7)
    m = machine("handoff")
    for turn in (2, 12):
        assert m.until("PP01 HELD") and m.turn == turn and m.pp[1].held_by == 5
    m.back(m.turn)
    m.step(0, 4)
    assert m.until("CH05 TAK") and m.order == "0:5,1"


def test_endings() -> None:
    start = ppsim.Machine(TAKERS)
    are_all, found = start.endings()
    assert are_all and sorted(it.machine.pp[1].a for it in found) == [0o11, 0o22]
    assert all(not it.goes_on and it.machine.turn == 10 for it in found)
    what = {it.what for it in ppsim.diff(found[0].machine, found[1].machine)}
    assert what == {"PP01 A", "PP02 A"}
    assert not start.endings(3).are_all
    looping = "PP 0\n0100 2400 0376\nSTART 0100\n"
    assert [it.goes_on for it in ppsim.Machine(looping).endings().found] == [{0}]


def test_differences_and_copies() -> None:
    m = machine("handoff", 21)
    n = m.copy()
    n.turns(11)
    assert (m.turn, n.turn) == (21, 32)
    assert ppsim.Difference("CH05", "ACTIVE FULL 0007", "ACTIVE EMPTY") in ppsim.diff(m, n)
    assert ppsim.Difference("PP01 A", "000000", "000007") in ppsim.diff(m, n)
    m = machine("central_copy", 300)
    changes = ppsim.diff(machine("central_copy"), m)
    assert ppsim.Difference("CM 000020", "0" * 20, "00010002000300040005") in changes
    assert m.central[0o20] == 0o00010002000300040005 and m.central[0o5] == 0
    with pytest.raises(ValueError):
        ppsim.diff(m, ppsim.Machine(HANDOFF, 20))


def test_dead_start_and_faults() -> None:
    m = ppsim.Machine("DEAD", 20)
    assert m.pp[0o31] == (0, 0o10000, "RUNNING", "IAM 31 BLOCK 0000", 0o31)
    assert len(m.channels) == 24 and m.channels[0o31].active and not m.channels[0o32].active
    m = machine("fault_codes", 30)
    assert [m.pp[n].state for n in range(4)] == ["FAULT 1", "FAULT 2", "FAULT 3", "STOPPED"]


def test_refusals() -> None:
    with pytest.raises(ppsim.Fault) as caught:
        ppsim.Machine("PP 0\n0100 9")
    assert (caught.value.status, caught.value.words) == (1, "deck fault 4 at line 2")
    m = machine("handoff", 999_999)
    assert m.pp[1].state == "STOPPED"
    wrong: list[Callable[[], object]] = [
        lambda: m.turns(1), lambda: m.step(1), lambda: m.step(0o12, 0), lambda: m.turns(-1),
        lambda: m.back(-1), lambda: m.back(1_000_000), lambda: ppsim.Machine("", order="8")]
    for call in wrong:
        with pytest.raises(ValueError):
            call()
    refused: list[Callable[[], object]] = [
        lambda: ppsim.Machine("", 11), lambda: m.until("CH05 GET"), lambda: m.memory(0o12),
        lambda: m.endings(0), lambda: m.view("threads"), lambda: m.view("state", "deck")]
    for call in refused:
        with pytest.raises(ppsim.Fault) as caught:
            call()
        assert caught.value.status == 2
    assert m.turn == 999_999 and m.view("state").startswith("PP00 P=0103")


def test_bytes_and_long_texts() -> None:
    assert ppsim.Machine(HANDOFF.encode()).view("barrel") == machine("handoff").view("barrel")
    long = ppsim.run(["steps", "--turns", "90000"], "PP 0\n0100 2400 0376\nSTART 0100\n")
    assert long.status == 0 and long.output.count("\n") == 9000
    with pytest.raises(ValueError):
        ppsim.run(["list\0"])

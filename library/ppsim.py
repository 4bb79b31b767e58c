"""The simulator of the 6600's peripheral processors, by its library.

`run` answers as the program does. A `Machine` is a deck and the steps made so far: it goes on and
back, and each question is answered by a run of the deck, from an exact text.

>>> import ppsim
>>> m = ppsim.Machine('''PP 0
... 0100 1405 3451 0300    * LDN 5, STD 51, stop
... START 0100
... ''')
>>> m.turns(20)
>>> m.pp[0].a, f"{m.pp[0].p:o}", m.memory(0)[0o51]
(5, '102', 5)
>>> m.back(10)
>>> m.memory(0)[0o51], m.pp[0].state
(0, 'RUNNING')
>>> ppsim.Machine("PP 12")
Traceback (most recent call last):
ppsim.Fault: deck fault 5 at line 1

Processors and channels have the numbers of the printed texts, which are octal: processors 0 to 0o11,
of twenty also 0o20 to 0o31; channels 0 to 0o13, of twenty-four also 0o20 to 0o33.
"""

import copy
import ctypes
import itertools
import os
import pathlib
import re
import threading
from collections.abc import Callable, Mapping, Sequence
from typing import Any, NamedTuple, TypeVar

__all__ = ["Channel", "Difference", "Ending", "Endings", "Event", "Fault", "Machine", "Processor",
           "Result", "Words", "diff", "run"]

_NO_MEMORY, _TOO_LONG = 4, 5
_FIRST_SIZE, _LAST_SIZE = 1 << 20, 1 << 30
_LAST_TURN = 999_999
_Kept = TypeVar("_Kept")


class Result(NamedTuple):
    """What the program answers: its exit status (docs/OUTPUT.md), and its two texts."""

    status: int
    output: str
    error: str


class Fault(Exception):
    """A run was refused: with which exit status of the program, and in which words."""

    def __init__(self, status: int, words: str) -> None:
        super().__init__(words)
        self.status = status
        self.words = words


class _Answer(ctypes.Structure):
    _fields_ = [("status", ctypes.c_uint32), ("output", ctypes.c_uint64), ("error", ctypes.c_uint64)]


class _Memory(ctypes.Structure):
    _fields_ = [("place", ctypes.c_void_p), ("size", ctypes.c_size_t)]


class _Buffers(threading.local):
    """What the calls of a thread work in, and put their texts into."""

    def __init__(self) -> None:
        self.set_sizes(_FIRST_SIZE, 1 << 16)

    def set_sizes(self, memory: int, room: int) -> None:
        self.bytes = ctypes.create_string_buffer(memory + 16)
        place = -(-ctypes.addressof(self.bytes) // 16) * 16
        self.memory = _Memory(place, memory)
        self.room = ctypes.create_string_buffer(room)


def _load() -> Any:
    beside = pathlib.Path(__file__).with_name("libppsim.so")
    path = os.environ.get("PPSIM_LIBRARY", str(beside))
    if not os.path.exists(path):
        raise ImportError(f"there is no {path}: in the repository, `tools/library out/library` builds"
                          " out/library/libppsim.so, to be named in PPSIM_LIBRARY")
    call = ctypes.CDLL(path).ppsim_run
    text = [ctypes.c_char_p, ctypes.c_size_t]
    call.argtypes, call.restype = [ctypes.POINTER(_Memory), *text, *text, *text], _Answer
    return call


_buffers = _Buffers()
_ppsim_run = _load()


def run(words: Sequence[str], deck: str | bytes = "") -> Result:
    """What the program answers to these words behind its own name, over a deck, or for `check` a
    trace, as its standard input; its help too. They may neither name a file nor ask for threads
    (status 2)."""
    if any("\0" in word for word in words):
        raise ValueError("a byte 0 in a word")
    # An empty word alone is passed as two: an empty text has none.
    text = ("\0".join(words) or "\0" * len(words)).encode(errors="surrogateescape")
    given = deck.encode() if isinstance(deck, str) else bytes(deck)
    while True:
        memory, room = _buffers.memory, _buffers.room
        size = memory.size
        answer = _ppsim_run(ctypes.byref(memory), text, len(text), given, len(given), room, len(room))
        if answer.status == _TOO_LONG:
            _buffers.set_sizes(size, answer.output)
        elif answer.status == _NO_MEMORY and size < _LAST_SIZE:
            _buffers.set_sizes(4 * size, len(room))
        else:
            break
    if memory.size != size:  # not given back
        _buffers.set_sizes(size, len(room))
    output, error = (ctypes.string_at(room, length).decode(errors="replace")
                     for length in (answer.output, answer.error))
    return Result(answer.status, output, error)


class Processor(NamedTuple):
    """A processor after a step. `a` has 18 bits, `p` is a place, 0 to 0o7777; the state is RUNNING,
    STOPPED or FAULT n; `does` is the instruction that runs, as `IAN 05` or `IAM 05 BLOCK 0302`;
    `held_by` the channel that holds its next step, or none."""

    p: int
    a: int
    state: str
    does: str
    held_by: int | None = None


class Channel(NamedTuple):
    """A channel after a step, and the word (12 bits) that waits in its register if it is full."""

    active: bool
    full: bool
    word: int | None


class Event(NamedTuple):
    """What happened on a channel in a turn (from 0): ACN, DCN, PUT, TAK or FNC, the last three with
    a word of 12 bits."""

    turn: int
    processor: int
    channel: int
    kind: str
    word: int | None


class Difference(NamedTuple):
    """What differs, and how it stands in the one machine and in the other, as printed (octal)."""

    what: str
    one: str
    other: str


class Words(dict[int, int]):
    """The words that are not 0, by their addresses. Of all others it answers 0."""

    def __missing__(self, address: int) -> int:
        return 0


class Ending(NamedTuple):
    """A machine that stands in an ending, and the processors that go on in it."""

    machine: "Machine"
    goes_on: frozenset[int]


class Endings(NamedTuple):
    """Endings, and whether these are all."""

    are_all: bool
    found: list[Ending]


class Machine:
    """A deck in a machine of 10 or 20 processors, and the steps made so far: none at first, or those
    of an order as `--order` takes it. All numbers are ints; steps are at most 999,999.

    Raises Fault if the deck can't be read, and ValueError for what is no step of this machine. What
    `pp`, `channels`, `central` and `memory` answer is not for changing."""

    def __init__(self, deck: str | bytes, processors: int = 10, order: str = "") -> None:
        self.deck = deck
        self.processors = processors
        self.barrel = [*range(0o12), *range(0o20, 0o32)][:processors]  # in the order of their turns
        self._parts: list[tuple[int | None, int]] = []  # a processor, or the barrel; how many steps
        self._kept: dict[Any, Any] = {}
        self.view("state")
        for part in filter(None, order.split(",")):
            number, _, times = part.partition(":")
            self.step(int(number, 8), int(times or 1))

    # ---- going on and back

    @property
    def turn(self) -> int:
        """The number of the next turn, which is how many steps have been made."""
        return sum(times for _, times in self._parts)

    def step(self, processor: int, times: int = 1) -> None:
        """A processor makes a step, or some."""
        if processor not in self.barrel:
            raise ValueError(f"no processor {processor:o}")
        self._go_on(processor, times)

    def turns(self, count: int) -> None:
        """The barrel goes on for some turns: from where it was, or after `step` from processor 0."""
        self._go_on(None, count)

    def until(self, condition: str, most: int = 100_000) -> bool:
        """The barrel goes on up to the first turn that meets a condition, as CH05 DCN (VIEWS.md,
        Until). False, and nothing is done, if none of so many turns does. A processor that has
        stopped or is at fault meets nothing in its turns."""
        text = self._run(min(most, _LAST_TURN - self.turn), "steps", "--where", condition,
                         "--from", str(self.turn))
        if text:
            self.turns(int(text.split()[0]) + 1 - self.turn)
        return text != ""

    def back(self, n: int = 1) -> None:
        """Takes back the last n steps."""
        if not 0 <= n <= self.turn:
            raise ValueError(f"{n} steps back of {self.turn}")
        self._kept.clear()
        while n:
            processor, times = self._parts.pop()
            if times > n:
                self._parts.append((processor, times - n))
            n -= min(n, times)

    def copy(self) -> "Machine":
        """Another machine that has made the same steps."""
        made = copy.copy(self)
        made._parts, made._kept = [*self._parts], {**self._kept}
        return made

    @property
    def order(self) -> str:
        """The processors of the steps, as `--order` takes them: 0:3,1 (octal, counts decimal)."""
        return self._order_of(self._parts)

    def _go_on(self, processor: int | None, times: int) -> None:
        if not 0 <= times <= _LAST_TURN - self.turn:
            raise ValueError(f"{times} steps after {self.turn}")
        self._kept.clear()
        if self._parts and self._parts[-1][0] == processor:
            times += self._parts.pop()[1]
        if times:
            self._parts.append((processor, times))

    def _order_of(self, parts: list[tuple[int | None, int]]) -> str:
        steps: list[int] = []
        for processor, times in parts:
            own = itertools.cycle(self.barrel if processor is None else [processor])
            steps += itertools.islice(own, times)
        rows = ((number, len(list(group))) for number, group in itertools.groupby(steps))
        return ",".join(f"{number:o}" if times == 1 else f"{number:o}:{times}" for number, times in rows)

    # ---- how things stand

    def view(self, command: str, *options: str) -> str:
        """The text of a command over the run so far, as `view("sessions", "--words")`."""
        words = (command, *options)
        return self._keep(words, lambda: self._run(0, *words))

    @property
    def pp(self) -> Mapping[int, Processor]:
        """The processors, by number."""
        def read() -> dict[int, Processor]:
            rows = re.findall(r"(?m)^PP(\d\d) P=(\d+) A=(\d+) (RUNNING|STOPPED|FAULT \d) (.*?)"
                              r"(?: HELD CH(\d\d) .*)?$", self.view("state"))
            return {it: Processor(0, 0, "STOPPED", "PSN 00") for it in self.barrel} | {
                int(number, 8): Processor(int(p, 8), int(a, 8), state, does, _word_of(held))
                for number, p, a, state, does, held in rows}

        return self._keep("pp", read)

    @property
    def channels(self) -> Mapping[int, Channel]:
        """The channels, by number."""
        def read() -> dict[int, Channel]:
            numbers = [*range(0o14), *range(0o20, 0o34)][:12 if self.processors == 10 else 24]
            rows = re.findall(r"(?m)^CH(\d\d) (\w+) ?(\w*) ?(\d*)$", self.view("state"))
            return {it: Channel(False, False, None) for it in numbers} | {
                int(number, 8): Channel(active == "ACTIVE", full == "FULL", _word_of(word))
                for number, active, full, word in rows}

        return self._keep("channels", read)

    @property
    def central(self) -> Words:
        """The words of central memory (60 bits), by address, 0 to 0o377777; 0 past its size too."""
        def read() -> Words:
            rows = (line.split(None, 2) for line in self.view("central").splitlines())
            return Words({int(row[0], 8): int(row[1], 8) for row in rows})

        return self._keep("central", read)

    def memory(self, processor: int) -> Words:
        """The words of a processor's memory (12 bits), by place, 0 to 0o7777."""
        def read() -> Words:
            text = self.view("memory", "--pp", f"{processor:o}")
            rows = (line[:45].split() for line in text.splitlines())
            return Words({int(place, 8) + n: int(word, 8) for place, *words in rows
                          for n, word in enumerate(words) if word != "0000"})

        return self._keep(processor, read)

    def events(self) -> list[Event]:
        """What has happened on the channels, in order."""
        rows = re.findall(r"(?m)^(\d+) PP(\d\d) CH(\d\d) ([A-Z]{3}) ?(\d*)$", self.view("barrel"))
        return [Event(int(turn), int(pp, 8), int(channel, 8), kind, _word_of(word))
                for turn, pp, channel, kind, word in rows]

    def endings(self, states: int = 10_000) -> Endings:
        """The endings of the deck over all orders of steps, from its load, as far as so many
        standings show (1 to 9,999,999; VIEWS.md, All endings)."""
        head, *parts = re.split(r"(?m)^ORDER ?", self._answer("orders", "--states", str(states)))
        found = []
        for part in parts:
            order, _, stands = part.partition("\n")
            going = re.findall(r"(?m)^PP(\d\d) .* GOES ON$", stands)
            found.append(Ending(Machine(self.deck, self.processors, order),
                                frozenset(int(number, 8) for number in going)))
        return Endings("OR MORE" not in head, found)

    def _keep(self, key: Any, make: Callable[[], _Kept]) -> _Kept:
        if key not in self._kept:
            self._kept[key] = make()
        kept: _Kept = self._kept[key]
        return kept

    def _run(self, more: int, *words: str) -> str:
        """The text of a command over the run so far, and some turns more."""
        # The last turns need no list: after it the barrel begins.
        by_turns = self._parts and self._parts[-1][0] is None
        listed = self._order_of(self._parts[:-1] if by_turns else self._parts)
        order = ["--order", listed] if listed else []
        return self._answer(*words, "--turns", str(self.turn + more), *order)

    def _answer(self, *words: str) -> str:
        status, output, error = run([*words, "--processors", str(self.processors)], self.deck)
        if status and not output:
            raise Fault(status, error.removeprefix("ppsim: ").removesuffix("\n"))
        return output


def _word_of(text: str) -> int | None:
    return int(text, 8) if text else None


def _told(m: Machine) -> dict[str, str]:
    told = {line[:4]: line[5:] for line in m.view("state").splitlines() if line.startswith("CH")}
    told |= {f"CM {address:06o}": f"{word:020o}" for address, word in m.central.items()}
    for number, pp in m.pp.items():
        name = f"PP{number:02o}"
        told |= {name: f"{pp.state} {pp.does}", f"{name} A": f"{pp.a:06o}", f"{name} P": f"{pp.p:04o}"}
        told |= {f"{name} ({place:04o})": f"{word:04o}" for place, word in m.memory(number).items()}
    return told


def diff(m: Machine, n: Machine) -> list[Difference]:
    """In what the standings of two machines of one size differ, as far as texts show it: processors,
    words and channels, but not what has happened."""
    if m.processors != n.processors:
        raise ValueError("machines of two sizes")
    one, other = _told(m), _told(n)
    plain = {"CH": "INACTIVE", "CM": "0" * 20, "PP": "0000"}  # what is not told
    both = (Difference(name, *(it.get(name, plain[name[:2]]) for it in (one, other)))
            for name in sorted(one.keys() | other.keys()))
    return [it for it in both if it.one != it.other]

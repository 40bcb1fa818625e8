"""A client of the shogi host: over the program's standard input and output, or over a host's socket."""

import contextlib
import re
import socket
import time
from dataclasses import dataclass
from types import TracebackType
from typing import Callable, Iterator, Mapping, Optional, Sequence, Type, TypeVar, Union

from .errors import EngineError, Garbled, Gone, HostFull, Lacking, Refused, TooSlow
from .pipes import Lines, Program, end_words


@dataclass(frozen=True)
class Centipawns:
    """A value in hundredths of a pawn, for the side to move."""

    points: int


@dataclass(frozen=True)
class MateIn:
    """A mate in so many plies: by the side to move, or below 0 by the other side."""

    plies: int


Score = Union[Centipawns, MateIn]


@dataclass(frozen=True)
class Line:
    """One info line: its depth, its number among the lines of that depth, counted from 1, its score, and the moves."""

    depth: int
    number: int
    score: Score
    pv: tuple[str, ...]

    @property
    def cp(self) -> Optional[int]:
        """The score in hundredths of a pawn; None where it is a mate."""
        return self.score.points if isinstance(self.score, Centipawns) else None

    @property
    def mate(self) -> Optional[int]:
        """The plies of the mate; None where the score is none."""
        return self.score.plies if isinstance(self.score, MateIn) else None


@dataclass(frozen=True)
class Answer:
    """The answer to a `go`: the best move, `resign` where no move is legal; the move that is expected after it; and the
    info lines of all depths."""

    best: str
    ponder: Optional[str]
    lines: tuple[Line, ...]

    def line(self, depth: int, number: int = 1) -> Optional[Line]:
        """The info line of a depth, of the best move or of another one by its number; None if there is none."""
        return next((line for line in self.lines if (line.depth, line.number) == (depth, number)), None)

    @property
    def last(self) -> tuple[Line, ...]:
        """The info lines of the greatest depth, the best move's first; none where no move is legal."""
        return tuple(line for line in self.lines if line.depth == self.lines[-1].depth)


Offered = Mapping[str, Union[range, tuple[str, ...]]]
Value = Union[int, str]
E = TypeVar("E", bound="Engine")

# The evaluations that a host may offer, the one to analyse with first; the depths of a search; and how many bytes a
# line may have before its LF: a host ends the session at a longer one.
EVALUATIONS = ("Exchange", "Plain", "Hand")
DEPTHS = range(1, 17)
LINE_MAX = 65_535

INFO = re.compile(
    r"info depth (\d+)(?: multipv (\d+))? score (?:cp (-?\d+)|mate (-?\d+)) pv +(\S.*)"
)
OPTION = re.compile(r"option name (.+?) type (\w+)(.*)")


def line_of(text: str) -> Optional[Line]:
    """The info line of a text, or None for any other reply."""
    match = INFO.fullmatch(text)
    if match is None:
        return None
    depth, number, cp, mate, pv = match.groups()
    score: Score = Centipawns(int(cp)) if mate is None else MateIn(int(mate))
    return Line(int(depth), int(number or 1), score, tuple(pv.split()))


def bounds_of(words: Sequence[str]) -> list[Optional[int]]:
    """The numbers behind `min` and `max` in the words of an option; None for one that is no number."""
    following = dict(zip(words, [*words[1:], ""]))
    numbers = [following.get(bound, "") for bound in ("min", "max")]
    return [int(number) if re.fullmatch("-?[0-9]{1,18}", number) else None for number in numbers]


def options_of(replies: Sequence[str]) -> Offered:
    """The options of the replies to `usi`: the numbers or the names that each one takes. One that takes none of either
    is left out."""
    options: dict[str, Union[range, tuple[str, ...]]] = {}
    for name, kind, rest in (match.groups() for match in map(OPTION.fullmatch, replies) if match):
        low, high = bounds_of(rest.split())
        if kind == "spin" and low is not None and high is not None and low <= high:
            options[name] = range(low, high + 1)
        elif kind == "combo" and " var " in rest:
            options[name] = tuple(rest.split(" var ")[1:])
    return options


def defaults_of(replies: Sequence[str]) -> dict[str, str]:
    """The values that the options have as a session begins, by the replies to `usi`."""
    found = (match.groups() for match in map(OPTION.fullmatch, replies) if match)
    return {
        name: re.split(" (?:min|max|var) ", rest.removeprefix(" default "))[0]
        for name, kind, rest in found
        if kind in ("spin", "combo") and rest.startswith(" default ")
    }


def listed(words: Sequence[str]) -> str:
    """Words as `Plain, Hand or Exchange`."""
    *others, last = words
    return f"{', '.join(others)} or {last}" if others else last


def is_number(value: object, numbers: range) -> bool:
    """Whether the word of a value is a number of the range."""
    match = re.fullmatch("(-?)0*([0-9]{1,18})", str(value))
    return match is not None and int("".join(match.groups())) in numbers


def want_depth(depth: object, depths: range = DEPTHS) -> None:
    """Raises `ValueError` for a depth that a host would change or pass over."""
    if not is_number(depth, depths):
        raise ValueError(f"a depth is a whole number from {depths[0]} to {depths[-1]}, and not {depth!r}")


def want_option(offered: Offered, name: str, value: object) -> None:
    """Raises `ValueError` for an option or a value that a host would pass over or change without a word."""
    if name not in offered:
        raise ValueError(
            f"an option with another name, or in other letters: {name!r}; they are {', '.join(offered)}"
        )
    values = offered[name]
    if not isinstance(values, range):
        if value not in values:
            raise ValueError(
                f"an option with a value that it does not have: {name} is {listed(values)}, and not {value!r}"
            )
    elif not is_number(value, values):
        is_digits = re.fullmatch(r"[0-9]+", str(value))
        slip = "a number out of range" if is_digits else "an option with a value that it does not have"
        raise ValueError(
            f"{slip}: {name} is a whole number from {values[0]} to {values[-1]}, and not {value!r}"
        )


def text_of(position: str) -> str:
    """What follows `position` for an SFEN, a whole `sfen ..`, `startpos ..`, or a `position` line."""
    text = position.strip().removeprefix("position ").strip()
    return text if text.split(" ", 1)[0] in ("startpos", "sfen") else f"sfen {text}"


class Search:
    """A `go` under way: an iterator over its info lines, each as it comes. Behind them is its answer. One that is left
    before that, by `close` or by another question, ends the session, since a host does not cut a search short; the
    next question begins it anew."""

    def __init__(self, engine: "Engine", depth: Optional[Value]):
        self._engine, self._depth, self._end = engine, depth, engine._deadline()
        self._lines: list[Line] = []
        self._answer: Optional[Answer] = None
        self._failure: Optional[EngineError] = None

    def __iter__(self) -> Iterator[Line]:
        return self

    def __next__(self) -> Line:
        if self._failure is not None:
            raise self._failure
        while self._answer is None:
            try:
                reply = self._engine.read_reply(self._end)
                if line := line_of(reply):
                    self._lines.append(line)
                    return line
                if reply.split(" ", 1)[0] == "bestmove":
                    self._answer = self._engine.answer_of(reply, self._lines, self._depth)
            except EngineError as why:
                self._failure = why
                raise
        raise StopIteration

    def answer(self) -> Answer:
        """The answer, once all lines have come."""
        for _ in self:
            pass
        assert self._answer is not None
        return self._answer

    @property
    def is_over(self) -> bool:
        """Whether nothing more comes of it."""
        return self._answer is not None or self._failure is not None

    def _fail(self, why: EngineError) -> None:
        """Nothing more comes of it, for this reason."""
        if not self.is_over:
            self._failure = why

    def close(self) -> None:
        """Leaves it."""
        if not self.is_over:
            self._engine._cut()

    def __enter__(self) -> "Search":
        return self

    def __exit__(
        self, kind: Optional[Type[BaseException]], why: Optional[BaseException], trace: Optional[TracebackType]
    ) -> None:
        self.close()


class Engine:
    """A session, of a program that it starts (`popen`) or of a host at a socket (`connect`); with `with` it is ended
    behind the block. Over a socket a session that was cut off is begun anew, with the options that it had; a host that
    does not offer those raises `Lacking`.

    `options` are those that were set, `offered` those that the host shows, with their numbers or names, and `title` is
    its name. A wrong option, depth or number of lines is a `ValueError`; other errors are an `EngineError`."""

    # Words of a `go` that the host passes over: it would answer as if they were not there.
    passed_over = frozenset(("nodes", "searchmoves"))

    def __init__(
        self,
        command: Optional[Sequence[str]] = None,
        path: Optional[str] = None,
        *,
        patience: float = 60.0,
        timeout: Optional[float] = None,
        lines: Optional[int] = 1,
        tell: Optional[Callable[[str], None]] = None,
    ):
        """Begins a session, as `popen` with a command and as `connect` with a path."""
        self.command, self.path, self.patience, self.timeout, self.tell = command, path, patience, timeout, tell
        self.options: dict[str, Value] = {}
        self.defaults: dict[str, str] = {}
        self.offered: Offered = {}
        self.position = "startpos"
        if lines is not None:
            self.options["MultiPV"] = lines
        self.name = path or (command or [""])[0]
        self.title = self.name
        self.program: Optional[Program] = None
        self.socket: Optional[socket.socket] = None
        self._lines: Optional[Lines] = None
        self._shown: Optional[Value] = lines
        self._search: Optional[Search] = None
        self._is_cut = self._is_closed = False
        self.begin()

    @classmethod
    def popen(
        cls: Type[E], command: Sequence[str], *, timeout: Optional[float] = None, lines: Optional[int] = 1
    ) -> E:
        """Starts a program, by its name and its arguments. The reply to a line may take `timeout` seconds, without one as
        long as it takes; one that takes longer raises `TooSlow` and ends the session. An answer has `lines` lines a depth,
        or as many as the host's setup says if that is None."""
        return cls(command=[command] if isinstance(command, str) else command, timeout=timeout, lines=lines)

    @classmethod
    def connect(
        cls: Type[E],
        path: str,
        *,
        patience: float = 60.0,
        timeout: Optional[float] = None,
        lines: Optional[int] = 1,
        tell: Optional[Callable[[str], None]] = None,
    ) -> E:
        """Connects to the host at a socket, and waits up to `patience` seconds for it to be there and to have room. After
        a second it calls `tell` with what it waits for. `timeout` and `lines` are as for `popen`."""
        return cls(path=path, patience=patience, timeout=timeout, lines=lines, tell=tell)

    def __enter__(self: E) -> E:
        return self

    def __exit__(
        self, kind: Optional[Type[BaseException]], why: Optional[BaseException], trace: Optional[TracebackType]
    ) -> None:
        self.close()

    def begin(self) -> None:
        """Starts the program, or connects to the host, asks what it offers, and sets the session's options."""
        self._end()
        if self.command is not None:
            self.program = Program(self.command)
            self._lines = self.program.lines
            try:
                self._greet()
            except BaseException:
                self._end()
                raise
            return
        began, is_told = time.monotonic(), False
        while True:
            try:
                self.socket = socket.socket(socket.AF_UNIX)
                self.socket.connect(self.path or "")
                self._lines = Lines(self.socket.fileno(), self.socket.fileno())
                self._greet()
                return
            except (TooSlow, Lacking):
                raise
            except (OSError, Gone) as cause:
                self._end()
                waited = time.monotonic() - began
                why = cause if isinstance(cause, Gone) else Gone(f"{self.path}: {cause.strerror or cause}")
                # Without a number it is the path itself that no host can have.
                if waited > self.patience or isinstance(cause, OSError) and cause.errno is None:
                    raise why from cause
                if self.tell is not None and waited >= 1 and not is_told:
                    self.tell(f"{why}; it is tried again for {self.patience:g} s")
                    is_told = True
                time.sleep(0.2)

    def _greet(self) -> None:
        """Asks who the host is and what it offers, and sets the options that the session has. Those that were never
        set are what the first host began with, since another one may begin with others."""
        # A full host says so and ends, maybe before it is asked; the others answer.
        with contextlib.suppress(Gone):
            self.send("usi")
        replies = self.read_until("usiok")
        self.offered = options_of(replies)
        names = [reply.removeprefix("id name ") for reply in replies if reply.startswith("id name ")]
        self.title = names[0] if names else self.name
        wanted: dict[str, Value] = {**self.defaults, **self.options}
        for name, value in wanted.items():
            # Without the option there is one line. A depth that was never set matters to a `go` without one alone.
            if name not in self.offered and name == "MultiPV" and value == 1:
                continue
            is_deep = name not in self.offered or not is_number(value, self.depths())
            if name == "Depth" and name not in self.options and is_deep:
                continue
            with self.lacking():
                want_option(self.offered, name, value)
            self.send(f"setoption name {name} value {value}")
        self.defaults = self.defaults or defaults_of(replies)
        self._shown = self.options.get("MultiPV", self.defaults.get("MultiPV"))

    @contextlib.contextmanager
    def lacking(self) -> Iterator[None]:
        """Raises `Lacking`, and ends the session, for the `ValueError` of what the host does not offer."""
        try:
            yield
        except ValueError as why:
            self._end()
            raise Lacking(f"{self.name}: {why}") from why

    def close(self) -> None:
        """Ends the session for good, and the program too where it does not end by that within a second."""
        self._end()
        self._is_closed = True

    def _end(self, patience: float = 1.0) -> None:
        """Ends the session, and the program too where it does not end by that within `patience` seconds."""
        if self._search is not None:
            self._search._fail(Gone(f"{self.name}: the session is ended"))
        if self.socket is not None:
            self.socket.close()
        if self.program is not None:
            self.program.close(patience)
        self.program = self.socket = self._lines = self._search = None
        self._is_cut = False

    def _end_of(self) -> Gone:
        """How the host went away."""
        if self.program is not None:
            return Gone(f"{self.name}: {end_words(self.program.status())}")
        return Gone(f"{self.name}: the host has ended the connection")

    def _open(self) -> Lines:
        """The lines of the session; raises `Gone` where it is ended."""
        if self._lines is None:
            raise Gone(f"{self.name}: the session is ended")
        return self._lines

    def send(self, line: str) -> None:
        """Sends one line, as it is. Raises `Refused`, and sends nothing, where it is longer than a host takes, and
        `ValueError` for a `go` with words that the host passes over."""
        words = line.split() if line.lstrip().startswith("go") else []
        if words[:1] == ["go"] and not self.passed_over.isdisjoint(words):
            raise ValueError(f"a go with {listed(sorted(self.passed_over))} is answered as one without")
        data = line.encode(errors="surrogateescape") + b"\n"
        if len(data) > LINE_MAX + 1:
            raise Refused(f"line too long: {len(data) - 1} bytes, and a host takes {LINE_MAX}")
        try:
            self._open().write(data)
        except OSError as why:
            raise self._end_of() from why

    def _deadline(self) -> Optional[float]:
        """When a reply that is awaited from now on comes too late; None for never."""
        return None if self.timeout is None else time.monotonic() + self.timeout

    def read_reply(self, end: Optional[float] = None) -> str:
        """The next reply, which has to come before the time `end`: else it raises `TooSlow` and ends the session."""
        try:
            reply = self._open().read(end).decode(errors="replace")
        except TimeoutError as why:
            self._end(patience=0)
            raise TooSlow(f"{self.name}: no answer within {self.timeout:g} s") from why
        except EOFError as why:
            raise self._end_of() from why
        if reply == "info string host full":
            raise HostFull(f"{self.name}: the host has as many clients as it takes")
        return reply

    def read_until(self, word: str) -> list[str]:
        """The replies up to the one that begins with the word, with that one."""
        replies: list[str] = []
        end = self._deadline()
        while True:
            replies.append(self.read_reply(end))
            if replies[-1].split(" ", 1)[0] == word:
                return replies

    def answer_of(self, reply: str, lines: Sequence[Line], depth: Optional[Value] = None) -> Answer:
        """The answer of a `bestmove` line and the info lines before it. Raises `Garbled` where it has no move, and
        `Lacking` where the lines of a depth are missing."""
        words = reply.split()
        if len(words) < 2:
            raise Garbled(f"{self.name}: a bestmove without a move")
        answer = Answer(words[1], words[3] if len(words) > 3 else None, tuple(lines))
        if depth is not None and lines and not all(map(answer.line, range(1, int(depth) + 1))):
            raise Lacking(f"{self.name}: an answer to go depth {depth} without an info line for each depth")
        return answer

    def _cut(self) -> None:
        """Ends a session in the middle of a search; the next question begins it anew."""
        self._end(patience=0)
        self._is_cut = True

    def _settle(self) -> None:
        """Begins the session anew, with its options and its position, where a search was left."""
        if self._search is not None:
            self._search.close()
        if self._is_cut:
            self.begin()
            if self.position != "startpos":
                self.set_position(self.position)

    def configure(self, options: Mapping[str, Value]) -> None:
        """Sets options. Raises `ValueError`, and sends nothing, where the host has no such option or value."""
        for name, value in options.items():
            want_option(self.offered, name, value)
        self._settle()
        for name, value in options.items():
            self.options[name] = value
            self.send(f"setoption name {name} value {value}")
            if name == "MultiPV":
                self._shown = value

    def depths(self) -> range:
        """The depths to which the host searches."""
        depths = self.offered.get("Depth")
        return depths if isinstance(depths, range) else DEPTHS

    def want_depth(self, depth: Optional[Value]) -> None:
        """Raises `ValueError` for a depth to which the host does not search; None is the session's own."""
        if depth is None:
            depth = self.options.get("Depth", self.defaults.get("Depth", DEPTHS[0]))
        want_depth(depth, self.depths())

    def want_lines(self, lines: Optional[int]) -> None:
        """Raises `ValueError` for a number of lines that the host does not show; None is the session's own."""
        if lines is not None and (lines != 1 or "MultiPV" in self.offered):
            want_option(self.offered, "MultiPV", lines)

    def set_position(self, position: str) -> None:
        """Sets the position: an SFEN, `sfen ..` or `startpos`, with `moves ..` behind it or not. Raises `Refused`
        where the host does not accept it."""
        text = text_of(position)
        self._settle()
        self.send(f"position {text}")
        self.send("isready")
        for reply in self.read_until("readyok"):
            if reply.startswith(("info string bad position", "info string illegal move")):
                raise Refused(f"{reply.removeprefix('info string ')}: {text}")
        self.position = text

    def search(self, depth: Optional[Value] = None, lines: Optional[int] = None) -> Search:
        """Begins to search the position, by default to the depth and with the lines that are set. Raises `ValueError`,
        and sends nothing, where the host does not search to that depth, or shows no so many lines."""
        self.want_depth(depth)
        self.want_lines(lines)
        self._settle()
        shown = self.options.get("MultiPV", self.defaults.get("MultiPV")) if lines is None else lines
        if shown is not None and "MultiPV" in self.offered and str(shown) != str(self._shown):
            self.send(f"setoption name MultiPV value {shown}")
            self._shown = shown
        self.send("go" if depth is None else f"go depth {depth}")
        self._search = Search(self, depth)
        return self._search

    def go(self, depth: Optional[Value] = None, lines: Optional[int] = None) -> Answer:
        """Searches the position, and waits for the answer; errors are those of `search`."""
        return self.search(depth, lines).answer()

    def analysis(self, position: str, depth: Optional[Value] = None, lines: Optional[int] = None) -> Search:
        """Begins to search a position, to a depth and with so many lines, by default those that are set: an iterator
        over the info lines, each as it comes. Errors are those of `set_position` and `search`; a depth or a number of
        lines is refused before the position is sent."""
        self.want_depth(depth)
        self.want_lines(lines)
        self.set_position(position)
        return self.search(depth, lines)

    def analyse(self, position: str, depth: Optional[Value] = None, lines: Optional[int] = None) -> Answer:
        """The answer for a position, as `analysis` has it. Over a socket it is asked for once more where the host went
        away; `Lacking` is raised where the next one does not offer what this session has."""
        try:
            return self.analysis(position, depth, lines).answer()
        except TooSlow:
            raise
        except Gone:
            if self.path is None or self._is_closed:
                raise
            self.begin()
            with self.lacking():
                self.want_depth(depth)
                self.want_lines(lines)
            return self.analysis(position, depth, lines).answer()

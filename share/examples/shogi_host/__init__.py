"""Shogi analysis by `usi_host`: sessions over a process or a host's socket. README.md of the package shows them.

Public is what is listed here and in `shogi_host.records`, which reads game records; other modules are those of the
commands."""

from .engine import Answer, Centipawns, Engine, Line, MateIn, Score, Search
from .errors import EngineError, Garbled, Gone, HostFull, Lacking, NotStarted, Refused, TooSlow
from .mates.solver import Mate, Solver

__all__ = [
    "Answer",
    "Centipawns",
    "Engine",
    "EngineError",
    "Garbled",
    "Gone",
    "HostFull",
    "Lacking",
    "Line",
    "Mate",
    "MateIn",
    "NotStarted",
    "Refused",
    "Score",
    "Search",
    "Solver",
    "TooSlow",
]

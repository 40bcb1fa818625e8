"""`python3 -m shogi_host`: asks a host for the best move of a position.

    [--program PATH | --socket PATH] [--depth N] [--eval NAME] [--timeout SECONDS] [--patience SECONDS] [SFEN]

prints the answer to one `go`. The status is 1 where the position is refused, or the host is not there."""

import argparse
import sys

from .commands import add_arguments, client_of, tell, write_utf8
from .errors import EngineError


def ask() -> None:
    """Asks what the command line says, and prints the answer."""
    parser = argparse.ArgumentParser(description="Asks a shogi host for the best move of a position.")
    add_arguments(parser)
    parser.add_argument("sfen", nargs="?", default="startpos", help="an SFEN or a position line (startpos)")
    arguments = parser.parse_args()
    write_utf8()
    with client_of(arguments) as client:
        print(f"evaluation {client.options['Eval']}")
        answer = client.analyse(arguments.sfen, arguments.depth)
    for line in answer.lines:
        score = f"mate {line.mate}" if line.cp is None else f"cp {line.cp}"
        print(f"depth {line.depth}: {score}, {' '.join(line.pv)}")
    print(answer.best)


def main() -> int:
    """The command; gives its status."""
    try:
        ask()
    except (EngineError, OSError) as why:
        tell(why)
        return 1
    return 0


if __name__ == "__main__":
    sys.exit(main())

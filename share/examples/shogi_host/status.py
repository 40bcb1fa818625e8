"""Prints the status of a host that was started with --status PATH, as a table, or with --prometheus as metrics;
with --watch again each second, and with --output to a file that is always whole: a new one takes its name. The status
is 1 where there is no host, where it gives no line, or where the file cannot be written.

    shogi-status [--prometheus] [--output FILE] [--watch] PATH"""

import argparse
import json
import os
import socket
import time
from typing import Any, Optional

from .commands import tell

# The longest that an answer may take, in seconds.
PATIENCE = 5
Status = dict[str, Any]

LABELS = (
    ("version", "version"),
    ("pid", "process"),
    ("started", "started, in seconds since 1970"),
    ("slots", "sessions at most"),
    ("used", "sessions open"),
    ("searching", "  with work"),
    ("waiting", "  waiting for their clients"),
    ("entries", "table entries at most"),
    ("filled", "table entries used"),
    ("slice", "steps in a slice"),
    ("depth", "depth where none is named"),
    ("max_depth", "greatest depth"),
    ("lines", "lines where none are named"),
    ("eval", "evaluation at first"),
    ("turns", "turns"),
    ("accepted", "connections accepted"),
    ("full", "  turned away, the host was full"),
    ("unopened", "  turned away, no memory"),
    ("finished", "ended, all answered"),
    ("ended_reading", "ended by a read or for memory"),
    ("ended_writing", "ended by a write"),
    ("bestmoves", "bestmove lines"),
    ("steps", "steps of search"),
    ("probes", "table asked"),
    ("hits", "  with an answer"),
    ("refused_work", "works without memory"),
    ("refused_notes", "notes without memory"),
    ("faults", "calls that failed"),
    ("bytes_in", "bytes in"),
    ("bytes_out", "bytes out"),
)


# Metrics by the names of Prometheus, in base units: the number of the status, what it is, and what it counts.
METRICS = (
    ("start_time_seconds", "started", "gauge", "When the host was started, in seconds since 1970."),
    ("sessions_limit", "slots", "gauge", "Sessions that may be open at a time."),
    ("sessions", "used", "gauge", "Sessions that are open."),
    ("sessions_searching", "searching", "gauge", "Sessions with something to do."),
    ("sessions_waiting", "waiting", "gauge", "Sessions that wait for their clients."),
    ("table_entries_limit", "entries", "gauge", "Positions that the transposition table keeps."),
    ("table_entries", "filled", "gauge", "Entries of the table that are in use."),
    ("slice_steps", "slice", "gauge", "Steps of search before others have their turn."),
    ("depth_plies", "depth", "gauge", "The depth of a search that names none."),
    ("depth_limit_plies", "max_depth", "gauge", "The greatest depth of a search."),
    ("lines", "lines", "gauge", "Best moves that an answer has at first."),
    ("turns_total", "turns", "counter", "Turns."),
    ("connections_total", "accepted", "counter", "Connections that were accepted."),
    ("connections_refused_full_total", "full", "counter", "Connections turned away because the host was full."),
    ("connections_refused_memory_total", "unopened", "counter", "Connections turned away for want of memory."),
    ("sessions_finished_total", "finished", "counter", "Sessions that ended with all their answers."),
    ("sessions_ended_reading_total", "ended_reading", "counter", "Sessions ended by a read or for want of memory."),
    ("sessions_ended_writing_total", "ended_writing", "counter", "Sessions ended by a write."),
    ("bestmoves_total", "bestmoves", "counter", "Lines bestmove that were queued."),
    ("search_steps_total", "steps", "counter", "Steps of search."),
    ("table_probes_total", "probes", "counter", "Probes of the table."),
    ("table_hits_total", "hits", "counter", "Probes of the table that found an entry."),
    ("work_without_memory_total", "refused_work", "counter", "Works of a session that had no memory."),
    ("notes_without_memory_total", "refused_notes", "counter", "Entries for which the table had no memory."),
    ("faults_total", "faults", "counter", "System calls that failed."),
    ("received_bytes_total", "bytes_in", "counter", "Bytes given to sessions."),
    ("sent_bytes_total", "bytes_out", "counter", "Bytes written to connections."),
)


def status_of(path: str) -> Status:
    """The numbers of the host, by name."""
    with socket.socket(socket.AF_UNIX, socket.SOCK_STREAM) as host:
        host.settimeout(PATIENCE)
        host.connect(path)
        line = b""
        while piece := host.recv(4_096):
            line += piece
    status = json.loads(line)
    if not isinstance(status, dict):
        raise ValueError("no status")
    return status


def table(status: Status) -> str:
    """The numbers as lines of text."""
    return "\n".join(f"{label:<34}{status.get(name, '-'):>20}" for name, label in LABELS)


def label(text: object) -> str:
    """A text as the value of a label."""
    escaped = str(text).replace("\\", "\\\\").replace('"', '\\"').replace("\n", "\\n")
    return f'"{escaped}"'


def metrics(status: Status) -> str:
    """The numbers as metrics in the text format of Prometheus."""
    about = {name: status.get(key, "") for name, key in (("version", "version"), ("evaluation", "eval"))}
    words = ",".join(f"{name}={label(text)}" for name, text in about.items())
    out = [
        "# HELP usi_host_info What the host is, and the evaluation with which sessions begin.",
        "# TYPE usi_host_info gauge",
        f"usi_host_info{{{words}}} 1",
    ]
    for name, key, kind, told in METRICS:
        if key in status:
            out += [f"# HELP usi_host_{name} {told}", f"# TYPE usi_host_{name} {kind}"]
            out.append(f"usi_host_{name} {int(status[key])}")
    return "\n".join(out)


def write(text: str, path: Optional[str]) -> None:
    """Writes a text to standard output, or to a file that takes the place of the one before as a whole."""
    if path is None:
        print(text, flush=True)
        return
    partial = f"{path}.{os.getpid()}"
    try:
        with open(partial, "w", encoding="utf-8") as file:
            file.write(f"{text}\n")
        os.replace(partial, path)
    except OSError:
        if os.path.exists(partial):
            os.unlink(partial)
        raise


def main() -> int:
    """The command; gives its status."""
    parser = argparse.ArgumentParser(description="The status of a host.")
    parser.add_argument("--prometheus", action="store_true", help="as metrics of Prometheus")
    parser.add_argument("--output", metavar="FILE", help="write it to this file, which is whole at any time")
    parser.add_argument("--watch", action="store_true", help="print it again each second")
    parser.add_argument("path", help="the path of --status")
    arguments = parser.parse_args()
    shown, between = metrics if arguments.prometheus else table, ""
    try:
        while True:
            write(between + shown(status_of(arguments.path)), arguments.output)
            if not arguments.watch:
                return 0
            between = "" if arguments.output or arguments.prometheus else "\n"
            time.sleep(1)
    except OSError as fault:
        tell(f"{fault.filename or arguments.path}: {fault.strerror or fault}")
        return 1
    except (ValueError, TypeError) as fault:
        tell(f"{arguments.path}: {fault}")
        return 1
    except KeyboardInterrupt:
        return 0

"""What may go wrong between a script and a host, by class."""


class EngineError(Exception):
    """What a host, or its absence, is the cause of."""


class Gone(EngineError):
    """The host has ended, or has ended the connection, or nobody listens at the socket."""


class NotStarted(Gone):
    """The program cannot be started."""


class HostFull(Gone):
    """The host has as many clients as it takes."""


class TooSlow(Gone):
    """A reply did not come in time; the session is ended."""


class Lacking(Gone):
    """The host does not offer what is asked of it: an evaluation, a depth, a number of lines."""


class Garbled(Gone):
    """A reply is none of USI's, as a `bestmove` without a move."""


class Refused(EngineError):
    """A position was refused. The host keeps the one before it, so a `go` would answer for that one."""

"""Runs a function on several parts, in processes side by side."""

import marshal
import os


def processors():
    """How many processors this process may use; one where a process can't be copied."""
    return len(os.sched_getaffinity(0)) if hasattr(os, "fork") and hasattr(os, "sched_getaffinity") else 1


def side_by_side(function, parts, processes):
    """What the function gives for each part: for the first one here, for the others in copies of this process.

    What it gives has to be plain: numbers, bytes, strings, and lists, tuples and dictionaries of such. It is None where
    a copy ends by an exception. Where there is to be one process, all is done here.
    """
    if processes == 1:
        return [function(part) for part in parts]
    started = [start(function, part) for part in parts[1:]]
    try:
        first = function(parts[0])
    finally:
        others = [end(process, reader) for process, reader in started]
    return [first, *others]


def start(function, part):
    """Starts a copy of this process for a part: its number, and the pipe that its answer comes by."""
    reader, writer = os.pipe()
    process = os.fork()
    if process:
        os.close(writer)
        return process, reader
    try:
        with open(writer, "wb") as file:
            file.write(marshal.dumps(function(part)))
    finally:
        os._exit(0)  # what the process that was copied would do at its end isn't for this one


def end(process, reader):
    """The answer of a process that was started."""
    with open(reader, "rb") as file:
        answer = file.read()
    os.waitpid(process, 0)
    return marshal.loads(answer) if answer else None

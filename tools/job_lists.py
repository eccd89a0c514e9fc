"""Lists of jobs, which `batch` takes: which line is wrong, and why; and what is printed of jobs."""

MOST_JOBS, MOST_BYTES = 64, 65_536
FORM = "A line is the name of a grammar, one space, the name of an input, and a line feed."


def line_fault(line):
    """Why a line without its line feed is no job, in words, or None."""
    names = line.split(b" ")
    if line == b"":
        return "The line is empty."
    if len(names) == 1:
        return "The line has no space, so it has one name."
    if b"" in names:
        return "A space stands before the first name, after the last one, or beside another space."
    if len(names) > 2:
        return f"The line has {len(names)} names; a name of a file has no space here."
    for name in names:
        if name.startswith(b"-"):
            return "A name begins with `-`; write `./-NAME`."
        try:
            name.decode("utf-8")
        except UnicodeDecodeError:
            return "A name isn't UTF-8."
    return None


def wrong_line(data):
    """The number of the first wrong line of a list, from 1, and why it is wrong; None where there is none."""
    *lines, rest = data.split(b"\n")
    for number, line in enumerate(lines, 1):
        fault = f"A list has at most {MOST_JOBS} lines." if number > MOST_JOBS else line_fault(line)
        if fault:
            return number, fault
    if rest:
        return len(lines) + 1, "The last line has no line feed at its end."
    return None if lines else (1, "The list has no line.")


def explain_list(note, name, data):
    """Why the bytes of a file are no list: lines."""
    if len(data) > MOST_BYTES:
        return [note, f"A list has at most {MOST_BYTES:,} bytes; {name} has {len(data):,}."]
    number, fault = wrong_line(data)
    lines = data.split(b"\n")
    shown = [f"  {number} | {lines[number - 1].decode('utf-8', 'replace')}"] if number <= len(lines) else []
    return [f"{name}:{number}: {note}", *shown, fault, FORM]


def text_of_jobs(ends):
    """What is printed of jobs that end so: triples of a status, and what out and notes get."""
    heads = [b"job %d status %d out %d notes %d\n" % (number, status, len(out), len(notes))
             for number, (status, out, notes) in enumerate(ends, 1)]
    return b"".join(head + out + notes for head, (_, out, notes) in zip(heads, ends))

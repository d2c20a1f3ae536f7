"""Traces in a short form: operations as `alloc 7 Order 2` and `store 7 0 -`, one a line or with semicolons between them.

    alloc 7 Order 2       a new object with two slots; `alloc 7 Order 2 t1` by thread 1
    store 3 0 7           slot 0 of object 3 holds object 7; `store 3 0 -` empties it
    weak 3 0              slot 0 of object 3 is weak; `strong 3 0` makes it strong again
    root a 7              the root `a` names object 7; `root a -` takes it away
    dead 7                object 7 is asserted dead
    start 0               a region of thread 0 starts
    alldead 0             the innermost region of thread 0 ends, and its objects are asserted dead
    limit Config 1        at most one object of the type
    unshared 9            object 9 is asserted unshared
    own 3 5               object 3 is asserted to own object 5
    collect               a collection

A line that begins with `#` is a comment.
"""

# An operation, as its words, and the line that it stands for; a word in capitals is filled in.
FORMS = {
    "alloc ID TYPE SLOTS": '{"op":"alloc","id":ID,"type":"TYPE","slots":SLOTS}',
    "alloc ID TYPE SLOTS THREAD": '{"op":"alloc","id":ID,"type":"TYPE","slots":SLOTS,"thread":THREAD}',
    "store AT SLOT TO": '{"op":"store","at":AT,"slot":SLOT,"to":TO}',
    "weak AT SLOT": '{"op":"set-weak","at":AT,"slot":SLOT,"weak":true}',
    "strong AT SLOT": '{"op":"set-weak","at":AT,"slot":SLOT,"weak":false}',
    "root NAME TO": '{"op":"root","name":"NAME","to":TO}',
    "dead ID": '{"op":"assert-dead","id":ID}',
    "start THREAD": '{"op":"start-region","thread":THREAD}',
    "alldead THREAD": '{"op":"assert-alldead","thread":THREAD}',
    "limit TYPE LIMIT": '{"op":"assert-instances","type":"TYPE","limit":LIMIT}',
    "unshared ID": '{"op":"assert-unshared","id":ID}',
    "own OWNER OWNEE": '{"op":"assert-ownedby","owner":OWNER,"ownee":OWNEE}',
    "collect": '{"op":"collect"}',
}


def _compile(form, line):
    """The key by which a form is found, and a template that takes its words in order."""
    operation, *fields = form.split()
    template = line.replace("{", "{{").replace("}", "}}")
    for place, field in enumerate(fields):
        template = template.replace(f":{field}", f":{{{place}}}").replace(f'"{field}"', f'"{{{place}}}"')
    return (operation, len(fields)), template.format


_LINES = dict(_compile(form, line) for form, line in FORMS.items())


def line_of(operation):
    """The JSON line, without a newline, of an operation in the short form; a ValueError where it is none."""
    name, *words = operation.split()
    fill = _LINES.get((name, len(words)))
    if fill is None:
        raise ValueError(f"no operation of the short form: {operation!r}")
    if name == "alloc" and len(words) == 4:
        words[3] = words[3][1:]
    if name in ("store", "root") and words[-1] == "-":
        words[-1] = "null"
    return fill(*words)


def trace_of(text):
    """The lines of the trace that is written so, each with its newline."""
    rows = (row for row in text.splitlines() if not row.startswith("#"))
    operations = (part.strip() for row in rows for part in row.split(";"))
    return "".join(line_of(operation) + "\n" for operation in operations if operation)

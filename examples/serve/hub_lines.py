"""What the line of a client asks the hub for."""
import re

LONGEST_LINE = 4096
MOST_PASSES = 2**32
NUMBER = rb"(?:0|[1-9][0-9]*)"
TASK = NUMBER + rb"\." + NUMBER
REQUEST = re.compile(rb"(0|[1-9][0-9]{0,9}) ([a-z]+)((?: %s){0,2})" % TASK)
QUESTION = re.compile(rb"next|(?:state|neighbours) %s" % TASK)
# How many tasks a call names.
NAMES = {b"join": 0, b"conflict": 2, b"separate": 2}
NAMES.update((word, 1) for word in (b"leave", b"hungry", b"begin", b"finish", b"withdraw", b"await", b"cancel"))

# What a client may ask for once it has written `hello`.
HELLO = re.compile(rb"hello(?: ([0-9a-f]{32}))?")
FINISH = re.compile(rb"(0|[1-9][0-9]{0,9}) finish (%s) ([1-9][0-9]{0,18})" % TASK)
TAKE = re.compile(rb"(0|[1-9][0-9]{0,9}) take((?: [^ ]+)+)")
GIVE = re.compile(rb"(0|[1-9][0-9]{0,9}) give(?: ([1-9][0-9]{0,18}))?")
RESOURCE = re.compile(rb"[A-Za-z][A-Za-z0-9._-]{0,63}")
COUNT = re.compile(rb"[0-9]+|[A-Za-z][A-Za-z0-9._-]{0,63}[:=*][0-9]+")

# The faults that the hub finds, and their words.
WORDS, OWNER, MEAL, FULL = b"words", b"owner", b"meal", b"full"
SECRET, COUNTED, TAKEN = b"secret", b"count", b"taken"


def is_blank(line):
    """Whether the line asks for nothing: it is empty, has blanks only, or is a comment."""
    bare = line.strip(b" \t\r")
    return not bare or bare.startswith(b"#")


def is_pass(number):
    """Whether the digits are a pass."""
    return int(number) < MOST_PASSES


def fault_of_resources(names):
    """The fault in the names that are taken, or None. A resource has one taker at a time, so a count is a fault."""
    if any(COUNT.fullmatch(name) for name in names) or len(set(names)) < len(names):
        return COUNTED
    return None if all(RESOURCE.fullmatch(name) for name in names) else WORDS

"""What the commands of the scripts that kill the program make of a task, and how a journal spells them, as
docs/DEFINITIONS.md says it."""

import struct

from exchanges import Failure

# Of an operation its byte in a record, the states in which it may be, and the state after it.
OPERATIONS = {
    "claim": (2, ("Ready",), "Reserved"),
    "start": (3, ("Ready", "Reserved"), "InProgress"),
    "stop": (4, ("InProgress",), "Reserved"),
    "release": (5, ("Reserved", "InProgress"), "Ready"),
    "complete": (16, ("InProgress",), "Completed"),
    "addComment": (21, ("Ready", "Reserved", "InProgress", "Completed"), None),
}
MOST_COMMENTS = 32
HEADER, OPENED, CLOSED = b"HTJ1\r\n\x1a\n", b"\x01", b"\x00"
OPENING, TURN, ASKED = 0, 1, 2
NO_DEVICE = b"\x10"


class Task:
    """What the commands make of a task that everybody may own."""

    def __init__(self):
        self.owner, self.last_owner, self.state, self.comments = None, None, "Ready", []

    def takes(self, operation, person):
        """Whether the operation may be done, by this person."""
        if self.state not in OPERATIONS[operation][1]:
            return False
        if operation == "addComment":
            return len(self.comments) < MOST_COMMENTS
        return self.owner in (None, person)

    def act(self, operation, person, moment, text):
        after = OPERATIONS[operation][2]
        if operation == "addComment":
            self.comments.append({"moment": moment, "person": person, "text": text})
            return
        if after == "Completed":
            self.last_owner = self.owner
        self.state, self.owner = after, person if after in ("Reserved", "InProgress") else None

    def shown(self):
        return {"owner": self.owner, "lastOwner": self.last_owner, "state": self.state, "comments": self.comments}


def record_of(operation, task, person, moment, given):
    """A record: its kind, the moment, the caller, the device with its number, the task, and the operation."""
    body = struct.pack("<BQB", ASKED, moment, len(person)) + person.encode()
    body += struct.pack("<BI", given["device"], given["number"]) if "device" in given else NO_DEVICE
    body += struct.pack("<I", task)
    if operation == "create":
        return body + b"\x01\x00\x00\x00"
    body += bytes([OPERATIONS[operation][0]])
    if operation == "addComment":
        return body + struct.pack("<H", len(given["text"])) + given["text"].encode()
    return body + (b"\x00" if operation == "complete" else b"")


def opening_of(models, people):
    """The first record of a journal, with the two texts."""
    return bytes([OPENING]) + b"".join(struct.pack("<I", len(it)) + it.encode() for it in (models, people))


def file_of(records):
    return HEADER + b"".join(OPENED + struct.pack("<I", len(it)) + it for it in records) + CLOSED


def moment_of(record):
    return struct.unpack_from("<Q", record, 1)[0]


def sender_of(record):
    """The caller of what was asked, the device, and the number."""
    end = 10 + record[9]
    return record[10:end].decode(), *struct.unpack_from("<BI", record, end)


def records_of(path):
    """The records of a journal behind its first, and what stands behind the gate that is closed."""
    file = path.read_bytes() if path.is_file() else b""
    if len(file) <= len(HEADER) + 1:
        return [], b""
    if not file.startswith(HEADER):
        raise Failure("the journal has another header")
    bodies, at = [], len(HEADER)
    while file[at:at + 1] == OPENED:
        length, = struct.unpack_from("<I", file, at + 1)
        bodies.append(file[at + 5:at + 5 + length])
        at += 5 + length
        if at >= len(file):
            raise Failure("the journal ends before a gate")
    return bodies[1:], file[at + 1:]

"""What the scripts of this folder have in common: the program, requests and replies."""

import json
import pathlib
import re

HERE = pathlib.Path(__file__).resolve().parent
# The program that is built here, or else the one that comes with the repository.
PROGRAMS = [HERE.parent / "crates/ht_main/out/ht_main", HERE.parent / "dist/office-x86_64-linux"]
# How long something may take that is waited for.
SECONDS = 60
HEAD = re.compile(rb"HTTP/1\.1 (\d{3}) [^\r\n]*\r\n(?:[^\r\n]+\r\n)*?content-length: (\d+)\r\n(?:[^\r\n]+\r\n)*\r\n")


class Failure(Exception):
    """What went another way, in one line."""


def take_program(parser):
    there = next((it for it in PROGRAMS if it.is_file()), PROGRAMS[-1])
    parser.add_argument("--program", type=pathlib.Path, default=there)


def compact(value):
    return json.dumps(value, separators=(",", ":")).encode()


def request(method, path, person, given=None):
    body = compact(given) if given else b""
    length = f"content-length: {len(body)}\r\n" if given else ""
    return f"{method} {path} HTTP/1.1\r\nx-person: {person}\r\n{length}\r\n".encode() + body


def replies(output):
    """Of each reply the status, and the text as a value."""
    for head in HEAD.finditer(output):
        yield int(head[1]), json.loads(output[head.end():head.end() + int(head[2])])

"""nginx with a file of deploy/, and requests to it by curl."""

import pathlib
import shutil
import subprocess
import time

from exchanges import SECONDS, Failure
from servers import Connection, Listening, free_port

TOP = pathlib.Path(__file__).resolve().parent.parent
OFFICE = TOP / "examples" / "permit-office"
TEXTS = ["--models", OFFICE / "models.toml", "--people", OFFICE / "people.toml"]
TRIALS = 5
TEMPORARY = ("client_body", "proxy", "fastcgi", "uwsgi", "scgi")


class Front(Listening):
    """nginx with this file of deploy/, but for its port, the places of its files, and what else is told: pairs of what
    stands there and what is put in its place. What runs it stands before its command."""

    def __init__(self, folder, port, name, others, before=(), address="127.0.0.1"):
        here = pathlib.Path(folder)
        places = "".join(f"    {it}_temp_path {here}/{it};\n" for it in TEMPORARY)
        text = (TOP / "deploy" / name).read_text()
        for old, new in (("user www-data;\n", ""), ("/run/nginx.pid", f"{here}/nginx.pid"), ("/var/log/nginx", str(here)),
                         ("/etc/office", str(here)), ("listen 80", f"listen {address}:{port}"),
                         ("    server_tokens off;\n", places), *others):
            if text.count(old) < 1:
                raise Failure(f"deploy/{name} has no {old}")
            text = text.replace(old, new)
        (here / "nginx.conf").write_text(text)
        shutil.copy(TOP / "deploy" / "nginx-office.conf", here)
        super().__init__([*before, shutil.which("nginx") or "/usr/sbin/nginx", "-p", here, "-e", here / "error.log", "-c",
                          here / "nginx.conf", "-g", "daemon off;"], folder, port)

    def kill(self, _=None):
        """Ends it and its workers, which would go on behind a signal 9."""
        self.process.terminate()
        self.process.communicate(timeout=SECONDS)


def begin_front(folder, name, others):
    """A front at a free port; at another one where that was taken meanwhile."""
    for _ in range(TRIALS):
        front = Front(folder, free_port(), name, others)
        end = time.monotonic() + SECONDS
        while front.process.poll() is None and time.monotonic() < end:
            try:
                Connection(front.port).close()
                return front
            except ConnectionRefusedError:
                time.sleep(0.05)
        front.kill()
    raise Failure(f"nginx didn't begin: {pathlib.Path(folder, 'error.log').read_text()}")


def write_passwords(file, persons, secret="of {}"):
    lines = []
    for person in persons:
        made = ["openssl", "passwd", "-6", secret.format(person)]
        lines.append(f"{person}:{subprocess.run(made, capture_output=True, check=True, text=True).stdout}")
    pathlib.Path(file).write_text("".join(lines))


def curl(port, *words, person=None, path="/tasks/1", secret="of {}", host="127.0.0.1", before=()):
    """The status and the text of a reply, and its head."""
    known = ["-u", f"{person}:{secret.format(person)}"] if person else []
    ran = subprocess.run([*before, "curl", "-s", "-i", "--max-time", str(SECONDS), *known, *words,
                          f"http://{host}:{port}{path}"], capture_output=True, check=False)
    if ran.returncode:
        raise Failure(f"curl ended with {ran.returncode}: {ran.stderr.decode()}")
    head, _, text = ran.stdout.decode().rpartition("\r\n\r\n")
    return int(head.rpartition("HTTP/1.1 ")[2][:3]), text, head.lower()


def show(script, what, reply, status, text):
    if reply[:2] != (status, text):
        raise Failure(f"{what}: {status} {text} was due, and {reply[0]} {reply[1]} came")
    if "content-type: application/json" not in reply[2]:
        raise Failure(f"{what}: the reply isn't told as JSON: {reply[2]}")
    print(f"{script}: {what}: {status} {text}")

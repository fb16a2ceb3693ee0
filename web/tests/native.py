"""The native program, and a server by which pages of tests reach it."""

import dataclasses
import http.server
import pathlib
import tempfile
import threading
import urllib.parse

import pace

TOP = pathlib.Path(__file__).resolve().parents[2]
PROGRAM = TOP / "dist/vervainfile"
# The seconds of a processor that the program may take.
MOST = 120


@dataclasses.dataclass
class Job:
    """What the program is to run: a script with its name, pages and files; whether marked steps alone are drawn, and
    whether through a lens."""

    script: bytes
    name: str = "script.desk"
    pages: int = 64
    files: dict = dataclasses.field(default_factory=dict)
    is_marked: bool = False
    is_lens: bool = False


def done(verb, job):
    """The program's exit status and what it writes."""
    with tempfile.TemporaryDirectory() as folder:
        script = pathlib.Path(folder, "script", job.name.replace("/", "_") or "script.desk")
        script.parent.mkdir()
        script.write_bytes(job.script)
        words = []
        for name, content in job.files.items():
            pathlib.Path(folder, name).write_bytes(content)
            words.append(f"{name}={folder}/{name}")
        marked = ["--marked"] if job.is_marked and verb != "run" else []
        lens = ["--lens"] if job.is_lens else []
        words = ["--pages", str(job.pages), *marked, *lens, script, *words]
        ran = pace.run([PROGRAM, verb, *words], MOST, capture_output=True)
    return ran.returncode, ran.stdout


def checked(content, kind):
    """The program's exit status and its line for bytes as a heap or as a slot."""
    with tempfile.NamedTemporaryFile() as file:
        file.write(content)
        file.flush()
        words = ["--slot"] if kind == "slot" else []
        ran = pace.run([PROGRAM, "check", *words, file.name], MOST, capture_output=True)
    return ran.returncode, ran.stdout


def unpacked(content):
    """The files of a buffer that the page gives to a module."""
    files, at = {}, 0
    while at < len(content):
        start = at + 1 + content[at]
        length = int.from_bytes(content[start : start + 4], "little")
        files[content[at + 1 : start].decode()] = content[start + 4 : start + 4 + length]
        at = start + 4 + length
    return files


def asked(verb, words, content):
    """The program's exit status and what it writes, for the words and the bytes by which a page asks for it."""
    if verb == "check":
        return checked(content, words["kind"])
    at = int(words["script"])
    job = Job(content[:at], words.get("name", "script.desk"), int(words["pages"]), unpacked(content[at:]),
              words["marked"] != "0", words.get("lens") == "1")
    return done(verb, job)


class Handler(http.server.BaseHTTPRequestHandler):
    """Gives the page, and does its jobs by the program."""

    def log_message(self, *words):
        """Says nothing."""

    def do_GET(self):
        page = self.server.pages.get(urllib.parse.urlparse(self.path).path)
        self.answer(200 if page else 404, page or b"")

    def do_POST(self):
        address = urllib.parse.urlparse(self.path)
        words = {key: values[0] for key, values in urllib.parse.parse_qs(address.query).items()}
        content = self.rfile.read(int(self.headers["Content-Length"]))
        try:
            status, text = asked(address.path[1:], words, content)
        except pace.Ended as why:
            self.server.ended.append(why)
            self.answer(500, str(why).encode())
            return
        self.answer(200, text, status)

    def answer(self, code, content, status=0):
        self.send_response(code)
        self.send_header("Content-Type", "text/html; charset=utf-8")
        self.send_header("Content-Length", str(len(content)))
        self.send_header("Desk-Status", str(status))
        self.end_headers()
        self.wfile.write(content)


class Server:
    """A server on this machine alone, which goes when it is closed."""

    def __init__(self):
        self.server = http.server.ThreadingHTTPServer(("127.0.0.1", 0), Handler)
        # The pages by their paths, and why the program was ended that a page has asked for.
        self.server.pages, self.server.ended = {}, []
        threading.Thread(target=self.server.serve_forever, daemon=True).start()

    def address(self, path, page):
        """Where a page is found from now on."""
        self.server.pages[path] = page
        return f"http://127.0.0.1:{self.server.server_address[1]}{path}"

    def fault(self):
        """Why the program was ended that a page has asked for, if it was since this was asked last."""
        ended = self.server.ended
        return ended.pop(0) if ended else None

    def close(self):
        self.server.shutdown()
        self.server.server_close()

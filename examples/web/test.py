#!/usr/bin/env python3
"""Opens the page in Chromium without a window, runs merged examples in it, and compares what is shown with what is expected.

    python3 examples/web/test.py bin/wdyl
    python3 examples/web/test.py --merged FILE INPUT EXPECTED STATUS [ARGS]

The second runs one merged file over a file of input; what has to be put out stands in a file, too. CHROMIUM names another command.
Where there is none, this is said, and nothing is run.
"""
import json
import os
import queue
import shutil
import signal
import subprocess
import sys
import tempfile
import threading
from functools import partial
from http.server import SimpleHTTPRequestHandler, ThreadingHTTPServer
from pathlib import Path

EXAMPLES = Path(__file__).resolve().parent.parent
SECONDS = 120
# exports a memory, and a `_start` that is a loop without end
ENDLESS = b"\0asm\1\0\0\0" + bytes.fromhex("010401600000 03020100 0503010001") \
    + b"\x07\x13\2\6_start\0\0\6memory\2\0" + bytes.fromhex("0a09 0107 00 0340 0c00 0b 0b")


def merged(wdyl, to, main, *options):
    subprocess.run([wdyl, "merge", *options, EXAMPLES / main, to], check=True)


def cases(wdyl, work):
    """Name, what the page is given, and what it has to show."""
    modules, text = "programs/modules", (EXAMPLES / "programs/input.txt").read_text()
    wanted = {path.stem: path.read_text() for path in (EXAMPLES / "programs/expected").iterdir()}
    wanted["numbers"] = "".join(f"{n}\n" for n in range(1, 20001))
    wanted["growing"] = "".join(f"{n}\n" if n < 63 else f"{n}, behind the input\n" for n in range(1, 91))
    filters = ("--dl", "libupper.so,librot13.so")
    trapped = "status 134: RuntimeError: unreachable"
    listed = [
        ("diamond", "diamond/main.wasm", (), "", (EXAMPLES / "diamond/output.txt").read_text(), "status 0"),
        ("checksums", f"{modules}/checksums.wasm", (), "", wanted["checksums"], "status 0"),
        ("count", f"{modules}/count.wasm", (), "-l -w -c", wanted["count"], "status 0"),
        ("count refused", f"{modules}/count.wasm", (), "colour", wanted["count-refused"], "status 2"),
        ("filters", f"{modules}/filters.wasm", filters, "libupper.so librot13.so libnone.so librot13.so", wanted["filters"], "status 0"),
        ("shapes", f"{modules}/shapes.wasm", (), "", wanted["shapes"], "status 0"),
        ("errors", f"{modules}/errors.wasm", (), "", wanted["errors"], "status 0"),
        ("numbers", f"{modules}/numbers.wasm", (), "", wanted["numbers"], "status 0"),
        ("blocks", f"{modules}/blocks.wasm", (), "", wanted["blocks"], "status 0"),
        ("growing", f"{modules}/growing.wasm", ("--pages", "2048"), "", wanted["growing"], "status 0"),
        ("visits", f"{modules}/visits.wasm", (), "Ada Ben", wanted["visits"], "status 2"),
        ("huge", f"{modules}/huge.wasm", (), "", wanted["huge"], trapped),
        ("trap", "trap/main.wasm", (), "", "", trapped),
    ]
    for n, (name, main, options, args, output, ended) in enumerate(listed):
        merged(wdyl, work / f"{n}.wasm", main, *options)
        yield name, {"merged": f"/{n}.wasm", "args": args, "input": text}, {"output": output, "ended": ended}
    (work / "endless.wasm").write_bytes(ENDLESS)
    yield "endless", {"merged": "/endless.wasm", "args": "", "input": "", "stopped": True}, {"output": "", "ended": "stopped"}


def one_case(work, merged, given, expected, status, *args):
    """A merged file that was made elsewhere."""
    shutil.copy(merged, work / "one.wasm")
    words = " ".join(args)
    yield words, {"merged": "/one.wasm", "args": words, "input": Path(given).read_text()}, \
        {"output": Path(expected).read_text(), "ended": f"status {status}"}


class Handler(SimpleHTTPRequestHandler):
    """Serves a folder, and takes what the page tells."""

    told = queue.Queue()

    def do_POST(self):
        Handler.told.put(json.loads(self.rfile.read(int(self.headers["Content-Length"]))))
        self.send_response(204)
        self.end_headers()

    def log_message(self, *_):
        pass


def shown(chromium, work, given):
    """What the page shows for each case."""
    (work / "cases.json").write_text(json.dumps(given))
    (work / "test.html").write_text('<!doctype html><body><script type="module" src="/examples/web/test.mjs"></script>')
    os.symlink(EXAMPLES, work / "examples")
    server = ThreadingHTTPServer(("127.0.0.1", 0), partial(Handler, directory=work))
    threading.Thread(target=server.serve_forever, daemon=True).start()
    words = [chromium, "--headless", "--disable-gpu", "--no-first-run", f"--user-data-dir={work}/profile"]
    # it has no sandbox as root
    words += ["--no-sandbox"] if os.geteuid() == 0 else []
    browser = subprocess.Popen([*words, f"http://127.0.0.1:{server.server_port}/test.html"], start_new_session=True,
                               stdout=subprocess.DEVNULL, stderr=subprocess.DEVNULL)
    try:
        return Handler.told.get(timeout=SECONDS)
    except queue.Empty:
        sys.exit(f"web: the page told nothing within {SECONDS} seconds")
    finally:
        os.killpg(browser.pid, signal.SIGKILL)
        browser.wait()
        server.shutdown()


def main():
    named = os.environ.get("CHROMIUM")
    found = filter(None, map(shutil.which, [named] if named else ["chromium", "chromium-browser", "google-chrome", "chrome"]))
    chromium = next(found, None)
    if not chromium:
        print("chromium is missing: the page isn't opened")
        return
    work = Path(tempfile.mkdtemp())
    try:
        first, *words = sys.argv[1:]
        names, given, wanted = zip(*(one_case(work, *words) if first == "--merged" else cases(first, work)))
        for name, was, right in zip(names, shown(chromium, work, given), wanted):
            if was != right:
                sys.exit(f"web, {name}: the page showed\n{was}\nand not\n{right}")
            print(f"web, {name}: the same")
    finally:
        # the browser may still write there
        shutil.rmtree(work, ignore_errors=True)


main()

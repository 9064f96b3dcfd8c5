"""Engines that say whether bytes are a valid module: each answers a list of texts, empty for a yes, else what it says of the fault."""
import http.server
import json
import os
import queue
import re
import shutil
import signal
import struct
import subprocess
import tempfile
import threading
import urllib.parse

NODE = """
const read = require('fs').readFileSync, said = [];
for (const file of process.argv.slice(2)) {
  const bytes = read(file);
  if (WebAssembly.validate(bytes)) { said.push(''); continue; }
  try { new WebAssembly.Module(bytes); said.push('refused'); } catch (error) { said.push(error.message); }
}
console.log(JSON.stringify(said));
"""
PAGE = """<!doctype html><title>modules</title><script>
const who = new URLSearchParams(location.search).get('who');
async function work() {
  for (;;) {
    const bytes = await (await fetch('/work?who=' + who)).arrayBuffer();
    const view = new DataView(bytes), said = [];
    for (let at = 4, left = view.getUint32(0, true); left > 0; left--) {
      const part = bytes.slice(at + 4, at + 4 + view.getUint32(at, true));
      at += 4 + part.byteLength;
      if (WebAssembly.validate(part)) { said.push(''); continue; }
      try { new WebAssembly.Module(part); said.push('refused'); } catch (error) { said.push(String(error.message) || 'refused'); }
    }
    await fetch('/told?who=' + who, { method: 'POST', body: JSON.stringify(said) });
  }
}
work();
</script>"""
PREFERENCES = """user_pref("browser.shell.checkDefaultBrowser", false);
user_pref("browser.startup.homepage_override.mstone", "ignore");
user_pref("browser.aboutwelcome.enabled", false);
user_pref("datareporting.policy.dataSubmissionEnabled", false);
user_pref("toolkit.telemetry.reportingpolicy.firstRun", false);
user_pref("app.update.enabled", false);
"""


class Lost(Exception):
    """An engine that does not answer; the text says which."""


class Program:
    """wasm-check. Its text begins with the offset; None is no verdict."""
    knows_new = True

    def __init__(self, program):
        self.name, self.program = "wasm-check", program

    def judge(self, files, modules):
        call = [self.program, "--json", "--keep-going", "--vectors", "--features", "wasm3", "--", *files]
        told = {}
        for line in subprocess.run(call, capture_output=True, text=True).stdout.splitlines():
            verdict = json.loads(line)
            told[verdict["file"]] = "" if verdict["valid"] else f"at {verdict['offset']:#x}: {verdict['message']}"
        return [told.get(file) for file in files]

    def end(self):
        pass


class Node(Program):
    """The V8 of node. Versions before 22 do not know what 3.0 adds."""

    def __init__(self, program):
        version = subprocess.run([program, "--version"], capture_output=True, text=True).stdout.strip()
        self.name, self.program, self.knows_new = f"node {version}", program, int(re.match(r"v(\d+)", version)[1]) >= 24

    def judge(self, files, modules):
        done = subprocess.run([self.program, "-e", NODE, "modules", *files], capture_output=True, text=True)
        if done.returncode:
            raise Lost(f"{self.name} ends with {done.returncode}: {done.stderr[:300]}")
        return json.loads(done.stdout)


class Wabt(Program):
    """wasm-validate of wabt, which does not know what 3.0 adds. An end by a signal is no answer."""
    knows_new = False

    def __init__(self, program):
        self.name = "wabt " + subprocess.run([program, "--version"], capture_output=True, text=True).stdout.strip()
        self.call = [program, "--enable-threads", "--enable-tail-call", "--ignore-custom-section-errors"]

    def one(self, file):
        done = subprocess.run([*self.call, file], capture_output=True, text=True)
        if done.returncode < 0:
            return None
        lines = [it for it in done.stderr.splitlines() if "error:" in it] or ["refused"]
        return "" if done.returncode == 0 else re.sub(r"^\S+wasm:", "", lines[0])

    def judge(self, files, modules):
        return [self.one(file) for file in files]


class Handler(http.server.BaseHTTPRequestHandler):
    """Gives a browser the page, and its modules as they come; takes what it tells of them."""
    protocol_version = "HTTP/1.1"

    def log_message(self, *args):
        pass

    def give(self, content, kind):
        self.send_response(200)
        # shared memories are allowed only in a page that is apart from others
        for name, text in (("Content-Type", kind), ("Content-Length", str(len(content))), ("Cross-Origin-Opener-Policy", "same-origin"),
                           ("Cross-Origin-Embedder-Policy", "require-corp"), ("Cache-Control", "no-store")):
            self.send_header(name, text)
        self.end_headers()
        self.wfile.write(content)

    def who(self):
        return urllib.parse.parse_qs(urllib.parse.urlparse(self.path).query).get("who", [""])[0]

    def do_GET(self):
        if self.path.startswith("/work"):
            self.give(self.server.work[self.who()].get(), "application/octet-stream")
        else:
            self.give(PAGE.encode(), "text/html")

    def do_POST(self):
        self.server.told[self.who()].put(json.loads(self.rfile.read(int(self.headers["Content-Length"]))))
        self.give(b"ok", "text/plain")


class Pages(http.server.ThreadingHTTPServer):
    """The server of the page by which browsers get modules and tell what they say."""
    daemon_threads = True

    def __init__(self):
        super().__init__(("127.0.0.1", 0), Handler)
        self.work, self.told = {}, {}
        threading.Thread(target=self.serve_forever, daemon=True).start()

    def handle_error(self, request, client_address):
        """A browser that ends breaks off its connection."""

    def address(self, who):
        self.work[who], self.told[who] = queue.Queue(), queue.Queue()
        return f"http://127.0.0.1:{self.server_port}/?who={who}"


class Browser(Program):
    """A browser without a window, on the page of modules."""

    def __init__(self, who, program, pages):
        version = subprocess.run([program, "--version"], capture_output=True, text=True).stdout
        self.who, self.pages, self.name = who, pages, f"{who} {re.search(r'[0-9][0-9.a-z]*', version)[0]}"
        self.folder = tempfile.mkdtemp(prefix=f"differential-{who}-")
        if who == "firefox":
            with open(f"{self.folder}/user.js", "w", encoding="utf-8") as it:
                it.write(PREFERENCES)
            words = ["--headless", "--no-remote", "--profile", self.folder]
        else:
            words = ["--headless", "--no-sandbox", "--disable-gpu", "--no-first-run", f"--user-data-dir={self.folder}"]
        self.process = subprocess.Popen([program, *words, pages.address(who)], stdout=subprocess.DEVNULL, stderr=subprocess.DEVNULL,
                                        start_new_session=True, env=dict(os.environ, HOME=self.folder))

    def judge(self, files, modules):
        self.pages.work[self.who].put(struct.pack("<I", len(modules)) + b"".join(struct.pack("<I", len(it)) + it for it in modules))
        try:
            return self.pages.told[self.who].get(timeout=180)
        except queue.Empty:
            raise Lost(f"{self.name} does not answer") from None

    def end(self):
        os.killpg(self.process.pid, signal.SIGTERM)
        try:
            self.process.wait(timeout=10)
        except subprocess.TimeoutExpired:
            os.killpg(self.process.pid, signal.SIGKILL)
        shutil.rmtree(self.folder, ignore_errors=True)


def installed(words):
    """The engines that are there, of those that are asked for."""
    found, pages = [], None
    for who, program in (("node", "node"), ("wabt", "wasm-validate"), ("chromium", "chromium"), ("firefox", "firefox-esr"), ("firefox", "firefox")):
        if who in words and shutil.which(program) and not any(it.name.startswith(who) for it in found):
            if who in ("chromium", "firefox"):
                pages = pages or Pages()
                found.append(Browser(who, program, pages))
            else:
                found.append(Node(program) if who == "node" else Wabt(program))
    return found

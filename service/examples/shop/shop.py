"""The shop as processes on this machine: a broker, a hub, and the three services. `run`, the drills, the experiment and the soak start it."""
import os
import pathlib
import re
import shutil
import signal
import sqlite3
import subprocess
import sys
import time
import urllib.request

HERE = pathlib.Path(__file__).resolve().parent
SERVICE = HERE.parent.parent
OUT = pathlib.Path(os.environ.get("SHOP_OUT", SERVICE / "out" / "shop"))  # where it is built and runs
signal.signal(signal.SIGTERM, lambda *_: sys.exit(143))  # so that what was started is ended
NEEDED = {
    "/usr/bin/gcc": "gcc", "/usr/include/nats/nats.h": "libnats-dev", "/usr/sbin/nats-server": "nats-server", "/usr/include/sqlite3.h": "libsqlite3-dev",
    "/usr/include/microhttpd.h": "libmicrohttpd-dev", "/usr/include/x86_64-linux-gnu/curl/curl.h": "libcurl4-openssl-dev", "/usr/bin/pkg-config": "pkg-config",
    "/usr/bin/go": "golang-go", "/usr/bin/wrk": "wrk",
}


def install_packages():
    wanted = [package for file, package in NEEDED.items() if not os.path.exists(file)]
    if wanted:
        print("shop: installs", *wanted, flush=True)
        for words in (["update"], ["install", "-y", "--no-install-recommends", *wanted]):
            done = subprocess.run(["apt-get", *words], stdout=subprocess.PIPE, stderr=subprocess.STDOUT, text=True)
            if done.returncode:
                sys.exit(f"shop: apt-get {words[0]} failed:\n{done.stdout[-1000:]}")


def build(out, core=None):
    """Installs the library below `out`, and compiles the services there; SHOP_CFLAGS is in place of -O2."""
    prefix = out / "prefix"
    subprocess.run([SERVICE / "install", "--prefix", prefix, *(["--core", core] if core else [])], check=True)
    environment = {**os.environ, "PKG_CONFIG_PATH": f"{prefix}/lib/pkgconfig", "LD_LIBRARY_PATH": f"{prefix}/lib", "GOCACHE": f"{out}/go"}
    flags = subprocess.run(["pkg-config", "--cflags", "--libs", "hindsight_nats", "libmicrohttpd", "libcurl"], env=environment, check=True, capture_output=True, text=True)
    subprocess.run(["gcc", "-std=c11", *os.environ.get("SHOP_CFLAGS", "-O2").split(), "-g", "-Wall", "-Wextra", "-Werror", "-pedantic", HERE / "front.c", *flags.stdout.split(), "-lpthread", "-o", out / "front"], check=True)
    subprocess.run(["go", "build", "-o", out / "middle", "."], cwd=HERE / "middle", env=environment, check=True)


class Shop:
    """Everything in a folder of its own, at ports from `port` on, of 127.0.0.1 alone."""

    def __init__(self, built, folder, port, settings=None, environment=None, nats_words=()):
        self.built, self.folder, self.port = pathlib.Path(built), pathlib.Path(folder), port
        self.processes, self.nats_words = {}, list(nats_words)
        self.prefix = self.built / "prefix"
        self.middle = self.built / "middle"  # another one where the experiment has it traced otherwise
        (self.folder / "store").mkdir(parents=True, exist_ok=True)
        (self.folder / "settings").write_text(settings or (HERE / "settings").read_text())
        self.broker_url = f"nats://127.0.0.1:{port}"
        self.service_broker = self.broker_url  # another one where a proxy stands between
        self.environment = {"LD_LIBRARY_PATH": f"{self.prefix}/lib", "PYTHONPATH": f"{SERVICE}/bindings/python", "SHOP_SETTINGS": f"{self.folder}/settings",
                            "SHOP_FAILED": f"{self.folder}/failed", "PYTHONDONTWRITEBYTECODE": "1", **(environment or {})}

    def __enter__(self):
        return self

    def __exit__(self, *_):
        for name in list(self.processes):
            self.end(name, signal.SIGCONT)
        for name in ("front", "middle", "store"):
            self.end(name)
        self.end("hub")
        for name in list(self.processes):
            self.end(name)

    # ---- processes

    def start(self, name, words, environment=None):
        log = open(self.folder / f"{name}.log", "ab")
        self.processes[name] = subprocess.Popen([str(word) for word in words], stdin=subprocess.DEVNULL, stdout=log, stderr=log,
                                                env={**os.environ, **self.environment, **(environment or {})})
        log.close()

    def end(self, name, with_=signal.SIGTERM, wait=15):
        """Sends a signal; after one that ends it, waits, and answers its status."""
        process = self.processes.get(name)
        if process is None:
            return None
        if process.poll() is None:
            process.send_signal(with_)
        if with_ in (signal.SIGSTOP, signal.SIGCONT):
            return None
        del self.processes[name]
        try:
            return process.wait(wait)
        except subprocess.TimeoutExpired:
            process.kill()
            return process.wait()

    def said(self, name):
        file = self.folder / f"{name}.log"
        return file.read_text(errors="replace") if file.exists() else ""

    def start_broker(self):
        self.start("broker", ["nats-server", "-a", "127.0.0.1", "-p", self.port, "-m", self.port + 1, "-js", "-sd", self.folder / "js", *self.nats_words])

    def start_hub(self, *words, settings=None):
        self.start("hub", [self.prefix / "bin/hindsight-hub", settings or self.folder / "settings", self.folder / "store", "--url", self.broker_url,
                           "--metrics", self.port + 2, *words])

    def start_service(self, name, environment=None):
        at = {"front": self.port + 3, "middle": self.port + 4, "store": self.port + 5}
        words = {"front": [self.built / "front", at["front"], f"http://127.0.0.1:{at['middle']}"],
                 "middle": [self.middle, at["middle"], f"http://127.0.0.1:{at['store']}"],
                 "store": [sys.executable, HERE / "store.py", at["store"]]}[name]
        self.start(name, words, {"SHOP_BROKER": self.service_broker, **(environment or {})})

    def start_services(self, traced=True):
        for name in ("store", "middle", "front"):
            self.start_service(name)
        self.wait_for(lambda: all(self.metrics_of(name, "hindsight_node_broker_up") or not traced and self.answers(name) for name in ("store", "middle", "front")),
                      30, "the services do not answer")

    def start_all(self):
        self.start_broker()
        self.start_hub()
        self.start_services()

    def wait_for(self, holds, seconds, what):
        """Waits until it holds, and answers how long that took."""
        began = time.monotonic()
        while not holds():
            if time.monotonic() - began > seconds:
                raise TimeoutError(f"{what} within {seconds} s")
            time.sleep(0.1)
        return time.monotonic() - began

    # ---- what they answer

    def page(self, port, path="/metrics"):
        try:
            with urllib.request.urlopen(f"http://127.0.0.1:{port}{path}", timeout=5) as page:
                return page.read().decode()
        except OSError:
            return None

    def page_of(self, name):
        return self.page(self.port + {"hub": 2, "front": 3, "middle": 4, "store": 5}[name])

    def answers(self, name):
        return self.page_of(name) is not None

    def metrics_of(self, name, metric):
        """One number of /metrics, or None."""
        found = re.search(rf"^{metric}(?:{{[^}}]*}})? (\d+)$", self.page_of(name) or "", re.M)
        return int(found.group(1)) if found else None

    def load(self, seconds, connections, script=None):
        """Loads the shop, and answers how many requests were made, how many had no 200, and the latency that 99 of 100 stay below, in milliseconds."""
        process = subprocess.run(["wrk", "-t", "1", "-c", str(connections), "-d", f"{seconds}s", "--latency", "--timeout", "5s", *(["-s", script] if script else []),
                                  f"http://127.0.0.1:{self.port + 3}/cart"], capture_output=True, text=True, check=True)
        time.sleep(0.5)  # the last carts are answered after wrk has gone
        requests = int(re.search(r"(\d+) requests in", process.stdout).group(1))
        other = re.search(r"Non-2xx or 3xx responses: (\d+)", process.stdout)
        number, unit = re.search(r"99% +([\d.]+)(us|ms|s)", process.stdout).groups()
        return requests, int(other.group(1)) if other else 0, float(number) * {"us": 0.001, "ms": 1, "s": 1000}[unit]

    def failed(self, how=None):
        """The traces of the carts that failed, or of those that did so for one reason."""
        file = self.folder / "failed"
        lines = [line.split(" ") for line in file.read_text().split("\n") if line] if file.exists() else []
        return [trace for trace, why in lines if trace and how in (None, why)]

    def rows(self, query, *values):
        file = self.folder / "store" / "traces.db"
        if not file.exists():
            return []
        db = sqlite3.connect(file, timeout=10)
        try:
            return db.execute(query, values).fetchall()
        except sqlite3.OperationalError:
            return []
        finally:
            db.close()

    def whole(self):
        """Of each saved trace whether it is called whole."""
        return {trace.hex(): bool(whole) for trace, whole in self.rows("SELECT trace, max(whole) FROM traces GROUP BY trace")}

    def services_of(self):
        """The services of which each saved trace has records. A hub that started anew learns within a minute how a node is called."""
        names, found = dict(self.rows("SELECT node, max(service) FROM lives GROUP BY node")), {}
        for trace, node in self.rows("SELECT DISTINCT trace, node FROM records"):
            found.setdefault(trace.hex(), set()).add(names.get(node) or node)
        return found

    def memory(self, name):
        """MiB that a process has now."""
        process = self.processes.get(name)
        if process is None:
            return 0
        return int(re.search(r"VmRSS:\s+(\d+)", pathlib.Path(f"/proc/{process.pid}/status").read_text()).group(1)) / 1024

    def processor(self, *names):
        """Seconds of a processor that these took so far."""
        ticks = 0
        for name in names:
            fields = pathlib.Path(f"/proc/{self.processes[name].pid}/stat").read_text().rpartition(")")[2].split()
            ticks += int(fields[11]) + int(fields[12])
        return ticks / os.sysconf("SC_CLK_TCK")

    def traces(self, *words):
        return subprocess.run([self.prefix / "bin/hindsight-traces", self.folder / "store", *words], capture_output=True, text=True).stdout


def fresh(folder):
    shutil.rmtree(folder, ignore_errors=True)
    folder.mkdir(parents=True)
    return folder

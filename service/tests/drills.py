#!/usr/bin/env python3
"""Drills of the shop: something fails while it is under load, and each has a verdict.

    drills.py [--core FILE] [--short] [--calm SECONDS] [--port N] [NAME..]
    drills.py --self-test

What holds of each, unless it says otherwise: each cart that came too late has its trace saved; no trace is called whole of which a service's part is
missing; the hub and the services stay within their memory; the operator is shown what happened; and 99 of 100 carts take no longer than without a
failure.

The last is judged by a stretch without a failure that comes first, 300 seconds or as many as --calm says, under the same load, in windows as long as a
drill's load. Its spread is the least and the greatest p99 of these windows, of a probe's carts and of those of wrk. A drill whose p99 is above the
greatest is run once more, since one window in so many is above all others by chance, and fails where it is above it again. The last drill, slowed, is
one that this has to refuse. --self-test judges lists that are made up.

--short has shorter loads and outages and more slow carts. Its p99 is printed and not judged, since it is for machines that do other work.
"""
import argparse
import http.client
import os
import pathlib
import resource
import select
import signal
import socket
import subprocess
import sys
import threading
import time

sys.dont_write_bytecode = True
sys.path.insert(0, str(pathlib.Path(__file__).resolve().parent.parent / "examples" / "shop"))
import shop

MOST_HUB, MOST_SERVICE = 200, 250  # MiB
ALL = {"front", "middle", "store"}
CONNECTIONS, WARM = 8, 3  # of wrk; seconds of load before what is judged
SILENT = "wrk or the probe did not say what came of its load"


class Wrong(Exception):
    pass


class Slow(Wrong):
    """The p99 is above what it is without a failure."""


def holds(what, says):
    if not what:
        raise Wrong(says)


def p99(took):
    """What 99 of 100 of these are at most."""
    return share(took, 99)


def share(took, hundredths):
    """What so many of a hundred of these are at most."""
    return sorted(took)[-(-hundredths * len(took) // 100) - 1]


class Spread:
    """The p99 of windows without a failure, in milliseconds, by name: of the probe's carts, and of wrk's own."""

    def __init__(self, windows):
        self.windows = {name: [window[name] for window in windows] for name in windows[0]}

    def of(self, name):
        return f"{min(self.windows[name]):.1f} to {max(self.windows[name]):.1f}"

    def judge(self, found):
        above = [f"{name} {ms:.1f} ms above {max(self.windows[name]):.1f}" for name, ms in found.items() if ms > max(self.windows[name])]
        if above:
            raise Slow("p99 of " + " and of ".join(above))


def probes(port):
    """A cart every 20 ms by a connection of its own, until nothing more can come in; then a line for each: its trace, and the milliseconds that it took."""
    to, took = http.client.HTTPConnection("127.0.0.1", port, timeout=10), []
    while not select.select([sys.stdin], [], [], 0.02)[0]:
        trace, began = os.urandom(16).hex(), time.monotonic()
        try:
            to.request("GET", "/cart", headers={"traceparent": f"00-{trace}-{trace[:16]}-00"})
            to.getresponse().read()
        except (OSError, http.client.HTTPException):
            to.close()
        took.append(f"{trace} {1000 * (time.monotonic() - began):.3f}\n")
    sys.stdout.write("".join(took))


class Load(threading.Thread):
    """The shop's load, while something fails, and a process beside it that probes."""

    def __init__(self, s, seconds):
        super().__init__(daemon=True)  # a drill that fails meanwhile does not wait for its load
        self.s, self.seconds, self.came, self.took = s, seconds, None, {}

    def run(self):
        probe = subprocess.Popen([sys.executable, __file__, "--probe", str(self.s.port + 3)], stdin=subprocess.PIPE, stdout=subprocess.PIPE, text=True)
        try:
            self.came = self.s.load(self.seconds, CONNECTIONS)
        finally:
            self.took = {trace: float(took) for trace, took in (line.split() for line in probe.communicate()[0].splitlines())}

    def p99(self, without=()):
        return {"the probe": p99([took for trace, took in self.took.items() if trace not in without]), "wrk": self.came[2]}


def stretch(words, built, folder):
    """The spread of windows without a failure."""
    windows, until = [], time.monotonic() + words.calm
    with shop.Shop(built, folder, words.port, environment=Drill.ENVIRONMENT) as s:
        s.start_all()
        s.load(WARM, CONNECTIONS)
        while not windows or time.monotonic() < until:
            load = Load(s, Drill.LOAD)
            load.start()
            load.join()
            holds(load.came and load.took, SILENT)
            windows.append(load.p99())
    spread = Spread(windows)
    print(f"without a failure, {len(windows)} windows of {Drill.LOAD} s: p99 of " + ", of ".join(f"{name} {spread.of(name)} ms" for name in spread.windows), flush=True)
    return spread


class Drill:
    LOAD, SHORT_LOAD = 12, 7  # seconds
    ENVIRONMENT = {"SHOP_SLOW_EVERY": "4000"}  # each slow cart keeps up to eight others: so few that the slowest of a hundred are others
    SHORT_ENVIRONMENT = {"SHOP_SLOW_EVERY": "250"}

    def __init__(self, name, words, spread, trouble, environment=None, settings=None, load=LOAD, begin=shop.Shop.start_all, **_):
        self.name, self.words, self.spread, self.trouble, self.settings, self.begin = name, words, spread, trouble, settings, begin
        self.environment = {**(self.SHORT_ENVIRONMENT if words.short else self.ENVIRONMENT), **(environment or {})}
        self.load = self.seconds(load, self.SHORT_LOAD)
        self.unanswered_why = None  # why some carts get no answer: they are left out of the p99
        self.may_lose = None   # words of what may be gone: what a process had in its memory, or what is above a rate
        self.untraced = None   # from when to when, in seconds since 1970, a service had no tracing
        self.notes = []

    def note(self, text):
        self.notes.append(text)

    def run(self, built, folder):
        with shop.Shop(built, folder, self.words.port, self.settings, self.environment) as s:
            self.begin(s)
            if self.spread:
                s.load(WARM, CONNECTIONS)
            load = Load(s, self.load)
            load.start()
            time.sleep(self.seconds(3, 2))
            self.trouble(self, s)
            load.join()
            self.judge(s, load)
            self.judge_p99(s, load)

    def seconds(self, long, short):
        return short if self.words.short else long

    def judge(self, s, load):
        holds(load.came and load.took, SILENT)
        requests, failed, _ = load.came
        late = set(s.failed("late"))
        try:
            s.wait_for(lambda: self.may_lose or late <= s.whole().keys(), 75, "")
        except TimeoutError:
            pass
        if self.may_lose:
            time.sleep(self.seconds(8, 5))
        whole, services = s.whole(), s.services_of()
        lost = late - whole.keys()
        partial = [trace for trace, is_whole in whole.items() if is_whole and trace not in self.unanswered(s) and services.get(trace) != ALL]
        if self.untraced:
            partial = self.of_traced(s, partial)
        hub, most = s.memory("hub"), max((s.memory(name) for name in ALL), default=0)
        self.note(f"{requests} carts, {failed} failed, {len(whole)} traces, {sum(whole.values())} whole, hub {hub:.0f} MiB, services to {most:.0f} MiB")
        self.note(f"of {len(load.took)} probes half took at most {share(load.took.values(), 50):.1f} ms, 95 of 100 {share(load.took.values(), 95):.1f} ms")
        holds(requests and (failed or self.may_lose), "nothing failed")
        holds(self.may_lose or not lost, f"{len(lost)} traces of carts that came too late were not saved")
        holds(not partial, f"{len(partial)} traces are called whole without {', '.join(sorted(ALL - services.get(partial[0], set())) if partial else '')}")
        holds(hub < MOST_HUB and most < MOST_SERVICE, "memory grew")
        holds(s.processes["hub"].poll() is None, "the hub ended")
        if self.may_lose:
            self.note(f"{len(lost)} {self.may_lose}")

    def judge_p99(self, s, load):
        out = self.unanswered(s) & load.took.keys() if self.unanswered_why else set()
        found = load.p99(out)
        self.note("p99 of " + ", of ".join(f"{name} {ms:.1f} ms" + (f" ({self.spread.of(name)} without a failure)" if self.spread else "") for name, ms in found.items()))
        if self.unanswered_why:
            del found["wrk"]
            self.note(f"left out of the probe's: {len(out)} carts that got no answer, since {self.unanswered_why}; wrk's has them in it, and is not judged")
        if self.spread:
            self.spread.judge(found)

    def of_traced(self, s, partial):
        """Those that were begun while each service was traced. What a life wrote that was killed is missed by the hub, and its traces are not called whole."""
        begun = {trace.hex(): moment / 1e9 for trace, moment in s.rows("SELECT trace, min(moment) FROM records GROUP BY trace")}
        first, last = self.untraced
        return [trace for trace in partial if not first <= begun[trace] <= last]

    def unanswered(self, s):
        """Carts that did not reach each service: their whole trace is of those that they reached."""
        return set(s.failed("unanswered"))


DRILLS = {}


def drill(name, **of):
    def put(trouble):
        DRILLS[name] = (trouble, of)
        return trouble

    return put


@drill("calm")
def calm(d, s):
    for name in ("hub", "front", "middle", "store"):
        port = s.port + {"hub": 2, "front": 3, "middle": 4, "store": 5}[name]
        said = subprocess.run([pathlib.Path(__file__).parent / "metrics.py", f"http://127.0.0.1:{port}/metrics"], capture_output=True, text=True)
        holds(not said.returncode, said.stderr[-300:])


@drill("broker-paused")
def broker_paused(d, s):
    s.end("broker", signal.SIGSTOP)
    time.sleep(3)
    s.end("broker", signal.SIGCONT)


@drill("broker-away", load=40)
def broker_away(d, s):
    s.end("broker")
    time.sleep(1)
    for name in ALL:
        holds(s.metrics_of(name, "hindsight_node_broker_up") == 0, f"{name} does not say that the broker is away")
    holds(s.metrics_of("hub", "hindsight_hub_broker_up") == 0, "the hub does not say that the broker is away")
    time.sleep(d.seconds(29, 4))
    s.start_broker()
    s.wait_for(lambda: all(s.metrics_of(name, "hindsight_node_broker_returns_total") for name in ALL), 20, "the broker's return is not shown")
    d.note("shown: hindsight_node_broker_up 0, then hindsight_node_broker_returns_total 1")


@drill("broker-killed")
def broker_killed(d, s):
    s.end("broker", signal.SIGKILL)
    s.start_broker()


@drill("hub-killed")
def hub_killed(d, s):
    s.end("hub", signal.SIGKILL)
    time.sleep(d.seconds(3, 1))
    s.start_hub()


# each failure claims its trace: while a service is away these are many
MANY = (shop.HERE / "settings").read_text().replace("triggerid 1 1 100 10", "triggerid 1 1 1000 100000")


@drill("service-killed", settings=MANY)
def service_killed(d, s):
    d.may_lose, d.unanswered_why, killed = "traces went with the memory of the store", "the store was killed", time.time()
    s.end("store", signal.SIGKILL)
    s.start_service("store")
    s.wait_for(lambda: "has this name" in s.said("store"), 10, "the store does not say that its name is taken yet")
    took = s.wait_for(lambda: s.metrics_of("store", "hindsight_node_broker_up"), 30, "the store did not get its name back")
    d.note(f"its name was free again after {took:.0f} s")
    d.untraced = (killed, time.time())
    before = set(s.failed())
    s.load(d.seconds(6, 4), 8)
    again = set(s.failed("late")) - before
    holds(again, "nothing failed after the store was there again")
    s.wait_for(lambda: again <= s.whole().keys(), 60, "the store's later life is not saved")


@drill("service-anew", settings=MANY)
def service_anew(d, s):
    """The middle tier ends as it should, and starts anew under its name at once."""
    d.unanswered_why, ended = "the middle tier had ended", time.time()
    holds(s.end("middle") == 0, "the middle tier ended with a status")
    s.start_service("middle")
    d.note(f"its name was free after {s.wait_for(lambda: s.metrics_of('middle', 'hindsight_node_broker_up'), 10, 'it does not trace again'):.1f} s")
    d.untraced = (ended, time.time())


@drill("one-name-twice")
def one_name_twice(d, s):
    words = [sys.executable, shop.HERE / "store.py", s.port + 6]
    s.start("second", words, {"SHOP_BROKER": s.service_broker})
    s.wait_for(lambda: "another process has this name" in s.said("second"), 10, "the second store is not refused")
    holds(s.page(s.port + 6) == "" and s.page(s.port + 6, "/stock?item=3") == "1\n", "the second store does not serve without tracing")
    holds(s.metrics_of("store", "hindsight_node_name_lost") == 0, "the first store lost its name")
    s.end("second")


@drill("other-settings")
def other_settings(d, s):
    (s.folder / "other").write_text((s.folder / "settings").read_text().replace("nodes 8", "nodes 9"))
    s.start("till", [sys.executable, shop.HERE / "store.py", s.port + 6], {"SHOP_BROKER": s.service_broker, "SHOP_NAME": "till", "SHOP_SETTINGS": f"{s.folder}/other"})
    s.wait_for(lambda: "(till) runs with another line nodes" in s.said("hub"), 20, "the hub does not say that settings differ")
    s.wait_for(lambda: s.metrics_of("hub", "hindsight_hub_foreign_nodes") == 1, 5, "the hub does not count the node")
    s.end("till")
    d.note("shown: " + s.said("hub").strip().split("\n")[-1][:60] + " ..")


def proxy(at, to):
    """Hands bytes on between services and the broker, 150 ms late and at most 200 KB in a second each way."""
    listener = socket.create_server(("127.0.0.1", at))
    while True:
        came, _ = listener.accept()
        try:
            gone = socket.create_connection(("127.0.0.1", to))
        except OSError:  # the broker does not listen yet: who came comes again
            came.close()
            continue
        for pair in ((came, gone), (gone, came)):
            threading.Thread(target=hand_on, args=pair, daemon=True).start()


def hand_on(from_, to):
    try:
        while bytes_ := from_.recv(16384):
            time.sleep(0.15 + len(bytes_) / 200000)
            to.sendall(bytes_)
    except OSError:
        pass
    for it in (from_, to):
        it.close()


def behind_proxy(s):
    s.start("proxy", [sys.executable, __file__, "--proxy", s.port + 7, s.port])
    s.service_broker = f"nats://127.0.0.1:{s.port + 7}"
    s.start_all()


@drill("slow-network", begin=behind_proxy)
def slow_network(d, s):
    pass


@drill("disk-full")
def disk_full(d, s):
    """The hub's files may not grow for a while, as on a disk that is full."""
    pid = s.processes["hub"].pid
    largest = max(file.stat().st_size for file in (s.folder / "store").iterdir())
    resource.prlimit(pid, resource.RLIMIT_FSIZE, (largest, resource.RLIM_INFINITY))
    s.wait_for(lambda: s.metrics_of("hub", "hindsight_hub_store_up") == 0, 30, "the hub does not say that it cannot save")
    time.sleep(d.seconds(5, 2))
    holds(s.metrics_of("hub", "hindsight_hub_store_faults_total") > 0 and s.processes["hub"].poll() is None, "the hub ended")
    resource.prlimit(pid, resource.RLIMIT_FSIZE, (resource.RLIM_INFINITY, resource.RLIM_INFINITY))
    s.wait_for(lambda: s.metrics_of("hub", "hindsight_hub_store_up") == 1, 30, "the hub does not save again")
    d.note("shown: hindsight_hub_store_up 0; " + s.said("hub").strip().split("\n")[0][:60])


@drill("storm", environment={"SHOP_DEADLINE": "0"})
def storm(d, s):
    """Each cart fails, and claims its trace: what is above the trigger id's rate is dropped."""
    d.may_lose = "triggers were above the rate of their id"
    began = time.monotonic()
    time.sleep(d.seconds(5, 3))
    saved = s.whole()
    holds(len(saved) >= 10 * (time.monotonic() - began), f"{len(saved)} traces are fewer than the trigger id's rate")
    holds(len(saved) <= 3 * (100 + 10 * 20) + 50, f"{len(saved)} traces are more than the trigger ids' bursts and rates")


@drill("slowed", is_slow=True)
def slowed(d, s):
    """The store stands still for 50 ms ten times a second: no drill, but what the judgement of p99 has to refuse."""
    for _ in range(80):
        s.end("store", signal.SIGSTOP)
        time.sleep(0.05)
        s.end("store", signal.SIGCONT)
        time.sleep(0.05)


def self_test():
    """Of 1 to 600 the 594th is the p99; windows whose p99 are 4.0 to 5.0 let 5.0 pass and no more, for each figure by itself."""
    holds(p99(range(600, 0, -1)) == 594 and p99([7]) == 7 and p99(range(1, 101)) == 99 and share(range(1, 1001), 50) == 500, "a share is another one")
    spread = Spread([{"the probe": 4.0, "wrk": 30.0}, {"the probe": 5.0, "wrk": 20.0}, {"the probe": 4.5, "wrk": 25.0}])
    holds(spread.of("the probe") == "4.0 to 5.0" and spread.of("wrk") == "20.0 to 30.0", "the spread is another one")
    for found, says in (({"the probe": 5.0, "wrk": 30.0}, ""), ({"the probe": 0.1, "wrk": 0.1}, ""), ({"the probe": 4.9}, ""),
                        ({"the probe": 5.1, "wrk": 29.0}, "p99 of the probe 5.1 ms above 5.0"), ({"the probe": 4.0, "wrk": 30.1}, "p99 of wrk 30.1 ms above 30.0"),
                        ({"the probe": 6.0, "wrk": 31.0}, "p99 of the probe 6.0 ms above 5.0 and of wrk 31.0 ms above 30.0")):
        try:
            spread.judge(found)
            said = ""
        except Slow as error:
            said = str(error)
        holds(said == says, f"{found}: {said!r} and not {says!r}")


def verdict_of(name, words, spread, built):
    """What became of a drill, with its notes; one that was too slow is run once more."""
    trouble, of = DRILLS[name]
    notes = []
    for is_last in (False, True):
        d = Drill(name, words, spread, trouble, **of)
        try:
            d.run(built, shop.fresh(built / "drill"))
            verdict = "FAILED: it passed" if of.get("is_slow") else "held"
        except Slow as error:
            if not is_last and not of.get("is_slow"):
                notes += [*d.notes, f"{error}: run once more"]
                continue
            verdict = f"held, as it was refused: {error}" if of.get("is_slow") else f"FAILED: {error}"
        except (Wrong, TimeoutError) as error:
            verdict = f"FAILED: {error}"
        return verdict, notes + d.notes


def main():
    parser = argparse.ArgumentParser()
    parser.add_argument("--core")
    parser.add_argument("--short", action="store_true")
    parser.add_argument("--calm", type=int, default=300)
    parser.add_argument("--port", type=int, default=14310)
    parser.add_argument("--self-test", action="store_true")
    parser.add_argument("--probe", type=int, help=argparse.SUPPRESS)  # these two are processes of the drills
    parser.add_argument("--proxy", type=int, nargs=2, help=argparse.SUPPRESS)
    parser.add_argument("names", nargs="*", metavar="NAME")
    words = parser.parse_args()
    if words.probe:
        return probes(words.probe)
    if words.proxy:
        return proxy(*words.proxy)
    if words.self_test:
        return self_test()
    shop.install_packages()
    out = shop.OUT
    if words.core or not (out / "front").exists():
        shop.build(out, words.core)
    spread = None if words.short else stretch(words, out, shop.fresh(out / "drill"))
    failed = 0
    for name in words.names or [name for name, (_, of) in DRILLS.items() if spread or not of.get("is_slow")]:
        began = time.monotonic()
        verdict, notes = verdict_of(name, words, spread, out)
        failed += verdict.startswith("FAILED")
        print(f"{name}: {verdict} ({time.monotonic() - began:.0f} s)" + "".join(f"\n    {note}" for note in notes), flush=True)
    return 1 if failed else 0


if __name__ == "__main__":
    sys.exit(main())

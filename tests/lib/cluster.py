"""What tests/suites/replicas starts and ends: nodes of etcd, replicas over them, what is put before either, and connections.

All that is started ends when `leave` is called, which prints the counts, or when a signal ends the suite, or when that is killed.
"""
import base64
import http.server
import json
import os
import queue
import random
import shlex
import shutil
import signal
import socket
import subprocess
import sys
import threading
import time
import urllib.request

from harness import HANG, TOP, Suite, last_line

REPLICA = os.path.join(TOP, "replicated", "recline_replica")

suite = Suite()
# All programs that were started, and the three nodes of etcd.
running = []
nodes = []
# Who leaves keeps it, so that nothing is started any more.
starting = threading.Lock()


def urls():
    """The nodes of etcd, as a replica is given them."""
    return ",".join(node.url for node in nodes)


class Guard:
    """It is given what is started. If this suite is killed at once, so that it can end nothing, the guard ends what is left of that."""

    WORDS = """while read -r pid; do pids+=("$pid"); done
        for pid in "${pids[@]}"; do grep -qs -- "$1" "/proc/$pid/cmdline" && kill -9 "$pid"; done
        [ ! -e "$1" ] || { sleep 1; rm -rf -- "$1"; }"""

    def __init__(self):
        self.process = None

    def begin(self):
        """Starts it, in a session of its own."""
        self.process = subprocess.Popen(
            ["bash", "-c", self.WORDS, "guard", suite.room], stdin=subprocess.PIPE, stdout=subprocess.DEVNULL, stderr=subprocess.DEVNULL,
            start_new_session=True)

    def tell(self, pid):
        """Reports a process to it."""
        self.process.stdin.write(b"%d\n" % pid)
        self.process.stdin.flush()


guard = Guard()


def until(holds, seconds=HANG):
    """Waits until it holds. Answers whether it does before the limit."""
    limit = time.monotonic() + seconds
    while not holds():
        if time.monotonic() > limit:
            return False
        time.sleep(0.02)
    return True


def free_ports(count):
    """Ports that are free now, of those that the system gives to no client: so each stays free while its program is not there."""
    ports = []
    while len(ports) < count:
        port = random.SystemRandom().randrange(10000, 32000)
        with socket.socket() as taken:
            try:
                taken.bind(("127.0.0.1", port))
            except OSError:
                continue
        if port not in ports:
            ports.append(port)
    return ports


# ---- what runs

class Running:
    """A program that is started, killed and started again."""

    def __init__(self, name):
        self.name = name
        self.process = None
        self.errors = open(suite.path(name + ".errors"), "w+b")
        running.append(self)

    def start(self):
        """Starts it, and reports that to the guard."""
        with starting:
            self.process = subprocess.Popen(self.words(), stdin=subprocess.DEVNULL, stdout=subprocess.PIPE, stderr=self.errors)
            guard.tell(self.process.pid)

    def kill(self):
        """Kills it."""
        self.process.kill()
        self.process.wait()
        self.process.stdout.close()

    def told(self):
        """What it printed on standard error so far."""
        self.errors.seek(0)
        return self.errors.read().decode()


class Node(Running):
    """A node of etcd."""

    def __init__(self, k, ports, name="etcd", more=()):
        super().__init__("%s%d" % (name, k))
        self.more = list(more)
        self.folder = suite.path(self.name)
        self.cluster = name
        self.k = k
        self.url = "http://127.0.0.1:%d" % ports[2 * k]
        self.ports = ports

    def words(self):
        """Its command."""
        peers = ["http://127.0.0.1:%d" % port for port in self.ports[1::2]]
        return ["etcd", "--name", self.name, "--data-dir", self.folder, "--log-level", "error",
                "--listen-client-urls", self.url, "--advertise-client-urls", self.url,
                "--listen-peer-urls", peers[self.k], "--initial-advertise-peer-urls", peers[self.k],
                "--initial-cluster", ",".join("%s%d=%s" % (self.cluster, k, peer) for k, peer in enumerate(peers))] + self.more

    def is_up(self):
        """Whether it answers."""
        try:
            with urllib.request.urlopen(self.url + "/health", timeout=HANG) as answer:
                return json.load(answer)["health"] == "true"
        except (OSError, ValueError):
            return False


class Replica(Running):
    """A replica of a computation over a file of its own. Its port stays the same when it is started again."""

    def __init__(self, name, computation, program=None, etcd=None):
        super().__init__(name)
        self.etcd = etcd or urls()
        self.computation = computation
        self.file = suite.path(name)
        self.port = free_ports(1)[0]
        self.program = program or suite.program

    def words(self):
        """Its command."""
        return [REPLICA, self.computation, "--etcd", self.etcd, "--port", str(self.port), "--records", self.file, "--recline", self.program]

    def is_up(self):
        """Whether its port is open: it has printed so."""
        return self.process.stdout.readline() == b"PORT %d\n" % self.port

    def begin(self):
        """Starts it, and waits until its port is open."""
        self.start()
        if not self.is_up():
            raise RuntimeError("%s did not start: %s" % (self.name, self.told()))
        return self

    def end(self):
        """Its status, if it is ended in order. Two signals are no more than one."""
        self.process.terminate()
        self.process.terminate()
        return self.ends()

    def ends(self):
        """Its status, when it has ended."""
        status = self.process.wait(timeout=HANG)
        self.process.stdout.close()
        return status

    def records(self):
        """What `recline show` prints of its file."""
        return shown(self.file, "--reports")

    def lines(self):
        """The accepted lines, with their marks."""
        reports = json.loads(shown(self.file, "--reports", "--json"))["reports"]
        return [record["line"].replace(" ", "@%d " % record["epoch"], 1) if record["epoch"] and not record["line"].startswith("SETTLE")
                else record["line"] for record in reports]


def shown(*words):
    """What `recline show` prints."""
    ran = suite.run("show", *words)
    ran.check_returncode()
    return ran.stdout


def driven(text):
    """The lines that `recline drive` prints for the text of a script."""
    ran = suite.run("drive", "-", input=text, text=True)
    ran.check_returncode()
    return ran.stdout.splitlines()


class Link:
    """A connection to a replica."""

    def __init__(self, replica, timeout=HANG):
        self.socket = socket.create_connection(("127.0.0.1", replica.port), timeout=timeout)
        self.replies = self.socket.makefile("rb")

    def ask(self, line):
        """The reply to a line."""
        self.socket.sendall(line.encode() + b"\n")
        reply = self.replies.readline()
        if not reply.endswith(b"\n"):
            raise ConnectionError()
        return reply[:-1].decode()

    def close(self):
        """Closes the connection."""
        self.replies.close()
        self.socket.close()


def say(replica, text):
    """All that comes to a client that sends this and shuts its half."""
    with socket.create_connection(("127.0.0.1", replica.port), timeout=HANG) as client:
        answer = b""
        try:
            client.sendall(text)
            client.shutdown(socket.SHUT_WR)
            while True:
                piece = client.recv(65536)
                if not piece:
                    break
                answer += piece
        except ConnectionError:
            answer += b"reset"
        return answer


def ask(replica, *lines):
    """The replies to lines."""
    return say(replica, "".join(line + "\n" for line in lines).encode()).decode().splitlines()


# ---- etcd

def in_base64(**words):
    """A request's words as etcd wants them."""
    return {name: base64.b64encode(word).decode() for name, word in words.items()}


def words_of(**words):
    """The text of a request with these words."""
    return json.dumps(in_base64(**words)).encode()


def put_keys(values):
    """Puts them by one transaction."""
    puts = [{"request_put": in_base64(key=key, value=value)} for key, value in values.items()]
    urllib.request.urlopen(nodes[0].url + "/v3/kv/txn", json.dumps({"success": puts}).encode(), timeout=HANG).close()


def put_key(key, value, node=None):
    """Puts one key."""
    urllib.request.urlopen((node or nodes[0]).url + "/v3/kv/put", words_of(key=key, value=value), timeout=HANG).close()


def get_keys(start):
    """The values of the keys that start so, by these."""
    words = words_of(key=start, range_end=start[:-1] + bytes([start[-1] + 1]))
    with urllib.request.urlopen(nodes[0].url + "/v3/kv/range", words, timeout=HANG) as answer:
        return {base64.b64decode(pair["key"]): base64.b64decode(pair.get("value", "")) for pair in json.load(answer).get("kvs", [])}


def asks(computation):
    """The replicas that ask, by the runs that do."""
    return {key.rpartition(b"/")[2]: value.decode() for key, value in get_keys(b"/recline/%s/asks/" % computation.encode()).items()}


def length(computation):
    """How many lines the log has."""
    return int(get_keys(b"/recline/%s/end" % computation.encode()).popitem()[1].split()[0])


def compact(computation, etcd):
    """Cuts off the log. If this suite is killed that ends all the same."""
    return subprocess.run(["timeout", str(HANG), REPLICA, computation, "--etcd", etcd, "--compact"], capture_output=True, text=True)


# ---- what is put before etcd or recline

class Before(http.server.BaseHTTPRequestHandler):
    """A server before a node of etcd, which hands on all."""

    protocol_version = "HTTP/1.1"
    disable_nagle_algorithm = True

    def do_POST(self):
        """Hands on a request."""
        self.answer(self.carry_out(self.body()))

    def body(self):
        """The text of a request."""
        return self.rfile.read(int(self.headers["Content-Length"]))

    def carry_out(self, body):
        """The answer of the node to a request."""
        with urllib.request.urlopen(nodes[1].url + self.path, body, timeout=HANG) as answer:
            return answer.read()

    def answer(self, text):
        """Hands back an answer, whole."""
        self.wfile.write(b"HTTP/1.1 200 OK\r\nContent-Length: %d\r\n\r\n%s" % (len(text), text))

    def log_message(self, *_):
        """Nothing is printed of requests."""


def before_etcd(handler):
    """A server of this kind before a node of etcd, and its URL."""
    server = http.server.ThreadingHTTPServer(("127.0.0.1", 0), handler)
    threading.Thread(target=server.serve_forever, daemon=True).start()
    return server, "http://127.0.0.1:%d" % server.server_port


class Far:
    """A server before a node of etcd; what goes through takes so many seconds longer each way."""

    def __init__(self, node, seconds):
        self.address = "127.0.0.1", int(node.url.rpartition(":")[2])
        self.seconds = seconds
        self.server = socket.create_server(("127.0.0.1", 0))
        self.url = "http://127.0.0.1:%d" % self.server.getsockname()[1]
        threading.Thread(target=self.admit, daemon=True).start()

    def admit(self):
        """Takes connections, and starts what goes through each."""
        while True:
            near, _ = self.server.accept()
            far = socket.create_connection(self.address)
            for source, target in ((near, far), (far, near)):
                target.setsockopt(socket.IPPROTO_TCP, socket.TCP_NODELAY, 1)
                pieces = queue.SimpleQueue()
                threading.Thread(target=self.take, args=[source, pieces], daemon=True).start()
                threading.Thread(target=self.give, args=[pieces, target], daemon=True).start()

    def take(self, source, pieces):
        """Notes pieces with the time when they may go on."""
        piece = b"?"
        while piece:
            try:
                piece = source.recv(65536)
            except OSError:
                piece = b""
            pieces.put((time.monotonic() + self.seconds, piece))

    def give(self, pieces, target):
        """Sends pieces when their time has come."""
        try:
            while True:
                at, piece = pieces.get()
                time.sleep(max(0, at - time.monotonic()))
                if not piece:
                    break
                target.sendall(piece)
            target.shutdown(socket.SHUT_WR)
        except OSError:
            pass


def before_recline(name, *words):
    """The path of a program by tests/lib/before_recline.py, which takes these words and those of recline."""
    program = suite.path(name + ".program")
    with open(program, "w", encoding="utf-8") as file:
        file.write("#!/bin/sh\nexec %s \"$@\"\n" % shlex.join([sys.executable, os.path.join(TOP, "tests", "lib", "before_recline.py"), *words]))
    os.chmod(program, 0o755)
    return program


def slow_recline():
    """A recline that takes five milliseconds longer for each line."""
    return before_recline("slow", "slow", suite.program)


# ---- the end

def leave():
    """Ends what runs, and prints the counts. Clients may still wait if a case ended early, and other cases may be under way, which count no
    longer."""
    starting.acquire()
    suite.counting.acquire()
    for program in running:
        if program.process and program.process.poll() is None:
            program.process.kill()
            try:
                # What waits for it already may be what was interrupted.
                os.waitpid(program.process.pid, 0)
            except ChildProcessError:
                pass
    # A recline whose replica was killed ends a little later.
    until(lambda: shutil.rmtree(suite.room, ignore_errors=True) or not os.path.exists(suite.room), 60)
    if suite.failed:
        print("tests: the seed was %s" % suite.seed, file=sys.stderr)
    print(last_line(suite.passed, suite.failed, suite.skipped))
    sys.stdout.flush()
    os._exit(0 if suite.failed == 0 and suite.passed else 1)


def leave_at_a_signal():
    """Leaves at a signal, which a thread of its own takes: the main one may be starting a program just then."""
    source, target = os.pipe()
    os.set_blocking(target, False)
    signal.set_wakeup_fd(target)
    for one in (signal.SIGTERM, signal.SIGINT, signal.SIGHUP):
        signal.signal(one, lambda *_: None)

    def wait():
        told = signal.Signals(os.read(source, 1)[0]).name
        suite.expect("not ended by %s" % told, False)
        leave()

    threading.Thread(target=wait, daemon=True).start()

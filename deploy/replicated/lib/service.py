"""What the programs of this folder share: settings, log lines, metrics, health, signals and the broker."""

import argparse
import collections
import concurrent.futures
import configparser
import contextlib
import http.server
import json
import os
import random
import shlex
import signal
import socket
import ssl
import sys
import threading
import time
import uuid

import entries
import keeping
import pika
import pika.exceptions

CANDIDATES, BLOCKS, OUTCOMES = "candidates", "blocks", "outcomes"
# how long a node may be without a connection before its health check says so, and between two tries
PATIENCE, PAUSE = 30.0, 1.0
LOST = (pika.exceptions.AMQPError, OSError, ssl.SSLError)


class Stop(Exception):
    """A signal asked for an end, and the time to come to it by oneself is over."""


class Settings:
    """The settings of a file: example.ini explains each."""

    DEFAULTS = {
        "broker": {
            "hosts": "localhost",
            "user": "guest",
            "password_file": "",
            "virtual_host": "/",
            "heartbeat": "10",
            "ca_file": "",
            "server_name": "",
            "certificate_file": "",
            "key_file": "",
        },
        "node": {
            "name": socket.gethostname(),
            "folder": "",
            "first_state": "",
            "program": "speedex",
            "remember": "100000",
            "read_ahead": "16",
            "save_seconds": "0",
            "metrics": "",
            "stop_seconds": "20",
        },
        "sealer": {
            "candidates": "100000",
            "wait_seconds": "0.5",
            "messages": "2000",
            "seal_words": "",
        },
        "follower": {"outcomes": "no"},
    }

    def __init__(self, path):
        self.ini = configparser.ConfigParser(interpolation=None)
        self.ini.read_dict(self.DEFAULTS)
        with open(path, encoding="utf-8") as file:
            self.ini.read_file(file)
        for section in self.ini.sections():
            unknown = set(self.ini[section]) - set(self.DEFAULTS.get(section, ()))
            if unknown:
                sys.exit(f"{path}: [{section}] has no setting {', '.join(sorted(unknown))}")

    def __getitem__(self, section):
        return self.ini[section]

    def password(self):
        path = self["broker"]["password_file"]
        if not path:
            return "guest"
        with open(os.path.expandvars(path), encoding="utf-8") as file:
            return file.read().strip()

    def connections(self):
        """The parameters of a connection to each host, in an order that is drawn anew."""
        broker, options = self["broker"], None
        for_all = {
            "virtual_host": broker["virtual_host"],
            "credentials": pika.PlainCredentials(broker["user"], self.password()),
            "heartbeat": broker.getint("heartbeat"),
            "socket_timeout": 5,
            "stack_timeout": 10,
        }
        if broker["ca_file"]:
            context = ssl.create_default_context(cafile=broker["ca_file"])
            if broker["certificate_file"]:
                context.load_cert_chain(broker["certificate_file"], broker["key_file"] or None)
            options = context
        found = []
        for host in broker["hosts"].split():
            name, _, port = host.partition(":")
            secure = options and pika.SSLOptions(options, broker["server_name"] or name)
            number = int(port) if port else 5671 if secure else 5672
            found.append(pika.ConnectionParameters(name, number, ssl_options=secure, **for_all))
        random.shuffle(found)
        return found


class Metrics:
    """Numbers in the text form that Prometheus reads."""

    def __init__(self):
        self.lock, self.kinds, self.values = threading.Lock(), {}, {}

    def declare(self, name, kind, meaning, value=0):
        self.kinds[name] = (kind, meaning)
        self.values[name] = {} if value is None else {"": value}

    def set(self, name, value, label=""):
        with self.lock:
            self.values[name][label] = value

    def add(self, name, value=1, label=""):
        with self.lock:
            self.values[name][label] = self.values[name].get(label, 0) + value

    def text(self):
        lines = []
        with self.lock:
            for name, (kind, meaning) in self.kinds.items():
                lines += [f"# HELP speedex_{name} {meaning}", f"# TYPE speedex_{name} {kind}"]
                lines += [f"speedex_{name}{label} {value:.9g}" for label, value in self.values[name].items()]
        return "\n".join(lines) + "\n"


class Service:
    """A program that stays: it has settings, logs lines of JSON, counts, and ends gracefully."""

    def __init__(self, what, about):
        parser = argparse.ArgumentParser(prog=what, description=about)
        parser.add_argument("settings", help="the file of settings; example.ini explains each")
        self.what, self.settings = what, Settings(parser.parse_args().settings)
        self.node = self.settings["node"]
        self.folder = self.node["folder"]
        if not self.folder:
            sys.exit(f"{what}: [node] folder is missing")
        words = shlex.split(self.settings["sealer"]["seal_words"])
        self.program = keeping.Program(shlex.split(self.node["program"]), words)
        self.pool = concurrent.futures.ThreadPoolExecutor(4)
        self.stopping, self.connection, self.alive, self.trouble = False, None, time.monotonic(), None
        self.cancelled = self.blocked = False
        self.metrics = Metrics()
        for name, kind, meaning in (
            ("height", "gauge", "The height of the ledger that this node keeps."),
            ("next_offset", "gauge", "The offset of the next entry of the log to read."),
            ("entries_applied_total", "counter", "Entries whose block was applied."),
            ("entries_passed_total", "counter", "Entries that were passed over, since their block was not valid."),
            ("lag_entries", "gauge", "Entries that came from the log and were not judged yet."),
            ("lag_seconds", "gauge", "Seconds since the oldest such entry was published; 0 if there is none."),
            ("judge_seconds", "gauge", "Seconds that judging the last entries that came took."),
            ("connected", "gauge", "1 if there is a connection to a broker."),
            ("connections_total", "counter", "Connections that were made."),
            ("save_failures_total", "counter", "Times that the head could not be written."),
        ):
            self.metrics.declare(name, kind, meaning)
        self.metrics.declare("candidates_total", "counter", "Candidates of applied entries, by their outcome.", None)
        self.metrics.declare("refused_messages_total", "counter", "Messages refused as a whole, by the reason.", None)

    def log(self, level, event, **fields):
        now = time.time()
        stamp = time.strftime("%Y-%m-%dT%H:%M:%S", time.gmtime(now)) + f".{int(now % 1 * 1000):03}Z"
        line = {"time": stamp, "level": level, "program": self.what, "node": self.node["name"], "event": event}
        print(json.dumps({**line, **fields}, default=str), flush=True)

    # ---- the head

    def open_head(self):
        os.makedirs(self.folder, exist_ok=True)
        remember = self.node.getint("remember")
        self.head = keeping.Head.load(self.folder, remember)
        if self.head is None:
            self.head = keeping.Head.begin(self.node["first_state"], remember)
        self.saved, self.saved_at = self.head.next, time.monotonic()
        self.show_head()
        self.log("info", "head", height=self.head.height, next=self.head.next, digest=self.head.digest.hex())

    def show_head(self):
        self.metrics.set("height", self.head.height)
        self.metrics.set("next_offset", self.head.next)

    def save(self, at_once=False):
        """Writes the head where that is due. A disk that is full stops nothing: the head stays in memory, the log has
        what comes after the file, and the next call tries again."""
        waited = time.monotonic() - self.saved_at
        if self.saved == self.head.next or not at_once and waited < self.node.getfloat("save_seconds"):
            return
        self.saved_at = time.monotonic()
        try:
            self.head.save(self.folder)
        except OSError as error:
            self.metrics.add("save_failures_total")
            self.trouble = f"the head cannot be written: {error.strerror}"
            self.log("error", "not saved", height=self.head.height, why=self.trouble)
            return
        self.saved, self.trouble = self.head.next, None

    def applied(self, offset, entry):
        """Called once for each entry that is applied."""
        for _, refused, _ in entry.messages:
            if refused:
                self.metrics.add("refused_messages_total", 1, f'{{reason="{refused}"}}')
        # of an overdraft the first byte alone, and of a static refusal its number too
        for start, count in collections.Counter(it[:2] for it in entry.outcomes if it[0] != 5).items():
            self.metrics.add("candidates_total", count, f'{{outcome="{entries.outcome_text(start)}"}}')
        overdrafts = sum(1 for it in entry.outcomes if it[0] == 5)
        self.metrics.add("candidates_total", overdrafts, '{outcome="overdraft"}')

    # ---- the broker

    def connect(self):
        self.cancelled = self.blocked = False
        self.connection = pika.BlockingConnection(self.settings.connections())
        self.connection.add_on_connection_blocked_callback(lambda *_: self.set_blocked(True))
        self.connection.add_on_connection_unblocked_callback(lambda *_: self.set_blocked(False))
        self.metrics.set("connected", 1)
        self.metrics.add("connections_total")
        self.log("info", "connected", broker=self.connection._impl.params.host)

    def disconnect(self):
        self.metrics.set("connected", 0)
        if self.connection is not None:
            with contextlib.suppress(*LOST):
                self.connection.close()
        self.connection = None

    def breathe(self, seconds=0.0):
        """Lets the connection send and receive. Called at least once a heartbeat."""
        self.alive = time.monotonic()
        if not self.connection.is_open:
            # `meanwhile` passed over the loss, and pika would say ValueError now
            raise ConnectionError("the connection was lost")
        self.connection.process_data_events(time_limit=seconds)
        if self.cancelled:
            raise ConnectionError("the broker cancelled a consumer")

    def consume(self, channel, queue, came, arguments=None):
        """Has the messages of a queue handed to a call. If the broker ends that, as when the queue is deleted, the
        connection counts as lost; pika alone would wait for ever."""
        channel.add_on_cancel_callback(self.consumer_cancelled)
        channel.basic_consume(queue, came, arguments=arguments)

    def set_blocked(self, blocked):
        self.blocked = blocked
        self.log("warning" if blocked else "info", "nobody may publish" if blocked else "publishing goes on")

    def consumer_cancelled(self, *_):
        self.cancelled = True

    def meanwhile(self, call, *given):
        """The result of a call that runs in a thread, while the connection goes on."""
        running, lost = self.pool.submit(call, *given), False
        while not running.done():
            concurrent.futures.wait([running], None if lost else 0.02)
            if not running.done():
                try:
                    self.breathe()
                except LOST:
                    # the call ends all the same, and the next use of the connection says again that it is lost
                    lost = True
        return running.result()

    def read_log(self):
        """Has the entries put into `self.came`, each (offset, bytes, when published, token), from the one before the
        next on: that one is compared with the one that was read."""
        self.came = []
        self.channel = self.connection.channel()
        self.channel.basic_qos(prefetch_count=self.node.getint("read_ahead"))
        start = {"x-stream-offset": max(0, self.head.next - 1)}
        self.consume(self.channel, BLOCKS, self.entry_came, start)

    def entry_came(self, channel, method, properties, body):
        headers = properties.headers or {}
        published = headers.get("published")
        when = published / 1000 if isinstance(published, int) else time.time()
        self.came.append((headers["x-stream-offset"], body, when, properties.message_id))
        self.last_tag = method.delivery_tag

    def judge(self):
        """Judges all entries that came; answers their tokens."""
        came, self.came = self.came, []
        if not came:
            return ()
        began, tag = time.monotonic(), self.last_tag
        self.metrics.set("lag_entries", len(came))
        self.metrics.set("lag_seconds", max(0.0, time.time() - came[0][2]))
        before, applied = self.head.next, []
        found = [(offset, body) for offset, body, _, _ in came]
        try:
            self.meanwhile(self.head.apply, self.program, found, applied)
        finally:
            for offset, entry in applied:
                self.applied(offset, entry)
        self.metrics.set("judge_seconds", time.monotonic() - began)
        self.metrics.add("entries_applied_total", len(applied))
        self.metrics.add("entries_passed_total", self.head.next - before - len(applied))
        self.metrics.set("lag_entries", len(self.came))
        self.metrics.set("lag_seconds", max(0.0, time.time() - self.came[0][2]) if self.came else 0)
        self.show_head()
        published = {offset: when for offset, _, when, _ in came}
        for offset, entry in applied:
            self.log(
                "info",
                "applied",
                height=entry.block.height,
                offset=offset,
                after=entry.block.after.hex(),
                transactions=entry.block.count,
                candidates=len(entry.outcomes),
                seconds=round(time.monotonic() - began, 4),
                behind=round(time.time() - published[offset], 4),
            )
        passed = self.head.next - before - len(applied)
        if passed:
            self.log("info", "passed over", entries=passed, height=self.head.height)
        self.channel.basic_ack(tag, multiple=True)
        return {token for _, _, _, token in came}

    # ---- its life

    def health(self):
        """Why it is not well, or None."""
        if self.trouble:
            return self.trouble
        waited = time.monotonic() - self.alive
        return f"nothing heard of the broker for {waited:.0f} seconds" if waited > PATIENCE else None

    def serve(self):
        service = self

        class Handler(http.server.BaseHTTPRequestHandler):
            def do_GET(self):
                code, text = 404, "there is /metrics and /health\n"
                if self.path == "/metrics":
                    code, text = 200, service.metrics.text()
                elif self.path == "/health":
                    why = service.health()
                    code, text = (503, why + "\n") if why else (200, "well\n")
                self.send_response(code)
                self.send_header("Content-Type", "text/plain; version=0.0.4; charset=utf-8")
                self.end_headers()
                self.wfile.write(text.encode())

            def log_message(self, *_):
                pass

        if self.node["metrics"]:
            host, _, port = self.node["metrics"].rpartition(":")
            server = http.server.ThreadingHTTPServer((host, int(port)), Handler)
            server.daemon_threads = True
            threading.Thread(target=server.serve_forever, daemon=True).start()

    def signal_came(self, number, _):
        if not self.stopping:
            self.stopping = True
            signal.alarm(self.node.getint("stop_seconds"))
        elif number == signal.SIGALRM:
            raise Stop

    def run(self, session):
        """Runs sessions with a broker, one after the other, until a signal ends it."""
        for number in (signal.SIGTERM, signal.SIGINT, signal.SIGALRM):
            signal.signal(number, self.signal_came)
        try:
            self.open_head()
        except (OSError, keeping.Broken) as error:
            sys.exit(f"{self.what}: {error}")
        self.serve()
        notify("READY=1")
        try:
            while not self.stopping:
                try:
                    self.connect()
                    self.alive = time.monotonic()
                    session()
                except LOST as error:
                    self.log("warning", "connection lost", why=repr(error))
                except keeping.Broken as error:
                    self.trouble = str(error)
                    self.log("error", "not judged", why=self.trouble)
                self.disconnect()
                if not self.stopping:
                    time.sleep(PAUSE)
        except Stop:
            # what is on its way now ends with the process; the file and the log have all that counts
            self.log("warning", "stopped at once")
            os._exit(1)
        notify("STOPPING=1")
        self.save(at_once=True)
        self.log("info", "stopped", height=self.head.height, next=self.head.next)


class Outlet:
    """A channel that publishes with confirms. pika by itself waits for each one, and for ever; a broker may leave one
    out while its other nodes fail."""

    def __init__(self, connection):
        self.channel, self.sent, self.fault = connection.channel(), 0, None
        # what is not confirmed yet, by the number that it has for the broker, and since when nothing was
        self.open, self.since = set(), time.monotonic()
        self.channel.add_on_return_callback(self.returned)
        self.channel._impl.confirm_delivery(self.answered)

    def publish(self, exchange, body, properties):
        if not self.open:
            self.since = time.monotonic()
        self.sent += 1
        self.open.add(self.sent)
        self.channel.basic_publish(exchange, "", body, properties, mandatory=True)

    def returned(self, *_):
        self.fault = "the broker has no queue for a message"

    def answered(self, frame):
        method, self.since = frame.method, time.monotonic()
        if isinstance(method, pika.spec.Basic.Nack):
            self.fault = "the broker refused a message"
        else:
            last = method.delivery_tag
            self.open -= {it for it in self.open if it == last or method.multiple and it < last}

    def is_done(self, blocked=False):
        """Whether all is confirmed. A broker that has been silent for long counts as lost, but if its disk is full."""
        if blocked:
            self.since = time.monotonic()
        if self.fault:
            raise ConnectionError(self.fault)
        if self.open and time.monotonic() - self.since > PATIENCE:
            raise ConnectionError(f"the broker confirmed nothing for {PATIENCE:.0f} seconds")
        return not self.open


def notify(word):
    """Tells systemd, if it started this."""
    path = os.environ.get("NOTIFY_SOCKET")
    if path:
        with socket.socket(socket.AF_UNIX, socket.SOCK_DGRAM) as to, contextlib.suppress(OSError):
            to.sendto(word.encode(), "\0" + path[1:] if path[0] == "@" else path)


def token():
    return uuid.uuid4().hex


def kept(message_id, **headers):
    """The properties of a message that the broker keeps on its disk."""
    return pika.BasicProperties(delivery_mode=2, message_id=message_id, headers=headers or None)

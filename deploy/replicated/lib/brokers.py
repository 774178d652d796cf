"""Three nodes of RabbitMQ on this machine, for the trial and for measuring: started, killed, cut off and stopped.

If the machine lets us, everything runs in name spaces of its own (network, mounts and processes): each node then has an
address of its own on a bridge that leads nowhere else, and the kernel ends all processes with the first one. Otherwise
the nodes share the loopback and differ in their ports, and to cut a node off is to halt its processes.
"""

import base64
import contextlib
import hashlib
import json
import os
import pathlib
import secrets
import shutil
import signal
import socket
import subprocess
import sys
import time

BIN = "/usr/lib/rabbitmq/bin"
USERS = {
    # name: configure, write, read
    "setup": (".*", ".*", ".*"),
    "sealer": ("", "^blocks$", "^(candidates|blocks)$"),
    "follower": ("", "^outcomes$", "^blocks$"),
    "client": ("", "^candidates$", "^outcomes$"),
    "auditor": ("", "", "^(blocks|outcomes)$"),
}
QUEUES = """lists:flatten([begin
    I = rabbit_amqqueue:info(Q, [name, leader, online]),
    {resource, _, queue, Name} = proplists:get_value(name, I),
    Online = length(proplists:get_value(online, I)),
    io_lib:format("~s ~s ~b~n", [Name, proplists:get_value(leader, I), Online])
end || Q <- rabbit_amqqueue:list()]).
"""
INSIDE = "SPEEDEX_NAME_SPACES"


def enter_name_spaces():
    """Runs this program anew in name spaces of its own, if the machine lets it. Answers whether it does now."""
    if INSIDE in os.environ:
        return os.environ[INSIDE] == "yes"
    words = ["unshare", "--net", "--mount", "--pid", "--fork", "--mount-proc", "--kill-child"]
    if os.getuid() != 0:
        words += ["--user", "--map-root-user"]
    test = [*words, "sh", "-c", "ip link add try type bridge && ip link set lo up && mount -t tmpfs try /mnt"]
    works = shutil.which("unshare") and shutil.which("ip") and subprocess.run(test, capture_output=True).returncode == 0
    os.environ[INSIDE] = "yes" if works else "no"
    if works:
        os.execvp(words[0], [*words, sys.executable, *sys.argv])
    return False


def run(*words):
    subprocess.run(words, check=True, stdin=subprocess.DEVNULL)


def free_ports(count):
    held = [socket.create_server(("127.0.0.1", 0)) for _ in range(count)]
    ports = [it.getsockname()[1] for it in held]
    for it in held:
        it.close()
    return ports


class Node:
    def __init__(self, cluster, number):
        self.cluster, self.number = cluster, number
        self.folder = cluster.folder / f"node{number}"
        self.process = self.epmd = self.space = None
        self.address, self.name = "127.0.0.1", f"n{number}@localhost"
        self.port, self.link_port = 5671, 25672
        if cluster.apart:
            self.address, self.name = f"10.77.0.{number}", f"n{number}@10.77.0.{number}"
        else:
            self.port, self.link_port = free_ports(2)

    def make(self):
        self.folder.mkdir(parents=True)
        nodes = [f"cluster_formation.classic_config.nodes.{it.number} = {it.name}" for it in self.cluster.nodes]
        tls = self.cluster.tls
        lines = [
            "listeners.tcp = none",
            f"listeners.ssl.1 = {self.address}:{self.port}",
            f"ssl_options.cacertfile = {tls}/ca.pem",
            f"ssl_options.certfile = {tls}/server.pem",
            f"ssl_options.keyfile = {tls}/server.key",
            "ssl_options.verify = verify_peer",
            "ssl_options.fail_if_no_peer_cert = false",
            "loopback_users = none",
            f"load_definitions = {self.cluster.folder}/definitions.json",
            "cluster_formation.peer_discovery_backend = classic_config",
            *nodes,
            "cluster_partition_handling = pause_minority",
            "net_ticktime = 10",
            "disk_free_limit.absolute = 50MB",
            "vm_memory_high_watermark.absolute = 2GB",
            "log.file.level = info",
        ]
        (self.folder / "rabbitmq.conf").write_text("\n".join(lines) + "\n")
        (self.folder / "plugins").write_text("[].\n")
        if self.cluster.apart:
            # a name space of its own, held by a process that sleeps, with one end of a link to the bridge
            self.space = subprocess.Popen(["unshare", "--net", "sleep", "infinity"])
            time.sleep(0.1)
            link, inner = f"node{self.number}", f"in{self.number}"
            run("ip", "link", "add", link, "type", "veth", "peer", "name", inner, "netns", str(self.space.pid))
            run("ip", "link", "set", link, "master", "bridge", "up")
            for words in (
                ("link", "set", "lo", "up"),
                ("addr", "add", f"{self.address}/24", "dev", inner),
                ("link", "set", inner, "up"),
            ):
                run(*self.within(), "ip", *words)

    def within(self):
        return ["nsenter", f"--net=/proc/{self.space.pid}/ns/net"] if self.space else []

    def environment(self):
        kernel = "-kernel inet_dist_use_interface {%s}" % self.address.replace(".", ",")
        found = {
            "HOME": str(self.cluster.folder),
            "RABBITMQ_NODENAME": self.name,
            "RABBITMQ_USE_LONGNAME": "true" if self.cluster.apart else "false",
            "RABBITMQ_CONFIG_FILE": str(self.folder / "rabbitmq.conf"),
            "RABBITMQ_CONF_ENV_FILE": str(self.folder / "none"),
            "RABBITMQ_ENABLED_PLUGINS_FILE": str(self.folder / "plugins"),
            "RABBITMQ_MNESIA_BASE": str(self.folder / "data"),
            "RABBITMQ_LOG_BASE": str(self.folder / "log"),
            "RABBITMQ_PID_FILE": str(self.folder / "pid"),
            "RABBITMQ_DIST_PORT": str(self.link_port),
            "RABBITMQ_SERVER_ADDITIONAL_ERL_ARGS": kernel + " +S 2:2 +sbwt none +sbwtdcpu none +sbwtdio none",
            "ERL_EPMD_ADDRESS": self.address,
            "ERL_EPMD_PORT": str(self.cluster.epmd_port),
            "ERL_CRASH_DUMP_BYTES": "0",
            "LANG": "C.UTF-8",
            "PATH": f"{BIN}:/usr/sbin:/usr/bin:/sbin:/bin",
        }
        return found

    def start(self):
        if self.epmd is None and (self.cluster.apart or self.number == 1):
            words = [*self.within(), "epmd", "-port", str(self.cluster.epmd_port), "-address", self.address]
            self.epmd = subprocess.Popen(
                words, env=self.environment(), stdout=subprocess.DEVNULL, stderr=subprocess.DEVNULL
            )
        with open(self.folder / "out", "ab") as out:
            self.process = subprocess.Popen(
                [*self.within(), f"{BIN}/rabbitmq-server"],
                env=self.environment(),
                stdin=subprocess.DEVNULL,
                stdout=out,
                stderr=out,
                start_new_session=True,
            )

    def kill(self):
        """SIGKILL to all processes of this node, which are one session that we began."""
        os.killpg(self.process.pid, signal.SIGKILL)
        self.process.wait()
        # in name spaces of its own the kernel hands their children to this program
        with contextlib.suppress(ChildProcessError):
            while True:
                os.waitpid(-self.process.pid, 0)
        self.process = None

    def cut_off(self):
        if self.cluster.apart:
            run("ip", "link", "set", f"node{self.number}", "down")
        else:
            os.killpg(self.process.pid, signal.SIGSTOP)

    def come_back(self):
        if self.cluster.apart:
            run("ip", "link", "set", f"node{self.number}", "up")
        else:
            os.killpg(self.process.pid, signal.SIGCONT)

    def queues(self, seconds):
        """Of each queue its leader and how many of its replicas answer, as this node says, or nothing. `erl_call` of
        Erlang asks it, which takes a hundredth of the time that rabbitmqctl takes."""
        words = [
            *self.within(),
            "erl_call",
            "-address",
            f"{self.address}:{self.link_port}",
            "-timeout",
            str(seconds),
            "-e",
        ]
        done = subprocess.run(words, env=self.environment(), input=QUEUES, capture_output=True, text=True)
        lines = done.stdout.partition('{ok, "')[2].rpartition('"}')[0].split("\\n")
        return {name: (leader, int(count)) for name, leader, count in (it.split() for it in lines if it)}


class Cluster:
    def __init__(self, folder, apart):
        self.folder, self.apart = pathlib.Path(folder), apart
        self.epmd_port = 4369 if apart else free_ports(1)[0]
        self.tls = self.folder / "tls"
        self.passwords = {user: secrets.token_urlsafe(18) for user in USERS}
        self.nodes = [Node(self, number) for number in (1, 2, 3)]

    def make(self):
        cookie = self.folder / ".erlang.cookie"
        cookie.write_text(secrets.token_hex(20))
        cookie.chmod(0o400)
        self.make_certificates()
        self.make_definitions()
        if self.apart:
            run("ip", "link", "set", "lo", "up")
            run("ip", "link", "add", "bridge", "type", "bridge")
            run("ip", "addr", "add", "10.77.0.254/24", "dev", "bridge")
            run("ip", "link", "set", "bridge", "up")
        for node in self.nodes:
            node.make()

    def make_certificates(self):
        self.tls.mkdir(mode=0o700)
        names = ",".join(f"IP:{it.address}" for it in self.nodes) + ",DNS:localhost"
        (self.tls / "names").write_text(f"subjectAltName={names}\n")
        for words in (
            "req -x509 -newkey rsa:2048 -nodes -days 2 -subj /CN=trial -keyout ca.key -out ca.pem",
            "req -newkey rsa:2048 -nodes -subj /CN=node -keyout server.key -out server.csr",
            "x509 -req -in server.csr -CA ca.pem -CAkey ca.key -CAcreateserial -days 2 -extfile names -out server.pem",
        ):
            subprocess.run(["openssl", *words.split()], cwd=self.tls, check=True, capture_output=True)

    def make_definitions(self):
        """Users, with salted digests of their passwords, and what each may do."""
        users, permissions = [], []
        for user, (configure, write, read) in USERS.items():
            salt = secrets.token_bytes(4)
            digest = salt + hashlib.sha256(salt + self.passwords[user].encode()).digest()
            users.append(
                {
                    "name": user,
                    "password_hash": base64.b64encode(digest).decode(),
                    "tags": "",
                    "hashing_algorithm": "rabbit_password_hashing_sha256",
                }
            )
            rights = {"configure": configure, "write": write, "read": read}
            permissions.append({"user": user, "vhost": "/", **rights})
            path = self.folder / f"{user}.password"
            path.write_text(self.passwords[user] + "\n")
            path.chmod(0o600)
        found = {"vhosts": [{"name": "/"}], "users": users, "permissions": permissions}
        (self.folder / "definitions.json").write_text(json.dumps(found))

    def start(self, seconds):
        """Starts the first node, and the others once it answers: so they join it, however slow the machine is."""
        end = time.monotonic() + seconds
        for nodes in (self.nodes[:1], self.nodes):
            while not all(map(self.answers, nodes)):
                if time.monotonic() > end:
                    raise RuntimeError(f"the nodes did not come up within {seconds} seconds: see {self.folder}")
                self.start_ended(nodes)
                time.sleep(0.2)

    def start_ended(self, nodes):
        """Starts those that do not run, as systemd does. Answers how many ended by themselves."""
        ended = [it for it in nodes if it.process is None or it.process.poll() is not None]
        count = sum(it.process is not None for it in ended)
        for node in ended:
            node.start()
        return count

    def answers(self, node):
        try:
            socket.create_connection((node.address, node.port), timeout=1).close()
            return True
        except OSError:
            return False

    def queues(self):
        """The same, as the first node says that answers."""
        for node in self.nodes:
            found = node.queues(30) if self.answers(node) else {}
            if found:
                return found
        return {}

    def stop(self):
        for node in self.nodes:
            for process in (node.process, node.epmd, node.space):
                if process and process.poll() is None:
                    if process is node.process:
                        node.come_back()
                        node.kill()
                    else:
                        process.kill()
                        process.wait()

    # ---- settings for the programs

    def settings(self, user, **sections):
        """The text of a file of settings for one of the users."""
        broker = {
            "hosts": " ".join(f"{it.address}:{it.port}" for it in self.nodes),
            "user": user,
            "password_file": self.folder / f"{user}.password",
            "ca_file": self.tls / "ca.pem",
            "heartbeat": 10,
        }
        lines = []
        for section, pairs in {"broker": broker, **sections}.items():
            lines += [f"[{section}]", *(f"{name} = {value}" for name, value in pairs.items())]
        return "\n".join(lines) + "\n"

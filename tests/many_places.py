"""Hosts behind ssh and nodes of Slurm, all on this machine, for test_many.py; and processes by their
numbers. Only what was started here is ever ended.
"""

import contextlib
import os
import pathlib
import shutil
import signal
import socket
import subprocess
import tempfile
import time
from collections.abc import Callable, Iterable, Iterator, Mapping
from typing import Any

PATH = os.environ["PATH"] + ":/usr/sbin:/sbin"
SECONDS = 60
NET, NAME = "10.231.77", "psimany"
SSH_CONFIG = """Host *
  IdentityFile {room}/key
  UserKnownHostsFile /dev/null
  StrictHostKeyChecking no
  LogLevel ERROR
  BatchMode yes
  ConnectTimeout 3
  ServerAliveInterval 1
  ServerAliveCountMax 3
"""
SSHD_CONFIG = """HostKey {room}/host-key
AuthorizedKeysFile {room}/key.pub
PidFile none
UsePAM no
StrictModes no
PermitRootLogin prohibit-password
PasswordAuthentication no
"""
SLURM_CONFIG = """ClusterName={name}
SlurmctldHost={host}(127.0.0.1)
SlurmctldPort=26817
SlurmUser=root
AuthType=auth/munge
AuthInfo=socket={room}/munge.socket
CredType=cred/munge
StateSaveLocation={room}/state
SlurmdSpoolDir={room}/spool-%n
SlurmctldPidFile={room}/slurmctld.pid
SlurmdPidFile={room}/slurmd-%n.pid
SlurmctldLogFile={room}/slurmctld.log
SlurmdLogFile={room}/slurmd-%n.log
ProctrackType=proctrack/linuxproc
TaskPlugin=task/none
SelectType=select/cons_tres
SelectTypeParameters=CR_CPU
SlurmdParameters=config_overrides
SchedulerParameters=batch_sched_delay=0,sched_interval=2,bf_interval=2
SlurmdTimeout=10
ReturnToService=2
JobRequeue=1
MailProg=/bin/true
NodeName={nodes} NodeHostname={host} NodeAddr=127.0.0.1 Port={ports} CPUs=1 State=UNKNOWN
PartitionName=all Nodes=ALL Default=YES MaxTime=INFINITE State=UP
"""


def run(*words: str) -> None:
    subprocess.run(words, check=True, env={**os.environ, "PATH": PATH}, capture_output=True)


def begin(*words: str, **options: Any) -> "subprocess.Popen[bytes]":
    """A process that runs beside."""
    call = [shutil.which(words[0], path=PATH) or words[0], *words[1:]]
    nowhere = subprocess.DEVNULL
    process: "subprocess.Popen[bytes]" = subprocess.Popen(
        call, stdin=nowhere, stdout=nowhere, stderr=nowhere, **options
    )
    return process


def stat_of(number: int) -> tuple[str, str, int] | None:
    """The name, the state and the parent of a process; none where it is gone."""
    try:
        text = pathlib.Path(f"/proc/{number}/stat").read_text()
    except OSError:
        return None
    name, _, rest = text.partition("(")[2].rpartition(")")
    state, parent = rest.split()[:2]
    return name, state, int(parent)


def is_alive(number: int) -> bool:
    found = stat_of(number)
    return found is not None and found[1] != "Z"


def descendants(number: int, name: str | None = None) -> list[int]:
    """The processes that a process has started, and those that these have, of a name if given."""
    numbers = [int(file) for file in os.listdir("/proc") if file.isdigit()]
    stats = {one: stat for one in numbers if (stat := stat_of(one))}
    found: list[int] = []
    known = {number}
    while new := [one for one, stat in stats.items() if stat[2] in known and one not in known]:
        found += new
        known |= {*new}
    return [one for one in found if name in (None, stats[one][0]) and stats[one][1] != "Z"]


def kill(numbers: Iterable[int]) -> None:
    for number in numbers:
        with contextlib.suppress(ProcessLookupError):
            os.kill(number, signal.SIGKILL)


class Host:
    """A network namespace with an sshd and a home of its own."""

    def __init__(self, room: str, number: int) -> None:
        self.room, self.name, self.link = room, f"{NAME}{number}", f"pm{number}"
        self.address, self.home = f"{NET}.{10 + number}", pathlib.Path(room, f"home{number}")
        self.home.mkdir()
        inside = ["ip", "netns", "exec", self.name]
        run("ip", "netns", "add", self.name)
        run(*f"ip link add {self.link} type veth peer name eth0 netns {self.name}".split())
        run("ip", "link", "set", self.link, "master", NAME)
        run(*inside, *f"ip addr add {self.address}/24 dev eth0".split())
        run(*inside, "ip", "link", "set", "eth0", "up")
        self.join()
        self.begin()

    def begin(self) -> None:
        """Starts the host's sshd, with the host's home instead of root's."""
        script = 'mount --bind "$1" "$HOME" && exec /usr/sbin/sshd -D -f "$2/sshd.config"'
        words = ["unshare", "--mount", "sh", "-c", script, "sh", str(self.home), self.room]
        self.server = begin("ip", "netns", "exec", self.name, *words)
        wait_until(lambda: is_open(self.address, 22))

    def kill(self) -> None:
        """Kills the host's sshd, and all that runs on the host."""
        kill([self.server.pid, *descendants(self.server.pid), *self.inside()])
        self.server.wait()

    def inside(self) -> list[int]:
        """The processes of the namespace."""
        done = subprocess.run(
            ["ip", "netns", "pids", self.name], env={**os.environ, "PATH": PATH}, capture_output=True, text=True
        )
        return [int(word) for word in done.stdout.split()]

    def cut(self) -> None:
        run("ip", "link", "set", self.link, "down")

    def join(self) -> None:
        run("ip", "link", "set", self.link, "up")

    def end(self) -> None:
        if self.server.poll() is None:
            self.kill()
        run("ip", "netns", "del", self.name)


def is_open(address: str, port: int) -> bool:
    with contextlib.suppress(OSError), socket.create_connection((address, port), 1):
        return True
    return False


def wait_until(holds: Callable[[], bool], seconds: float = SECONDS) -> None:
    """Waits until something holds, but not longer than it may take."""
    until = time.monotonic() + seconds
    while not holds() and time.monotonic() < until:
        time.sleep(0.05)


@contextlib.contextmanager
def hosts(count: int) -> Iterator[tuple[str, str, list[Host]]]:
    """Hosts, the ssh command that reaches them, and a file with their names."""
    room = tempfile.mkdtemp(prefix="try-many-hosts-")
    made: list[Host] = []
    try:
        for name in ("key", "host-key"):
            run("ssh-keygen", "-q", "-t", "ed25519", "-N", "", "-f", f"{room}/{name}")
        for name, text in (("ssh.config", SSH_CONFIG), ("sshd.config", SSHD_CONFIG)):
            pathlib.Path(room, name).write_text(text.format(room=room))
        os.makedirs("/run/sshd", mode=0o755, exist_ok=True)
        run("ip", "link", "add", NAME, "type", "bridge")
        run("ip", "addr", "add", f"{NET}.1/24", "dev", NAME)
        run("ip", "link", "set", NAME, "up")
        made += (Host(room, number) for number in range(1, count + 1))
        file = pathlib.Path(room, "hosts")
        file.write_text("# slots/host\n" + "".join(f"2/{host.address}\n" for host in made))
        yield f"ssh -F {room}/ssh.config", str(file), made
    finally:
        for host in made:
            host.end()
        run("ip", "link", "del", NAME)
        shutil.rmtree(room)


class Node:
    """A node of Slurm: a slurmd of its own."""

    def __init__(self, environment: Mapping[str, str], name: str) -> None:
        self.environment, self.name = environment, name
        self.begin()

    def begin(self) -> None:
        self.server = begin("slurmd", "-D", "-N", self.name, env=self.environment)

    def kill(self) -> None:
        """Kills the node's slurmd, and the tasks that it runs, whose numbers Slurm tells."""
        kill([self.server.pid, *descendants(self.server.pid), *self.tasks()])
        self.server.wait()

    def tasks(self) -> list[int]:
        """The slurmstepd of this node, each with what it runs: slurmd starts them as daemons."""
        found = []
        for number in (int(file) for file in os.listdir("/proc") if file.isdigit()):
            with contextlib.suppress(OSError):
                words = pathlib.Path(f"/proc/{number}/environ").read_bytes().split(b"\0")
                if f"SLURMD_NODENAME={self.name}".encode() in words:
                    stat = stat_of(number)
                    found += [number, *([stat[2]] if stat else [])]
        return [number for number in found if number > 1 and number != os.getpid()]


@contextlib.contextmanager
def slurm(count: int) -> Iterator[tuple[dict[str, str], list[Node]]]:
    """The environment in which Slurm's commands reach a cluster of nodes, and the nodes."""
    room = tempfile.mkdtemp(prefix="try-many-slurm-")
    os.chmod(room, 0o755)
    servers = []
    environment = {**os.environ, "PATH": PATH, "SLURM_CONF": f"{room}/slurm.conf"}
    words = {"name": NAME, "room": room, "host": socket.gethostname()}
    words |= {"nodes": f"n[1-{count}]", "ports": f"[26821-{26820 + count}]"}
    pathlib.Path(room, "slurm.conf").write_text(SLURM_CONFIG.format(**words))
    pathlib.Path(room, "state").mkdir()
    key = pathlib.Path(room, "munge.key")
    key.write_bytes(os.urandom(1024))
    key.chmod(0o600)
    files: dict[str, str | pathlib.Path] = {"key-file": key, "socket": "munge.socket", "pid-file": "munge.pid"}
    files |= {"log-file": "munge.log", "seed-file": "munge.seed"}
    munge = [f"--{name}={pathlib.Path(room, file)}" for name, file in files.items()]
    try:
        servers.append(begin("munged", "--foreground", "--force", *munge))
        wait_until(pathlib.Path(room, "munge.socket").exists)
        servers.append(begin("slurmctld", "-D", env=environment))
        nodes = [Node(environment, f"n{number}") for number in range(1, count + 1)]
        wait_until(lambda: idle_nodes(environment) == count)
        yield environment, nodes
    finally:
        for node in nodes:
            if node.server.poll() is None:
                node.kill()
        kill([server.pid for server in servers])
        for server in servers:
            server.wait()
        shutil.rmtree(room)


def idle_nodes(environment: Mapping[str, str]) -> int:
    words = ["sinfo", "--noheader", "--Node", "--states=idle", "--format=%N"]
    done = subprocess.run(words, env=environment, capture_output=True, text=True)
    return len(done.stdout.split())

"""farm/run over what clusters have, as docs/MACHINES.md says: Slurm, whose controller and two nodes' daemons run on this machine for the time of the tests,
and ssh to two servers on the loopback device, with keys of the tests' own. Both are skipped where they are not installed."""
import contextlib
import getpass
import os
import pathlib
import shutil
import signal
import socket
import subprocess
import time

import pytest

from conftest import run
from test_farm import accepted, drawn, stand_in, words, worked

SLURM = ("setpriv", "munged", "mungekey", "slurmctld", "slurmd", "sbatch", "squeue", "scancel", "sinfo")
SSH = ("setpriv", "ssh", "sshd", "ssh-keygen", "rsync", "parallel")
STARTS, LONGEST = 120, 900  # seconds that a daemon may take to begin, and a farm to end, on a machine with much other work
SEED, STEPS, VALUE = 9, 10, "optimal -43"  # a small model, since jobs take longer to begin than to work: its seed, the steps of a job, its value


def found(name):
    """The path of a command: daemons stand in folders that not everybody's PATH has."""
    return shutil.which(name, path=os.pathsep.join([os.environ["PATH"], "/usr/sbin", "/sbin"]))


def lacks(names):
    return ", ".join(name for name in names if found(name) is None)


def free_ports(many):
    with contextlib.ExitStack() as stack:
        sockets = [stack.enter_context(socket.socket()) for _ in range(many)]
        for one in sockets:
            one.bind(("127.0.0.1", 0))
        return [one.getsockname()[1] for one in sockets]


def wait(condition, what, seconds=STARTS):
    until = time.monotonic() + seconds
    while not condition():
        assert time.monotonic() < until, what
        time.sleep(0.1)


class Daemons:
    """Processes that are begun one after the other and ended in the opposite order, and also where the tests are killed."""

    def __init__(self, folder):
        self.folder, self.children = folder, []

    def begin(self, name, *given, **environment):
        with open(self.folder / f"{name}-{len(self.children)}.log", "wb") as log:
            words_given = ["setpriv", "--pdeathsig", "TERM", found(name), *map(str, given)]
            self.children.append(subprocess.Popen(words_given, stdin=subprocess.DEVNULL, stdout=log, stderr=log,
                                                  env={**os.environ, **environment}, start_new_session=True))

    def have_ended(self):
        return any(child.poll() is not None for child in self.children)

    def last_lines(self):
        return "; ".join(line for log in sorted(self.folder.glob("*.log")) for line in log.read_text(encoding="utf-8", errors="replace").splitlines()[-1:])

    def end(self):
        for child in reversed(self.children):
            child.terminate()
            try:
                child.wait(10)
            except subprocess.TimeoutExpired:
                child.kill()
                child.wait()


def farm(environment, *given, **options):
    ran = subprocess.run(words(*given, **options), capture_output=True, text=True, check=False, timeout=LONGEST, env={**os.environ, **environment})
    return ran.stdout.split("\n", 1)[0], ran.returncode, ran.stderr


class Slurm:
    """A cluster of two nodes with one processor and 8 GB each, on this machine."""

    def __init__(self, folder):
        self.folder, self.daemons = folder, Daemons(folder)
        self.environment = {"SLURM_CONF": str(folder / "slurm.conf")}
        for name in ("state", "spool-node1", "spool-node2"):
            (folder / name).mkdir()
        controller, *nodes = free_ports(3)
        host = socket.gethostname().split(".")[0]
        (folder / "slurm.conf").write_text(f"""ClusterName=test
SlurmctldHost={host}(127.0.0.1)
SlurmctldPort={controller}
SlurmUser={getpass.getuser()}
SlurmdUser={getpass.getuser()}
AuthType=auth/munge
AuthInfo=socket={folder}/munge
CredType=cred/munge
StateSaveLocation={folder}/state
SlurmdSpoolDir={folder}/spool-%n
SlurmctldPidFile={folder}/slurmctld.pid
SlurmdPidFile={folder}/%n.pid
ProctrackType=proctrack/linuxproc
TaskPlugin=task/none
MpiDefault=none
SelectType=select/cons_tres
SelectTypeParameters=CR_CPU
SchedulerParameters=batch_sched_delay=0,sched_min_interval=0
AccountingStorageType=accounting_storage/none
JobAcctGatherType=jobacct_gather/none
SlurmdParameters=config_overrides
ReturnToService=2
""" + "".join(f"NodeName=node{place} NodeHostname={host} NodeAddr=127.0.0.1 Port={port} CPUs=1 RealMemory=8000 State=UNKNOWN\n"
                for place, port in enumerate(nodes, 1)) + "PartitionName=long Nodes=node1,node2 Default=YES MaxTime=INFINITE State=UP\n", encoding="ascii")
        is_new = pathlib.Path("/sys/fs/cgroup/cgroup.controllers").exists()  # nothing is limited by control groups, but a plugin for them has to load
        (folder / "cgroup.conf").write_text("CgroupPlugin=autodetect\nIgnoreSystemd=yes\n" if is_new else "CgroupPlugin=cgroup/v1\n", encoding="ascii")

    def begin(self):
        folder = self.folder
        subprocess.run([found("mungekey"), "--create", f"--keyfile={folder}/key"], check=True, capture_output=True)
        self.daemons.begin("munged", "--foreground", "--force", f"--key-file={folder}/key", f"--socket={folder}/munge", f"--pid-file={folder}/munge.pid",
                           f"--log-file={folder}/munge.log", f"--seed-file={folder}/munge.seed")
        wait((folder / "munge").exists, "munged does not begin")
        self.daemons.begin("slurmctld", "-D", **self.environment)
        for node in ("node1", "node2"):
            self.daemons.begin("slurmd", "-D", "-N", node, **self.environment)
        wait(lambda: self.ask("sinfo", "--noheader", "--format=%D %t") == "2 idle\n" or self.daemons.have_ended(), "the nodes are not idle")
        if self.daemons.have_ended():
            pytest.skip(f"Slurm's daemons do not run here: {self.daemons.last_lines()}")

    def ask(self, *given):
        ran = subprocess.run([found(given[0]), *given[1:]], capture_output=True, text=True, check=False, env={**os.environ, **self.environment})
        return ran.stdout

    def tasks(self, *states):
        return self.ask("squeue", "--noheader", "--array", "--format=%i", *([f"--states={','.join(states)}"] if states else [])).split()

    def logged(self):
        return (self.folder / "slurmctld-1.log").read_text(encoding="utf-8", errors="replace")

    def end(self):
        self.ask("scancel", f"--user={getpass.getuser()}")
        self.daemons.end()


@pytest.fixture(scope="module", name="slurm")
def slurm_of_two_nodes(tmp_path_factory):
    if lacks(SLURM):
        pytest.skip(f"Slurm is not installed (Debian: slurm-wlm, munge): {lacks(SLURM)}")
    cluster = Slurm(tmp_path_factory.mktemp("slurm"))
    try:
        cluster.begin()
        yield cluster
    finally:
        cluster.end()


def slow(tmp_path):
    """A program that takes a second more for each leaf."""
    return stand_in(tmp_path, 'if [ $leaf = 1 ]; then sleep 1; fi\nexec PROGRAM "$@"\n')


def begun(cluster, tmp_path):
    """A farm of slow workers, some of which are at work."""
    lp, _ = drawn(tmp_path, SEED)
    given = words(lp, tmp_path / "dir", "--engine", "slurm", program=slow(tmp_path), steps=STEPS)
    child = subprocess.Popen(given, stdout=subprocess.PIPE, stderr=subprocess.PIPE, text=True, env={**os.environ, **cluster.environment})
    wait(lambda: cluster.tasks("RUNNING") or child.poll() is not None, "no task begins")
    assert child.poll() is None
    return lp, child


def test_slurm(slurm, tmp_path):
    """The command of MACHINES.md, with fewer workers: both nodes work."""
    lp, dec = drawn(tmp_path, SEED)
    before = len(slurm.logged())
    given = ("--engine", "slurm", "--time", 36000, "--sbatch=--partition=long", "--sbatch=--mem=4G")
    first, status, noise = farm(slurm.environment, lp, dec, tmp_path / "dir", *given, steps=STEPS)
    assert (first, status) == (VALUE, 0), noise
    assert accepted(tmp_path / "dir", lp, dec) == VALUE and worked(tmp_path / "dir") >= 2
    assert all(f"NodeList={node}" in slurm.logged()[before:] for node in ("node1", "node2"))
    assert slurm.tasks() == []


def test_slurm_tasks_that_are_cancelled(slurm, tmp_path):
    """What scancel ends costs its steps alone: its piece is handed out again."""
    lp, child = begun(slurm, tmp_path)
    log = tmp_path / "dir" / "log"
    with child:
        while child.poll() is None and " died" not in log.read_text():
            slurm.ask("scancel", *slurm.tasks("RUNNING"))
            time.sleep(0.5)
        told, noise = child.communicate(timeout=LONGEST)
    assert (told.split("\n", 1)[0], child.returncode) == (VALUE, 0), noise
    assert accepted(tmp_path / "dir", lp) == VALUE
    assert " died" in log.read_text()


def test_slurm_and_a_signal(slurm, tmp_path):
    """SIGTERM takes the tasks out of the queue; the same command goes on from there."""
    lp, child = begun(slurm, tmp_path)
    with child:
        child.send_signal(signal.SIGTERM)
        child.communicate(timeout=LONGEST)
    assert child.returncode == 5
    wait(lambda: not slurm.tasks(), "tasks stay in the queue")
    assert accepted(tmp_path / "dir", lp).startswith("bound ")
    assert farm(slurm.environment, lp, tmp_path / "dir", "--engine", "slurm", steps=STEPS)[:2] == (VALUE, 0)


def test_slurm_and_a_driver_that_is_killed(slurm, tmp_path):
    """The next driver takes the tasks of the one before out of the queue."""
    lp, child = begun(slurm, tmp_path)
    with child:
        child.kill()
        child.communicate(timeout=LONGEST)
    left = set(slurm.tasks())
    assert left
    assert farm(slurm.environment, lp, tmp_path / "dir", "--engine", "slurm", steps=STEPS)[:2] == (VALUE, 0)
    assert slurm.tasks() == []


class Hosts:
    """Two ssh servers on this machine, as node1 and node2, each with a home of its own."""

    def __init__(self, folder):
        self.folder, self.daemons = folder, Daemons(folder)
        self.homes = [folder / "home1", folder / "home2"]
        for name in ("host", "user"):
            subprocess.run([found("ssh-keygen"), "-q", "-t", "ed25519", "-N", "", "-f", folder / name], check=True)
        shutil.copy(folder / "user.pub", folder / "authorized")
        config = []
        for place, (home, port) in enumerate(zip(self.homes, free_ports(2)), 1):
            home.mkdir()
            (folder / f"sshd{place}").write_text(f"""ListenAddress 127.0.0.1
Port {port}
HostKey {folder}/host
AuthorizedKeysFile {folder}/authorized
PasswordAuthentication no
KbdInteractiveAuthentication no
PermitRootLogin yes
StrictModes no
UsePAM no
PidFile none
MaxStartups 100
MaxSessions 100
Subsystem sftp internal-sftp
ForceCommand cd '{home}' && HOME='{home}' exec bash -c "${{SSH_ORIGINAL_COMMAND:-bash}}"
""", encoding="ascii")
            config.append(f"Host node{place}\n HostName 127.0.0.1\n Port {port}\n IdentityFile {folder}/user\n UserKnownHostsFile {folder}/known\n"
                          " StrictHostKeyChecking no\n LogLevel ERROR\n IdentitiesOnly yes\n"
                          f" ControlMaster auto\n ControlPath {folder}/%n\n ControlPersist 60\n")
        (folder / "config").write_text("".join(config), encoding="ascii")
        (folder / "bin").mkdir()
        wrapper = folder / "bin" / "ssh"  # ssh reads the settings of the user's own home, whatever HOME is
        wrapper.write_text(f"#!/bin/sh\nexec {found('ssh')} -F '{folder}/config' \"$@\"\n", encoding="ascii")
        wrapper.chmod(0o755)
        self.environment = {"PATH": f"{folder / 'bin'}{os.pathsep}{os.environ['PATH']}"}

    def begin(self):
        if os.geteuid() == 0:
            pathlib.Path("/run/sshd").mkdir(mode=0o755, exist_ok=True)
        for place in (1, 2):
            self.daemons.begin("sshd", "-D", "-e", "-f", self.folder / f"sshd{place}")
        for place in (1, 2):
            wait(lambda place=place: self.logs_in(f"node{place}"), f"node{place} lets nobody in")

    def logs_in(self, host):
        return subprocess.run([self.folder / "bin" / "ssh", host, "true"], stdin=subprocess.DEVNULL, capture_output=True, check=False).returncode == 0

    def end(self):
        for host in ("node1", "node2"):
            subprocess.run([self.folder / "bin" / "ssh", "-O", "exit", host], stdin=subprocess.DEVNULL, capture_output=True, check=False)
        self.daemons.end()


@pytest.fixture(scope="module", name="hosts")
def two_hosts(tmp_path_factory):
    if lacks(SSH):
        pytest.skip(f"not installed (Debian: openssh-client, openssh-server, rsync, parallel): {lacks(SSH)}")
    servers = Hosts(tmp_path_factory.mktemp("ssh"))
    try:
        servers.begin()
        yield servers
    finally:
        servers.end()


def at_work(home):
    """The workers of a host: processes of the program in a folder below its home."""
    numbers = []
    for process in pathlib.Path("/proc").glob("[0-9]*"):
        with contextlib.suppress(OSError):
            if os.readlink(process / "cwd").startswith(f"{home}/.bprice-farm/") and b"--leaf" in (process / "cmdline").read_bytes():
                numbers.append(int(process.name))
    return numbers


def test_ssh(hosts, tmp_path):
    """The command of MACHINES.md, with fewer workers: both hosts get what they need, and nothing stays there. What another farm of the same name has left
    there is not taken for this one's."""
    lp, dec = drawn(tmp_path, SEED)
    for home in hosts.homes:
        (home / ".bprice-farm" / "plan-farm").mkdir(parents=True)
        shutil.copy(dec, home / ".bprice-farm" / "plan-farm" / "model.dec")
    first, status, noise = farm(hosts.environment, lp, tmp_path / "plan-farm", "--sshlogin", "1/node1,1/node2", steps=STEPS)
    assert (first, status) == (VALUE, 0), noise
    assert accepted(tmp_path / "plan-farm", lp) == VALUE and worked(tmp_path / "plan-farm") >= 2
    assert not list((tmp_path / "plan-farm" / "refused").iterdir())
    jobs = (tmp_path / "plan-farm" / "logs" / "jobs").read_text()
    assert "\tnode1\t" in jobs and "\tnode2\t" in jobs
    for home in hosts.homes:
        assert [file for file in (home / ".bprice-farm").rglob("*") if file.is_file()] == [home / ".bprice-farm" / "plan-farm" / "model.dec"]


def test_ssh_workers_that_are_killed(hosts, tmp_path):
    """A worker that is killed on its machine costs its steps alone."""
    lp, _ = drawn(tmp_path, SEED)
    given = words(lp, tmp_path / "plan-farm", "--sshlogin", "1/node1,1/node2", program=slow(tmp_path), steps=STEPS)
    child = subprocess.Popen(given, stdout=subprocess.PIPE, stderr=subprocess.PIPE, text=True, env={**os.environ, **hosts.environment})
    with child:
        wait(lambda: at_work(hosts.homes[0]) or child.poll() is not None, "nobody works on node1")
        for number in at_work(hosts.homes[0]):
            with contextlib.suppress(ProcessLookupError):
                os.kill(number, signal.SIGKILL)
        told, noise = child.communicate(timeout=LONGEST)
    assert (told.split("\n", 1)[0], child.returncode) == (VALUE, 0), noise
    assert run("check", lp, tmp_path / "plan-farm" / "tree.cert") == (f"accepted {VALUE}\n", 0)
    assert " died" in (tmp_path / "plan-farm" / "log").read_text()

"""A cluster of Slurm's with two nodes, both on this machine, for as long as it is needed."""

import contextlib
import os
import pathlib
import shutil
import signal
import socket
import subprocess
import tempfile
import time

NODES = ("node1", "node2")
# What runs, each started in the foreground, so that it ends by its process id.
PROGRAMS = ("/usr/sbin/munged", "/usr/sbin/slurmctld", "/usr/sbin/slurmd", "/usr/bin/srun")
CANCEL, QUEUE = "/usr/bin/scancel", "/usr/bin/squeue"
PATIENCE = 60
CONFIGURATION = """
ClusterName=trial
SlurmctldHost={host}(127.0.0.1)
SlurmctldPort={port}
SlurmUser=root
SlurmdUser=root
AuthType=auth/munge
AuthInfo=socket={folder}/munge/socket
StateSaveLocation={folder}/state
SlurmdSpoolDir={folder}/spool/%n
SlurmctldPidFile={folder}/controller.pid
SlurmdPidFile={folder}/%n.pid
SlurmctldLogFile={folder}/controller.log
SlurmdLogFile={folder}/%n.log
ProctrackType=proctrack/linuxproc
TaskPlugin=task/none
SlurmdParameters=config_overrides
SelectType=select/cons_tres
SelectTypeParameters=CR_Core
JobAcctGatherType=jobacct_gather/none
ReturnToService=2
KillWait=2
MpiDefault=none
PartitionName=all Nodes={nodes} Default=YES MaxTime=INFINITE State=UP
"""
NODE = "NodeName={} NodeHostname={} NodeAddr=127.0.0.1 Port={} CPUs={} State=UNKNOWN\n"


def missing():
    """Why no cluster can be started here, or none."""
    if os.getuid() != 0:
        return "it needs the superuser"
    absent = [program for program in PROGRAMS if not os.access(program, os.X_OK)]
    return f"{' and '.join(absent)} not there" if absent else None


def free_ports(count):
    """As many ports on which nothing listens."""
    with contextlib.ExitStack() as stack:
        servers = [socket.create_server(("127.0.0.1", 0)) for _ in range(count)]
        return [stack.enter_context(server).getsockname()[1] for server in servers]


class Cluster:
    """Two nodes with so many processors each, that take jobs from `begin` to `close`."""

    def __init__(self, cpus):
        self.cpus = cpus
        self.folder = pathlib.Path(tempfile.mkdtemp(prefix="nufreld-cluster-"))
        self.configuration = self.folder / "slurm.conf"
        self.started = []

    def write(self):
        for name in ("munge", "state", "spool"):
            (self.folder / name).mkdir(mode=0o755)
        self.folder.chmod(0o755)
        key = self.folder / "key"
        key.touch(mode=0o400)
        key.write_bytes(os.urandom(1024))
        host = socket.gethostname()
        port, *ports = free_ports(1 + len(NODES))
        text = CONFIGURATION.format(host=host, port=port, folder=self.folder, nodes=",".join(NODES))
        for name, port in zip(NODES, ports):
            text += NODE.format(name, host, port, self.cpus)
        self.configuration.write_text(text)

    def begin(self):
        """Starts what the cluster is made of, and waits until both nodes take jobs."""
        self.write()
        place = self.folder / "munge"
        options = [f"--key-file={self.folder / 'key'}", f"--socket={place / 'socket'}"]
        options += [f"--{name}-file={place / name}" for name in ("pid", "log", "seed")]
        self.start(PROGRAMS[0], "--foreground", "--force", *options)
        self.until("munged listens", (place / "socket").exists)
        self.start(PROGRAMS[1], "-D", "-f", self.configuration)
        for name in NODES:
            self.start(PROGRAMS[2], "-D", "-f", self.configuration, "-N", name)
        self.until("both nodes take jobs", self.is_ready)

    def start(self, *words):
        log = (self.folder / f"printed-{len(self.started)}").open("wb")
        quiet = {"stdin": subprocess.DEVNULL, "stdout": log, "stderr": log}
        self.started.append(subprocess.Popen(list(map(str, words)), **quiet))
        log.close()

    def is_ready(self):
        words = ["--quiet", "--immediate=1", f"--nodes={len(NODES)}", "/bin/true"]
        return self.ask(PROGRAMS[-1], *words) == ""

    def ask(self, *words):
        """What a command of Slurm's prints; none where it fails, or takes too long."""
        known = {"env": {"SLURM_CONF": str(self.configuration)}, "timeout": PATIENCE}
        try:
            return subprocess.run(words, check=True, capture_output=True, text=True, **known).stdout
        except subprocess.SubprocessError:
            return None

    def cancel(self):
        """Ends the jobs of a run that was ended, with their builders: they would outlive the
        cluster. None runs or waits where it does not answer."""
        is_idle = lambda: not self.ask(QUEUE, "--noheader")
        if len(self.started) > 1 and not is_idle():
            self.ask(CANCEL, f"--user={os.getuid()}")
            self.until("all jobs have ended", is_idle)

    def until(self, what, holds):
        """Waits until something holds; fails where a part of the cluster has ended."""
        end = time.monotonic() + PATIENCE
        while not holds():
            ended = [run.args for run in self.started if run.poll() is not None]
            assert not ended, f"ended, where was wanted: {what}: {ended}\n{self.printed()}"
            assert time.monotonic() < end, f"wanted within {PATIENCE} s: {what}\n{self.printed()}"
            time.sleep(0.1)

    def launches(self):
        logs = [(self.folder / f"{name}.log").read_text(errors="replace") for name in NODES]
        return [log.count("launch task StepId=") for log in logs]

    def printed(self):
        """The ends of what the parts of the cluster have printed and logged."""
        files = sorted([*self.folder.glob("printed-*"), *self.folder.glob("*.log")])
        texts = [(file.name, file.read_text(errors="replace")) for file in files]
        return "\n".join(f"{name}: {text[-1000:]}" for name, text in texts)

    def close(self):
        try:
            self.cancel()
        except AssertionError as fault:
            print(f"the cluster: {fault}")
        for run in reversed(self.started):
            run.send_signal(signal.SIGTERM)
            try:
                run.wait(timeout=PATIENCE)
            except subprocess.TimeoutExpired:
                run.kill()
                run.wait()
        shutil.rmtree(self.folder, ignore_errors=True)

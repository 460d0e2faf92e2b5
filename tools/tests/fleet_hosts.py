"""Many recordings over several hosts by ssh, and as an array of Slurm, around tools/judge."""
import contextlib
import getpass
import os
import pathlib
import re
import shutil
import subprocess
import xml.etree.ElementTree

import frame
from serving import free_port, listens, running, wait_for

RECORDINGS = sorted(f"recordings/{path.name}" for kind in ("rlc_*", "braking*", "door*") for path in (frame.ROOT / "recordings").glob(f"{kind}.csv"))
SENT = ["recordings/braking.csv", "recordings/braking_late.csv"]  # each costs connections
SSH_CONFIG = """Host host1 host2
  HostName 127.0.0.1
  Port {port}
Host host3
  HostName 127.0.0.1
  Port {closed}
Host *
  User {user}
  IdentityFile {folder}/ssh/key
  IdentitiesOnly yes
  StrictHostKeyChecking no
  UserKnownHostsFile {folder}/ssh/known
  ControlMaster auto
  ControlPath {folder}/ssh/%C
  ControlPersist 5
  LogLevel ERROR
"""
SSHD_CONFIG = """ListenAddress 127.0.0.1
Port {port}
HostKey {folder}/ssh/host
AuthorizedKeysFile {folder}/ssh/key.pub
PidFile {folder}/ssh/pid
StrictModes no
UsePAM no
PasswordAuthentication no
PermitRootLogin yes
MaxStartups 100
SetEnv PATH={path} HOME={folder}
"""


@contextlib.contextmanager
def hosts(bench):
    """host1 and host2 are two names of this machine, host3 is one that does not answer; the words by which parallel reaches them."""
    os.mkdir("ssh", 0o700)
    for name in ("key", "host"):
        bench.run("ssh-keygen", "-q", "-t", "ed25519", "-N", "", "-f", f"ssh/{name}").ended(0, "")
    port, closed = free_port(), free_port()
    here = {"port": port, "closed": closed, "user": getpass.getuser(), "folder": bench.folder, "path": os.environ["PATH"]}
    bench.write("ssh/config", SSH_CONFIG.format(**here))
    bench.write("ssh/sshd_config", SSHD_CONFIG.format(**here))
    os.makedirs("/run/sshd", exist_ok=True)
    with running("/usr/sbin/sshd", "-D", "-e", "-f", bench.folder / "ssh" / "sshd_config", log="sshd.log"):
        wait_for(lambda: listens(port), "no sshd")
        yield ["--ssh", f"ssh -F {bench.folder}/ssh/config"]


def parallel(bench, reach, names, recordings):
    """A run of the guide's line: each recording is sent, and its report is fetched."""
    os.environ["HOME"] = str(bench.folder)
    os.makedirs("out", exist_ok=True)
    far = f"{bench.folder}/far"
    words = ["--will-cite", *reach, "--jobs", "2", "--max-args", "1", "--sshlogin", names, "--workdir", far, "--joblog", "jobs.log", "--keep-order"]
    sent = ["--basefile", "tools/judge", "--basefile", "tools/requirements.py", "--basefile", "bench.requirements", "--transferfile", "{}", "--return", "out/{#}.xml", "--cleanup"]
    job = "mkdir -p out; tools/judge --part --junit out/{#}.xml bench.requirements {}"
    return bench.run("parallel", *words, *sent, job, ":::", *recordings, seconds=400)


def statuses():
    """The status of each job, by its number."""
    with open("jobs.log", encoding="utf-8") as log:
        rows = [line.split("\t") for line in log.read().splitlines()[1:]]
    return {int(row[0]): int(row[6]) for row in rows}


def judged(text):
    """The lines that judge wrote, without how they are set and without their sums."""
    return sorted(" ".join(line.split()) for line in text.splitlines() if not re.match(r"\d+ asked", line))


def cases(pattern):
    """The cases of all reports, and whether each passed."""
    found = []
    for report in pathlib.Path("out").glob(pattern):
        for case in xml.etree.ElementTree.parse(report).iter("testcase"):
            found.append((case.get("classname"), case.get("name"), case.find("failure") is None, case.find("error") is None))
    return sorted(found)


def on_one_machine(bench, listed):
    """What judge tells of the recordings here, its status, and the cases of its report."""
    shutil.copy("recordings/bench.requirements", "bench.requirements")
    os.makedirs("out", exist_ok=True)
    run = bench.tool("judge", "--part", "--junit", "out/here.xml", "bench.requirements", *listed)
    found = cases("here.xml")
    os.unlink("out/here.xml")
    return run, found


@frame.at_most(600)
@frame.needs("parallel", "/usr/sbin/sshd", "ssh", "ssh-keygen", "rsync")
def test_recordings_judged_on_two_hosts(bench):
    """The lines and cases are those of one machine; the greatest status of the jobs is that of judge, and no file is left there."""
    here, wanted = on_one_machine(bench, SENT)
    frame.same(here.status, 1)
    with hosts(bench) as reach:
        run = parallel(bench, reach, "host1,host2", SENT)
    frame.same(judged(run.out), judged(here.out), run.err)
    frame.same((statuses(), run.status), ({1: 0, 2: 1}, 1), "the statuses of the jobs, and that of parallel, which is how many failed")
    frame.same(cases("*.xml"), wanted)
    frame.same([path for path in pathlib.Path("far").rglob("*.csv")], [], "what is left there")


@frame.needs("parallel", "/usr/sbin/sshd", "ssh", "ssh-keygen", "rsync")
def test_a_host_that_does_not_answer(bench):
    """Its jobs have the status 255, and so the greatest one is no verdict."""
    on_one_machine(bench, SENT)
    with hosts(bench) as reach:
        parallel(bench, reach, "host3", SENT[:1])
    frame.same(statuses(), {1: 255})


SLURM = """ClusterName=bench
SlurmctldHost={host}(127.0.0.1)
SlurmctldPort={control}
SlurmdPort={work}
SlurmUser=root
SlurmdUser=root
AuthType=auth/munge
AuthInfo=socket={folder}/munge/socket
CryptoType=crypto/munge
ProctrackType=proctrack/linuxproc
TaskPlugin=task/none
JobAcctGatherType=jobacct_gather/none
AccountingStorageType=accounting_storage/none
SelectType=select/cons_tres
SelectTypeParameters=CR_Core
ReturnToService=2
SlurmctldPidFile={folder}/slurm/control.pid
SlurmdPidFile={folder}/slurm/work.pid
SlurmctldLogFile={folder}/slurm/control.log
SlurmdLogFile={folder}/slurm/work.log
StateSaveLocation={folder}/slurm/state
SlurmdSpoolDir={folder}/slurm/spool
MpiDefault=none
NodeName={host} NodeAddr=127.0.0.1 CPUs={cpus} State=UNKNOWN
PartitionName=all Nodes={host} Default=YES MaxTime=10 State=UP
"""


@contextlib.contextmanager
def slurm(bench):
    """A cluster of one node with a key of its own; sbatch finds it."""
    host = os.uname().nodename.partition(".")[0]
    for name in ("munge", "slurm/state", "slurm/spool"):
        os.makedirs(name)
    bench.write("munge/key", os.urandom(1024))
    os.chmod("munge/key", 0o400)
    folder = bench.folder
    bench.write("slurm.conf", SLURM.format(host=host, control=free_port(), work=free_port(), folder=folder, cpus=os.cpu_count()))
    bench.write("cgroup.conf", "CgroupPlugin=cgroup/v1\nCgroupAutomount=no\nConstrainCores=no\nConstrainRAMSpace=no\n")
    os.environ["SLURM_CONF"] = f"{folder}/slurm.conf"
    munge = ["munged", "--foreground", "--force", "--socket", f"{folder}/munge/socket", "--key-file", f"{folder}/munge/key", "--pid-file", f"{folder}/munge/pid", "--log-file", f"{folder}/munge/log", "--seed-file", f"{folder}/munge/seed"]
    with running(*munge), running("slurmctld", "-D"), running("slurmd", "-D", "-N", host):
        wait_for(lambda: " idle" in subprocess.run(["sinfo", "--noheader", "--format", "%N %T"], capture_output=True, text=True).stdout, "no node is idle", 90)
        yield


def array(bench, listed):
    """A run of the array over these recordings."""
    bench.write("list", "".join(f"{name}\n" for name in listed))
    return bench.run("sbatch", "--wait", "--array=0-2", "tools/example/judge_array", seconds=200)


def told():
    """What the tasks wrote."""
    return "".join(path.read_text() for path in pathlib.Path("out").glob("judge_*.txt"))


@frame.at_most(400)
@frame.needs("sbatch", "slurmctld", "slurmd", "munged", "sinfo")
def test_recordings_judged_by_an_array(bench):
    """The lines and cases are those of one machine, and --wait ends with the greatest status: 1, and 2 where a recording is missing."""
    here, wanted = on_one_machine(bench, RECORDINGS)
    with slurm(bench):
        run = array(bench, RECORDINGS)
        frame.same(run.status, 1, run.out + run.err)
        frame.same(judged(told()), judged(here.out))
        frame.same(cases("judge_*.xml"), wanted)
        run = array(bench, [*RECORDINGS, "recordings/door_missing.csv"])
        frame.same(run.status, 2, run.out + run.err)
        frame.holds("unjudged" in told(), told())

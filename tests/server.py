"""A PostgreSQL server of the script's own: in a temporary folder, on a unix socket only, gone at the end."""
import glob
import os
import pwd
import shutil
import signal
import subprocess
import tempfile
import time

SETTINGS = {
    "listen_addresses": "",
    "fsync": "off",
    "synchronous_commit": "off",
    "full_page_writes": "off",
    "autovacuum": "off",
    "jit": "off",
    "max_parallel_workers_per_gather": "0",
    "shared_buffers": "32MB",
    "max_connections": "10",
}
PSQL_OPTIONS = ("-X", "-A", "-t", "-q", "-F", " ", "-P", "null=NULL", "-v", "ON_ERROR_STOP=1")
NEXT_STATEMENT = "next-statement"
END_OF_ANSWER = "end-of-answer"


class Missing(Exception):
    """PostgreSQL is not installed."""


class Broken(Exception):
    """PostgreSQL did not start, or did not take a statement."""


def program(name):
    """The path of one of PostgreSQL's programs: of the newest version that Debian's package has laid down, or on PATH."""
    versions = glob.glob(f"/usr/lib/postgresql/*/bin/{name}")
    path = max(versions, key=lambda path: float(path.split("/")[4])) if versions else shutil.which(name)
    if path is None:
        raise Missing(f"{name} was not found. To install PostgreSQL: apt-get install postgresql")
    return path


def unprivileged_user():
    """Whom the server runs as: ourselves, or somebody else where we are root, as which it does not run."""
    if os.geteuid() != 0:
        return None
    for name in ("postgres", "nobody"):
        try:
            return pwd.getpwnam(name)
        except KeyError:
            continue
    raise Broken("neither a user postgres nor nobody is there to run PostgreSQL")


class Server:
    """A running server with one psql at it. To be used with `with`."""

    def __enter__(self):
        self.initdb, self.postgres, self.psql = map(program, ("initdb", "postgres", "psql"))
        self.user = unprivileged_user()
        self.folder = tempfile.mkdtemp(prefix="compare-")
        self.server = self.client = None
        try:
            self.start()
            self.connect()
        except BaseException:
            self.__exit__()
            raise
        return self

    def __exit__(self, *_):
        for process, end in ((self.client, signal.SIGTERM), (self.server, signal.SIGINT)):
            if process is not None:
                process.send_signal(end)
                process.wait()
        shutil.rmtree(self.folder, ignore_errors=True)

    def as_user(self):
        if self.user is None:
            return {}
        return {"user": self.user.pw_uid, "group": self.user.pw_gid, "extra_groups": []}

    def start(self):
        if self.user is not None:
            os.chown(self.folder, self.user.pw_uid, self.user.pw_gid)
        data, self.log = os.path.join(self.folder, "data"), os.path.join(self.folder, "log")
        made = subprocess.run(
            [self.initdb, "-D", data, "-A", "trust", "-U", "compare", "-E", "UTF8", "--no-locale", "--no-sync"],
            cwd=self.folder, capture_output=True, text=True, **self.as_user(),
        )
        if made.returncode != 0:
            raise Broken(f"initdb failed: {made.stderr.strip()}")
        settings = [word for name, value in SETTINGS.items() for word in ("-c", f"{name}={value}")]
        with open(self.log, "w") as log:
            self.server = subprocess.Popen(
                [self.postgres, "-D", data, "-k", self.folder, *settings], cwd=self.folder, stdout=log, stderr=log, **self.as_user()
            )
        socket = os.path.join(self.folder, ".s.PGSQL.5432")
        deadline = time.monotonic() + 60
        while not (os.path.exists(socket) and "ready to accept connections" in self.logged()):
            if self.server.poll() is not None or time.monotonic() > deadline:
                raise Broken(f"PostgreSQL did not start: {self.logged()}")
            time.sleep(0.05)

    def logged(self):
        with open(self.log) as log:
            return log.read()

    def connect(self):
        """Starts psql; rows come as cells with a space between, NULL as NULL."""
        self.script, self.faults = os.path.join(self.folder, "script"), os.path.join(self.folder, "faults")
        with open(self.faults, "w") as faults:
            self.client = subprocess.Popen(
                [self.psql, *PSQL_OPTIONS, "-h", self.folder, "-p", "5432", "-U", "compare", "postgres"],
                stdin=subprocess.PIPE, stdout=subprocess.PIPE, stderr=faults, text=True, env={**os.environ, "PGOPTIONS": "", "LC_ALL": "C"},
            )
        self.version, = self.lines("SHOW server_version;")

    def lines(self, statements):
        """What psql prints for statements, line by line."""
        with open(self.script, "w") as script:
            script.write(statements)
        self.client.stdin.write(f"\\i {self.script}\n\\echo {END_OF_ANSWER}\n")
        self.client.stdin.flush()
        printed = []
        for line in self.client.stdout:
            if line == END_OF_ANSWER + "\n":
                return printed
            printed.append(line.rstrip("\n"))
        with open(self.faults) as faults:
            raise Broken(f"PostgreSQL did not take a statement: {faults.read().strip()}")

    def answers(self, before, statements):
        """The rows of each of several statements in one transaction, which is rolled back. `before` has statements without rows that are made
        before each of them."""
        parts = [f"{first}\n\\echo {NEXT_STATEMENT}\n{statement}\n" for first, statement in zip(before, statements)]
        answers = []
        for line in self.lines("".join(["BEGIN;\n", *parts, "ROLLBACK;\n"])):
            if line == NEXT_STATEMENT:
                answers.append([])
            else:
                answers[-1].append(line)
        return answers

"""Tests of bench/run, over scripts in the place of the programs of two checkouts, of the jobs that it runs, and of what
the other scripts of bench/ do where a program fails."""

import importlib.machinery
import importlib.util
import itertools
import os
import pathlib
import re
import resource
import shutil
import subprocess
import sys

from tests.tools.support import PROGRAM, TOP, ToolCase

from bench import costs

JOBS = TOP / "crates" / "bench_jobs" / "out" / "bench_jobs"
# In the place of record.py: connections end early, each after its first bytes, or all but the first ones by a reset.
LISTENS = """import signal, socket, struct, sys, threading
signal.signal(signal.SIGTERM, lambda *_: sys.exit())
listener = socket.create_server(("127.0.0.1", 0), backlog=256)
print(f"record.py: listens on 127.0.0.1:{listener.getsockname()[1]}; Ctrl-C ends it", file=sys.stderr, flush=True)
"""
ENDS = LISTENS + """
while True:
    with listener.accept()[0] as client:
        client.recv(100)
"""
RESETS = LISTENS + """
def echo(client):
    while data := client.recv(1000):
        client.sendall(data)
for _ in range({whole}):
    threading.Thread(target=echo, args=(listener.accept()[0],), daemon=True).start()
while True:
    with listener.accept()[0] as client:
        client.setsockopt(socket.SOL_SOCKET, socket.SO_LINGER, struct.pack("ii", 1, 0))
"""
NAMES = ["check", "single", "show", "build", "clients", "archive"]


class Turns(ToolCase):
    def checkout(self, name, script):
        """A checkout whose program is this script."""
        out = self.folder / name / "crates" / "bench_jobs" / "out"
        out.mkdir(parents=True)
        (self.folder / name / "bench").mkdir()
        program = out / "bench_jobs"
        program.write_text(f"#!/bin/sh\n{script}\n")
        program.chmod(0o700)
        return self.folder / name

    def run_jobs(self, old, new, *words):
        done = subprocess.run([sys.executable, TOP / "bench" / "run", old, new, *words], capture_output=True, text=True,
                              check=False)
        return done.returncode, done.stdout, done.stderr

    def test_a_row_for_each_job(self):
        script = 'echo "$@" >> ../log; echo the sum of $1'
        old, new = self.checkout("old", script), self.checkout("new", script)
        status, out, err = self.run_jobs(old, new, "7")
        self.assertEqual((status, err), (0, ""))
        rows = [re.split(r" *\| *", line)[1:-1] for line in out.splitlines()]
        self.assertEqual(rows[0], ["Job", "seconds, old", "seconds, new", "old over new"])
        self.assertEqual([row[0] for row in rows[2:8]], NAMES)
        self.assertEqual(out.splitlines()[8:10], ["", "Least seconds and quartiles:"])
        number = r"\d+\.\d+"
        for name, line in zip(NAMES, out.splitlines()[10:]):
            self.assertRegex(line, f"^{name}: old {number}, {number} to {number}; new {number}, {number} to {number}; "
                                   f"old over new {number} to {number}$")
        self.assertEqual(len(out.splitlines()), 16)
        for checkout in (old, new):
            lines = pathlib.Path(checkout, "log").read_text().splitlines()
            # Nine turns of each job, whose seeds are 64 apart.
            self.assertEqual([line.split()[0] for line in lines], [name for name in NAMES for _ in range(9)])
            self.assertEqual([line.split()[1] for line in lines], [str(7 + 64 * turn) for turn in range(9)] * 6)

    def test_what_can_not_run(self):
        old = self.checkout("old", "echo the sum")
        program = self.folder / "new" / "crates" / "bench_jobs" / "out" / "bench_jobs"
        status, _, err = self.run_jobs(old, self.folder / "new")
        self.assertEqual((status, err), (1, f"{program.parents[3] / 'bench'}: No such file or directory\n"))
        program.parents[3].joinpath("bench").mkdir(parents=True)
        status, _, err = self.run_jobs(old, self.folder / "new")
        self.assertEqual((status, err), (1, f"{program}: No such file or directory\n"))
        for seed in ("x", "-1", "1.5", ""):
            status, out, err = self.run_jobs(old, old, seed)
            self.assertEqual((status, out, "bench/run OLD NEW [SEED]" in err), (1, "", True), err)

    def test_no_job(self):
        script = pathlib.Path(shutil.copy(TOP / "bench" / "run", self.folder))
        for text in ("", "\n \n"):
            script.with_name("workloads.txt").write_text(text)
            done = subprocess.run([sys.executable, script, "old", "new"], capture_output=True, text=True, check=False)
            self.assertEqual((done.returncode, done.stdout, done.stderr), (1, "", "workloads.txt has no job\n"))

    def test_one_checkout_twice(self):
        loader, took = importlib.machinery.SourceFileLoader("bench_run", str(TOP / "bench" / "run")), itertools.count(1)
        run = importlib.util.module_from_spec(importlib.util.spec_from_loader("bench_run", loader))
        loader.exec_module(run)
        workload = run.Workload("check bench_jobs check SEED 20")
        workload.run = lambda checkout, seed: (next(took), seed)
        self.assertEqual(run.measure(workload, self.folder, self.folder, 1),
                         ([1, 4, 5, 8, 9, 12, 13, 16, 17], [2, 3, 6, 7, 10, 11, 14, 15, 18]))

    def test_what_prints_nothing_or_another_sum_or_fails(self):
        good = "echo the sum"
        for number, (script, told) in enumerate((("exit 0", "printed nothing"), ("echo another", "the outputs differ"),
                                                 ("echo the sum; exit 3", "ended with status 3"))):
            old, new = self.checkout(f"old-{number}", good), self.checkout(f"new-{number}", script)
            status, out, err = self.run_jobs(old, new)
            self.assertEqual((status, out.count("\n"), err.count("\n")), (1, 2, 1), (script, err))
            self.assertRegex(err, f"^check: .*{told}$")


class Jobs(ToolCase):
    def run_job(self, *words):
        if not JOBS.exists():
            self.skipTest("the program bench_jobs is not built")
        done = subprocess.run([JOBS, *words], capture_output=True, text=True, check=False)
        return done.returncode, done.stdout, done.stderr

    def test_a_job_that_there_is_not(self):
        self.assertEqual(self.run_job("chek", "1", "1"), (1, "", "Error: no such job\n"))


class Tools(ToolCase):
    def test_a_tool_that_fails_has_no_figures(self):
        if not PROGRAM.exists():
            self.skipTest("the program zkdump is not built")
        done = subprocess.run([sys.executable, "-m", "bench.tools", "--megabytes", "1", "--python",
                               "/bin/false"],
                              capture_output=True, text=True, check=False)
        self.assertEqual((done.returncode, len(done.stdout.splitlines())), (1, 2), done.stdout)
        self.assertRegex(done.stderr, r"^/bin/false \S*/zkstat.py \S*/timed.zkr ended with status 1: ")

    def test_megabytes_are_those_of_the_other_scripts(self):
        if not PROGRAM.exists():
            self.skipTest("the program zkdump is not built")
        time = self.folder / "time"
        time.write_text("#!/bin/sh\necho 250000 >&2\n")       # kilobytes of 1,024 bytes: 256,000,000 bytes
        time.chmod(0o700)
        done = subprocess.run([sys.executable, "-m", "bench.tools", "--megabytes", "1"], capture_output=True,
                              env={**os.environ, "PATH": f"{self.folder}:{os.environ['PATH']}"}, text=True, check=False)
        self.assertEqual((done.returncode, {line.split()[-1] for line in done.stdout.splitlines()[1:]}), (0, {"256"}))

    def test_other_output_of_many_processes(self):
        python = self.folder / "python"
        python.write_text("#!/bin/sh\necho $$\n")
        python.chmod(0o700)
        done = subprocess.run([sys.executable, "-m", "bench.tools", "--megabytes", "1", "--python", python,
                               "--jobs", "2"], capture_output=True, text=True, check=False)
        self.assertEqual((done.returncode, done.stdout.count("\n"), done.stderr), (1, 2, "OTHER OUTPUT\n"))


class Failing(ToolCase):
    """Programs in the place of zkdump that are not right each time."""

    def measure(self, script, *words):
        """The status, the last line and standard error of a script of bench/, where there is no other decoder."""
        tools = self.folder / "tools"
        tools.mkdir()
        for name in ("cat", "expr", "sh"):
            (tools / name).symlink_to(shutil.which(name))
        program = self.folder / "zkdump"
        program.write_text(f"#!/bin/sh\ncat > {os.devnull}\necho 'a line'\necho '. whole unanswered=0'\n{script}\n")
        program.chmod(0o700)
        done = subprocess.run([sys.executable, "-m", f"bench.{words[0]}", "--program", program, *words[1:]], cwd=TOP,
                              env={**os.environ, "PATH": str(tools)}, capture_output=True, text=True, check=False)
        return done.returncode, done.stdout.splitlines()[-1], done.stderr

    def test_a_run_that_is_measured(self):
        status, _, err = self.measure("test -f /dev/stdout", "decoders", "--megabytes", "1", "--times", "1")
        self.assertEqual((status, err), (1, f"{self.folder}/zkdump check ended with status 1\n"))

    def test_one_of_three_runs_that_takes_longer(self):
        count = self.folder / "count"
        count.write_text("0\n")
        script = f"""n=$(expr $(cat {count}) + 1)
            echo $n > {count}
            test $(expr $n % 3) != 0 || {{ i=0; while test $i -lt 20000; do i=$((i + 1)); done; exit 3; }}"""
        status, last, err = self.measure(script, "growth", "--quick", "--only", "one path")
        self.assertEqual((status, last, err), (1, "0 passed, 3 failed", ""))

    def test_the_listing_that_build_reads(self):
        script = "test $1 != show || ! test -f /dev/stdout"
        status, last, err = self.measure(script, "growth", "--quick", "--only", "one path")
        self.assertEqual((status, last, err), (1, "0 passed, 3 failed", ""))

    def test_a_listing_that_is_cut(self):
        script = "echo '. cut side=C frame=9 got=9'"
        status, last, err = self.measure(script, "growth", "--quick", "--only", "one path")
        self.assertEqual((status, last, err), (1, "0 passed, 3 failed", ""))

    def test_a_listing_of_nothing(self):
        status, last, err = self.measure(": > /dev/stdout", "growth", "--quick", "--only", "one path")
        self.assertEqual((status, last, err), (1, "0 passed, 3 failed", ""))

    def test_a_recording_that_was_not_written(self):
        limit = resource.getrlimit(resource.RLIMIT_FSIZE)
        script = TOP / "bench" / "measure_record.py"
        done = subprocess.run([sys.executable, script, "--rounds", "1", "--megabytes", "2"],
                              preexec_fn=lambda: resource.setrlimit(resource.RLIMIT_FSIZE, (1 << 20, limit[1])),
                              capture_output=True, text=True, check=False)
        self.assertEqual(done.returncode, 1, done.stdout)
        self.assertRegex(done.stderr, r"/record.py ended with status 3\n$")

    def checkout(self):
        """A copy of measure_record.py, and the recorder that it measures, which is still to be written."""
        script, record = self.folder / "bench" / "measure_record.py", self.folder / "tools" / "record.py"
        for path in (script, record):
            path.parent.mkdir()
        shutil.copy(TOP / "bench" / "measure_record.py", script)
        return script, record

    def test_a_recorder_that_does_not_listen(self):
        script, record = self.checkout()
        record.write_text("exit('record.py: none: No such file or directory')")
        done = subprocess.run([sys.executable, script], capture_output=True, text=True, check=False, timeout=50)
        self.assertEqual((done.returncode, done.stderr),
                         (1, f"{record} doesn't listen: record.py: none: No such file or directory\n"))

    def test_a_connection_that_ends_before_its_answers(self):
        """At its first bytes; or before 64 clients ask, or megabytes are sent."""
        script, record = self.checkout()
        for ends, lines in ((ENDS, 5), (RESETS.replace("{whole}", "1"), 6), (RESETS.replace("{whole}", "66"), 9)):
            record.write_text(ends)
            done = subprocess.run([sys.executable, script, "--rounds", "1", "--megabytes", "1"], capture_output=True,
                                  text=True, check=False, timeout=50)
            self.assertEqual((done.returncode, done.stderr), (1, "a connection has ended before its answers\n"))
            self.assertEqual(done.stdout.count("\n"), lines)

    def test_a_connection_that_is_refused(self):
        script, record = self.checkout()
        record.write_text(LISTENS + "listener.close()\nsignal.pause()\n")
        done = subprocess.run([sys.executable, script, "--rounds", "1", "--megabytes", "1"], capture_output=True,
                              text=True, check=False, timeout=50)
        self.assertEqual(done.returncode, 1)
        self.assertRegex(done.stderr, r"^no connection to port \d+: Connection refused\n$")


class Library(ToolCase):
    def test_what_is_refused_or_cut(self):
        if not shutil.which("rt") or not (TOP / "crates" / "zk_c" / "out" / "libzk_c.a").exists():
            self.skipTest("the library is not built, or rt is not here")
        costs.place_programs(self.folder, TOP, ["handle", "fields"])
        whole, listing = ((TOP / "captures" / f"kazoo_basic.{end}").read_bytes() for end in ("zkr", "show"))
        refused = (TOP / "captures" / "refused_c_path_not_utf8.zkr").read_bytes()
        recordings = ((whole, 0), (b"ZKR1", 0), (refused, 1), (whole[:-1], 2), (whole + b"C\0\0", 2), (b"", 2),
                      (whole.replace(b"ZKR1", b"ZKR2"), 2), (b"ZKR1C\0\xff\xff\xff" + whole[9:], 2))
        lines = ((listing, 0), (listing.partition(b". whole")[0], 0), (b"", 0), (b"C 1 ping\n" + listing, 1))
        for command, cases in ((("handle", "step"), recordings), (("handle", "open", "2", "2"), recordings),
                               (("fields", "step"), recordings), (("handle", "say"), lines)):
            for data, status in cases:
                done = subprocess.run([self.folder / command[0], *command[1:]], input=data, capture_output=True,
                                      check=False)
                self.assertEqual(done.returncode, status, (command, data[:20]))


class Crowd(ToolCase):
    def test_few_clients(self):
        if not shutil.which("cc"):
            self.skipTest("there is no compiler for C")
        done = subprocess.run([sys.executable, "-m", "bench.measure_crowd", "--busy", "2", "--new", "3",
                               "--times", "1"], capture_output=True, text=True, check=False)
        self.assertEqual((done.returncode, done.stderr), (0, ""))
        head, _, *rows, load = [line.split("|")[1:-1] for line in done.stdout.splitlines()]
        self.assertEqual([len(head), *map(len, rows), load], [10, 10, 10, []], done.stdout)
        self.assertTrue(all(figure.strip().isdigit() for row in rows for figure in row[2:]), done.stdout)

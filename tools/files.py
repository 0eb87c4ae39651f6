#!/usr/bin/env python3
"""Runs the program over odd files and streams, and compares status and texts with those that the pages say. It is no part of the gate.

usage: tools/files.py [PROGRAM]

PROGRAM is crates/rtl_repair/out/rtl_repair where it is not given. Tried are names that are a folder, a device, a file without permission, a pipe, a link, the same file twice, or nothing; a
full disk (a tmpfs of a few pages, where it may be mounted), /dev/full, a pipe whose reader is gone, and streams that are closed. As root the program is run as nobody where permissions are tried. The
last line counts; the status is 0 where all is as it should be. What may not be tried here is told.
"""
import os, shutil, stat, subprocess, sys, tempfile, threading

from program import built

top = os.path.dirname(os.path.dirname(os.path.abspath(__file__)))
program = os.path.abspath(sys.argv[1]) if len(sys.argv) > 1 else built()
DESIGN = """module counter(input clk, input rst, output reg [3:0] q);
  always @(posedge clk)
    if (rst) q <= 4'd0;
    else q <= q + 4'd2;
endmodule
"""
MENDED = DESIGN.replace("4'd2", " 4'h1 ")
TABLE = "rst,q\n1,0\n0,0\n0,1\n0,2\n0,3\n"
PRINTED = "rst,q\n1,0\n0,0\n0,2\n0,4\n0,6\n"
REPORT = "repaired 1\nsite 3 literal 124 4'h1\nproposals 1\n"
NAMES = ("c.aag", "c.cnf", "c.lrat")
passed = failed = 0


def told(what, found, due):
    global passed, failed
    if found == due:
        passed += 1
    else:
        failed += 1
        print(f"FAILED {what}: {found!r} in place of {due!r}", flush=True)


class Room:
    """A folder with a design and its table."""

    def __enter__(self):
        self.path = tempfile.mkdtemp()
        os.chmod(self.path, 0o777)
        self.write("d.v", DESIGN)
        self.write("t.csv", TABLE)
        return self

    def __exit__(self, *_):
        shutil.rmtree(self.path, ignore_errors=True)

    def write(self, name, text):
        with open(f"{self.path}/{name}", "w") as file:
            file.write(text)

    def read(self, name):
        with open(f"{self.path}/{name}", "rb") as file:
            return file.read().decode("latin-1")

    def run(self, line, given=(), **streams):
        """The status, the standard output and the standard error of the program."""
        streams = {"stdin": subprocess.DEVNULL, "stdout": subprocess.PIPE, "stderr": subprocess.PIPE, **streams}
        done = subprocess.run([*given, program, *line.split()], cwd=self.path, timeout=60, **streams)
        text = lambda it: "" if it is None else it.decode("latin-1")
        return done.returncode, text(done.stdout), text(done.stderr)

    def held(self):
        """Which files of the certificate are there, and the others that were not there before."""
        return tuple(it for it in NAMES if os.path.exists(f"{self.path}/{it}")), tuple(sorted(set(os.listdir(self.path)) - {"d.v", "t.csv", *NAMES}))


REPAIR, RUN, CHECK = "repair d.v t.csv c", "run d.v t.csv", "check c.aag c.lrat"


def names():
    """Names that give no file."""
    with Room() as room:
        os.mkdir(f"{room.path}/folder")
        for name in ("none", "folder", "none/d.v", "d.v/x", "folder/", "a" * 300):
            told(f"run of {name[:20]}", room.run(f"run {name} t.csv"), (4, "", f"fault read {name}\n"))
            told(f"run on {name[:20]}", room.run(f"run d.v {name}"), (4, "", f"fault read {name}\n"))
            told(f"check of {name[:20]}", room.run(f"check {name} d.v"), (4, "", f"fault read {name}\n"))
        told("a file that is a design and a table", room.run("run d.v d.v")[0], 3)
        for name in ("none/c", "folder/none/c", "d.v/c", "a" * 300):
            told(f"a certificate {name[:20]}", room.run(f"repair d.v t.csv {name}"), (4, "", f"fault write {name}.aag\n"))
        told("files left", room.held(), ((), ("folder",)))
        for number, name in enumerate(NAMES):
            os.mkdir(f"{room.path}/{name}")
            told(f"a folder {name}", room.run(REPAIR), (4, "", f"fault write {name}\n"))
            told(f"files beside a folder {name}", [os.path.isfile(f"{room.path}/{it}") for it in NAMES], [it < number for it in range(3)])
            os.rmdir(f"{room.path}/{name}")
        told("the name of the certificate is a folder", room.run("repair d.v t.csv folder/c")[0], 0)
        told("files in the folder", sorted(os.listdir(f"{room.path}/folder")), sorted(NAMES))


def devices():
    with Room() as room:
        told("a design without bytes", room.run("run /dev/null t.csv"), (3, "", "refused 7 NoTop at 0\n"))
        told("a table without bytes", room.run("run d.v /dev/null"), (3, "", "refused 26 NoHeader row 0\n"))
        told("a design without an end", room.run("run /dev/zero t.csv"), (3, "", "refused 16 TooMany bytes 1048577\n"))
        told("a table without an end", room.run("run d.v /dev/zero"), (3, "", "refused 16 TooMany bytes 16777217\n"))
        told("a device that is full, read", room.run("run d.v /dev/full"), (3, "", "refused 16 TooMany bytes 16777217\n"))
        with open(f"{room.path}/t.csv") as table:
            told("standard input", room.run("run d.v /dev/stdin", stdin=table), (0, PRINTED, ""))
        told("standard input is a pipe", subprocess.run([program, "run", "d.v", "/dev/stdin"], cwd=room.path, input=TABLE.encode(), capture_output=True).stdout.decode(), PRINTED)
        told("standard input twice", subprocess.run([program, "run", "/dev/stdin", "/dev/stdin"], cwd=room.path, input=DESIGN.encode(), capture_output=True).stderr.decode(), "refused 26 NoHeader row 0\n")
        os.mkfifo(f"{room.path}/fifo")
        feeder = threading.Thread(target=lambda: room.write("fifo", TABLE))
        feeder.start()
        told("a pipe with a name", room.run("run d.v fifo"), (0, PRINTED, ""))
        feeder.join()
        # Names of certificates that are devices, by links: they are written as they are.
        for number, name in enumerate(NAMES):
            for device, status in (("/dev/null", 0), ("/dev/full", 4)):
                with Room() as other:
                    os.symlink(device, f"{other.path}/{name}")
                    due = (0, MENDED, REPORT) if status == 0 else (4, "", f"fault write {name}\n")
                    told(f"{name} is {device}", other.run(REPAIR), due)
                    told(f"{name} is still {device}", os.path.islink(f"{other.path}/{name}") and stat.S_ISCHR(os.stat(f"{other.path}/{name}").st_mode), True)
                    told(f"files beside {device}", other.held(), (NAMES if status == 0 else NAMES[: number + 1], ()))
        told("an output that is full", room.run(RUN, stdout=open("/dev/full", "w")), (4, "", "fault out\n"))
        told("a repair whose output is full", room.run(REPAIR, stdout=open("/dev/full", "w")), (4, "", "fault out\n"))
        told("its certificate", room.run(CHECK), (0, "accepted\n", ""))
        told("a report that is full", room.run(REPAIR, stderr=open("/dev/full", "w")), (4, MENDED, ""))
        told("a refusal that is full", room.run("run d.v /dev/null", stderr=open("/dev/full", "w")), (4, "", ""))


def same_file():
    """A certificate under the name of the design or the table: both were read before, and the file is written over."""
    for place, name in ((0, "c.aag"), (1, "c.cnf"), (1, "c.lrat")):
        with Room() as room:
            os.rename(f"{room.path}/{('d.v', 't.csv')[place]}", f"{room.path}/{name}")
            line = f"repair {name} t.csv c" if place == 0 else f"repair d.v {name} c"
            told(f"a certificate over {name}", room.run(line), (0, MENDED, REPORT))
            told(f"the certificate over {name}", room.run(CHECK), (0, "accepted\n", ""))
    with Room() as room:
        os.link(f"{room.path}/d.v", f"{room.path}/c.aag")
        told("a second name of the design", room.run(REPAIR), (0, MENDED, REPORT))
        told("the certificate under it", room.run(CHECK), (0, "accepted\n", ""))
        told("the design under its own name", room.read("d.v"), DESIGN)
    with Room() as room:
        os.symlink("t.csv", f"{room.path}/c.lrat")
        told("a link to the table", room.run(REPAIR), (0, MENDED, REPORT))
        told("the certificate behind it", (os.path.islink(f"{room.path}/c.lrat"), room.run("check c.aag t.csv")), (True, (0, "accepted\n", "")))


def beside():
    """Files are written beside their names first, and a file that is there already stays."""
    with Room() as room:
        for name in NAMES:
            room.write(name, "old")
            os.chmod(f"{room.path}/{name}", 0o640)
        room.write("c.cnf.part", "mine")
        told("files that are replaced", room.run(REPAIR), (0, MENDED, REPORT))
        told("their certificate", room.run(CHECK), (0, "accepted\n", ""))
        told("their permissions", [stat.S_IMODE(os.stat(f"{room.path}/{it}").st_mode) for it in NAMES], [0o640] * 3)
        told("what stood beside", (room.held(), room.read("c.cnf.part")), ((NAMES, ("c.cnf.part",)), "mine"))


def permissions():
    if os.geteuid() == 0:
        given = ["setpriv", "--reuid=65534", "--regid=65534", "--clear-groups"]
        if not shutil.which("setpriv"):
            print("permissions were not tried: no setpriv")
            return
    else:
        given = []
    with Room() as room:
        for name in os.listdir(room.path):
            os.chmod(f"{room.path}/{name}", 0o644)
        copy = f"{room.path}/program"
        shutil.copy(program, copy)
        os.chmod(copy, 0o755)

        def run(line):
            done = subprocess.run([*given, copy, *line.split()], cwd=room.path, capture_output=True, text=True)
            return done.returncode, done.stdout, done.stderr

        told("as nobody", run(RUN), (0, PRINTED, ""))
        os.chmod(f"{room.path}/t.csv", 0)
        told("a table without permission", run(RUN), (4, "", "fault read t.csv\n"))
        os.chmod(f"{room.path}/t.csv", 0o644)
        room.write("c.cnf", "old")
        os.chmod(f"{room.path}/c.cnf", 0o444)
        os.chmod(room.path, 0o1777)
        told("a certificate without permission", run(REPAIR), (4, "", "fault write c.cnf\n"))
        told("what it holds", (room.read("c.cnf"), room.held()[0]), ("old", ("c.aag", "c.cnf")))
        os.remove(f"{room.path}/c.cnf")
        os.remove(f"{room.path}/c.aag")
        os.chmod(room.path, 0o755)
        told("a folder without permission", run(REPAIR), (4, "", "fault write c.aag\n"))
        for name in NAMES:
            room.write(name, "old")
            os.chmod(f"{room.path}/{name}", 0o666)
        told("files with permission in it", run(REPAIR), (0, MENDED, REPORT))
        told("the certificate in it", run(CHECK), (0, "accepted\n", ""))
        told("files left", room.held()[1], ("program",))


def full_disk():
    """A disk with room for the first file alone, and one with room for all; with files of the certificate there already, and without."""
    with tempfile.TemporaryDirectory() as where:
        for pages in (2, 16):
            for old in ({}, {it: "old" for it in NAMES}):
                if subprocess.run(["mount", "-t", "tmpfs", "-o", f"size={pages * 4096}", "tmpfs", where], capture_output=True).returncode:
                    print("a full disk was not tried: no tmpfs may be mounted")
                    return
                try:
                    with Room() as room:
                        if pages == 2:
                            with open(f"{where}/filler", "w") as file:
                                file.write("x" * 4096 if not old else "")
                        for name, text in old.items():
                            with open(f"{where}/{name}", "w") as file:
                                file.write(text if pages > 2 else "")
                        room.run("repair d.v t.csv whole")
                        whole = os.path.getsize(f"{room.path}/whole.aag")
                        found = room.run(f"repair d.v t.csv {where}/c")
                        held = {it: os.path.getsize(f"{where}/{it}") for it in sorted(os.listdir(where)) if it != "filler"}
                        if pages == 2:
                            due = {"c.aag": whole} if not old else {"c.aag": whole, "c.cnf": 0, "c.lrat": 0}
                            told("a disk that is full, status and text", found, (4, "", f"fault write {where}/c.cnf\n"))
                            told("a disk that is full, files", held, due)
                        else:
                            told("a disk with room", found, (0, MENDED, REPORT))
                            told("a disk with room, files", sorted(held), sorted(NAMES))
                finally:
                    subprocess.run(["umount", where])


def streams():
    with Room() as room:
        def piped(line):
            """With a pipe as standard output whose reader is gone."""
            reader, writer = os.pipe()
            os.close(reader)
            try:
                return room.run(line, stdout=writer)
            finally:
                os.close(writer)

        for line in (RUN, REPAIR, "sites d.v", "make 0 c", CHECK):
            status, _, notes = piped(line)
            told(f"{line} to a broken pipe", (status, notes), (4, "fault out\n"))
        told("the certificate after it", room.run(CHECK), (0, "accepted\n", ""))
        shell = lambda line, closed: subprocess.run(["sh", "-c", f'"$0" {line} {closed}', program], cwd=room.path, capture_output=True, text=True)
        done = shell(RUN, ">&-")
        told("run with standard output closed", (done.returncode, done.stderr), (4, "fault out\n"))
        done = shell(REPAIR, ">&-")
        told("repair with standard output closed", (done.returncode, done.stderr), (4, "fault out\n"))
        told("the design and the table", (room.read("d.v"), room.read("t.csv")), (DESIGN, TABLE))
        told("the certificate after it", room.run(CHECK), (0, "accepted\n", ""))
        done = shell(REPAIR, "2>&-")
        told("repair with standard error closed", (done.returncode, done.stdout), (4, MENDED))
        told("the certificate after it", room.run(CHECK), (0, "accepted\n", ""))
        done = shell(REPAIR, "<&- >&- 2>&-")
        told("repair with all streams closed", done.returncode, 4)
        told("the files after it", (room.read("d.v"), room.read("t.csv"), room.held()), (DESIGN, TABLE, (NAMES, ())))
        told("the certificate after it", room.run(CHECK), (0, "accepted\n", ""))
        # Standard output that is the certificate's own file is what the caller asked for; it is only not to end otherwise than documented.
        done = shell(REPAIR, ">c.aag")
        told("output into a file of the certificate", done.returncode, 0)


for part in (names, devices, same_file, beside, permissions, full_disk, streams):
    part()
print(f"{passed} passed, {failed} failed")
sys.exit(1 if failed else 0)

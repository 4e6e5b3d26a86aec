"""The program as a process: its words, its files, its input and outputs, and its status."""
import json
import os
import pathlib
import time

from client import PATIENCE, delete_of
from fleet import Fleet
from ports import place_at
from running import case
from wanted import check, check_true

OLD, NEW = ["7001", "7002"], ["7101", "7102", "7103"]
PLAN = b"phase both-read-old at 1000\nleg 0 old 7002\nleg 1 new 7103\n"  # of `delete k` at 1000, hash `sum`
MIGRATION = {
    "hash": "sum",
    "pools": {"new": {"servers": NEW}, "old": {"servers": OLD}},
    "route": {"from": "PoolRoute|old", "interval": 100, "start_time": 1000, "to": "PoolRoute|new", "type": "MigrateRoute"},
}


def plan_config(fleet):
    """A migration that begins at 1000 and has intervals of 100, whose nodes aren't addresses."""
    return fleet.config(OLD, NEW, start=1000, interval=100, hash_name="sum")


def compact(value):
    """A value as compact JSON, keys in byte order."""
    return json.dumps(value, sort_keys=True, separators=(",", ":")).encode()


def script(readings):
    """A script in which the clock of one proxy shows these readings."""
    events = [{"do": "clock", "proxy": 0, "reading": reading} for reading in readings]
    setup = {"capacity": 4, "config": MIGRATION, "held": [], "proxies": [{"reading": 0, "room": 1}]}
    return {"events": events, "format": 1, "setup": setup}


def transcript(readings, forward=True):
    """The transcript of that script: nothing but its clock happens."""
    premises = {"forward": forward, "near": True, "new_empty": True, "same": True}
    told = {"history": [], "notes": ["nothing"] * len(readings), "premises": premises, "verdict": "safe"}
    return compact({**script(readings), **told}) + b"\n"


def told_of(forward):
    """What a check finds of that transcript."""
    line = b"premises same true new_empty true forward %s near true\n" % (b"true" if forward else b"false")
    return line + b"verdict safe\n" + (b"accepted\n" if forward else b"not accepted: premise false\n")


@case
def a_command_says_by_its_status_how_it_ended():
    """0 done, 1 a fault, 2 wrong words or help, 3 a transcript that isn't accepted."""
    with Fleet() as fleet:
        config = plan_config(fleet)
        bad = fleet.new_file(b"{}")
        at = ("--at", "1000")
        statuses = [
            (0, fleet.run("plan", "--config", config, *at, stdin=delete_of("k"))),
            (0, fleet.run("timeline", "--config", config)),
            (0, fleet.run("explain", "plan", "5")),
            (0, fleet.run("--version")),
            (0, fleet.run("run", stdin=compact(script([1, 2])))),
            (0, fleet.run("check", stdin=transcript([1, 2]))),
            (1, fleet.run("plan", "--config", bad, *at, stdin=delete_of("k"))),
            (1, fleet.run("plan", "--config", config, *at, stdin=b"delete k 5\r\n")),
            (1, fleet.run("plan", "--config", config, *at)),
            (1, fleet.run("timeline", "--config", fleet.folder / "absent")),
            (1, fleet.run("run", stdin=b"no script")),
            (1, fleet.run("check", stdin=b"no transcript")),
            (1, fleet.run("node", "--listen", "nowhere")),
            (2, fleet.run()),
            (2, fleet.run("--help")),
            (2, fleet.run("gets")),
            (2, fleet.run("plan", "--config", config)),
            (2, fleet.run("plan", "--config", config, "--at", "soon")),
            (2, fleet.run("explain", "plan", "99")),
            (2, fleet.run("timeline", "--config", config, "--readings", "1,x")),
            (3, fleet.run("check", stdin=transcript([2, 1], forward=False))),
            (3, fleet.run("check", stdin=transcript([2, 1], forward=True))),
        ]
        check("the statuses of commands", [wanted for wanted, _ in statuses], [ended[0] for _, ended in statuses])


@case
def results_go_to_the_output_and_faults_to_standard_error():
    """A result stands on standard output, one line of a fault or the text on wrong words on standard error, never both."""
    with Fleet() as fleet:
        config = plan_config(fleet)
        plan = ("plan", "--config", config, "--at", "1000")
        check("a plan", (0, PLAN, b""), fleet.run(*plan, stdin=delete_of("k")))
        check("a transcript", (0, transcript([7]), b""), fleet.run("run", stdin=compact(script([7]))))
        check("a check", (3, told_of(False), b""), fleet.run("check", stdin=transcript([2, 1], forward=False)))
        wanted = (1, b"", b"migctl: text 4 WrongWords\n")
        check("a refused request", wanted, fleet.run(*plan, stdin=b"delete k 5\r\n"))
        check("a refused script", (1, b"", b"migctl: plan 1 NotJson\n"), fleet.run("run", stdin=b"no script"))
        absent = fleet.folder / "absent"
        wanted = (1, b"", b"migctl: file %s\n" % os.fsencode(absent))
        for words in (("timeline", "--config", absent), ("run", absent), ("check", absent)):
            check(f"{words[0]} of an absent file", wanted, fleet.run(*words))
        wanted = (1, b"", b"migctl: file %s\n" % os.fsencode(fleet.folder))
        check("a folder for a file", wanted, fleet.run("run", fleet.folder))
        wanted = (2, b"", b"migctl: words --readings\n")
        check("bad readings", wanted, fleet.run("timeline", "--config", config, "--readings", "1,x"))
        for words in ((), ("--help",), ("gets",), ("plan", "--help")):
            status, output, faults = fleet.run(*words)
            check(f"status and output of the words {words}", (2, b""), (status, output))
            check_true(f"a text on standard error for the words {words}", faults)


@case
def words_that_are_not_utf_8_are_refused():
    """Whichever word it is, and whatever the others say."""
    with Fleet() as fleet:
        for words in ((b"explain\xff",), ("explain", b"\xc3", "1"), ("run", os.fsencode(fleet.folder) + b"/\xff\xfe")):
            check(f"the words {words}", (2, b"", b"migctl: words are not UTF-8\n"), fleet.run(*words))


@case
def files_are_read_at_any_path():
    """A file lies where its path says: of any length that the system allows, with spaces and other letters, and from the
    folder that the program is started in."""
    with Fleet() as fleet:
        paths = [file_at(fleet.folder, length) for length in (209, 210, 211, 1000, 4000)]
        paths += [fleet.folder / "two  words .json", fleet.folder / "gr\u00fcn, \u6a19.json", fleet.folder / "-"]
        paths += [pathlib.Path(os.path.relpath(fleet.folder)) / "relative"]
        for file in paths:
            file.write_bytes(compact(MIGRATION))
            ended = fleet.run("plan", "--config", file, "--at", "1000", stdin=delete_of("k"))
            check(f"a plan by a file at a path of {len(str(file))} bytes", (0, PLAN, b""), ended)
            file.write_bytes(compact(script([7])))
            check(f"a script at a path of {len(str(file))} bytes", (0, transcript([7]), b""), fleet.run("run", file))


def file_at(folder, length):
    """A path of this length below a folder, all of whose folders are there."""
    while length - len(str(folder)) > 250:
        folder /= "d" * 100
    folder.mkdir(parents=True, exist_ok=True)
    return folder / ("f" * (length - len(str(folder)) - 1))


@case
def large_texts_go_through_files_and_pipes():
    """A script of 150,000 bytes from a file, and from a pipe that brings it in pieces; a transcript that is read late."""
    readings = list(range(3000))
    text, wanted = compact(script(readings)), transcript(readings)
    with Fleet() as fleet:
        file = fleet.new_file(text)
        check("a script in a file", (0, wanted, b""), fleet.run("run", file))
        child = fleet.start_command("run")
        for begin in range(0, len(text), 50000):
            child.stdin.write(text[begin : begin + 50000])
            child.stdin.flush()
            time.sleep(0.1)
        child.stdin.close()
        time.sleep(0.5)
        got = child.stdout.read()
        check("a script in pieces, and its transcript read late", (wanted, b""), (got, child.stderr.read()))
        check("its status", 0, child.wait(PATIENCE))
        check("a check of it", (0, told_of(True), b""), fleet.run("check", stdin=wanted))


@case
def no_command_waits_for_input_that_it_does_not_need():
    """A plan ends with its first request, and a timeline, an explanation and a service read nothing: here the input stays open."""
    with Fleet() as fleet:
        config = plan_config(fleet)
        address = fleet.keep(place_at("127.0.0.1")).address()
        for words, given in (
            (("plan", "--config", config, "--at", "1000"), delete_of("k") + b"get"),
            (("timeline", "--config", config), b"x"),
            (("explain", "plan", "5"), b""),
            (("run", fleet.new_file(compact(script([7])))), b""),
            (("node", "--listen", address, "--clients", "0"), b""),
        ):
            read, write = os.pipe()
            os.write(write, given or b"\0")
            status, output, faults = fleet.run(*words, stdin_file=read)
            os.close(write)
            check(f"{words[0]} with an open input", (0, b""), (status, faults))
            check_true(f"{words[0]} prints something", output)


@case
def an_output_that_fails_is_a_fault():
    """Of a command, and of a service that says whom it served: the device is full, or nobody reads the pipe."""
    with Fleet() as fleet:
        config = plan_config(fleet)
        address = fleet.keep(place_at("127.0.0.1")).address()
        commands = (("timeline", "--config", config), ("explain", "plan", "5"), ("node", "--listen", address, "--clients", "0"))
        for words in commands:
            with open("/dev/full", "wb") as full:
                check(f"{words[0]} on a full device", (1, None, b"migctl: output\n"), fleet.run(*words, stdout=full))
            read, write = os.pipe()
            os.close(read)
            with os.fdopen(write, "wb") as broken:
                check(f"{words[0]} on a broken pipe", (1, None, b"migctl: output\n"), fleet.run(*words, stdout=broken))


@case
def an_input_that_fails_is_a_fault():
    """A folder can't be read as an input."""
    with Fleet() as fleet:
        config = plan_config(fleet)
        for words in (("plan", "--config", config, "--at", "1000"), ("run",), ("check",)):
            folder = os.open(fleet.folder, os.O_RDONLY)
            ended = fleet.run(*words, stdin_file=folder)
            check(f"{words[0]} of an input that is a folder", (1, b"", b"migctl: input\n"), ended)

"""What ./migctl and ./migctl prove have to do, a case each."""
import os
import re
import shutil
import signal
import time

from checkout import CHECKED, LIBRARIES, TIMES, Wrong, comes_true, is_equal, matches

ALL = []
BUILDING = "migctl: building the checked program, which takes about a minute and a half\n"
TEXTS = "text 0 text 2 text 6 text 4 text 3 text 1 text 5 "  # of the crates in the order of their names
NO_TOOLCHAIN = "migctl: the toolchain isn't there: put Rattle's rt on the path (README.md)\n"


def case(function):
    """Marks a case."""
    ALL.append(function)
    return function


def texts(old="", new=""):
    """What a program says of its sources, with one changed."""
    return "".join(f"{line} " for line in sorted_texts()).replace(old, new)


def sorted_texts():
    """The texts of the crates, in the order of their names."""
    names = ["migctl", "mr_left", "mr_low", "mr_other", "mr_right", "mr_side", "mr_top"]
    order = ["mr_low", "mr_side", "mr_left", "mr_right", "mr_other", "mr_top", "migctl"]
    return [f"text {order.index(name)}" for name in names]


def answer(how, changed=("", ""), words="plain", arenas=None):
    """What the program answers that was made so."""
    return f"{how} of {texts(*changed)}arenas {arenas or 2 * len(os.sched_getaffinity(0))} words {words}\n"


def want_checked(checkout, said=CHECKED, changed=("", "")):
    """Has the checked program of these sources run."""
    is_equal(checkout.run("migctl", "plain"), (0, answer("checked", changed), said), "./migctl")


def want_proved(checkout):
    """Has the proved program run, silently."""
    is_equal(checkout.run("migctl", "plain"), (0, answer("proved"), ""), "./migctl")


def prove(checkout, *words):
    """Proves, which has to succeed."""
    status, output, said = checkout.run("migctl", "prove", *words)
    is_equal((status, output), (0, ""), f"./migctl prove, which said {said}")
    return said


def is_at(checkout, call):
    """Waits until the toolchain was called for something."""
    comes_true(lambda: call in checkout.calls(), f"{call} didn't begin")


def last_line(text):
    """The last line of a text."""
    return text.splitlines()[-1] if text else ""


@case
def a_first_call_builds_the_checked_program(checkout):
    want_checked(checkout, BUILDING + CHECKED)
    want_checked(checkout)
    is_equal(checkout.run("migctl", "plain", MIGCTL_CHECKED="1"), (0, answer("checked"), ""), "with MIGCTL_CHECKED=1")
    is_equal(checkout.run("migctl", "plain", MIGCTL_CHECKED="0"), (0, answer("checked"), CHECKED), "with MIGCTL_CHECKED=0")
    is_equal(checkout.calls(), ["try"], "calls of the toolchain")


@case
def input_status_and_words_are_the_programs(checkout):
    want_checked(checkout, BUILDING + CHECKED)
    for prepared in (lambda: CHECKED, lambda: prove(checkout) and ""):
        said = prepared()
        how = "checked" if said else "proved"
        wanted = answer(how, words="input a  b") + "some\ninput"
        is_equal(checkout.run("migctl", "input", "a  b", given="some\ninput"), (0, wanted, said), "input")
        is_equal(checkout.run("migctl", "status", "7"), (7, answer(how, words="status 7"), said), "status")


@case
def the_first_call_hands_on_input_and_status_too(checkout):
    wanted = answer("checked", words="input") + "given before it was built"
    is_equal(checkout.run("migctl", "input", given="given before it was built"), (0, wanted, BUILDING + CHECKED), "input")


@case
def signals_reach_the_program(checkout):
    want_checked(checkout, BUILDING + CHECKED)
    for number in (signal.SIGTERM, signal.SIGINT, signal.SIGKILL):
        child = checkout.start("migctl", "stay")
        comes_true(lambda: b"sleep\0" in command(child.pid), "the program didn't take the place of ./migctl")
        child.send_signal(number)
        child.communicate()
        is_equal(child.returncode, -number, "ended by")


def command(process):
    """The command that a process runs."""
    with open(f"/proc/{process}/cmdline", "rb") as file:
        return file.read()


@case
def arenas_are_two_a_processor_or_as_told(checkout):
    want_checked(checkout, BUILDING + CHECKED)
    is_equal(checkout.run("migctl", "plain", MALLOC_ARENA_MAX="3")[1], answer("checked", arenas=3), "arenas")


@case
def the_proved_program_runs_silently(checkout):
    prove(checkout)
    want_proved(checkout)
    calls = checkout.calls()
    is_equal(prove(checkout), "", "a second ./migctl prove")
    is_equal(checkout.calls(), calls, "calls of the toolchain")
    is_equal("try" in calls, False, "the checked program was built")


@case
def an_edit_has_the_checked_program_run(checkout):
    prove(checkout)
    checkout.change(checkout.source("mr_left"), "text 2", "text 20")
    want_checked(checkout, BUILDING + CHECKED, ("text 2", "text 20"))
    want_checked(checkout, CHECKED, ("text 2", "text 20"))
    checkout.change(checkout.source("mr_left"), "text 20", "text 2")
    want_proved(checkout)


@case
def an_older_file_is_seen(checkout):
    prove(checkout)
    checkout.change(checkout.source("mr_top"), "text 5", "text 50")
    os.utime(checkout.root / checkout.source("mr_top"), (1_000_000_000, 1_000_000_000))
    want_checked(checkout, BUILDING + CHECKED, ("text 5", "text 50"))
    checkout.change(checkout.source("mr_top"), "text 50", "text 51")
    os.utime(checkout.root / checkout.source("mr_top"), (900_000_000, 900_000_000))
    want_checked(checkout, BUILDING + CHECKED, ("text 5", "text 51"))


@case
def a_removed_file_and_a_new_one_are_seen(checkout):
    checkout.write("crates/mr_low/proofs/Lemma.antt", "a lemma")
    prove(checkout)
    want_proved(checkout)
    (checkout.root / "crates/mr_low/proofs/Lemma.antt").unlink()
    want_checked(checkout, BUILDING + CHECKED)
    checkout.write("crates/mr_low/proofs/Lemma.antt", "a lemma")
    want_proved(checkout)
    checkout.write("crates/mr_low/proofs/Other.antt", "")
    want_checked(checkout, BUILDING + CHECKED)


@case
def a_file_that_moved_to_another_name_is_seen(checkout):
    checkout.write("crates/mr_low/specs/One.antt", "a definition")
    prove(checkout)
    os.rename(checkout.root / "crates/mr_low/specs/One.antt", checkout.root / "crates/mr_low/specs/Two.antt")
    want_checked(checkout, BUILDING + CHECKED)


@case
def what_the_program_isnt_made_of_changes_nothing(checkout):
    prove(checkout)
    checkout.write("crates/mr_low/mutants/one.edit", "an edit")
    checkout.write("crates/mr_other/src/more.rt", "// no library of the program")
    os.utime(checkout.root / checkout.source("mr_low"))
    want_proved(checkout)


@case
def another_program_in_the_place_of_the_proved_one_isnt_run(checkout):
    prove(checkout)
    checkout.write("crates/migctl/out/migctl", "#!/bin/sh\necho another\n")
    want_checked(checkout, BUILDING + CHECKED)
    prove(checkout)
    want_proved(checkout)


@case
def the_checked_programs_of_two_other_sources_are_kept(checkout):
    for number in (70, 71, 72, 73):
        checkout.write(checkout.source("mr_low"), f"// text {number}\n")
        want_checked(checkout, BUILDING + CHECKED, ("text 0", f"text {number}"))
        time.sleep(0.02)
    checkout.write(checkout.source("mr_low"), "// text 71\n")
    want_checked(checkout, CHECKED, ("text 0", "text 71"))
    is_equal(len(checkout.kept()), 3, "programs kept")


@case
def an_edit_while_it_is_built_has_it_built_once_more(checkout):
    checkout.play("seconds.tried", "1")
    child = checkout.start("migctl", "plain")
    is_at(checkout, "try")
    checkout.change(checkout.source("mr_low"), "text 0", "text 9")
    output, said = child.communicate("")
    is_equal(output, answer("checked", ("text 0", "text 9")), "output")
    is_equal(said, f"{BUILDING}migctl: the sources changed meanwhile: once more\n{BUILDING}{CHECKED}", "said")
    is_equal(len(checkout.kept()), 1, "programs kept")


@case
def a_building_that_is_broken_off_leaves_nothing(checkout):
    checkout.play("seconds.tried", "30")
    for number, is_group in ((signal.SIGINT, True), (signal.SIGTERM, False), (signal.SIGHUP, False)):
        child = checkout.start("migctl", "plain")
        comes_true(lambda: [*checkout.temporary.glob("*/*/within")], "nothing was built")
        (os.killpg if is_group else os.kill)(child.pid, number)
        output, said = child.communicate()
        is_equal((child.returncode, output, said), (128 + number, "", BUILDING), "a call that was broken off")
        checkout.nothing_runs()
        is_equal((checkout.kept(), os.listdir(checkout.temporary)), ([], []), "what was left")
        checkout.play("calls", "")
    checkout.play("seconds.tried", "0")
    want_checked(checkout, BUILDING + CHECKED)


@case
def two_calls_at_once_build_one_program(checkout):
    checkout.play("seconds.tried", "1")
    children = [checkout.start("migctl", "plain") for _ in range(2)]
    told = sorted(child.communicate("") for child in children)
    waiting = "migctl: another call is building the checked program: waiting for it\n"
    is_equal(told, sorted((answer("checked"), first + CHECKED) for first in (BUILDING, waiting)), "what both said")
    is_equal(checkout.calls(), ["try"], "calls of the toolchain")


@case
def a_building_that_fails_says_why(checkout):
    checkout.play("fail.tried", "")
    status, output, said = checkout.run("migctl", "plain")
    is_equal((status, output), (1, ""), "a failed call")
    is_equal(said, f"{BUILDING}error: tried can't be proved\n\nmigctl: the checked program isn't built\n", "said")
    is_equal(checkout.kept(), [], "what was left")


@case
def the_path_of_the_checked_program_is_printed(checkout):
    status, output, said = checkout.run("scripts/checked")
    matches(output, re.escape(f"{checkout.root}/crates/migctl/out/checked/") + "[0-9a-f]{32}/migctl\n", "output")
    is_equal((status, said), (0, BUILDING), "scripts/checked")
    is_equal(checkout.run("scripts/checked"), (0, output, ""), "scripts/checked again")
    copy = checkout.home / "copy"
    is_equal(checkout.run("tests/live/building.py", str(copy))[0], 0, "tests/live/building.py")
    is_equal(copy.read_bytes(), open(output.strip(), "rb").read(), "the copy")


@case
def no_toolchain_is_one_line(checkout):
    (checkout.home / "bin/rt").unlink()
    path = ":".join(it for it in os.environ["PATH"].split(":") if not os.access(f"{it}/rt", os.X_OK))
    for words in (["migctl", "plain"], ["migctl", "prove"], ["scripts/checked"]):
        is_equal(checkout.run(*words, PATH=path), (1, "", NO_TOOLCHAIN), " ".join(words))


@case
def want_of_memory_and_disk_is_one_line(checkout):
    for script, words, what in (
        ("scripts/checked", ["plain"], "building the checked program"),
        ("scripts/prove", ["prove"], "the proof"),
    ):
        whole = (checkout.root / script).read_text(encoding="utf-8")
        for name, resource in (("MEMORY", "free memory"), ("DISK", "disk in /[^ ]*")):
            checkout.write(script, re.sub(rf"(?m)^{name} = \d[\d_]*", f"{name} = 10**15", whole))
            status, output, said = checkout.run("migctl", *words)
            is_equal((status, output), (1, ""), f"no {name}")
            matches(said, rf"migctl: {what} needs 1000000\.0 GB of {resource}, and [0-9.]+ GB are free\n", f"no {name}")
        checkout.write(script, whole)
    is_equal(checkout.calls(), [], "calls of the toolchain")


@case
def no_library_begins_before_those_below_it(checkout):
    for name in LIBRARIES:
        checkout.play(f"seconds.{name}", "0.2")
    prove(checkout)
    calls = checkout.calls()
    is_equal(sorted(calls), sorted(f"{word} {name}" for name in (*LIBRARIES, "migctl") for word in ("begin", "end")), "calls")
    for pair in ("mr_left mr_low", "mr_right mr_low", "mr_top mr_left", "mr_top mr_right", "migctl mr_top", "migctl mr_side"):
        name, below = pair.split()
        is_equal(calls.index(f"begin {name}") > calls.index(f"end {below}"), True, f"{name} behind {below}")


@case
def libraries_are_proved_side_by_side(checkout):
    checkout.change("scripts/lanes.py", "min(wanted, memory // MEMORY_OF_JOB)", "6")
    checkout.play("seconds.mr_low", "1")
    checkout.play("seconds.mr_side", "1")
    prove(checkout)
    is_equal(sorted(checkout.calls()[:2]), ["begin mr_low", "begin mr_side"], "the first two")


@case
def the_longest_way_goes_first(checkout):
    checkout.change("scripts/lanes.py", "MOST_LANES = 3", "MOST_LANES = 1")
    prove(checkout)
    order = [call.split()[1] for call in checkout.calls() if call.startswith("begin")]
    is_equal(order, ["mr_low", "mr_right", "mr_side", "mr_left", "mr_top", "migctl"], "the order")


@case
def one_library_has_what_the_shares_of_those_beside_it_leave(checkout):
    checkout.change("scripts/lanes.py", "self.processors = processors", "self.processors = 4")
    whole = (checkout.root / "scripts/lanes.py").read_text(encoding="utf-8")
    checkout.play("seconds.mr_low", "1")
    checkout.play("seconds.mr_side", "1")
    for processes, wanted in (("4", ("3", "1", "4")), ("6", ("4", "2", "4"))):
        checkout.write("scripts/lanes.py", whole.replace("min(wanted, memory // MEMORY_OF_JOB)", processes))
        checkout.play("calls", "")
        for name in (*LIBRARIES, "migctl"):
            shutil.rmtree(checkout.root / "crates" / name / "out", ignore_errors=True)
        prove(checkout)
        jobs = {line.split()[1]: line.split()[2] for line in checkout.lines() if line.startswith("begin mr")}
        is_equal((jobs["mr_low"], jobs["mr_side"], jobs["mr_top"]), wanted, f"jobs of {processes}")


@case
def a_library_that_fails_stops_with_what_it_said(checkout):
    checkout.play("fail.mr_right", "")
    checkout.play("seconds.mr_right", "0.5")
    status, output, said = checkout.run("migctl", "prove")
    is_equal((status, output), (1, ""), "./migctl prove")
    matches(said, r".*\nerror: mr_right can't be proved\nmigctl: mr_right isn't proved: the toolchain ended with status 1\n", "said")
    checkout.nothing_runs()
    (checkout.fake / "fail.mr_right").unlink()
    done = [call.split()[1] for call in checkout.calls() if call.startswith("end")]
    checkout.play("calls", "")
    prove(checkout)
    begun = [call.split()[1] for call in checkout.calls() if call.startswith("begin")]
    is_equal(sorted(begun), sorted({*LIBRARIES, "migctl"} - {*done}), "what was proved then")
    want_proved(checkout)


@case
def a_proof_that_is_broken_off_goes_on_where_it_was(checkout):
    checkout.play("seconds.mr_right", "30")
    for number, is_group in ((signal.SIGTERM, False), (signal.SIGINT, True)):
        child = checkout.start("migctl", "prove")
        is_at(checkout, "begin mr_right")
        comes_true(lambda: "end mr_left" in checkout.calls() or number == signal.SIGINT, "mr_left wasn't proved")
        comes_true(lambda: (checkout.root / "crates/mr_low/out/proved").exists(), "mr_low wasn't kept")
        time.sleep(0.3)
        (os.killpg if is_group else os.kill)(child.pid, number)
        is_equal(child.communicate()[0], "", "output")
        is_equal(child.returncode, 128 + number, "status")
        checkout.nothing_runs()
        is_equal(os.listdir(checkout.root / ".git"), [], "what was left")
        is_equal((checkout.root / "crates/mr_right/out/incremental/begun.oantt").exists(), True, "work that was kept")
        is_equal((checkout.root / "crates/mr_right/out/rlib").exists(), False, "a library that isn't whole")
        checkout.play("calls", "")
    checkout.play("seconds.mr_right", "0")
    prove(checkout)
    begun = [call.split()[1] for call in checkout.calls() if call.startswith("begin")]
    is_equal(begun, ["mr_right", "mr_top", "migctl"], "what was proved then")
    want_proved(checkout)


@case
def a_program_that_is_half_linked_isnt_run(checkout):
    checkout.play("seconds.run", "30")
    child = checkout.start("migctl", "prove")
    is_at(checkout, "begin migctl")
    comes_true(lambda: (checkout.root / "crates/migctl/out/migctl").exists(), "nothing was linked")
    child.terminate()
    child.communicate()
    checkout.nothing_runs()
    want_checked(checkout, BUILDING + CHECKED)


@case
def a_proof_that_is_killed_says_so(checkout):
    checkout.play("seconds.mr_low", "30")
    child = checkout.start("migctl", "prove")
    is_at(checkout, "begin mr_low")
    os.kill(int((checkout.fake / "process.mr_low").read_text(encoding="utf-8")), signal.SIGKILL)
    output, said = child.communicate()
    is_equal((child.returncode, output), (1, ""), "./migctl prove")
    is_equal(last_line(said), "migctl: mr_low isn't proved: the toolchain ended with status -9", "said")


@case
def two_proofs_at_once_are_one(checkout):
    checkout.play("seconds.mr_low", "1")
    first = checkout.start("migctl", "prove")
    is_at(checkout, "begin mr_low")
    second = checkout.run("migctl", "prove")
    is_equal(second, (0, "", "migctl: another call is proving: waiting for it\n"), "the second")
    first.communicate()
    is_equal((first.returncode, len(checkout.calls())), (0, 2 * 6), "the first, and calls of both")


@case
def an_edit_proves_that_crate_and_those_above(checkout):
    prove(checkout)
    checkout.play("calls", "")
    checkout.change(checkout.source("mr_left"), "text 2", "text 20")
    prove(checkout)
    is_equal(checkout.calls()[::2], ["begin mr_left", "begin mr_top", "begin migctl"], "calls")
    is_equal(checkout.run("migctl", "plain"), (0, answer("proved", ("text 2", "text 20")), ""), "./migctl")


@case
def another_toolchain_proves_all_anew(checkout):
    prove(checkout)
    checkout.play("version", "another kit\n")
    checkout.play("calls", "")
    checkout.change(checkout.source("migctl"), "text 6", "text 60")
    prove(checkout)
    is_equal(len(checkout.calls()), 2 * 6, "calls")


@case
def an_edit_while_it_is_proved_has_it_proved_once_more(checkout):
    checkout.play("seconds.mr_top", "1")
    child = checkout.start("migctl", "prove")
    is_at(checkout, "begin mr_top")
    checkout.play("seconds.mr_top", "0")
    checkout.change(checkout.source("migctl"), "text 6", "text 60")
    said = child.communicate()[1]
    is_equal("migctl: the sources changed meanwhile: once more\n" in said, True, f"what ./migctl prove said, which was {said}")
    is_equal(child.returncode, 0, "status")
    is_equal(checkout.run("migctl", "plain"), (0, answer("proved", ("text 6", "text 60")), ""), "./migctl")


@case
def progress_is_a_line_now_and_then(checkout):
    checkout.change("scripts/prove", "EVERY = 60", "EVERY = 0.4")
    checkout.play("seconds.mr_low", "1.5")
    checkout.play("seconds.mr_side", "1.5")
    lines = prove(checkout).splitlines()
    shape = r"migctl: proved [0-5] of 5 libraries, \d+ functions, \d+ min so far, some \d+ left: [a-z_, ]+"
    for line in lines[:-1]:
        matches(line, shape, "a line of progress")
    counted = [line for line in lines if re.search("proved 0 of 5 libraries, [12] functions,", line)]
    is_equal(counted != [], True, f"functions of libraries that aren't done yet, in {lines}")
    is_equal(3 <= len(lines) <= 40, True, f"{len(lines)} lines")
    is_equal(lines[-1], "migctl: 11 functions were proved, and the program built, in 0 min", "the last line")


@case
def progress_is_one_line_on_a_terminal(checkout):
    checkout.play("seconds.tried", "0.7")
    status, said = checkout.on_terminal("migctl", "plain")
    drawn = said.split("\r")
    matches(drawn[1], r"migctl: building the checked program: 0 s of about a minute and a half\033\[K", "drawn first")
    is_equal((status, drawn[-2:]), (0, ["\033[K" + CHECKED.strip(), "\n"]), "drawn last")
    status, said = checkout.on_terminal("migctl", "prove")
    drawn = said.split("\r")
    matches(drawn[1], r"migctl: proved 0 of 5 libraries, 0 functions, 0 min so far, some 1 left: .*\033\[K", "drawn first")
    is_equal((status, "\n" in "".join(drawn[:-2])), (0, False), "lines on a terminal")


@case
def other_checkouts_are_told_of_the_libraries(checkout):
    checkout.play("shares", "")
    prove(checkout)
    taken = [call for call in checkout.calls() if call.startswith("takes")]
    is_equal(sorted(taken), sorted(f"takes {name}" for name in LIBRARIES), "what the toolchain took into the checkout")
    want_proved(checkout)
    checkout.play("calls", "")
    checkout.change(checkout.source("mr_top"), "text 5", "text 50")
    prove(checkout)
    is_equal(checkout.calls(), ["begin mr_top", "end mr_top", "takes mr_top", "begin migctl", "end migctl"], "calls after an edit")


@case
def times_are_written_down(checkout):
    checkout.play("seconds.mr_side", "2")
    prove(checkout, "--time")
    rows = (checkout.root / "scripts/prove-times.txt").read_text(encoding="utf-8").splitlines()
    is_equal([row.split()[0] for row in rows[1:]], ["mr_low", "mr_side", "mr_left", "mr_right", "mr_top", "migctl"], "rows")
    is_equal(rows[0], TIMES.splitlines()[0], "the heading")
    is_equal(2 <= int(rows[2].split()[1]) <= 9, True, f"the seconds of {rows[2]}")


@case
def the_program_of_the_gate_is_taken(checkout):
    sources = checkout.run("scripts/sources")[1].strip()
    checkout.write("crates/migctl/out/migctl", "#!/bin/sh\necho of the gate\n")
    (checkout.root / "crates/migctl/out/migctl").chmod(0o755)
    refused = (1, "", "migctl: the sources aren't those any more that rt ci proved\n")
    is_equal(checkout.run("scripts/prove", "--built", "0" * 32), refused, "other sources")
    is_equal(checkout.run("scripts/prove", "--built", sources), (0, "", ""), "these sources")
    is_equal(checkout.run("migctl", "plain"), (0, "of the gate\n", ""), "./migctl")
    is_equal(checkout.run("migctl", "prove"), (0, "", ""), "./migctl prove")
    is_equal(checkout.calls(), [], "calls of the toolchain")


@case
def tests_take_no_checked_program_for_the_proved_one(checkout):
    want_checked(checkout, BUILDING + CHECKED)
    asking = ["../bin/python", "-c", "import program; print(program.path())"]
    os.symlink(os.path.realpath("/proc/self/exe"), checkout.home / "bin/python")
    checkout.play("fail.mr_low", "")
    status, output, said = checkout.run(*asking, PYTHONPATH=str(checkout.root / "tests"))
    is_equal((status != 0, output, last_line(said)), (True, "", "there is no proved program"), "where the proof fails")
    (checkout.fake / "fail.mr_low").unlink()
    status, output, said = checkout.run(*asking, PYTHONPATH=str(checkout.root / "tests"))
    is_equal((status, output), (0, f"{checkout.root}/crates/migctl/out/migctl\n"), "where it doesn't")

"""python3 front hints|plain PROGRAM WORD..: runs the built program, with hints where they are wanted, and with a prompt;
python3 front explain PROGRAM WORD..: explains the last commit of a script."""
import os
import signal
import sys

# Until someone else takes it, Ctrl-C ends this as it would end the program.
if signal.getsignal(signal.SIGINT) is signal.default_int_handler:
    signal.signal(signal.SIGINT, signal.SIG_DFL)
if sys.version_info < (3, 8):
    if sys.argv[1] == "explain":
        sys.exit("psac: explain needs Python 3.8 or later")
    os.execvp(sys.argv[2], sys.argv[2:])
sys.path[0] = os.path.dirname(os.path.dirname(os.path.abspath(__file__)))

from front import hints, words  # noqa: E402
from front.report import Report  # noqa: E402
from front.screen import is_device, is_terminal, write_whole  # noqa: E402
from front.stream import Run, end_as  # noqa: E402


def request_of(given):
    """What the words ask for, or None where they aren't of the command's form."""
    try:
        return words.read(given)
    except words.Wrong:
        return None


def is_interactive(request):
    """Whether this is a session that someone types. Files that are read from a terminal leave it to the program."""
    if request is None or request.mode != "session" or not (is_terminal(0) and is_terminal(1)):
        return False
    return not any(is_device(it) for it in (request.program, request.input))


def are_open(*descriptors):
    """Whether all of these are open; a pipe could else take the place of one."""
    try:
        for it in descriptors:
            os.fstat(it)
    except OSError:
        return False
    return True


def converse(program, given, request, has_hints):
    """A session at a prompt."""
    from front.console import Console

    end_as(Console(program, given, request, has_hints).run())


def pass_through(program, given, request):
    """A run whose report is passed through, with hints behind it."""
    has_commits = request is not None and request.has_script
    # Where a script is typed, a line that says how far the run is would stand in the way.
    is_typed = has_commits and is_terminal(0)
    report = Report()
    run = Run(program, given, report, has_commits, is_shown=not is_typed)
    run.carry_out()
    if not run.is_pipe_closed and run.status >= 0:
        hints.say(lambda: hints.after(given, report.noted, run.status))
    end_as(run.status)


def main(how, program, given):
    """Runs the program, and ends as it does."""
    if how == "explain":
        from front import explain

        sys.exit(explain.main(program, given))
    request, has_hints = request_of(given), how == "hints"
    if are_open(0, 1, 2):
        if is_interactive(request):
            converse(program, given, request, has_hints)
        if has_hints:
            pass_through(program, given, request)
    os.execvp(program, [program, *given])


try:
    main(sys.argv[1], sys.argv[2], sys.argv[3:])
except OSError as error:
    # What the shell says and answers where it can't start a program.
    sys.stderr.write(f"psac: {error.filename or sys.argv[2]}: {error.strerror}\n")
    sys.exit(127 if isinstance(error, FileNotFoundError) else 126)

"""The program `sort_names`, each of whose requests is refused in turn: where an allocation fails, the names and tables that were
there before it must not be printed as if they were all."""
from sweeps import built, faults_of, is_beginning, losses_missed, run, sweep

NAMES = "Bo\nemil\nEmil\nÉmile\nZoe\nZoë\nBo 4, emil 2, Emil 5, Émile 1, Zoe 3, Zoë 0, each once\n".encode()
NO_MEMORY, WRITE_FAILED = b"sort_names: NoMemory\n", b"sort_names: Output("


def is_right(plain, refused, ran):
    """Whether the program did right: all names where it asked again, or status 1, a beginning of the names, and the fault. Where all
    requests after the one are refused, the fault need not be said."""
    if not refused.is_error() or ran.status == 0:
        asked_again = refused.request == "allocation" and ran.counts["allocation"] > plain.counts["allocation"]
        return (asked_again or not refused.is_error()) and ran.came_to() == plain.came_to()
    is_cut = ran.status == 1 and ran.output != plain.output and is_beginning(ran.output, plain.output)
    said = NO_MEMORY if refused.request == "allocation" else WRITE_FAILED
    return is_cut and (ran.faults.startswith(said) or refused.also_after and is_beginning(ran.faults, said))


def check_sort_names(report, shim):
    program = built("sort_names")
    plain = run(program, [], shim=shim)
    report.say("sort_names: its names", [] if plain.came_to() == (0, NAMES, b"") else [str(plain)], 1)
    outcomes = sweep(shim, program, [], b"", ["allocation", "write"], is_right)
    report.say("sort_names: each request refused", faults_of(outcomes), len(outcomes))
    report.say("sort_names: a name that is lost is found", losses_missed(outcomes, plain, is_right), len(outcomes))

"""aide-compare hosts compare: the databases of many hosts fetched and compared, some at a time."""
from __future__ import annotations

from collections.abc import Iterator, Sequence

from aide_compare.base.ending import Fault, Status, fault_of, tell
from aide_compare.base.escapes import guarded
from aide_compare.base.options import EXCLUDE, EXCLUDE_FROM
from aide_compare.base.parser import Help, read, read_defaults
from aide_compare.base.files import in_memory
from aide_compare.commands.defaults import exclusions_of
from aide_compare.compare.comparison import ComparisonInput
from aide_compare.compare.exclusions import Exclusions
from aide_compare.compare.unpack import Copy
from aide_compare.compare.work import compare
from aide_compare.hosts.canary import keep_note, trusted_pair
from aide_compare.hosts.host_comparison import MAX_JUDGED, MAX_KEPT, HostsRequest, HostsRun
from aide_compare.hosts.hosts_file import hosts_of
from aide_compare.hosts.report_values import HostCounts
from aide_compare.hosts.workers import HostResult, results, without_name

HELP = Help(
    name="aide-compare hosts compare",
    usage="%(prog)s [OPTIONS] [HOSTS-FILE | HOST]",
    description="""\
Fetches and compares the databases of the hosts of HOSTS-FILE, one name a line, or of HOST. Prints a
line for each host as it ends: its name, its status and the counts. Then a summary.""",
    epilog="""\
Status, the highest of all hosts: 0 nothing to read, 1 to 7 changes that are not
silent, above 7 some host was not compared. 15 if arguments or a host's name are wrong, 17 if the
exclude list has an error; 18 if the command itself fails.""",
)
EMPTY = b"@@begin_db\n@@db_spec name\n@@end_db\n"


def tell_or_keep(failures: list[Fault], line: str) -> None:
    """Prints a line. After a failure, which is kept, none is printed, and the hosts are compared
    all the same."""
    try:
        if not failures:
            tell(line)
    except Fault as failure:
        failures.append(failure)


def results_beside(
    canary: str, hosts: Sequence[str], run: HostsRun, failures: list[Fault]
) -> Iterator[HostResult]:
    """The results of all hosts beside the canary, whose own result comes first. Without its pair
    the others are compared all the same, and that is said before them."""
    (first,) = results([canary], run._replace(max_kept=MAX_JUDGED))
    yield first
    beside = run
    note = ""
    try:
        if first.status > 7:
            raise Fault(first.status, first.text)
        beside = run._replace(trusted=trusted_pair(canary, run))
    except (Fault, OSError) as error:
        why = without_name(canary, fault_of(error).text)
        note = f"canary {canary} was not used, so the others were compared without it: {why}"
        tell_or_keep(failures, guarded(note))
    keep_note(run.request.store, note)
    yield from results([host for host in hosts if host != canary], beside)


def compare_all(run: HostsRun, hosts: Sequence[str]) -> int:
    """Prints a line for each host and the summary; returns the greatest status."""
    failures: list[Fault] = []
    request = run.request
    if request.canary:
        all_results = results_beside(request.canary, hosts, run, failures)
    else:
        all_results = results(hosts, run)
    found = []
    worst = 0
    for result in all_results:
        found.append((result.status, result.has_changes and not result.status))
        worst = max(worst, result.status)
        if result.status or not request.is_quiet:
            tell_or_keep(failures, result.line())
    if failures:
        raise failures[0]
    if worst or not request.is_quiet:
        counts = HostCounts.of(found)
        tell(f"{counts.headline()}, {counts.others()}")
    return worst


def refuse_faulty(exclusions: Exclusions) -> None:
    """A Fault if the program refuses the list: once, and not for each host."""
    empty = Copy(in_memory(EMPTY), "", None)
    copies = {"old": empty, "new": empty}
    comparison = compare(ComparisonInput("", "", copies=copies, exclusions=exclusions))
    if comparison.fault:
        raise comparison.fault


def run_of(arguments: Sequence[str]) -> HostsRun:
    # Of the defaults only what is left out: a trusted pair there is one of this machine.
    defaults = read_defaults(arguments)
    values = defaults.values((EXCLUDE_FROM, EXCLUDE))
    request = read(HostsRequest, arguments, HELP, values)
    exclusions = exclusions_of(request.exclude_from, request.exclude, defaults)
    if exclusions:
        refuse_faulty(exclusions)
        # What a host has at the path of such a file is not the list of this machine.
        exclusions = exclusions._replace(files={}, links={})
    return HostsRun(request, exclusions, MAX_KEPT)


def hosts_to_compare(request: HostsRequest) -> list[str]:
    """The hosts of the file. The canary has to be one of them: otherwise no report would list what
    is silent beside it."""
    names = hosts_of(request.hosts_file, request.store)
    if not request.canary:
        keep_note(request.store, "")
    elif request.canary not in names:
        raise Fault(Status.USAGE, f"the canary {request.canary} is not among the hosts of the file")
    return names


def main(arguments: Sequence[str]) -> int:
    run = run_of(arguments)
    return compare_all(run, hosts_to_compare(run.request))

"""Runs test files: asks the program, and compares what it answers with what is expected."""
import os
import time
from concurrent.futures import ThreadPoolExecutor
from dataclasses import dataclass
from functools import lru_cache
from itertools import groupby

from tools.commands.command_line.ending import reason
from tools.commands.messages import policies
from tools.commands.messages.findings import Finding, Text, message, whole_file
from tools.commands.sharding.shares import WHOLE
from tools.commands.testing import all_calls, asking, explained, files, named_files
from tools.commands.testing.lines import Line, NotUnderstood
from tools.commands.testing.results import FileResults, Result
from tools.commands.testing.scripts import batches, container_of, script_of

MOST_BYTES = 1_048_576
# the bounds of an exploration of one order of steps
ONE_ORDER = (0, "0")


@dataclass(frozen=True)
class Job:
    """A script that the program is asked about: its policy, the bounds, and what makes results of the answer. Without bounds its own schedule is played."""

    policy: str
    script: object
    bounds: tuple
    judge: object
    names: tuple  # lines of the test file that it is about

    @property
    def words(self):
        """The words of the program that answer it."""
        return " ".join(["explore" if self.bounds else "play", self.policy, "SCRIPT", *map(str, self.bounds)])

    @property
    def shown(self):
        """The lines of the script."""
        return [line for line, _ in self.script.lines]

    def answer(self, program):
        """What the program prints of it."""
        return program.asked("explore" if self.bounds else "play", self.policy, self.script, *map(str, self.bounds))

    def results(self, output):
        # (what isn't needed where all is explained isn't read for that)
        from tools.commands.testing import orders
        return self.judge(orders.understood(orders.explored_of if self.bounds else orders.played_of, self.script, output))


@dataclass(frozen=True)
class Explaining:
    """`call` lines that a policy alone decides: the program explains them."""

    policy: str
    calls: explained.Calls

    @property
    def words(self):
        return f"explain {self.policy} CALLS"

    @property
    def names(self):
        return tuple(it.line.number for it in self.calls.singles)

    @property
    def shown(self):
        return self.calls.shown

    def answer(self, program):
        """What the program prints of them."""
        return program.asked("explain", self.policy, self.calls)

    def results(self, output):
        found = explained.found_of(self.calls, output)
        if found is None:
            raise asking.NotAsked("what the program printed isn't understood: it isn't a decision for each call")
        return [of_single(single, one) for single, one in zip(self.calls.singles, found)]


# ---- results


def of_single(single, found):
    """The result of a `call` line, or of the step that stands for one. What it finds in the tree isn't shown where nothing is expected of that, since it may share the tree with others."""
    return Result(single.line.number, f"call {single.call.text}", single.expected.text, found.shown(single.expected.asks_tree), single.expected.fits(found))


def of_step(instance, step, exploring, explored):
    """The result of a call of a container, in each order of steps that was explored."""
    wrong = [it for it in explored.outcomes if not step.expected.fits(it.found(instance.place, step))]
    shown = (wrong or explored.outcomes)[0].found(instance.place, step).shown()
    count = share(sum(it.histories for it in wrong), explored) if wrong else ""
    within, schedule = (reach(exploring, explored), wrong[0].schedule if wrong else ()) if exploring else ("", ())
    return Result(step.line.number, f"{instance.program}: {step.call.text}", step.expected.text, f"{shown}{count}", not wrong, within, schedule)


def of_trace(expectation, chosen, exploring, explored):
    """The result of a line on calls of a trace, in each order of steps that was explored."""
    calls = [(order, step.call, order.found(instance.place, step)) for order in explored.outcomes for instance, step in chosen]
    wrong = [it for it in calls if not expectation.expected.fits(it[2], it[1])]
    first, call, found = (wrong or calls)[0]
    failed = {it[1] for it in wrong}
    count = share(sum(order.histories for order in {id(it[0]): it[0] for it in wrong}.values()), explored) if wrong else ""
    several = f" ({len(failed)} of {len(chosen)} calls)" if wrong and len(chosen) > 1 else ""
    within = [expectation.selection.counted([step.call for _, step in chosen]), reach(exploring, explored) if exploring else ""]
    return Result(expectation.line.number, expectation.text, expectation.expected.text, f"{found.shown()} at line {call.line}: {call.text}{several}{count}", not wrong, ", ".join(filter(None, within)),
                  first.schedule if wrong else ())


def share(count, explored):
    """In how many of the orders something is so, where there is more than one."""
    return f", in {count:,} of {explored.histories:,} orders" if explored.histories > 1 else ""


def reach(exploring, explored):
    """How far an exploration goes, in words."""
    delays = {"0": "without a delay", "1": "within 1 delay"}.get(exploring.delays, f"within {exploring.delays} delays")
    orders = f"{explored.histories:,} orders" if explored.histories > 1 else "1 order"
    return {"yes": f"all {orders}" if explored.histories > 1 else "the only order", "bound": f"{delays}, {orders}", "no": f"cut off after {orders}"}[explored.whole]


def of_claim(claim, exploring, explored):
    """The result of a claim."""
    holds = [it for it in explored.outcomes if claim.condition.holds(it.made)]
    fails = [it for it in explored.outcomes if it not in holds]
    within, text = reach(exploring, explored), claim.line.text
    against = {"never:": holds, "always:": fails}.get(claim.kind)
    if against is None:
        found = "" if holds else "in none of them"
        return Result(claim.line.number, text, "", found, bool(holds), within)
    if against:
        count = sum(it.histories for it in against)
        found = f"it is so{share(count, explored)}" if claim.kind == "never:" else f"it isn't so{share(count, explored)}"
        return Result(claim.line.number, text, "", f"{found}: {told(against[0])}", False, within, against[0].schedule)
    if explored.whole == "no":
        return Result(claim.line.number, text, "", "it isn't known: orders were left after 100,000,000 events; take fewer delays", False, within)
    return Result(claim.line.number, text, "", "", True, within)


def told(outcome):
    """What an order of steps comes to, in a line."""
    return "; ".join(f"{it.task} {it.call.name} {it.found.shown()}" for it in outcome.made) or "no call was made"


# ---- jobs


class Dealer:
    """Deals the jobs of test files, one file after another. What is about the same lines is dealt together: so a container stays in one share."""

    def __init__(self, share):
        self.share, self.dealt = share, 0

    def own(self, jobs):
        """Those of a file's jobs that are the share's."""
        found = []
        for _, alike in groupby(jobs, key=lambda job: job.names):
            found += alike if self.share.takes(self.dealt) else []
            self.dealt += 1
        return found


class Tests:
    """The jobs of a test file."""

    def __init__(self, file):
        self.file, self.folder, self.warnings = file, os.path.dirname(file.path), []

    def jobs(self):
        return [job for group in self.file.groups for job in self.of_group(group)]

    def warn(self, lines):
        """Adds lines to the warnings, unless they stand there already."""
        if lines and not any(self.warnings[at:at + len(lines)] == list(lines) for at in range(len(self.warnings))):
            self.warnings += lines

    def of_group(self, group):
        policy = named_files.path_of(self.folder, group.policy)
        data = named_files.data_of(self.folder, group.policy)
        self.warn(warnings_of(policy, data))
        rules = named_files.rules_of(data)
        filters = self.filters_of(group)
        descriptors = named_files.descriptors_of(rules)
        containers = [(it, self.script_of(it, filters, descriptors)) for it in group.containers]
        for word in named_rules(group):
            named_files.check_rule(word, rules)
        # (where there are filters, these decide which calls the policy is asked of)
        decided, played = parted(group.singles, lambda it: filters is None and explained.is_enough(it))
        if decided:
            yield Explaining(policy, explained.Calls(tuple(decided)))
        if group.of_all_calls:
            yield all_calls.Checking(policy, all_calls.Claims(tuple(group.of_all_calls)))
        for singles in batches(played, any("times" in it for it in rules)):
            yield self.of_singles(policy, singles, script_of(container_of(singles), filters, descriptors))
        for container, script in containers:
            yield from self.of_container(policy, container, script)

    def filters_of(self, group):
        """The lines of the filters of a group with their source; None where it has none."""
        if group.filters is None:
            return None
        word = group.filters.file
        named = Line(word.line, (word,), word.text)
        lines, warnings = named_files.filter_lines(self.folder, group.filters)
        self.warn(warnings)
        return [(line, named) for line in lines]

    def script_of(self, container, filters, descriptors):
        """The script of a container. Of one that is traced the claims are read now, since its calls are known."""
        if container.traced is None:
            return script_of(container, filters, descriptors)
        # (what most test files don't need isn't read for them)
        from tools.commands.testing import traces
        script = traces.script_of(container, named_files.data_of(self.folder, container.traced.file), filters, descriptors)
        container.tasks[:] = [it.task for it in script.instances]
        for read_claim in container.traced.claims:
            read_claim()
        return script

    @staticmethod
    def of_singles(policy, singles, script):
        callers = [(it, it.task.steps[0]) for it in script.instances[1:]]
        return Job(policy, script, ONE_ORDER, lambda explored: [of_single(step, explored.outcomes[0].found(it.place, step)) for it, step in callers], tuple(it.line.number for it in singles))

    @staticmethod
    def of_container(policy, container, script):
        asked = [(it, step) for it in script.instances for step in it.task.steps if step.expected is not None]
        traced = [(it, script.chosen(it.selection)) for it in (container.traced.expectations if container.traced is not None else ())]
        alone = () if container.traced is not None else ONE_ORDER
        for exploring in container.explorings or [None]:
            def judge(explored, exploring=exploring):
                steps = [of_step(it, step, exploring, explored) for it, step in asked] + [of_trace(it, chosen, exploring, explored) for it, chosen in traced]
                return steps + [of_claim(it, exploring, explored) for it in (exploring.claims if exploring else ())]
            yield Job(policy, script, (exploring.workers, exploring.delays) if exploring else alone, judge, (container.line.number,))


@lru_cache(maxsize=None)
def warnings_of(path, data):
    """What is said of the keys of a policy that are almost LXD's, which the program ignores."""
    return [line for it in policies.foreign_keys(data) for line in message(it, path, Text(data), "warning: ")]


def parted(items, is_first):
    """Those of some things of which something is so, and the others."""
    items = [(it, is_first(it)) for it in items]
    return [it for it, is_so in items if is_so], [it for it, is_so in items if not is_so]


def named_rules(group):
    """The words of a group that name rules."""
    for single in group.singles:
        yield from single.expected.rules
    for container in group.containers:
        yield from (word for it in (container.traced.expectations if container.traced is not None else ()) for word in it.expected.rules)
        for task in container.tasks:
            yield from (word for step in task.steps if step.expected is not None for word in step.expected.rules)
        for exploring in container.explorings:
            yield from (word for claim in exploring.claims for word in claim.condition.rules)


def read(path):
    """The test file at a path. What can't be read or understood stands in its faults."""
    try:
        with open(path, "rb") as file:
            data = file.read(MOST_BYTES + 1)
    except OSError as fault:
        return files.TestFile(path, Text(b""), faults=[whole_file("", reason(fault), "")])
    if len(data) > MOST_BYTES:
        return files.TestFile(path, Text(b""), faults=[whole_file("", f"a test file has at most {MOST_BYTES} bytes", "")])
    return files.read(path, Text(data))


def policy_finding(file, job, fault):
    """The finding for a policy that the program refuses: at the line that names it."""
    word = next(it.policy for it in file.groups if named_files.path_of(os.path.dirname(file.path), it.policy) == job.policy)
    return Finding("", word.line, word.start, word.end - word.start, "this policy is refused", ""), tuple(fault.lines)


class Runner:
    """Runs test files side by side, or a share of what is in them. `progress` is told how many scripts there are, and each time that one is answered."""

    def __init__(self, program, progress, share=WHOLE):
        self.program, self.progress, self.share = program, progress, share

    def run(self, paths):
        """The results of each file, in the order of the files; `seconds` is then how long that took."""
        begun, self.dealer = time.monotonic(), Dealer(self.share)
        read_files = [(read(path), FileResults(path)) for path in paths]
        with ThreadPoolExecutor(os.cpu_count()) as pool:
            asked = [(file, results, self.submit(pool, file, results)) for file, results in read_files]
            self.progress.begin(sum(len(jobs) for _, _, jobs in asked))
            try:
                for file, results, jobs in asked:
                    self.collect(file, results, jobs)
            finally:
                # (what wasn't begun when this is interrupted isn't begun any more)
                for _, future in (job for _, _, jobs in asked for job in jobs):
                    future.cancel()
        self.progress.end()
        self.seconds = time.monotonic() - begun
        return [results for _, results in read_files]

    def submit(self, pool, file, results):
        """Asks for all jobs of a file that is understood."""
        results.text = file.text
        for found in file.faults:
            results.add(found)
        tests, jobs = Tests(file), []
        try:
            jobs = self.dealer.own(tests.jobs() if not file.faults else [])
        except NotUnderstood as fault:
            results.add(fault.found, fault.about)
        results.warnings = tests.warnings
        return [(job, pool.submit(self.answer, job)) for job in jobs]

    def answer(self, job):
        """The program's output, and from when to when it was asked."""
        begun = time.monotonic()
        output = job.answer(self.program)
        self.progress.step()
        return output, (begun, time.monotonic())

    def collect(self, file, results, jobs):
        spans = []
        for job, future in jobs:
            try:
                output, span = future.result()
                results.results += job.results(output)
                spans.append(span)
            except NotUnderstood as fault:
                results.add(fault.found, fault.about)
            except asking.PolicyRefused as fault:
                results.add(*policy_finding(file, job, fault))
        results.seconds = max(end for _, end in spans) - min(begin for begin, _ in spans) if spans else 0.0
        results.results = [] if results.findings else sorted(results.results, key=lambda it: it.line)

"""The generated parts of docs/proof-map.md: laws, and what there is to read of each theorem."""
import os
import re
import sys

import specs
import statement
from laws import Laws

# Each sentence of a theorem with the definitions in which it is said.
REPLAY = [
    ("the output is the report of exactly one history",
     [("headline.specs.Headline", "Says"), ("headline.specs.Headline", "Reports")]),
    ("which is that of the plan's steps on the capture's packets",
     [("headline.specs.Headline", "IsOfTheRun")]),
    ("1, each packet is in exactly one place",
     [("headline.specs.Places", "IsAtOnePlace"), ("history.specs.Places", "AreInOnePlace")]),
    ("2, each drop has its cause",
     [("headline.specs.Drops", "IsDroppedFor"), ("steer_model.specs.Good.Drops", "DropsRise")]),
    ("3, each flow is delivered in the order of its arrivals",
     [("headline.specs.Orders", "AreInOrder")]),
    ("4, a flow changes its processor just where one of the three conditions holds",
     [("headline.specs.Processors", "ProcessorsAreChosen")]),
    ("4, and its transmit queue likewise", [("headline.specs.Replies", "QueuesArePicked")]),
    ("1 to 4 together", [("headline.specs.Headline", "IsRight")]),
    ("all of it", [("headline.specs.Headline", "Headline")]),
]
RUN = [
    ("the output is the report of exactly one history",
     [("headline.specs.Headline", "Says"), ("headline.specs.Headline", "Reports")]),
    ("which is good: the eleven clauses", [("steer_model.specs.Good.GoodHistory", "Good")]),
    ("and whose lists are those of one order at each hop",
     [("headline.specs.HopOrders", "HopOrder"), ("headline.specs.ByRun", "IsByRun")]),
    ("points 1 to 4, as of a replay", [("headline.specs.Headline", "IsRight")]),
    ("all packets that were not dropped are through, in order",
     [("headline.specs.Live", "IsWhole")]),
    ("all of it", [("headline.specs.Live", "LiveHeadline")]),
]
THREADS = [
    ("`good`: the eleven clauses", [("steer_model.specs.Good.GoodHistory", "Good")]),
    ("`run`: one lawful order of all steps at a board has each seat's own steps as a part",
     [("board_api.specs.Closings.Closings", "HasEnded")]),
    ("`run`: coupling invariants of the controller",
     [("run_coupling.specs.Coupling.Runs", "KeepsCommands")]),
    ("`run`: coupling invariants at the receive board",
     [("run_coupling.specs.Coupling.Runs", "ReceiveCoupling")]),
    ("`run`: coupling invariants at the transmit board",
     [("run_coupling.specs.Coupling.Runs", "TransmitCoupling")]),
    ("`run`: coupling invariants of loads and stores of words",
     [("run_coupling.specs.Coupling.Hints", "LoadsAreUsed"),
      ("run_coupling.specs.Coupling.Hints", "StoresAreMeant")]),
    ("`run`: all of it", [("run_coupling.specs.Coupling.Runs", "IsRun")]),
]
VERDICT = [
    ("the plan and the packets are those of the bytes", [("headline.specs.Headline", "Says")]),
    ("the bytes are the report of a history", [("report_verdict.specs.Verdicts", "IsReportFor")]),
    ("which fails this clause first, or none", [("good_check.specs.Faults", "HasFirstFault"),
                                                ("good_check.specs.Faults", "HasNoFault")]),
    ("the verdict on the bytes", [("report_verdict.specs.Verdicts", "IsVerdict")]),
    ("all of it, as the line that is written", [("steer_top.specs.Checks", "IsVerdictLine")]),
]
VERDICT_LAWS = [("report_verdict", "a_verdict_is_one"),
                ("report_verdict", "good_is_said_of_good_histories"),
                ("steer_top", "a_replay_is_checked"), ("steer_top", "a_run_is_found_good")]
CACHE = {}


def laws():
    """All laws, found once."""
    if "laws" not in CACHE:
        CACHE["laws"] = Laws()
    return CACHE["laws"]


def found():
    """All definitions, read once."""
    if "specs" not in CACHE:
        CACHE["specs"] = specs.modules()
    return CACHE["specs"]


def proof_of(crate, module, name):
    """The file that proves a law and the lemmas of its crate that it cites, if it needs one.

    The crate's proofs/Names.antt is none of them: it passes on names of specs and other crates.
    """
    path = f"crates/{crate}/proofs/{module}/{name}/Answers.antt"
    if not os.path.exists(os.path.join(specs.ROOT, path)):
        return "found by the check"
    cited = re.findall(rf"^use Rattle\.({crate}\.proofs\.(?!Names\.)[\w.]+)\.\{{([^}}]*)\}}",
                       specs.read(path), re.M)
    lemmas = [f"`{m.split('.proofs.')[1].replace('.', '/')}` {n}" for m, n in cited]
    return "; ".join(lemmas) or f"`{path.split('/proofs/')[1]}`"


def law_table(roots, sites=False):
    """The laws from these on, each below the one that calls it."""
    seen = set()
    out = ["| law | crate | says (in `specs/`) | " + ("called in | " if sites else "")
           + "proved by (in `proofs/`) |", "|---|---|---|---|" + ("---|" if sites else "")]

    def visit(pair, depth):
        if pair in seen:
            return
        seen.add(pair)
        crate, name = pair
        law = laws().all[pair]
        mark = "" if pair in laws().used else ", a side law"
        said = ", ".join(f"`{word}`" for word in law.says)
        where = ", ".join(f"`{site}`" for site in sorted(laws().sites.get(pair, ())))
        out.append(f"| {'· ' * depth}`{name}`{mark} | `{crate}` | {said} | "
                   + (f"{where} | " if sites else "") + f"{proof_of(crate, law.module, name)} |")
        for call in law.calls:
            visit(call, depth + 1)

    for root in roots:
        visit(root, 0)
    return out


def thread_laws():
    """The laws that the code of the threads' crates calls, those of the highest crates first."""
    crates = dict(specs.groups())["Threads"]
    first = {}
    for crate in reversed(crates):
        for pair, sites in laws().sites.items():
            if any(site.startswith(f"{crate}/") for site in sites):
                first.setdefault(pair, len(first))
    top = ("a_run_is_good", "ended_runs_are_runs")
    return law_table(sorted(first, key=lambda pair: (pair[1] not in top, first[pair])), sites=True)


def reading_list(sentences):
    """How many definitions, files and lines each sentence of a theorem rests on."""
    out = ["| sentence | definitions | files | lines |", "|---|---|---|---|"]
    for sentence, roots in sentences:
        for module, name in roots:
            if module not in found() or name not in found()[module].definitions:
                sys.exit(f"proof-map.py: there is no {name} in {module}")
        rest = specs.closure(found(), roots)
        files = {module for module, _ in rest}
        lines = sum(len(found()[module].definitions[name].lines) for module, name in rest)
        out.append(f"| {sentence} | {len(rest)} | {len(files)} | {lines} |")
    return out


def processor_list():
    """The definitions that say when a flow changes its processor, by file."""
    rest = specs.closure(found(), [("headline.specs.Processors", "ProcessorsAreChosen")])
    out = ["| file | definitions |", "|---|---|"]
    for module in sorted({module for module, _ in rest}):
        names = ", ".join(f"`{name}`" for name in sorted(n for m, n in rest if m == module))
        out.append(f"| `{statement.module_path(module)}` | {names} |")
    return out


def side_laws():
    """The laws that no code calls, by crate."""
    every, used = len(laws().all), len(laws().used)
    out = [f"Of {every} laws {used} are called by code, or by a law that code calls. The other "
           f"{every - used} are side laws:", "", "| crate | laws | side laws |", "|---|---|---|"]
    for crate in specs.crates():
        names = ", ".join(f"`{name}`" for name in laws().side(crate))
        if names:
            out.append(f"| `{crate}` | {sum(of == crate for of, _ in laws().all)} | {names} |")
    return out


PARTS = {
    "laws of a replay": lambda: law_table([("replay", "every_report_has_the_headline")]),
    "laws of a run": lambda: law_table([("replay", "every_run_has_the_headline"),
                                        ("run_promise", "a_run_is_by_its_threads")]),
    "laws of the threads": thread_laws,
    "laws of the verdict": lambda: law_table(VERDICT_LAWS),
    "reading of a replay": lambda: reading_list(REPLAY),
    "processors": processor_list,
    "reading of a run": lambda: reading_list(RUN),
    "reading of the threads": lambda: reading_list(THREADS),
    "reading of the verdict": lambda: reading_list(VERDICT),
    "side laws": side_laws,
}

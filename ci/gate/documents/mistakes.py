"""Mistakes that are planted, one at a time, and the checks that must find them."""
import dataclasses
from collections.abc import Callable, Iterator

from gate.documents import (
    claims, codes, commands, edits, explained, glossary, house, links, names, options, pairs, places, reading,
    service_options, service_tables, shape, versions, words,
)
from gate.documents.pages import Tree

Check = Callable[[Tree], Iterator[str]]
CHECKS: dict[str, Check] = {
    "names": names.faults,
    "links": links.faults,
    "options": options.faults,
    "service options": service_options.faults,
    "codes": codes.faults,
    "explained": explained.faults,
    "service tables": service_tables.faults,
    "commands": commands.faults,
    "pairs": pairs.faults,
    "glossary": glossary.faults,
    "places": places.faults,
    "claims": claims.faults,
    "reading": reading.faults,
    "tables": shape.table_faults,
    "length": shape.length_faults,
    "screens": shape.screen_faults,
    "versions": versions.faults,
    "words": words.faults,
    "sizes": house.size_faults,
    "functions": house.function_faults,
    "types": house.type_faults,
    "edits": edits.faults,
}


@dataclasses.dataclass(frozen=True)
class Mistake:
    """In a page something right is replaced by something wrong, and a check must say so."""

    check: str
    page: str
    right: str
    wrong: str
    said: str


# A source, and parameters with which its function has seven.
EXECUTION = "crates/plan_walk/src/execution.rt"
MORE = "plan: &Plan, found: Vec<(u32, Answer)>, hears: fn(u32) -> bool, most: [u32; 2], "

MISTAKES = (
    Mistake("names", "README.md", "`plan_executor::enact`", "`plan_performer::enact`", "plan_performer"),
    Mistake("names", "docs/TESTING.md", "`ci/limits`", "`ci/frontiers`", "ci/frontiers"),
    Mistake("names", "docs/architecture/changes.md", "plan/src/draft.rt", "plan/src/drift.rt", "drift.rt"),
    Mistake("links", "README.md", "(docs/FORMATS.md)", "(docs/FORMS.md)", "docs/FORMS.md"),
    Mistake("links", "README.md", "docs/PROVED.md#the-headline", "docs/PROVED.md#the-deadline", "#the-deadline"),
    Mistake("options", "docs/prefork-enact.1", r"[\fB\-\-state\fP]", "", "enact lacks --state"),
    Mistake("options", "docs/prefork-enact.1", r".B \-\-state", r".B \-\-status", "--status"),
    Mistake("options", "docs/FORMATS.md", "[--state]", "[--status]", "enact has no --status"),
    Mistake("options", "completions/prefork.bash", "--why --dot", "--why", "plan lacks --dot"),
    Mistake("service options", "service/man/prefork-load.1", r"\-\-seconds", r"\-\-minutes", "--minutes is no option"),
    Mistake("service options", "service/man/prefork-checkworker.1", r".B \-\-one", "", "--one is not explained"),
    Mistake("service options", "service/completions/prefork-service.bash", "--slow --one", "--slow", "lacks --one"),
    Mistake("service options", "service/completions/prefork-ctl.fish", "-l least", "-l fewest", "prefork-ctl has no --fewest"),
    Mistake("service options", "service/completions/_prefork-ctl", "'--no-ask[", "'--by-hand[", "prefork-ctl lacks --no-ask"),
    Mistake("codes", "docs/FORMATS.md", "| `V1` |", "| `V2` |", "the code V1 is missing"),
    Mistake("codes", "docs/formats/plans.md", "| `H5` |", "| `H6` |", "no code H6"),
    Mistake("explained", "docs/formats/blocks.md", "`forked`, `again`", "`forked`, `eagain`", "does not know eagain"),
    Mistake("explained", "docs/formats/blocks.md", "| outcome |", "| end |", "no table begins with | outcome |"),
    Mistake("explained", "tests/explanations.txt", "The calls are a whole run", "The calls are no run", "explain prints"),
    Mistake("service tables", service_tables.CALLS, "    /// Starts a worker with", "    Freeze(Generation, u32),\n    /// Starts a worker with", "call freeze"),
    Mistake("service tables", service_tables.OUTCOMES, "    Lost,", "    Lost,\n    Halted,", "outcome halted is missing"),
    Mistake("service tables", service_tables.TABLES, '"fork": "forked"', '"fork": "again"', "answer of fork is forked"),
    Mistake("service tables", service_tables.TABLES, '"leave": "ok", ', "", "call leave is missing"),
    Mistake("commands", "README.md", "6 m1 census 1.2 : counted 0-1", "6 m1 census 1.2 : counted 0-2", "counted 0-2"),
    Mistake("commands", "docs/prefork-plan.1", r"\-\-workers 2 TTOU", r"\-\-workers two TTOU", "status 2"),
    Mistake("commands", "docs/prefork.toml.5", "workers = 2\npid", "workers = 3\npid", "workers = 3"),
    Mistake("commands", "docs/prefork-plan.1", ".SH EXIT STATUS", ".SH ENDS", "no section EXIT STATUS"),
    Mistake("pairs", "docs/CHILDREN.md", "`Edge::tick_reigning`", "`Edge::write_handover`", "Edge has no write_handover"),
    Mistake("pairs", "docs/architecture/words.md", "`certifier::certificate`", "`certifier::carry_out`", "no carry_out"),
    Mistake("glossary", "service/guides/wsgi.md", "(../../docs/GLOSSARY.md)", "(../README.md)", "is a word of ours"),
    Mistake("glossary", "docs/GLOSSARY.md", "| adapter |", "| zone |", "zone is out of order"),
    Mistake("places", places.PAGE, "`blocks.py` (", "`the blocks` (", "does not name service/prefork_service/blocks.py"),
    Mistake("places", places.PAGE, "and `prefork.bash`;", "and more;", "does not name completions/prefork.bash"),
    Mistake("edits", "crates/explorer/must-fail/begins_with_a_shortfall.edit", "old: shortfall", "old: surplus", "has 0 times"),
    Mistake("edits", "crates/explorer/must-fail/begins_with_a_shortfall.edit", "0,\nnew", "1,\nnew", "it changes nothing"),
    Mistake("claims", "crates/certifier/README.md", "`IsCertified`", "`IsCertain`", "IsCertain"),
    Mistake("claims", "crates/certifier/README.md", "## Tested only", "## Tested", "Tested only"),
    Mistake("claims", "docs/PROVED.md", "(`Says`)", "(`SaysAll`)", "SaysAll"),
    Mistake("claims", "docs/proved/crates.md", "[explorer](../../crates/explorer/README.md)", "explorer", "no line for explorer"),
    Mistake("reading", "docs/DEFINITIONS.md", "its service | 183 |", "its service | 182 |", "Table.antt has 183 lines"),
    Mistake("reading", "crates/definitions/specs/Table.antt", "is its text,", "is its text," + 120 * " ", "more than 120"),
    Mistake("reading", "docs/DEFINITIONS.md", "That is 646 lines", "That is 500 lines", "have 646 lines"),
    Mistake("tables", "docs/PROVED.md", "| no: it kills first |", f"| {'no ' * 80} |", "a cell of"),
    Mistake("length", "CONTRIBUTING.md", "## Names", "word " * 2_000, "split it"),
    Mistake("length", "README.md", "## The promise", "\n" * 120 + "## The promise", "more than 120"),
    Mistake("screens", "tests/cases/help/help_of_plan/stdout", "Options:\n", "Options:\n" + 40 * "\n", "more than 40"),
    Mistake("screens", "tests/cases/help/help_of_enact/stdout", "Control words,", 80 * "word ", "more than 80"),
    Mistake("versions", "docs/prefork-plan.1", "prefork 0.", "prefork 9.", "docs/prefork-plan.1: the version is 9."),
    Mistake("versions", "service/man/prefork-wsgi.1", "prefork 0.", "prefork 9.", "prefork-wsgi.1: the version is 9."),
    Mistake("versions", "docs/PROVED.md", " logic d", " logic 9d", "the toolchain has logic 9d"),
    Mistake("versions", "CHANGELOG.md", "## 0.2.0 (", "## 9.9.9 (", "not 9.9.9"),
    Mistake("words", "README.md", "Status 0: the new service runs.", "Status 0: what it came to.", "came to"),
    Mistake("words", "service/man/prefork-ctl.1", "prints who runs", "prints whoever runs", "whoever"),
    Mistake("words", "tests/cases/help/help_of_child/stdout", "It shows", "It came to", "came to"),
    Mistake("words", "service/prefork_service/load.py", "a number of seconds", "so many seconds", "so many"),
    Mistake("words", "service/units/README.md", "systemd", "whoever", "whoever"),
    Mistake("names", "service/FILES.md", "`run/journal`", "`run/diary`", "run/diary"),
    Mistake("names", "service/guides/wsgi.md", "`--chdir FOLDER`", "`--cddir FOLDER`", "cddir"),
    Mistake("links", "service/guides/README.md", "(wsgi.md)", "(wsgy.md)", "wsgy.md"),
    Mistake("words", "docs/prefork-explore.1", "Standard input is not read.", "Lines are passed over.", "passed over"),
    Mistake("sizes", "crates/certifier/src/lib.rt", "\nmod blocks;", "\n" * 1_400 + "mod blocks;", "more than 1400"),
    Mistake("sizes", "crates/certifier/src/lib.rt", "\nmod blocks;", 100 * "\nfn add() {\n}\n", "more than 100"),
    Mistake("sizes", "ci/soak", "\ndef main", "\n" * 400 + "def main", "more than 400 lines"),
    Mistake("functions", EXECUTION, "plan: &Plan, ", MORE, "7 parameters"),
    Mistake("functions", EXECUTION, "    course.report()\n", "    course.report()\n" * 40, "more than 40"),
    Mistake("types", EXECUTION, "\npub fn execute", "\nstruct Replay {\n}\n\npub fn execute", "certifier and of plan_walk"),
)


def faults(tree: Tree, mistake: Mistake) -> Iterator[str]:
    """What is wrong with the check: nothing where it names the mistake that is planted."""
    try:
        planted = tree.with_mistake(mistake.page, mistake.right, mistake.wrong)
    except ValueError as error:
        yield f"a mistake of {mistake.check} cannot be planted: {error}"
        return
    if not any(mistake.said in fault for fault in CHECKS[mistake.check](planted)):
        yield f"{mistake.check} does not find '{mistake.wrong[:40]}' in {mistake.page}"

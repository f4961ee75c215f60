#!/usr/bin/env python3
"""Prints the index of the words, and the laws that follow from them, of the files' own comments; and writes docs/LAWS.md.

    python3 docs/definitions.py                   prints the index of the definitions
    python3 docs/definitions.py --laws [WORD]     prints all laws, or those of which a line has the word
    python3 docs/definitions.py --write           writes docs/LAWS.md: those of CHOSEN, in their own words
    python3 docs/definitions.py --check           changes nothing; the status is 1 where that page is not the present one, or a file says nothing of itself
"""

import itertools
import re
import signal
import sys
from pathlib import Path

DOCS = Path(__file__).resolve().parent
CRATES = DOCS.parent / "crates"
SPECS = CRATES / "spec_api/specs"

# The crates of definitions beside the first, each with those of its files that say what is meant.
BESIDE = {
    "spec_line_protocol": ["Lines"],
    "chunked": ["Bodies"],
    "spec_http": ["Heads", "Checks", "Connections", "Replies", "Requests", "Answers"],
    "list_and_watch": ["Followers", "Recognized", "Answered", "Given", "Pauses"],
    "http_client": ["Replies", "Bodies", "Calls", "Watches"],
    "spec_server": ["Snapshots", "Recorded", "Servers"],
    "spec_client_go": ["ReadFrames", "Reflectors", "WorkQueues", "KeyQueues", "Delays", "KeyDelays", "Expectations", "Informers", "Shifts", "OwnerReferences", "OwedKeys", "Hands", "Commands", "Boards"],
    "keyed_queues": ["Failures"],
    "spec_reconcile": ["Pods", "PodClaims", "PodRanks", "NewPods", "ReplicaSets", "Rollouts", "Templates", "Revisions", "Deployments", "Standings", "GarbageCollection", "MetadataEdits",
              "Counts", "Statuses", "Orders"],
    "spec_sim": ["Followers", "Moves", "Clusters", "OutcomeTexts", "StepLines", "Turns", "NextSteps", "PodObservations", "Managers", "Outcomes", "ControlPlanes", "ControlPlaneOutcomeTexts", "ControlPlaneStepLines"],
}

# The crates of laws, whose words stand in the index of words.
LAWS = ["spec_laws", "keyed_queues", "informer_laws", "sim_worker_laws", "sim_rest_laws", "sim_rest_command_laws", "reconcile_locality_laws", "sim_rest_deployment_laws", "sim_settled_laws", "sim_cluster_laws", "sim_control_plane_laws", "sim_overshoot_laws",
        "sim_rest_create_laws", "sim_rest_set_laws", "sim_rest_plane_laws", "list_and_watch", "spec_http"]

HEAD = """# Definitions

What a reader has to believe: the words by which contracts speak.

What the API server does is in `crates/spec_api/specs`, in reading order; what is said over lines and over connections, what a
server stores, and what controllers work by stand in crates of their own. A row has the words that other definitions or laws use.
Texts are lists of bytes, and numbers are natural, unless a definition says otherwise.
"""

LAWS_HEAD = """# Laws

What follows from the definitions, whatever code meets them: the laws that users rely on, in their own words. Each is the contract of a public function
with an empty body, and proved. What holds at rest, and that no more pods are made than declared, is in
[PROVED.md](PROVED.md#the-headline-the-simulated-control-plane). `python3 docs/definitions.py --laws` prints all laws, and `--write` makes this page.
"""

# The laws of docs/LAWS.md, by what they are for.
CHOSEN = {
    "For who writes": [
        "spec_laws::named_versions_are_replaced", "spec_laws::refusals_write_nothing", "spec_laws::answers_are_read", "spec_laws::writes_keep_identity",
        "spec_laws::statuses_change_nothing_else", "spec_laws::uids_are_given_once", "spec_laws::generations_count",
    ],
    "For who lists and watches": [
        "spec_laws::page_replies_are_lists", "spec_laws::remembered_are_served", "spec_laws::changes_are_applied", "spec_laws::looks_are_one_stream",
        "reflector::lists_and_watches_are_followed", "list_and_watch::changes_are_given_once",
    ],
    "For who deletes": [
        "spec_laws::deletes_find_their_uid", "spec_laws::deletes_spare_finalizers", "spec_laws::last_finalizers_remove", "spec_laws::no_finalizer_is_added",
        "spec_laws::collector_spares_live_owners",
    ],
    "For who declares": [
        "spec_laws::only_own_pods_are_deleted", "spec_laws::surge_is_never_passed", "spec_laws::taken_leave_fewest",
        "spec_laws::only_spent_sets_are_deleted",
    ],
    "For who writes a controller": [
        "keyed_queues::hands_apart", "keyed_queues::nothing_is_lost", "keyed_queues::delays_double", "shared_keyed_board::nothing_is_forgotten",
        "manager_worker::commands_are_issued_once",
        "manager_worker::looks_are_not_older",
    ],
    "For who speaks over connections": [
        "spec_http::one_thing_is_asked", "spec_http::half_a_body_asks_nothing", "spec_http::cut_replies_are_lost", "api_client::requests_are_asked",
    ],
}


def text_of(path):
    """Returns what a file says."""
    return path.read_text(encoding="utf-8")


def comment_of(path):
    """Returns the first comment line of a file, without the standards that it names in parentheses."""
    first = text_of(path).split("\n", 1)[0]
    if not first.startswith("-- "):
        sys.exit(f"{path}: no comment stands at its head")
    return re.sub(r" \([^()]*[A-Z][^()]*\)", "", first.removeprefix("-- "))


def sentence_of(path):
    """Returns the first paragraph of what a file of code says of itself at its head."""
    lines = [line.removeprefix("//!").strip() for line in text_of(path).splitlines() if line.startswith("//!")]
    return " ".join(itertools.takewhile(bool, lines))


def modules_of(path):
    """Returns the modules that a file names, in its order."""
    return re.findall(r"^pub mod (\w+)$", text_of(path), re.M)


def used_words():
    """Returns the words that definitions and laws import of each module, by crate and module."""
    used = {}
    paths = [path for crate in ["spec_api", *LAWS, *BESIDE] for path in (CRATES / crate / "specs").rglob("*.antt")]
    for path in paths:
        for crate, module, words in re.findall(r"^use Rattle\.(\w+)\.specs\.(?:\w+\.)?(\w+)\.\{(.*)\}$", text_of(path), re.M):
            used.setdefault((crate, module), set()).update(re.findall(r"[^\s,]+", words))
    return used


def words_of(crate, path, used):
    """Returns the words of a file that are used elsewhere and that a comment stands above, as code."""
    words = re.findall(r"^--[^\n]*\n(?:abbrev )?pub (?:data |record )?(?!mod |use )([^\s:]+)", text_of(path), re.M)
    return "".join(f" `{word}`" for word in words if word in used.get((crate, path.stem), ()))


def row_of(crate, path, used):
    """Returns the row of a file: its name, what it says of itself, and its words."""
    return f"- **{path.stem}**: {comment_of(path)}{words_of(crate, path, used)}"


def folder_rows(name, used):
    """Returns the heading of a folder, and a row for each of its files."""
    head = SPECS / f"{name}.antt"
    if not modules_of(head):
        return ["", f"## {name}", "", comment_of(head) + words_of("spec_api", head, used)]
    rows = ["", f"## {name}", "", comment_of(head) + words_of("spec_api", head, used), ""]
    return rows + [row_of("spec_api", SPECS / name / f"{module}.antt", used) for module in modules_of(head)]


def crate_rows(crate, modules, used):
    """Returns the heading of a crate of definitions, its own sentence, and a row for each of its files."""
    rows = ["", f"## `{crate}`", "", sentence_of(CRATES / crate / "src/lib.rt"), ""]
    return rows + [row_of(crate, CRATES / crate / f"specs/{module}.antt", used) for module in modules]


def laws_of(path):
    """Returns the laws of a file: of each its name, and what it says."""
    found = re.findall(r"((?:^///.*\n)+)(?:^#.*\n)*pub fn (\w+)(?:<[^>\n]*>)?\(\)\n(?:^    (?:ensures|//) .*\n)+\{\}", text_of(path), re.M)
    return [(name, " ".join(line.removeprefix("///").strip() for line in lines.splitlines())) for lines, name in found]


def all_laws():
    """Returns the laws of each file that has some, in the order of crates.txt: its crate, the file, and of each law its name and what it says."""
    crates = re.findall(r"^(\w+):", text_of(DOCS.parent / "crates.txt"), re.M)
    paths = [path for crate in crates for path in sorted((CRATES / crate / "src").glob("*.rt")) if crate != "spec_examples"]
    return [(path.parent.parent.name, path, laws) for path in paths if (laws := laws_of(path))]


def law_rows(word):
    """Returns for each file of laws its heading, its own sentence, and for each law its name and what it says; or, with a word, a line for each."""
    if word:
        return [line for crate, _, laws in all_laws() for name, said in laws if word in (line := f"{crate}::{name}: {said}")]
    rows = ["# Laws"]
    for crate, path, laws in all_laws():
        rows += ["", f"## `{crate}`, `{path.name}`", "", sentence_of(path), ""]
        rows += [f"- `{name}`: {said}" for name, said in laws]
    return rows


def chosen_page():
    """Returns the page of the laws to rely on."""
    said = {f"{crate}::{name}": sentence for crate, _, laws in all_laws() for name, sentence in laws}
    rows = [LAWS_HEAD.rstrip("\n")]
    for purpose, names in CHOSEN.items():
        if missing := [name for name in names if name not in said]:
            sys.exit(f"there is no law {missing[0]}")
        rows += ["", f"## {purpose}", "", *(f"- {said[name]} (`{name}`)" for name in names)]
    return "\n".join(rows) + "\n"


def index():
    """Returns the index of the definitions."""
    used = used_words()
    words = [HEAD.rstrip("\n")]
    for folder in modules_of(SPECS / "Lib.antt"):
        words += folder_rows(folder, used)
    for crate, modules in BESIDE.items():
        words += crate_rows(crate, modules, used)
    return "\n".join(words)


def main():
    """Prints an index, or writes the page of laws, or says that it is not the present one."""
    signal.signal(signal.SIGPIPE, signal.SIG_DFL)
    asked, page = sys.argv[1:], DOCS / "LAWS.md"
    if not asked:
        print(index())
    elif asked[0] == "--laws" and len(asked) < 3:
        print("\n".join(law_rows("".join(asked[1:]))))
    elif asked == ["--write"]:
        page.write_text(chosen_page(), encoding="utf-8")
    elif asked != ["--check"]:
        sys.exit(__doc__)
    elif index() and (not page.exists() or text_of(page) != chosen_page()):
        sys.exit(f"docs/{page.name} is not the present one: run python3 docs/definitions.py --write")


if __name__ == "__main__":
    main()

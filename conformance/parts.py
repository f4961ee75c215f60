"""The parts of conformance/, by name: the script of each, which built programs it takes, how the gate runs it, and what it shows.

run.py runs them, and .ci/gate.py runs those of FIRST and of PROGRAM.
"""
import dataclasses
import pathlib

ROOT = pathlib.Path(__file__).resolve().parent.parent
KCP = {"--program": "crates/kcp/out/kcp"}
FOLLOWER = {"--follower": "crates/watch_example/out/watch_example"}
CONTROLLER = {"--controller": "crates/controller_example/out/controller_example"}
BENCHMARKS = {"--program": "crates/benchmarks/out/benchmarks"}
# Those that `rt try` can build from the sources by itself, in a minute or two.
TRIED = ("replay", "simulate")


@dataclasses.dataclass
class Part:
    """A part: its script, the options that name built programs, the words with which the gate runs it, and what it shows."""

    script: str
    takes: dict
    words: str
    shows: str

    def command(self, given, own):
        """Returns the words that run it, with the programs that are given in the place of the built ones, and with these words of its own or,
        without any, as the gate does."""
        programs = [word for option, path in self.takes.items() for word in (option, given.get(option, str(ROOT / path)))]
        return [str(ROOT / self.script), *programs, *(own or self.words.split())]


# What takes a second and no program.
FIRST = {
    "formatted": Part("conformance/formatted.py", {}, "--check", "each file is as `rt fmt` writes it"),
    "negative-tests-apply": Part("conformance/wrong_code.py", {}, "--check", "each piece of wrong code fits the text that it changes; what has changed since it was tried"),
    "wakings-apply": Part("conformance/wakings/run.py", {}, "--check", "each waking that is taken away fits the text that it changes"),
    "laws": Part("docs/definitions.py", {}, "--check", "each file of definitions says what it is for, and docs/LAWS.md has the laws' own words"),
    "layers": Part("docs/layers.py", {}, "--check", "docs/ARCHITECTURE.md has the layers of crates.txt"),
    "untested": Part("conformance/untested.py", {}, "--check", "each public function with an error result is called by a test or a program, or known not to be"),
    "links": Part("docs/links.py", {}, "--check", "what the pages link to, and which files they name, is there"),
}

# What asks a built program, in the order in which the gate runs it.
PROGRAM = {
    "replay": Part("conformance/replays.py", KCP, "", "request lines: what `kcp replay` writes, byte for byte"),
    "refusals": Part("conformance/refusals/run.py", KCP, "", "fourteen cases with each growth of memory refused in turn: the reply, or 503 and the reply when asked again"),
    "random-bytes": Part("conformance/random_bytes/run.py", KCP, "--bytes 100000", "random bytes wherever bytes are read: heads, bodies, lines, replies, lists, chunks, frames"),
    "simulate": Part("conformance/simulate/run.py", KCP, "--random 200", "cases of `kcp simulate`, cuts after each byte, windows, random schedules against a reading of the rules in Python"),
    "rollout": Part("conformance/simulate/rollout.py", KCP, "", "a simulated rollout and its collection"),
    "schedules": Part("conformance/simulate/schedules.py", KCP, "--count 100 --oracle", "random schedules of clients, informers and workers, checked and compared with the rules"),
    "at-rest": Part("conformance/simulate/at_rest.py", KCP, "--count 100", "random schedules that come to rest: every controller's plan is empty then"),
    "http": Part("conformance/http/run.py", KCP, "", "bytes over sockets: heads, bodies and watches, byte for byte"),
    "heads": Part("conformance/http/heads.py", KCP, "--count 5000", "random heads against a small reading of HTTP"),
    "connections": Part("conformance/http/many.py", KCP, "", "many connections at one server, slow and idle ones among them"),
    "histories": Part("conformance/histories/run.py", KCP, "", "clients write and read at once; one order of all writes explains what each was told"),
    "watchers": Part("conformance/histories/run.py", KCP, "--threads 4 --clients 4 --seconds 3 --watchers 500", "the same with 500 watchers"),
    "clients": Part("conformance/clients/run.py", KCP, "", "curl, and Python's requests and kubernetes, where they are installed"),
    "kubectl": Part("conformance/clients/kubectl.py", KCP, "", "each row of docs/KUBECTL.md with kubectl, if it is installed"),
    "fixtures": Part("conformance/clients/fixtures.py", KCP, "", "the fixtures of docs/TESTING.md in tests of pytest and of Go, where these are installed"),
    "walk": Part("conformance/clients/walk.py", {}, "", "the walk of docs/CLIENT.md up to where it proves"),
    "following": Part("conformance/following/run.py", {**KCP, **FOLLOWER}, "--short", "a follower through a proxy that cuts, by streams and by lists"),
    "cuts": Part("conformance/following/cuts.py", {**KCP, **FOLLOWER}, "--short", "what a follower takes in first, cut after each byte; servers whose watches give nothing new"),
    "scopes": Part("conformance/following/scopes.py", {**KCP, **FOLLOWER}, "", "followers of a namespace, of a selector, of both"),
    # (what follows from one change has to be there within a second where nothing runs beside it, and within 20 in the gate)
    "own-controller": Part("conformance/following/controllers.py", {**KCP, **CONTROLLER}, "--within 20", "`controller_example` at `kcp serve` and `kcp all`: changes, conflicts, refusals, a server that is started anew"),
    "recorded": Part("conformance/recorded/run.py", FOLLOWER, "", "a follower over what a real API server wrote"),
    "controllers": Part("conformance/controllers/run.py", KCP, "--short", "the controllers over HTTP, 40 scenarios in about a minute; whole, a quarter of an hour"),
    "arguments": Part("conformance/arguments.py", KCP, "", "how the program says it is used, and which fault ended it"),
    "readme": Part("conformance/readme.py", KCP, "", "what README.md shows, and the request lines of docs/API.md"),
    "benchmarks": Part("conformance/benchmarks.py", BENCHMARKS, "", "each part of the program of benchmarks once, on little"),
    "pictures": Part("conformance/simulate/pictures.py", {}, "", "each simulated case as a page; a browser opens some where one is installed"),
}

# What is run by hand.
ASIDE = {
    "wrong-code": Part("conformance/wrong_code.py", {}, "", "has the prover refuse the pieces of wrong code: NAME, NAME/PIECE, or of all crates that have changed"),
    "wakings": Part("conformance/wakings/run.py", {}, "", "takes away what ends each wait, and sees that a test fails: some minutes each; --list tells what waits"),
    "times": Part("conformance/clients/times.py", KCP, "", "how long a test waits that has a `kcp all` of its own"),
}

# What measures, also by hand.
MEASURES = {
    "measure-http": Part("bench/http.py", KCP, "", "requests a second over HTTP, beside the least that such a server has to do; watches, streams and pages"),
    "measure-lists": Part("bench/lists.py", KCP, "", "what lists cost others"),
    "measure-controllers": Part("bench/controllers.py", KCP, "", "how long a Deployment of 100 takes to come and go"),
    "measure-replay": Part("bench/replay.py", KCP, "", "what each kind of line costs, and memory, in stores of three sizes"),
    "measure-simulate": Part("bench/simulate.py", KCP, "", "steps of a simulation a second"),
    "measure-decoder": Part("bench/decoder.py", BENCHMARKS, "", "frames by the size of their pieces"),
    "measure-informer": Part("bench/informer.py", BENCHMARKS, "", "an indexed copy of 10,000 Pods"),
    "measure-listers": Part("bench/listers.py", BENCHMARKS, "", "a map that is read without waiting"),
    "measure-plans": Part("bench/plans.py", BENCHMARKS, "", "plans for sets of many pods"),
    "measure-queue": Part("bench/queue.py", BENCHMARKS, "", "a million keys through the work queue"),
}

GROUPS = {"first": FIRST, "program": PROGRAM}
PARTS = {**FIRST, **PROGRAM, **ASIDE, **MEASURES}

"""Says how long `rt ci` would take with another number of processors: the lanes of the toolchain, played with the processor seconds of a run."""
import heapq

# What a second, third and fourth job of a check add to its speed, as measured.
GAIN_OF_A_JOB = 0.6
MOST_JOBS = 4


def tasks_of(crates):
    """Returns each piece of work with its processor seconds and what it waits for: a proof and its tests wait for the proofs below."""
    tasks = {}
    for name, crate in crates.items():
        under = [(it, "proofs") for it in below(name, crates)]
        tasks[name, "proofs"] = crate["proofs"], under
        if crate["tests"]:
            tasks[name, "tests"] = crate["tests"], under
    return tasks


def below(name, crates):
    """Returns the crates that a crate stands on, at any depth."""
    found, left = set(), [name]
    while left:
        new = {it for it in crates[left.pop()]["uses"] if it in crates} - found
        found |= new
        left += new
    return found


def chains_behind(tasks):
    """Returns for each task the seconds of the longest chain of tasks that begins with it."""
    behind, above = {}, {}
    for key, (_, waits) in tasks.items():
        for it in waits:
            above.setdefault(it, []).append(key)

    def chain(key):
        if key not in behind:
            behind[key] = tasks[key][0] + max(map(chain, above.get(key, [])), default=0)
        return behind[key]

    for key in tasks:
        chain(key)
    return behind


def seconds_with(crates, processors):
    """Returns how long the work takes with so many processors, each task as soon as a processor is free, the longest chain first."""
    tasks = tasks_of(crates)
    behind, ended, running, free, now = chains_behind(tasks), set(), [], processors, 0.0
    left = sorted(tasks, key=lambda it: -behind[it])
    while left or running:
        ready = [key for key in left if ended.issuperset(tasks[key][1])]
        for at, key in enumerate(ready):
            if free <= 0:
                break
            jobs = max(1, min(MOST_JOBS, free // (len(ready) - at)))
            left.remove(key)
            free -= jobs
            heapq.heappush(running, (now + tasks[key][0] / (1 + GAIN_OF_A_JOB * (jobs - 1)), key, jobs))
        now, key, jobs = heapq.heappop(running)
        ended.add(key)
        free += jobs
    return now

"""Which waiting job is admitted, and random calls on machines for the table of `worked_batches`.

Each job has one instruction, so it ends as soon as its step is finished.
"""
from random import Random

MOST_PASSES = 8
MOST_JOBS = 24
# What has its words reserved.
ADMITTED = ("Live", "InFlight", "Ended")


class Machine:
    def __init__(self, region: int, words: list[int]) -> None:
        self.region, self.words = region, words
        self.standings = ["Waiting" for _ in words]
        self.passes = [0 for _ in words]
        # The job of each ticket that wasn't handed back, by the ticket's number.
        self.tickets: dict[int, int] = {}
        self.begun = 0

    def standing(self, job: int) -> str | None:
        return self.standings[job - 1] if 1 <= job <= len(self.words) else None

    def change(self, job: int, old: str, new: str) -> bool:
        """Whether the job stood there; it stands elsewhere now."""
        if self.standing(job) != old:
            return False
        self.standings[job - 1] = new
        return True

    def jobs(self, *standings: str) -> list[int]:
        return [job for job, standing in enumerate(self.standings, 1) if standing in standings]

    def fits(self, job: int) -> bool:
        return sum(self.words[other - 1] for other in [*self.jobs(*ADMITTED), job]) <= self.region

    def admit(self) -> str:
        """The first waiting job that fits is admitted, unless it would pass one that was passed often enough."""
        waiting = self.jobs("Waiting")
        chosen = next((job for job in waiting if self.fits(job)), None)
        if chosen is None:
            return "NotNow" if waiting else "NoneWaiting"
        passed = waiting[: waiting.index(chosen)]
        if any(self.passes[job - 1] == MOST_PASSES for job in passed):
            return "NotNow"
        for job in passed:
            self.passes[job - 1] += 1
        self.standings[chosen - 1] = "Live"
        return f"Admitted({chosen})"

    def passed(self, job: int) -> str:
        return "None" if self.standing(job) is None else f"Some({self.passes[job - 1]})"

    def status(self, job: int) -> str:
        return "None" if self.standing(job) is None else f"Some({self.standing(job)})"

    def begin(self, job: int) -> str:
        if not self.change(job, "Live", "InFlight"):
            return "NotReady"
        self.tickets[self.begun] = job
        self.begun += 1
        return "Began"

    def finish(self, ticket: int) -> str:
        return "Ended" if self.change(self.tickets.pop(ticket), "InFlight", "Ended") else "Stale"

    def recall(self, job: int) -> str:
        return "true" if self.change(job, "InFlight", "Live") else "false"

    def collect(self, job: int) -> str:
        return "true" if self.change(job, "Ended", "Collected") else "false"


class RandomMachines:
    """Lines of a table, one after another, and what is wanted of each."""

    def __init__(self, random: Random) -> None:
        self.random = random
        self.machine: Machine | None = None

    def new_machine(self) -> tuple[str, str]:
        region = self.random.randint(1, 40)
        few = max(1, region // 10)
        most = [self.random.choice([few, few, few, region]) for _ in range(self.random.randint(1, MOST_JOBS))]
        words = [self.random.randint(0, greatest) for greatest in most]
        self.machine = Machine(region, words)
        return f"machine {region} nothing 1 {' '.join(map(str, words))}", f"{len(words)} jobs"

    def job(self) -> int:
        return self.random.randint(0, len(self.machine.words) + 1)

    def begin(self) -> tuple[str, str]:
        job = self.random.choice(self.machine.jobs("Live") or [self.job()])
        return f"begin {job} {self.machine.region}", self.machine.begin(job)

    def finish(self) -> tuple[str, str]:
        if not self.machine.tickets:
            return self.begin()
        ticket = self.random.choice(list(self.machine.tickets))
        return f"finish {ticket}", self.machine.finish(ticket)

    def collect(self) -> tuple[str, str]:
        job = self.random.choice(self.machine.jobs("Ended") or [self.job()])
        return f"collect {job}", self.machine.collect(job)

    def of_job(self, call: str) -> tuple[str, str]:
        job = self.job()
        return f"{call} {job}", getattr(self.machine, call)(job)

    def case(self) -> tuple[str, str]:
        if self.machine is None or self.random.random() < 0.01:
            return self.new_machine()
        call = self.random.choice(["admit"] * 4 + ["begin", "finish"] * 3 + ["collect"] * 2 + ["passed", "passed", "status", "recall"])
        match call:
            case "admit":
                return call, self.machine.admit()
            case "begin" | "finish" | "collect":
                return getattr(self, call)()
            case _:
                return self.of_job(call)

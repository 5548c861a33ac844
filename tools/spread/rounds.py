"""Rounds of batches: the first with many jobs in each, the later ones with each job alone that has no answer."""
from __future__ import annotations

import json
import os
import sys
import time
from dataclasses import replace
from pathlib import Path
from statistics import median

from .collecting import ANSWERED, LOST, Collector, Ending, exit_of, published_in
from .engines import Engine, Sending
from .folder import Folder, Settings, Stopped, shown, write_whole
from .packing import Packer, add_witness, batches_in, left_out_in
from .progress import Progress

# What a lane is to work, in seconds; how long its sample may take, and the most batches of one that is chosen here.
WORK, SAMPLE_SECONDS, MOST_LANE = 10.0, 20.0, 1000
# A job that ran alone so often without anything published is lost.
MOST_TRIES = 2
# How often published folders are looked for, and how long a network's file system may take to show the last of them.
LOOK_EVERY, SHOWN_AFTER = 0.3, 2.0


class Round:
    """The batches of a round, and what is known of each."""

    def __init__(self, path: Path, number: int):
        self.path, self.number = path, number
        self.batches = batches_in(path)
        self.taken: set[str] = set()
        self.seconds: list[float] = []
        self.useful = 0
        self.failure = ""
        self.lanes: dict[int, list[str]] = {}

    def done(self) -> list[str]:
        """The batches that were published and not yet taken."""
        return sorted(set(os.listdir(self.path / "done")) - self.taken)

    def begun(self) -> set[tuple[str, int]]:
        """The batches that an attempt was begun at and isn't published, each with the lane of the attempt."""
        found = set()
        for name in os.listdir(self.path / "trying"):
            batch, lane, *_ = name.split("+")
            found.add((batch, int(lane)))
        return found


class Run:
    """A run from its files to their ends."""

    def __init__(self, folder: Folder, settings: Settings, packer: Packer, collector: Collector, progress: Progress):
        self.folder, self.settings = folder, settings
        self.packer, self.collector, self.progress = packer, collector, progress
        self.endings: dict[int, Ending] = {}
        self.tries: dict[int, int] = {}
        self.rounds: list[Round] = []

    def left(self) -> list[int]:
        """The files without an end."""
        return [number for number in range(1, len(self.folder.files) + 1) if number not in self.endings]

    # ---- rounds

    def all_rounds(self, engine: Engine, lane: int) -> None:
        """Runs rounds until each file has an end."""
        number = 1
        while True:
            round_ = self._begin_round(number)
            if not (round_.path / "ended").exists():
                Sender(self, round_, engine, lane).run()
                (round_.path / "ended").touch()
            self._count_tries(round_)
            if not self.left():
                return
            number += 1

    def _begin_round(self, number: int) -> Round:
        """Packs what a round is to run, unless it was packed before, and takes what it has published."""
        path = self.folder.round(number)
        if not path.exists():
            part = path.with_name(f".{number}")
            size = self.settings.batch if number == 1 else 1
            self.progress.say("packing")
            self.packer.groups(part / "packed", self.left(), size, copies=number == 1)
            if number > 1:
                add_witness(part / "packed")
            for name in ("lanes", "sent", "trying", "done"):
                (part / name).mkdir(exist_ok=True)
            part.rename(path)
        round_ = Round(path, number)
        self.rounds.append(round_)
        for file, why in left_out_in(path).items():
            self.endings.setdefault(file, Ending(why.end))
        self.collect()
        return round_

    def _count_tries(self, round_: Round) -> None:
        """Names the jobs that were alone in two rounds and of which neither published anything."""
        if round_.number == 1:
            return
        for files in round_.batches.values():
            for file in files:
                if file not in self.endings:
                    self.tries[file] = self.tries.get(file, 0) + 1
                    if self.tries[file] == MOST_TRIES:
                        self.endings[file] = Ending(LOST)

    # ---- what is published

    def collect(self) -> int:
        """Takes what was published, late attempts of earlier rounds among it. Returns how much that was."""
        return sum(self._collect_of(round_) for round_ in self.rounds)

    def _collect_of(self, round_: Round) -> int:
        found = round_.done()
        for batch in found:
            round_.taken.add(batch)
            if batch in round_.batches:
                self._take(round_, batch)
        return len(found)

    def _take(self, round_: Round, batch: str) -> None:
        it = published_in(round_.path / "done" / batch)
        if it is None:
            return
        round_.seconds.append(it.seconds)
        files = round_.batches[batch]
        group, _, number = batch.rpartition("-")
        manifest = round_.path / "packed" / group / f"batch-{number}.manifest"
        end = self.collector.ending(it, manifest, files)
        # The witness has no files. It says something only if it is answered.
        round_.useful += end == ANSWERED or bool(end and files)
        if not end:
            round_.failure = f"vjobs ended with {it.exit} on {it.node}: " + shown(it.errors().strip())
        if end == ANSWERED:
            # An answer that comes late takes the place of a reason why there was none.
            for file in files:
                if file not in self.endings or self.endings[file].end != ANSWERED:
                    self.endings[file] = replace(it.ending(ANSWERED), exit=exit_of(self.folder.report(file)))
        elif end and round_.number > 1:
            for file in files:
                self.endings.setdefault(file, it.ending(end))


class Sender:
    """Gives a round's batches to an engine, in lanes, and waits for them."""

    def __init__(self, run: Run, round_: Round, engine: Engine, lane: int):
        self.run_, self.round, self.engine, self.lane = run, round_, engine, lane
        self.slots = 1
        self.sendings: list[Sending] = []
        self.pool: list[str] = []
        self.sample: Sending | None = None
        self.sample_sent = 0.0
        self.barren = 0

    def run(self) -> None:
        """Sends and waits until nothing of the round is left that is to be sent."""
        self._take_up()
        self.pool = self._unpublished(self._sent_now())
        if self.pool or self.sendings:
            self.slots = self.engine.slots()
            self._send_first()
            self._wait()
        if self.round.batches and not self.round.useful:
            raise Stopped("a round published nothing" + self._why())

    def _why(self) -> str:
        errors = self.round.path / "errors"
        task = "\n".join(errors.read_text("utf-8", "replace").splitlines()[-5:]) if errors.exists() else ""
        said = [text for text in (self.engine.said(), task, self.round.failure) if text]
        return ": " + "\n".join(said) if said else ""

    # ---- what an earlier process sent

    def _records(self) -> list[Sending]:
        paths = sorted((self.round.path / "sent").glob("*.json"), key=lambda path: int(path.stem))
        return [Sending(self.round.number, int(path.stem), **json.loads(path.read_text("utf-8"))) for path in paths]

    def _take_up(self) -> None:
        """Goes on with what still runs or waits, and withdraws the lanes of everything else."""
        for sending in self._records():
            if self.engine.adopt(sending) and all(self._list(lane).exists() for lane in sending.numbers()):
                self.sendings.append(sending)
                for lane in sending.numbers():
                    self.round.lanes[lane] = self._list(lane).read_text("ascii").split()
            else:
                self._withdraw(sending)

    def _list(self, lane: int) -> Path:
        return self.round.path / "lanes" / str(lane)

    def _withdraw(self, sending: Sending) -> None:
        """Takes the lists of lanes away. A task that still works on one ends after its batch."""
        for lane in sending.numbers():
            self._list(lane).unlink(missing_ok=True)

    def _sent_now(self) -> set[str]:
        return {batch for sending in self.sendings for lane in sending.numbers() for batch in self.round.lanes[lane]}

    def _unpublished(self, but: set[str]) -> list[str]:
        return [batch for batch in self.round.batches if batch not in self.round.taken and batch not in but]

    # ---- sending

    def _send_first(self) -> None:
        """Sends all in lanes of the length that was asked for, or a sample to find the length by."""
        if self.lane:
            self._send(self.lane)
        elif len(self.pool) <= 4 * self.slots:
            self._send(1)
        else:
            rest = self.pool[self.slots :]
            self.pool = self.pool[: self.slots]
            self.sample = self._send(1)
            self.pool = rest

    def _send_rest(self) -> None:
        """Sends what is left after a sample, as soon as half of the sample is known."""
        if not self.pool or self.sample is None:
            return
        waited = time.monotonic() - self.sample_sent
        known = len(self.round.seconds)
        if known >= -(-self.slots // 2) or waited > SAMPLE_SECONDS or self.sample not in self.sendings:
            each = median(self.round.seconds) if known else SAMPLE_SECONDS
            self._send(self._length(each))

    def _length(self, seconds: float) -> float:
        """How many batches make a lane's work, with lanes enough for all slots."""
        return max(1, min(-(-WORK // max(seconds, 0.001)), -(-len(self.pool) // (2 * self.slots)), MOST_LANE))

    def _send(self, length: float) -> Sending | None:
        """Sends the pool in lanes of this length."""
        if not self.pool:
            return None
        records = self._records()
        number = records[-1].number + 1 if records else 1
        first = records[-1].first + records[-1].lanes if records else 1
        step = int(length)
        lanes = [self.pool[at : at + step] for at in range(0, len(self.pool), step)]
        sending = Sending(self.round.number, number, first, len(lanes))
        record = {"first": first, "lanes": len(lanes)}
        write_whole(self.round.path / "sent" / f"{number}.json", json.dumps(record).encode())
        for lane, batches in zip(sending.numbers(), lanes):
            self._list(lane).write_text("".join(batch + "\n" for batch in batches), "ascii")
            self.round.lanes[lane] = batches
        self.pool = []
        self.sendings.append(sending)
        self.sample_sent = time.monotonic()
        self.engine.send(sending)
        return sending

    # ---- waiting

    def _wait(self) -> None:
        while self.sendings:
            found = self.run_.collect()
            alive = self.engine.alive()
            for sending in [it for it in self.sendings if it.number not in alive]:
                self._ended(sending)
            self._send_rest()
            self._report()
            if self.sendings and not found:
                time.sleep(LOOK_EVERY)

    def _ended(self, sending: Sending) -> None:
        """Takes the last of a sending, and puts back into the pool what it never began."""
        mine = [(batch, lane) for lane in sending.numbers() for batch in self.round.lanes[lane]]
        until = time.monotonic() + SHOWN_AFTER
        while self.run_.collect() or self._is_missing(mine) and time.monotonic() < until:
            time.sleep(LOOK_EVERY)
        self.sendings.remove(sending)
        self._withdraw(sending)
        begun = self.round.begun()
        left = [(batch, lane) for batch, lane in mine if batch not in self.round.taken]
        fresh = [batch for batch, lane in left if (batch, lane) not in begun]
        is_barren = len(fresh) == len(mine)
        self.barren = self.barren + 1 if is_barren else 0
        if is_barren and (self.barren > 1 or not self.round.useful):
            raise Stopped("the engine ended without beginning anything" + self._why())
        if fresh:
            rest, self.pool, sample = self.pool, fresh, self.sample
            self._send(max(1, -(-len(fresh) // (2 * self.slots))))
            self.pool, self.sample = rest, sample

    def _is_missing(self, mine: list[tuple[str, int]]) -> bool:
        return any(batch not in self.round.taken for batch, _ in mine)

    def _report(self) -> None:
        lanes = {lane for sending in self.sendings for lane in sending.numbers()}
        begun = {batch for batch, lane in self.round.begun() if lane in lanes}
        running = sum(len(self.round.batches[batch]) for batch in begun if batch in self.round.batches)
        self.run_.progress.show(self.run_.endings, running)


def print_stopped(error: Exception) -> None:
    """Says why a run can't go on."""
    print(f"vjobs-spread: {error}", file=sys.stderr)

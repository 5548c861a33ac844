"""The command line of vjobs-spread."""
from __future__ import annotations

import argparse
import os
import re
import shutil
import signal
import sys
import traceback
from collections.abc import Callable
from pathlib import Path

from .collecting import ANSWERED, Collector
from .engines import Engine, Here, Parallel
from .folder import Folder, Refused, Settings, Stopped
from .packing import Packer, left_out_in
from .progress import Progress
from .rounds import Run, print_stopped
from .slurm import PATIENCE, Slurm
from .table import summary, write_table

ALL_ANSWERED, SOME_NOT, REFUSED, STOPPED = 0, 1, 2, 3
MOST_BATCH, MOST_CORES = 64, 16
PROGRAMS = ("vjobs", "vjobs-pack", "vjobs-split")
SIGNALS = (signal.SIGINT, signal.SIGTERM, signal.SIGHUP)
# Options of sbatch by which this tool finds its tasks again, and without which they don't run.
OWN_WORDS = "job-name|array|chdir|parsable|wait|wrap|test-only|help|usage|version"
OWN_OPTIONS = re.compile(rf"(-[JaDW]|--({OWN_WORDS})(?![a-z-])).*", re.S)


def at_least(least: int, most: int = 10**15) -> Callable[[str], int]:
    """A type of arguments: numbers within bounds."""

    def number(text: str) -> int:
        if not text.isascii() or not text.isdigit() or not least <= int(text) <= most:
            raise argparse.ArgumentTypeError(f"{text!r} is no number from {least} to {most}")
        return int(text)

    return number


def parser() -> argparse.ArgumentParser:
    """The options."""
    it = argparse.ArgumentParser(
        prog="vjobs-spread",
        description="Runs many files of one VCODE job each on many machines, and gives each file its report.",
        allow_abbrev=False,
    )
    it.add_argument(
        "--run",
        metavar="DIR",
        type=Path,
        required=True,
        help="the folder of the run; all is written here",
    )
    it.add_argument("--engine", choices=("slurm", "parallel", "here"), default="here", help="what starts the tasks")
    it.add_argument("--hosts", metavar="LIST", default="", help="hosts for parallel: [N/]HOST,..; : is this machine")
    it.add_argument("--time", metavar="S", type=at_least(1, 10**6), default=60, help="seconds of a process (60)")
    it.add_argument(
        "--memory",
        metavar="BYTES",
        type=at_least(10**6),
        default=10**9,
        help="address space of a process (1000000000)",
    )
    it.add_argument(
        "--output",
        metavar="BYTES",
        type=at_least(1000),
        default=10**8,
        help="the longest report of a process (100000000)",
    )
    it.add_argument("--batch", metavar="N", type=at_least(1, MOST_BATCH), default=16, help="jobs of a process (16)")
    it.add_argument(
        "--cores",
        metavar="K",
        type=at_least(1, MOST_CORES),
        default=1,
        help="processors of a process, which runs as many jobs at once (1)",
    )
    it.add_argument(
        "--lane",
        metavar="N",
        type=at_least(1),
        default=0,
        help="processes of a task, one after another (ten seconds of work)",
    )
    it.add_argument(
        "--slots",
        metavar="N",
        type=at_least(1),
        default=0,
        help="tasks at once: in all with Slurm, on each host else (its processors, by --cores)",
    )
    it.add_argument(
        "--slurm-option",
        metavar="OPTION",
        action="append",
        default=[],
        help="handed on to sbatch, as --slurm-option=--account=physics",
    )
    it.add_argument(
        "--patience",
        metavar="S",
        type=at_least(1),
        default=int(PATIENCE),
        help=f"seconds that Slurm may be without an answer ({PATIENCE:.0f})",
    )
    it.add_argument("--programs", metavar="DIR", type=Path, help="the folder of vjobs, vjobs-pack and vjobs-split")
    it.add_argument(
        "--files-from",
        metavar="LIST",
        help="a file with names of files, a NUL after each; - is standard input",
    )
    it.add_argument("--quiet", action="store_true", help="no line of progress")
    it.add_argument("--version", action="version", version="vjobs-spread 0.1.0")
    it.add_argument("files", metavar="FILE", nargs="*", help="a file of one job")
    return it


def files_of(asked: argparse.Namespace) -> list[bytes]:
    """The names of the files, as they are when this process's folder is left."""
    names = [os.fsencode(name) for name in asked.files]
    if asked.files_from is not None:
        try:
            data = sys.stdin.buffer.read() if asked.files_from == "-" else Path(asked.files_from).read_bytes()
        except OSError as error:
            raise Refused(f"--files-from: {error.strerror}") from error
        names += [name for name in data.split(b"\0") if name]
    if not names:
        raise Refused("no file is named")
    return names


def programs(asked: argparse.Namespace) -> dict[str, Path]:
    """The paths of the three programs: in the folder that was named, beside this tool, or on the PATH."""
    beside = Path(sys.argv[0]).resolve().parent
    folders = [asked.programs] if asked.programs else [beside, *map(Path, os.get_exec_path())]
    found = {}
    for name in PROGRAMS:
        path = next((it / name for it in folders if os.access(it / name, os.X_OK) and (it / name).is_file()), None)
        if path is None:
            raise Refused(f"there is no program {name}; --programs names its folder")
        found[name] = path.resolve()
    return found


def engine_of(asked: argparse.Namespace, folder: Folder, settings: Settings) -> Engine:
    """The engine that was asked for."""
    if asked.engine == "slurm":
        return Slurm(folder, settings, asked.slots, asked.slurm_option, asked.patience)
    if asked.engine == "parallel":
        if shutil.which("parallel") is None:
            raise Stopped("there is no parallel here")
        return Parallel(folder, asked.slots, asked.hosts, settings.cores)
    return Here(folder, asked.slots, settings.cores)


def check(asked: argparse.Namespace) -> None:
    """Refuses options that don't belong to the engine."""
    if asked.hosts and asked.engine != "parallel":
        raise Refused("--hosts belongs to --engine parallel")
    if asked.slurm_option and asked.engine != "slurm":
        raise Refused("--slurm-option belongs to --engine slurm")
    for option in asked.slurm_option:
        if not re.match("--?[A-Za-z]", option) or OWN_OPTIONS.fullmatch(option):
            raise Refused(f"--slurm-option: {option!r} can't be handed on to sbatch")


def work(run: Run, asked: argparse.Namespace) -> int:
    """Runs all rounds. However that ends, the table is written."""
    engine = engine_of(asked, run.folder, run.settings)
    status = STOPPED
    try:
        run.all_rounds(engine, asked.lane)
        status = ALL_ANSWERED if all(it.end == ANSWERED for it in run.endings.values()) else SOME_NOT
    except (Stopped, OSError) as error:
        run.progress.end()
        print_stopped(error)
    finally:
        run.progress.end()
        if status == STOPPED:
            engine.stop()
    left_out = {number: why for round_ in run.rounds for number, why in left_out_in(round_.path).items()}
    write_table(run.folder, run.endings, left_out)
    print(summary(run.folder, run.endings), end="")
    return status


def interrupted(_number: int, _frame: object) -> None:
    """Ends the run at a signal, and what it began. No second signal disturbs that."""
    for number in SIGNALS:
        signal.signal(number, signal.SIG_IGN)
    raise Stopped("interrupted; started again with the same command it goes on")


def main() -> int:
    """Runs the command line. Returns the exit status."""
    asked = parser().parse_args()
    try:
        check(asked)
        files, found = files_of(asked), programs(asked)
        settings = Settings(asked.time, asked.memory, asked.output, asked.batch, asked.cores)
        folder = Folder(asked.run.resolve())
        folder.open(settings, files, found["vjobs"])
        for number in SIGNALS:
            signal.signal(number, interrupted)
        packer = Packer(folder, settings, found["vjobs-pack"])
        collector = Collector(folder, settings, found["vjobs-split"])
        return work(Run(folder, settings, packer, collector, Progress(len(files), asked.quiet)), asked)
    except Refused as error:
        print(f"vjobs-spread: {error}", file=sys.stderr)
        return REFUSED
    except Stopped as error:
        print_stopped(error)
        return STOPPED
    except OSError as error:
        print(f"vjobs-spread: {error}", file=sys.stderr)
        return STOPPED
    except Exception:  # A fault of this tool. Exit 1 would be an answer.
        traceback.print_exc()
        return STOPPED

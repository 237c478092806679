"""What the programs of c/examples and c/programs are, and what each rank of them may print: the files `programs` and
NAME.expected; and which programs c/course and c/schedules have. c/run-all, c/run-course, c/build-all and c/examples/by-mpi
use it."""

import os
import re
import shlex

FOLDER = os.path.dirname(os.path.abspath(__file__))
COURSE = os.path.join(os.path.dirname(FOLDER), "course")
SCHEDULES = os.path.join(os.path.dirname(FOLDER), "schedules")
PROGRAMS = os.path.join(os.path.dirname(FOLDER), "programs")

# the line that begins the part of a rank, with the code by which it ends where that isn't 0, and the one that begins what
# `--why` tells
HEAD = re.compile(r"rank ([0-7])(?: ends (\d+))?|why")


class Source:
    """A source of a folder, which rvmc-cc makes an image of."""

    def __init__(self, folder, name, options, source=None):
        self.folder, self.name, self.options = folder, name, options
        self.source = os.path.join(folder, (source or name) + ".c")
        self.image = name + ".image"
        self.made = os.path.join(folder, self.image)

    def command(self):
        """The words that build its image, at the top of the repository."""
        source = f"c/{os.path.basename(self.folder)}/{os.path.basename(self.source)}"
        return ["c/rvmc-cc", *self.options, "-o", self.image, source]


class Program(Source):
    """A line of the file `programs` of c/examples or c/programs."""

    def __init__(self, folder, name, kind, status, options):
        super().__init__(folder, name, options)
        self.kind, self.status = kind, int(status)
        self.ranks = int(options[options.index("-n") + 1])
        self.arguments = self.values("--arg")
        self.input = (self.values("--stdin") or [None])[0]

    def values(self, option):
        """The words that stand behind an option, each time that it is given."""
        return [word for before, word in zip(self.options, self.options[1:]) if before == option]

    def expected(self):
        """What is expected of it, by its file."""
        with open(os.path.join(self.folder, self.name + ".expected"), encoding="ascii") as file:
            return Expected(file.read(), self.ranks)


class Expected:
    """What each rank prints, and lines of `--why`. A rank that has several parts prints one of them."""

    def __init__(self, text, ranks):
        self.parts = {rank: [] for rank in range(ranks)}
        self.codes = [0] * ranks
        self.why = []
        lines = None
        for line in text.splitlines():
            head = HEAD.fullmatch(line)
            if not head:
                lines.append(line)
            elif head[1]:
                lines = []
                self.parts[int(head[1])].append(lines)
                self.codes[int(head[1])] = int(head[2] or 0)
            else:
                lines = self.why
        for parts in self.parts.values():
            parts[:] = ["".join(line + "\n" for line in part) for part in parts]

    def is_part(self, rank, text):
        """Whether a rank may print this."""
        return text in self.parts[rank]

    def outcomes(self):
        """All that a rank may print, of those ranks that may print several things."""
        return {(rank, part) for rank, parts in self.parts.items() if len(parts) > 1 for part in parts}


def lines_of(folder):
    """The words of each line of a folder's file `programs`."""
    with open(os.path.join(folder, "programs"), encoding="ascii") as file:
        return [shlex.split(line) for line in file if line.strip() and not line.startswith("#")]


def course():
    """The programs of c/course."""
    return [Source(COURSE, line[0], line[1:]) for line in lines_of(COURSE)]


def schedules():
    """The programs of c/schedules: a source may be built in several ways."""
    return [Source(SCHEDULES, line[0], line[2:], line[1]) for line in lines_of(SCHEDULES)]


def programs(names=()):
    """The programs of c/examples and of c/programs, in the order of their files: those that are named, or all."""
    found = [Program(folder, *line[:3], line[3:]) for folder in (FOLDER, PROGRAMS) for line in lines_of(folder)]
    missing = set(names) - {program.name for program in found}
    if missing:
        raise SystemExit(f"there is no program {', '.join(sorted(missing))} in the files `programs`")
    return [program for program in found if not names or program.name in names]

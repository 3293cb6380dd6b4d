"""What all kinds of cases that are a single run of the program share: how one is tried, made smaller and shown."""

from dataclasses import replace

from fuzzing.runs import first_difference, test_of
from fuzzing.shrinking import shrunk, shrunk_bytes


class RunKind:
    """A kind of case. Those that are made of it give `name`, `wrong_rules`, `make` and `wanted`.

    `wrong_rules` are the self-test's: a rule of the judge, and what stands in its place, each as a tuple of a module or
    class, the name of what it has there, and the other value.
    """

    name = ""
    wrong_rules = ()
    # Which of the case's two texts has the lines that are left out while it is made smaller.
    varied = "given"
    # Whether single bytes of the lines are left out too.
    has_small_lines = True

    def make(self, dice):
        """A case by a random generator."""
        raise NotImplementedError

    def wanted(self, case):
        """What a case has to give. None if that can't be said."""
        raise NotImplementedError

    def count(self, case):
        """For how many cases it counts."""
        return 1

    def difference(self, case, programs):
        """What a case gives otherwise than it is wanted, in words, and None if nothing."""
        wanted = self.wanted(case)
        return wanted and first_difference(programs.run(case), wanted)

    def lines(self, case):
        return getattr(case, self.varied).splitlines(keepends=True)

    def with_lines(self, case, lines):
        return replace(case, **{self.varied: b"".join(lines)})

    def smaller(self, case, programs):
        """The smallest case found that still differs."""
        def shows(lines):
            return self.difference(self.with_lines(case, lines), programs) is not None
        lines = shrunk(self.lines(case), shows)
        return self.with_lines(case, shrunk_bytes(lines, shows) if self.has_small_lines else lines)

    def shown(self, case, programs, title):
        """A case as a test."""
        return f"{self.difference(case, programs)}\n{test_of(case, self.wanted(case), title)}"

"""Runs of the command, and what is expected of them."""

import os
import subprocess

KERNELS = 'reference/tests/kernels'


class Failure(Exception):
    pass


class Run:
    def __init__(self, words, status, output, errors):
        self.words, self.status, self.output, self.errors = words, status, output, errors

    def __str__(self):
        said = ' '.join(repr(word) for word in self.words)[:300]
        return '%s: status %s, output %r, errors %r' % (said, self.status, self.output[:300], self.errors[:300])


def encoded(words):
    return [word if isinstance(word, bytes) else word.encode() for word in words]


class Sclk:
    """The command under test, as users start it and as a program, and the program that it is compared with. All are run in `folder`, if no other is named."""

    def __init__(self, root, folder, started, program, second, seed):
        self.root, self.folder, self.started, self.program, self.second, self.seed = root, folder, [started], [program], [second], seed
        self.runs = 0
        self.galileo = os.path.join(root, KERNELS, 'galileo.tsc')
        self.surveyor = os.path.join(root, KERNELS, 'mars_global_surveyor.tsc')
        with open(os.path.join(root, 'crates/sclk_help/stdout'), 'rb') as stored:
            self.help = stored.read()
        self.usage = self.help[:self.help.index(b'\n\n') + 1]

    def start(self, program, words, folder=None, **streams):
        self.runs += 1
        return subprocess.Popen(encoded(program) + encoded(words), cwd=folder or self.folder, **streams)

    def run(self, *words, given=b'', program=None, folder=None):
        """Runs the command with these words on these bytes."""
        pipe = subprocess.PIPE
        process = self.start(program or self.program, words, folder, stdin=pipe, stdout=pipe, stderr=pipe)
        output, errors = process.communicate(given)
        return Run(words, process.returncode, output, errors)

    def shell(self, redirections, *words, given=b''):
        """The same with redirections as the shell writes them."""
        return self.run(*words, given=given, program=['sh', '-c', 'exec "$0" "$@" ' + redirections] + self.program)

    def beside(self, *words, given=b'', errors=False):
        """Both must give the same lines and the same status, with `errors` also the same on standard error."""
        one, other = self.run(*words, given=given), self.run(*words, given=given, program=self.second)
        if (one.status, one.output) != (other.status, other.output) or errors and one.errors != other.errors:
            raise Failure('%s\nthe second implementation: %s\n%s' % (one, other, first_difference(given, one.output, other.output)))
        return one

    def file(self, name, contents):
        """A file of the folder."""
        path = os.path.join(encoded([self.folder])[0], encoded([name])[0])
        with open(path, 'wb') as new:
            new.write(contents)
        return name


def first_difference(given, one, other):
    """The first line whose answers differ."""
    for i, (a, b) in enumerate(zip(one.split(b'\n'), other.split(b'\n'))):
        if a != b:
            given = given.split(b'\n')
            return 'line %d of output %r, the second implementation %r; of the input near it %r' % (i, a, b, given[max(0, i - 2):i + 1])
    return 'one output is the longer'


def expect(run, status, output=None, errors=None):
    """Output and errors are compared where they are given; errors may also be how they begin, ended by `..`."""
    good = run.status == status and (output is None or run.output == output)
    if errors is not None:
        good &= run.errors.startswith(errors[:-2]) if errors.endswith(b'..') else run.errors == errors
    if not good:
        raise Failure('%s\nexpected: status %s, output %r, errors %r' % (run, status, output, errors))
    return run

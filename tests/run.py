"""How a program of target/bin is run, after tests/programs has seen that it is there and made of the sources as they are. Whatever stack its
caller has, it gets 8 MiB, where its rooms are small, or as much as is asked for.
"""
import functools
import os
import platform
import resource
import subprocess
import sys

HERE = os.path.dirname(os.path.abspath(__file__))
BIN = os.path.join(HERE, '..', 'target', 'bin')
SMALL, LARGE = 8 << 20, 256 << 20  # bytes of stack: with LARGE a program makes large rooms


@functools.lru_cache(maxsize=None)
def path(name):
    """the path of a program"""
    if platform.machine() != 'x86_64':
        sys.exit('the programs are for x86-64, and this machine is %s' % platform.machine())
    if subprocess.run([os.path.join(HERE, 'programs'), name], stdin=subprocess.DEVNULL, stdout=sys.stderr).returncode:
        sys.exit('%s is not built' % name)
    return os.path.join(BIN, name)


def limit(stack):
    """what a process does before it becomes the program"""
    return lambda: resource.setrlimit(resource.RLIMIT_STACK, (stack, resource.getrlimit(resource.RLIMIT_STACK)[1]))


def program(name, data, *words, stack=SMALL):
    """what a program writes and says of an input"""
    done = subprocess.run([path(name), *words], input=data, capture_output=True, preexec_fn=limit(stack))
    if done.returncode:
        sys.exit('%s ended with status %d: %s' % (name, done.returncode, done.stderr.decode(errors='replace')))
    return done.stdout, done.stderr


def lines(words, asked, stack=SMALL):
    """the answers of a program, given by its words: a line for each line asked"""
    given = ''.join(line + '\n' for line in asked)
    done = subprocess.run(words, input=given, capture_output=True, text=True, preexec_fn=limit(stack))
    if done.returncode:
        sys.exit('%s ended with status %d: %s' % (words[-1], done.returncode, done.stderr))
    answers = done.stdout.splitlines()
    if len(answers) != len(asked):
        sys.exit('%s answers %d of %d lines' % (words[-1], len(answers), len(asked)))
    return answers


def calls(asked, stack=SMALL):
    """the answers of the program calls (docs/CALLS.md)"""
    return lines([path('calls')], asked, stack)

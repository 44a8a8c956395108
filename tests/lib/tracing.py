"""The words before a program by which strace takes down its system calls, or has them fail. The process that is started is the program's."""
import collections
import time

STRACE = ("strace", "-D", "-f", "-qq", "-o")


def injected(calls, how, count, onward=False):
    """Has the system call of this number fail, or all from there on."""
    words = [f"--inject={call}:{how}:when={count}{'+' if onward else ''}" for call in calls]
    return *STRACE, "/dev/null", f"--trace={','.join(calls)}", *words


def without_memory(count):
    """Refuses memory from this asking on. The system refuses a brk by the break that stands, never by an error, which the C library would take for a new break."""
    refusals = ("brk:retval=0", "mmap:error=ENOMEM")
    return *STRACE, "/dev/null", "--trace=brk,mmap", *(f"--inject={refusal}:when={count}+" for refusal in refusals)


def taken_down(run, words=()):
    """The lines of the system calls that something makes, which is run behind the words that it is given."""
    run((*STRACE, "calls.txt", *words))
    # (strace writes until a moment after the program's end)
    time.sleep(0.3)
    with open("calls.txt") as lines:
        return lines.readlines()


def counted(run):
    """How often each system call comes in something that is run so."""
    return collections.Counter(line.split(maxsplit=1)[1].partition("(")[0] for line in taken_down(run) if "(" in line)

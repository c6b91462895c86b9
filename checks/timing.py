"""What a program takes on a text: the processor's time and the peak of memory."""
import os
import subprocess

# Runs a program and prints the peak of its memory in kilobytes. It is that small because the system counts for a process
# what the one that started it held.
PEAK = """
#include <fcntl.h>
#include <stdio.h>
#include <sys/resource.h>
#include <sys/wait.h>
#include <unistd.h>
int main(int count, char **words) {
    pid_t child = fork();
    if (child == 0) {
        int sink = open("/dev/null", O_WRONLY);
        dup2(sink, 1);
        dup2(sink, 2);
        execv(words[1], words + 1);
        _exit(127);
    }
    int status;
    struct rusage usage;
    wait4(child, &status, 0, &usage);
    printf("%ld\\n", usage.ru_maxrss);
    return count < 2;
}
"""


def make_starter(folder):
    """Compiles the starter into the folder, and answers its path."""
    path = os.path.join(folder, "peak")
    subprocess.run(["gcc", "-x", "c", "-", "-o", path], input=PEAK.encode(), check=True)
    return path


def seconds(words, path):
    """The processor time that the words take on the text of a file, in seconds, and the status."""
    with open(path, "rb") as source, open(os.devnull, "wb") as sink:
        ran = subprocess.Popen(words, stdin=source, stdout=sink, stderr=sink)
        _, status, usage = os.wait4(ran.pid, 0)
        return usage.ru_utime + usage.ru_stime, os.waitstatus_to_exitcode(status)


def peak(starter, words, path):
    """The peak of memory of the words on the text of a file, in bytes."""
    with open(path, "rb") as source:
        return 1024 * int(subprocess.run([starter, *words], stdin=source, stdout=subprocess.PIPE, check=True).stdout)

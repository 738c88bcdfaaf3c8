#!/usr/bin/env python3
"""Counts the frames of a recording by operation and by what became of them.

    examples/show-answers STREAM ANSWERS | live/account.py

It reads the lines of examples/show-answers, and decodes nothing itself: a line of its output is an operation, what was answered
(`ok`, an error's name, `no reply`, or the status of a load or store), and how often. The names of the operations that the codec
hasn't are those of Linux uapi fuse.h.
"""
import collections
import errno
import re
import sys

# The operations of fuse.h by their numbers.
NAMES = dict(enumerate(
    "lookup forget getattr setattr readlink symlink 7 mknod mkdir unlink rmdir rename link open read write statfs release 19 fsync "
    "setxattr getxattr listxattr removexattr flush init opendir readdir releasedir fsyncdir getlk setlk setlkw access create "
    "interrupt bmap destroy ioctl poll notify_reply batch_forget fallocate readdirplus rename2 lseek copy_file_range setupmapping "
    "removemapping syncfs tmpfile statx".split(), 1))

ERRORS = errno.errorcode | {errno.EOPNOTSUPP: "EOPNOTSUPP"}  # it has a second name


def operation(request):
    """The operation of a request's line; of a bad one, with the reason why it is bad."""
    words = request.split()
    if words[0] != "bad":
        return words[0]
    number = re.search(r"(?:n|opcode)=(\d+)", request)
    if words[1] == "opcode":
        return NAMES.get(int(number[1]), f"opcode {number[1]}")
    if words[1] == "body":
        return f"{NAMES.get(int(number[1]), number[1])} with a bad body"
    return " ".join(words[:2])


def outcome(reply):
    """What a reply's line says, without its fields."""
    error = re.match(r"error=(\d+)", reply)
    if error:
        return ERRORS.get(int(error[1]), f"error {error[1]}")
    return "ok" if reply.startswith("ok ") else re.split(r" \w+=", reply)[0]


def main(lines):
    counts = collections.Counter()
    for line in lines:
        request, arrow, reply = line.rstrip("\n").partition(" => ")
        if not arrow:
            return f"no line of examples/show-answers: {line.rstrip()}"
        counts[operation(request), outcome(reply)] += 1
    for (name, came), count in sorted(counts.items()):
        print(f"{name:20} {came:14} {count}")
    print(f"{sum(counts.values())} frames")
    return None


if __name__ == "__main__":
    if len(sys.argv) != 1:
        sys.exit(__doc__.split("\n\n")[1].strip())
    sys.exit(main(sys.stdin))

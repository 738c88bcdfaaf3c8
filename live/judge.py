#!/usr/bin/env python3
"""Judges a foreign device's recorded answers by those of our daemon.

    live/judge.py STREAM ANSWERS [COMMAND...]

STREAM is a recorded chain stream, ANSWERS what the foreign device answered to it. Each request is put to COMMAND, `daxwire serve`
where none is given, with our numbers of nodes and handles in place of the foreign ones, and both answers are compared in meaning:

  errors                    by their number
  attributes and entries    by the kind of file and, of a file, its size and whether it has a name
  READ, WRITE               by the bytes, and by how many were written
  READDIR                   by the set of names without `.` and `..`, when the foreign device has come to the end
  all else                  by the error alone

Numbers, modes, owners, times, valid times and what INIT offers are each device's own. A difference is one line with both answers.

Counted apart are requests of operations that our daemon hasn't (STATFS, RENAME, MKDIR, READDIRPLUS, extended attributes and more),
and requests that follow: those on nodes, handles and names that such an operation, or a difference before, has made or changed on
one side only. The status is 0 where nothing differs, else 1.
"""
import collections
import importlib.machinery
import importlib.util
import os
import re
import struct
import subprocess
import sys

import account

TOP = os.path.dirname(os.path.dirname(os.path.abspath(__file__)))


def show_answers():
    """The module examples/show-answers, whose names don't end as a module's."""
    loader = importlib.machinery.SourceFileLoader("show_answers", os.path.join(TOP, "examples", "show-answers"))
    loader.exec_module(module := importlib.util.module_from_spec(importlib.util.spec_from_loader("show_answers", loader)))
    return module


sys.dont_write_bytecode = True
SHOW = show_answers()
PROGRAM = os.environ.get("DAXWIRE", os.path.join(TOP, "daxwire"))

ROOT, HEADER, REPLY_HEADER = 1, 40, 16
NO_HANDLE = 2**64 - 1
# Where a request's body has its handle; of the last two where a flag in its first word says so.
HANDLES = {"read": 0, "write": 0, "release": 0, "fsync": 0, "flush": 0, "readdir": 0, "releasedir": 0, "fallocate": 0, "setupmapping": 0, "getattr": 8, "setattr": 8}
HAS_HANDLE = {"getattr": 1, "setattr": 1 << 6}
# Where its body has a name.
NAMED = {"lookup": 0, "unlink": 0, "create": 16, "mkdir": 8, "mknod": 16, "rename": 8, "rename2": 16, "link": 8, "rmdir": 0, "symlink": 0}
CHANGES = {"setattr", "write", "fallocate", "copy_file_range"}
ATOMIC_TRUNCATION, TRUNCATES, SET_SIZE = 1 << 3, 0o1000, 1 << 3


def number(data, at, form="Q"):
    return struct.unpack_from("<" + form, data, at)[0]


def error_of(reply):
    return -number(reply, 4, "i") if len(reply) >= REPLY_HEADER else None


def names_in(entries, head=0):
    """The directory entries of a READDIR's reply, or of a READDIRPLUS's, which has `head` bytes before each: (head, name)."""
    at = 0
    while at + head + 24 <= len(entries):
        length = number(entries, at + head + 16, "I")
        yield entries[at : at + head], entries[at + head + 24 : at + head + 24 + length]
        at += head + (24 + length + 7) // 8 * 8


class Device:
    """COMMAND, one request after the other."""

    def __init__(self, command, header):
        self.process = subprocess.Popen(command, stdin=subprocess.PIPE, stdout=subprocess.PIPE)
        self.process.stdin.write(header)

    def put(self, head, request):
        """The reply to a chain with these pieces."""
        self.process.stdin.write(head + request)
        self.process.stdin.flush()
        kind, length = struct.unpack("<BI", self.read(5))
        if kind != 1:
            sys.exit("judge.py: the device doesn't answer a chain")
        return self.read(length)

    def read(self, count):
        data = self.process.stdout.read(count)
        if len(data) < count:
            sys.exit("judge.py: the device has ended")
        return data

    def ask(self, opcode, node, body, room):
        """The reply to a request of our own."""
        request = struct.pack("<IIQQIIIHH", HEADER + len(body), opcode, NO_HANDLE, node, 0, 0, 0, 0, 0) + body
        return self.put(struct.pack("<BHHII", 1, 1, 1, len(request), room), request)


class Listing:
    """What both devices have listed of a directory so far."""

    def __init__(self):
        self.theirs, self.ours, self.place = set(), set(), 0


class Judge:
    def __init__(self, device):
        self.device = device
        self.nodes, self.handles = {0: 0, ROOT: ROOT}, {NO_HANDLE: NO_HANDLE}  # ours by theirs
        self.strange_nodes, self.strange_names = set(), set()  # those that differ already
        self.listings = collections.defaultdict(Listing)
        self.truncates_at_open = False
        self.same, self.apart, self.follow, self.differ = (collections.Counter() for _ in range(4))

    # ---- Numbers ----

    def handle_place(self, name, request):
        """Where the request has a handle, or None."""
        place = HANDLES.get(name)
        if place is None or name in HAS_HANDLE and not number(request, HEADER, "I") & HAS_HANDLE[name]:
            return None
        return HEADER + place

    def renumbered(self, name, request):
        """The request with our numbers, or None where ours lacks one of them."""
        ours = bytearray(request)
        places = [(16, self.nodes)]
        if (handle := self.handle_place(name, request)) is not None:
            places.append((handle, self.handles))
        if name == "batch_forget":
            places += [(HEADER + 8 + 16 * i, self.nodes) for i in range(number(request, HEADER, "I"))]
        for place, known in places:
            theirs = number(request, place)
            if theirs in known:
                struct.pack_into("<Q", ours, place, known[theirs])
            elif name == "batch_forget":
                struct.pack_into("<Q", ours, place, NO_HANDLE)  # no node of ours, which FORGET passes over
            else:
                return None
        return bytes(ours)

    def learn(self, name, theirs, ours):
        """Takes the numbers that both have given."""
        if name in ("lookup", "create"):
            self.nodes[number(theirs, REPLY_HEADER)] = number(ours, REPLY_HEADER)
        if name in ("open", "opendir", "create"):
            place = REPLY_HEADER + (128 if name == "create" else 0)
            self.handles[number(theirs, place)] = number(ours, place)

    # ---- What is strange ----

    def name_of(self, name, request):
        """The name that a request is about, with its directory, or None."""
        if name not in NAMED:
            return None
        return number(request, 16), request[HEADER + NAMED[name] :].split(b"\0")[0]

    def follows(self, name, request):
        handle = self.handle_place(name, request)
        return (
            number(request, 16) in self.strange_nodes
            or self.name_of(name, request) in self.strange_names
            or number(request, 16) not in self.nodes
            or handle is not None and number(request, handle) not in self.handles
        )

    def estrange(self, name, request, theirs):
        """Notes what a request has changed on one side only."""
        self.strange_names.add(self.name_of(name, request))
        if name in ("rename", "rename2"):
            self.strange_names.add((number(request, HEADER), request[HEADER + NAMED[name] :].split(b"\0")[1]))
        if name in CHANGES:
            self.strange_nodes.add(number(request, 16))
        if name == "copy_file_range":
            self.strange_nodes.add(number(request, HEADER + 16))
        if name in ("mkdir", "mknod", "symlink", "tmpfile", "create", "link") and error_of(theirs) == 0:
            self.strange_nodes.add(number(theirs, REPLY_HEADER))
        self.strange_names.discard(None)

    # ---- Directories ----

    def list_theirs(self, name, request, theirs):
        """Takes the entries of a directory. Answers the names that only one side has, where theirs is at the end; else None."""
        handle, head = number(request, HEADER), 128 if name == "readdirplus" else 0
        if number(request, HEADER + 8) == 0:
            self.listings[handle] = Listing()
        listing = self.listings[handle]
        for entry, found in names_in(theirs[REPLY_HEADER:], head):
            if found in (b".", b".."):
                continue
            listing.theirs.add(found)
            if head and number(entry, 0):  # the entry counts as a LOOKUP
                reply = self.device.ask(1, self.nodes.get(number(request, 16), 0), found + b"\0", REPLY_HEADER + 128)
                if error_of(reply) == 0:
                    self.nodes[number(entry, 0)] = number(reply, REPLY_HEADER)
        if len(theirs) > REPLY_HEADER or handle not in self.handles:
            return None
        self.list_ours(listing, self.handles[handle])
        strange = {found for _, found in self.strange_names}
        return (listing.theirs ^ listing.ours) - strange

    def list_ours(self, listing, handle):
        while True:
            reply = self.device.ask(28, ROOT, struct.pack("<QQIIQII", handle, listing.place, 65536, 0, 0, 0, 0), REPLY_HEADER + 65536)
            found = [name for _, name in names_in(reply[REPLY_HEADER:])]
            if not found:
                return
            listing.ours.update(found)
            listing.place += len(found)

    # ---- The judgement ----

    def meaning(self, name, reply):
        """What of a reply is compared."""
        error = error_of(reply)
        if error != 0:
            return error
        if name in ("read", "write"):
            return reply[REPLY_HEADER : REPLY_HEADER + 4] if name == "write" else reply[REPLY_HEADER:]
        if name in ("lookup", "getattr", "setattr", "create"):
            fields = dict(re.findall(r" (\w+)=(\d+)", SHOW.reply_line(name, reply)))
            kind = int(fields["mode"]) & 0o170000
            return (kind, fields["size"], fields["nlink"] != "0") if kind == 0o100000 else kind
        return 0

    def judge(self, line, head, request, theirs):
        name = account.operation(line)
        known = name in SHOW.BODIES or not line.startswith("bad opcode")
        if name == "readdir" and error_of(theirs) == 0 or name == "readdirplus" and error_of(theirs) == 0:
            only = self.list_theirs(name, request, theirs)
            if only:
                self.tell(name, line, "names that one side alone has: " + ", ".join(sorted(map(repr, only))))
            (self.same if name == "readdir" else self.apart)[name] += not only
            return
        if not known:
            self.apart[name] += 1
            if error_of(theirs) == 0:
                self.estrange(name, request, theirs)
            return
        follows = not name.startswith("bad") and len(request) >= HEADER and self.follows(name, request)
        ours_request = self.renumbered(name, request) if len(request) >= HEADER else request
        if ours_request is None:
            self.follow[name] += 1
            return
        ours = self.device.put(head, ours_request)
        self.take(name, line, request, theirs, ours, follows)

    def take(self, name, line, request, theirs, ours, follows):
        both = error_of(theirs) == 0 and error_of(ours) == 0
        if both:
            self.learn(name, theirs, ours)
        if name == "init" and both:
            self.truncates_at_open = bool(number(theirs, REPLY_HEADER + 12, "I") & ATOMIC_TRUNCATION)
        if name in ("open", "create") and both and self.truncates_at_open and number(request, HEADER, "I") & TRUNCATES:
            node = self.nodes[number(request, 16)] if name == "open" else number(ours, REPLY_HEADER)
            self.device.ask(4, node, struct.pack("<II", SET_SIZE, 0) + bytes(80), REPLY_HEADER + 104)
        if follows:
            self.follow[name] += 1
        elif self.meaning(name, theirs) == self.meaning(name, ours):
            self.same[name] += 1
        else:
            self.tell(name, line, f"theirs {self.shown(name, theirs)}, ours {self.shown(name, ours)}")
            if (error_of(theirs) == 0) != (error_of(ours) == 0):
                self.estrange(name, request, theirs)

    def shown(self, name, reply):
        return SHOW.reply_line(name, reply)

    def tell(self, name, line, what):
        self.differ[name] += 1
        print(f"{SHOW.shortened(line)} => {what}")


def frames(stream):
    """The chains of a stream: the frame before its readable bytes, and these; None for a load or store."""
    while stream.at < len(stream.data):
        kind = stream.take(1)[0]
        if kind == 1:
            counts = stream.take(4)
            readable, writable = struct.unpack("<HH", counts)
            lengths = stream.take(4 * (readable + writable))
            yield b"\1" + counts + lengths, stream.take(sum(struct.unpack_from(f"<{readable}I", lengths)))
        else:
            length = stream.numbers("QI")[1]
            stream.take(length if kind == 3 else 0)
            yield None


def main(stream_path, answers_path, command):
    with open(stream_path, "rb") as file:
        stream = SHOW.Reader(file.read())
    with open(answers_path, "rb") as file:
        answers = SHOW.Reader(file.read())
    with open(stream_path, "rb") as file:
        shown = subprocess.run([PROGRAM, "show"], stdin=file, stdout=subprocess.PIPE, text=True, check=False)
    judge = Judge(Device(command, stream.take(12)))
    for line, frame in zip(shown.stdout.splitlines(), frames(stream)):
        if frame is None:
            sys.exit("judge.py: the stream has loads or stores; only chains are judged")
        kind, length = answers.numbers("BI")
        judge.judge(line, *frame, answers.take(length))
    for title, counts in ("the same", judge.same), ("different", judge.differ), ("not in the profile", judge.apart), ("that follow", judge.follow):
        told = ", ".join(f"{name} {count}" for name, count in sorted(counts.items()) if count)
        print(f"{sum(counts.values())} {title}" + (f": {told}" if told else ""))
    return 1 if judge.differ else 0


if __name__ == "__main__":
    if len(sys.argv) < 3:
        sys.exit(__doc__.split("\n\n")[1].strip())
    sys.exit(main(sys.argv[1], sys.argv[2], sys.argv[3:] or [PROGRAM, "serve"]))

#!/usr/bin/env python3
"""A device with a fault, to see that the load finds it: it turns one bit in each 40th READ that gives bytes.

    live/faulty.py COMMAND...

COMMAND speaks the chain stream, as `./daxwire serve` does; so does this one, which hands each frame on to it, and its answer back.
"""
import struct
import subprocess
import sys

READ, EVERY = 15, 40


def pass_frame(source, device):
    """Hands a frame on. Returns its kind and, of a chain, its request; None where the stream ends."""
    kind = source.read(1)
    if not kind:
        return None
    request = b""
    if kind[0] == 1:
        counts = source.read(4)
        readable, writable = struct.unpack("<HH", counts)
        lengths = source.read(4 * (readable + writable))
        request = source.read(sum(struct.unpack(f"<{readable}I", lengths[: 4 * readable])))
        device.write(kind + counts + lengths + request)
    else:
        head = source.read(12)
        device.write(kind + head + (source.read(struct.unpack("<I", head[8:])[0]) if kind[0] == 3 else b""))
    device.flush()
    return kind[0], request


def take_answer(kind, device):
    """Takes the answer to a frame of this kind, as its head and its bytes."""
    head = device.read({1: 5, 2: 6, 3: 2}[kind])
    return head, device.read(struct.unpack("<I", head[-4:])[0]) if kind != 3 else b""


def main(command):
    reads = 0
    source, sink = sys.stdin.buffer, sys.stdout.buffer
    with subprocess.Popen(command, stdin=subprocess.PIPE, stdout=subprocess.PIPE) as process:
        process.stdin.write(source.read(12))
        while (frame := pass_frame(source, process.stdin)) is not None:
            kind, request = frame
            head, answer = take_answer(kind, process.stdout)
            if kind == 1 and len(request) >= 40 and struct.unpack("<I", request[4:8])[0] == READ and len(answer) > 16:
                reads += 1
                if reads % EVERY == 0:
                    middle = 16 + (len(answer) - 16) // 2
                    answer = answer[:middle] + bytes([answer[middle] ^ 1]) + answer[middle + 1 :]
            sink.write(head + answer)
            sink.flush()
        process.stdin.close()
    return process.returncode


if __name__ == "__main__":
    if len(sys.argv) < 2:
        sys.exit(__doc__.split("\n\n")[1].strip())
    sys.exit(main(sys.argv[1:]))

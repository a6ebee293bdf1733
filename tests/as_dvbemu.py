#!/usr/bin/env -S sh -c 'exec "${0%/*}/python" "$0" "$@"'
"""What dvbemu does with the words `steps` or `check`, options and files, by the second program and the judge; the tools are those
of dvbemu."""
import sys

from dvbemu import cli, inputs
from oracle import judge, second
from samples import asked_of


def given_to(asked):
    """What the program is given: standard input, or what its files have."""
    if not asked.files:
        return sys.stdin.buffer.read()
    report = inputs.opened(asked.files[:1]) if asked.word == "check" else []
    made = b"".join(inputs.session_pieces(inputs.opened(asked.files[len(report) :])))
    return asked_of(report[0].whole(), made) if report else made


def main(*words):
    """What it writes, and its status."""
    if words[0] not in cli.PROVED:
        return cli.main(*words)
    asked = cli.command(words[0]).parse_args(words[1:])
    asked.word, packet = words[0], asked.packet or 188
    given = given_to(asked)
    if asked.word == "check":
        status, output, lines = judge.answer(given, packet)
        status = 1 if asked.files and output == b"no\n" else status
    else:
        try:
            status, output, lines = 0, second.report(given, asked.batch or 64, packet).encode(), b""
        except second.Fault as fault:
            status, output, lines = 3, b"", f"dvbemu: script line {fault.line}: {fault.kind}\n".encode()
    # (in front of what comes on standard error)
    sys.stdout.buffer.write(output)
    sys.stdout.buffer.flush()
    sys.stderr.buffer.write(lines)
    return status


sys.exit(main(*sys.argv[1:]))

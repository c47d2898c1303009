"""The lines of a script's words, as 'nbbo listen --lines' names them."""

import argparse
import ipaddress

Address = tuple[str, int]


def line_in(text: str) -> Address:
    """The address that a text like 127.0.0.1:7001 or [::1]:7001 spells."""
    host, _, port = text.rpartition(':')
    host = host.removeprefix('[').removesuffix(']')
    try:
        ipaddress.ip_address(host)
    except ValueError:
        port = ''
    if not port.isdigit() or not 0 < int(port) <= 65_535:
        raise argparse.ArgumentTypeError(f"'{text}' is no address with a port")
    return host, int(port)


def lines_in(text: str) -> list[Address | None]:
    """Two addresses for each venue, parted by commas; None for '-', a line that isn't there, of which a venue has one."""
    lines = [None if part == '-' else line_in(part) for part in text.split(',')]
    if len(lines) % 2:
        raise argparse.ArgumentTypeError('each venue has two lines')
    if any(a is None and b is None for a, b in zip(lines[::2], lines[1::2])):
        raise argparse.ArgumentTypeError("'-,-' leaves a venue without a line")
    return lines

"""Addresses of the tools that connect or listen: how they are written, looked up, and listened on."""

import socket


def address_text(address):
    """A socket's address, as it is printed."""
    host, port = address[:2]
    return f"[{host}]:{port}" if ":" in host else f"{host}:{port}"


def address_of(text, usual):
    """The host and the port of HOST:PORT or [HOST]:PORT, or of PORT alone if there is a usual host."""
    host, colon, port = text.rpartition(":")
    if host[:1] + host[-1:] == "[]":
        host = host[1:-1]
    elif ":" in host:
        raise ValueError
    host = host if colon else usual
    if not (host and port.isascii() and port.isdigit() and int(port) < 65536):
        raise ValueError
    return host, int(port)


def address_word(parser, text, usual):
    """The host and the port in an argument of a command."""
    try:
        return address_of(text, usual)
    except ValueError:
        parser.error(f"{text!r} is not an address: write {'[HOST:]PORT' if usual else 'HOST:PORT'}")


def found(address, *flags):
    """The socket addresses of a host and a port. An OSError names the two."""
    try:
        return socket.getaddrinfo(*address, 0, socket.SOCK_STREAM, 0, *flags)
    except (OSError, UnicodeError) as error:
        raise named(error, address) from None


def named(error, address):
    """An error that names the address which it is about."""
    return OSError(error.errno if isinstance(error, OSError) else None, getattr(error, "strerror", None) or
                   "this is not the name of a host", address_text(address))


def connected(address):
    """A connection to a host and a port. An OSError names the two."""
    try:
        return socket.create_connection(address)
    except (OSError, UnicodeError) as error:
        raise named(error, address) from None


def listen(address):
    """A listening socket for each address of this host that the machine has. An OSError names the address."""
    listeners, failure = [], None
    for family, _, _, _, where in found(address, socket.AI_PASSIVE):
        port = listeners[0].getsockname()[1] if listeners else where[1]
        try:
            listeners.append(socket.create_server((where[0], port, *where[2:]), family=family, backlog=4096))
        except OSError as error:
            failure = error
    if failure and not listeners:
        raise OSError(failure.errno, failure.strerror, address_text(address))
    return listeners

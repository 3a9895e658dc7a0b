"""What a service asks of the system: sockets to listen on, files to open, and the ear of systemd."""
import contextlib
import grp
import os
import resource
import socket
import stat

from registry_cli.failures import Failed

HOST = "127.0.0.1"


def bound_port(port: int) -> socket.socket:
    try:
        return socket.create_server((HOST, port))
    except OSError as fault:
        raise Failed(f"port {port} can't be taken: {os.strerror(fault.errno or 0)}") from None


def bound_file(path: str, mode: int, group: str | None) -> socket.socket:
    """In place of one that nobody listens on. Until mode and group are set nobody else reaches it."""
    bound = socket.socket(socket.AF_UNIX)
    try:
        owners = grp.getgrnam(group).gr_gid if group else -1
        if os.path.lexists(path) and stat.S_ISSOCK(os.lstat(path).st_mode):
            if bound.connect_ex(path) == 0:
                raise Failed(f"{path}: another service answers there")
            os.unlink(path)
        before = os.umask(0o177)
        try:
            bound.bind(path)
        finally:
            os.umask(before)
        try:
            os.chown(path, -1, owners)
            os.chmod(path, mode)
            bound.listen()  # who comes from now on waits, and no other service takes the path
        except OSError:
            os.unlink(path)
            raise
    except KeyError:
        raise Failed(f"there is no group {group}") from None
    except OSError as fault:
        raise Failed(f"{path}: a socket can't be made there: {fault.strerror or fault}") from None
    return bound


def allow_files(count: int) -> None:
    """Lets this process open so many files, where it may."""
    soft, hard = resource.getrlimit(resource.RLIMIT_NOFILE)
    wanted = max(soft, count + 100)
    resource.setrlimit(resource.RLIMIT_NOFILE, (wanted if hard == resource.RLIM_INFINITY else min(wanted, hard), hard))


def notify(state: str) -> None:
    """Tells systemd, where it began this."""
    if address := os.environ.get("NOTIFY_SOCKET"):
        with socket.socket(socket.AF_UNIX, socket.SOCK_DGRAM) as sender, contextlib.suppress(OSError):
            sender.sendto(state.encode(), "\0" + address[1:] if address.startswith("@") else address)

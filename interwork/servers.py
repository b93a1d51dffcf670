"""The STUN servers of the networks with NATs. coturn is a TURN server too.

As a program: waits until the server responds; with HOST PORT: until that one accepts connections.
"""
import glob
import os
import shutil
import socket
import struct
import sys
import time

ADDRESS, SECOND_ADDRESS, PORT, USER = "203.0.113.1", "203.0.113.2", 3478, "user:password"
BINDING_REQUEST, MAGIC_COOKIE = 0x0001, 0x2112A442  # RFC 8489
# The Debian package of each, and the program that has to be there.
PACKAGES = {"coturn": ("coturn", "turnserver"), "stund": ("stun-server", "stund"), "ejabberd": ("ejabberd", "ejabberdctl")}


def is_installed(name):
    return shutil.which(PACKAGES[name][1], path="/usr/local/sbin:/usr/local/bin:/usr/sbin:/usr/bin") is not None


def coturn(folder):
    options = f"-n -L {ADDRESS} -E {ADDRESS} --lt-cred-mech -u {USER} -r realm --no-tls --no-dtls --no-cli --log-file /dev/null" \
              f" --simple-log --pidfile {folder}/pid --db {folder}/db --allow-loopback-peers"
    return ["turnserver", *options.split()], {}


def stund(_):
    """A server of RFC 3489, which needs two addresses and two ports."""
    return ["stund", "-h", ADDRESS, "-a", SECOND_ADDRESS, "-p", str(PORT), "-o", str(PORT + 1)], {}


def ejabberd(folder):
    """An XMPP server, started without ejabberdctl, which would leave a process of Erlang running."""
    (folder / "ejabberd.yml").write_text(
        f'hosts: [localhost]\nlisten: [{{port: {PORT}, ip: "{ADDRESS}", transport: udp, module: ejabberd_stun}}]\n')
    code = glob.glob("/usr/lib/*/ejabberd-*/ebin")[-1]
    environment = {"HOME": folder, "EJABBERD_CONFIG_PATH": folder / "ejabberd.yml", "EJABBERD_LOG_PATH": folder / "log",
                   "ERL_CRASH_DUMP": "/dev/null"}
    return (["erl", "-noshell", "-noinput", "-pa", code, "-mnesia", "dir", f'"{folder}/db"', "-s", "ejabberd"],
            {name: str(value) for name, value in environment.items()})


COMMANDS = {"coturn": coturn, "stund": stund, "ejabberd": ejabberd}


def command(name, folder):
    """The command that starts a server, with the environment that it needs besides. What it writes goes into the folder."""
    return COMMANDS[name](folder)


def responds(seconds, server=(ADDRESS, PORT)):
    """Queries a server until it responds. Returns whether it does in time: some listen long before."""
    asking = socket.socket(socket.AF_INET6 if ":" in server[0] else socket.AF_INET, socket.SOCK_DGRAM)
    asking.settimeout(0.1)
    asking.connect(server)
    end = time.monotonic() + seconds
    while time.monotonic() < end:
        try:
            asking.send(struct.pack("!HHI", BINDING_REQUEST, 0, MAGIC_COOKIE) + os.urandom(12))
            return bool(asking.recv(2048))
        except TimeoutError:
            pass
        except ConnectionRefusedError:
            time.sleep(0.1)
    return False


def accepts(seconds, address):
    """Whether a server accepts connections in time."""
    end = time.monotonic() + seconds
    while time.monotonic() < end:
        try:
            socket.create_connection(address).close()
            return True
        except ConnectionRefusedError:
            time.sleep(0.1)
    return False


if __name__ == "__main__":
    is_there = accepts(30, (sys.argv[1], int(sys.argv[2]))) if sys.argv[1:] else responds(30)
    sys.exit(0 if is_there else 1)

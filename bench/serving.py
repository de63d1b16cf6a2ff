"""What the benches of a running server have in common: its definitions, its start and its end, requests, and devices that send frames."""
import contextlib
import json
import multiprocessing
import os
import re
import shutil
import socket
import struct
import subprocess
import sys
import tempfile
import time
from pathlib import Path

TOP = Path(__file__).resolve().parent.parent
sys.path.insert(0, str(TOP / "demo" / "live"))

from client import Server

HOST = "127.0.0.1"
HERTZ = os.sysconf("SC_CLK_TCK")
PACKET = 100
DEFINITIONS = "".join(
    f"TELEMETRY T{k} P BIG_ENDIAN\n  APPEND_ITEM LENGTH 16 UINT\n  APPEND_ITEM NUMBER 32 UINT\n  APPEND_ITEM SENT 64 UINT\n" for k in range(16)
) + """COMMAND T0 C BIG_ENDIAN
  APPEND_PARAMETER LENGTH 16 UINT 14 14 14
  APPEND_PARAMETER NUMBER 32 UINT MIN MAX 0
  APPEND_PARAMETER SENT 64 UINT MIN MAX 0
"""
# A packet of 100 items, and one whose value changes its limits state with each packet.
ITEMS = "TELEMETRY T0 P BIG_ENDIAN\n  APPEND_ITEM LENGTH 16 UINT\n" + "".join(
    f"  APPEND_ITEM I{number} 16 UINT\n    POLY_READ_CONVERSION 0 0.01\n" for number in range(1, 100)
)
LIMITS = "TELEMETRY T0 P BIG_ENDIAN\n  APPEND_ITEM LENGTH 16 UINT\n  APPEND_ITEM V 32 UINT\n    LIMITS DEFAULT 1 ENABLED 10 20 30 40\n"


def free_ports(count):
    doors = [socket.create_server((HOST, 0)) for _ in range(count)]
    ports = [door.getsockname()[1] for door in doors]
    for door in doors:
        door.close()
    return ports


def used(pid):
    """The seconds of a processor that a process and its children have used."""
    total = 0
    for one in [pid, *map(int, Path(f"/proc/{pid}/task/{pid}/children").read_text().split())]:
        fields = Path(f"/proc/{one}/stat").read_text().rsplit(")", 1)[1].split()
        total += int(fields[11]) + int(fields[12])
    return total / HERTZ


def memory(pid):
    [line] = [line for line in Path(f"/proc/{pid}/status").read_text().splitlines() if line.startswith("VmRSS")]
    return int(line.split()[1]) * 1024


@contextlib.contextmanager
def serving(program, devices, desks=4, definitions=DEFINITIONS, under=(), more=None):
    """A server with so many interfaces, which connect to devices on the ports that are given, and a router of the first one; under another command,
    and with more in its environment, where these are given."""
    *ports, out, api = free_ports(devices + 2)
    site = f"PORT CTS_API {api}\nDESKS {desks}\n"
    for k, port in enumerate(ports):
        site += f"INTERFACE I{k} tcpip_client_interface.rb {HOST} {port} {port} nil nil LENGTH 0 16 0 1\n  TARGET T{k}\n  RECONNECT_DELAY 0.1\n"
    if devices:
        site += f"ROUTER OUT tcpip_server_interface.rb {out} {out} nil nil PREIDENTIFIED\n  ROUTE I0\n"
    with tempfile.TemporaryDirectory() as folder:
        Path(folder, "definitions.txt").write_text(definitions, encoding="utf-8")
        Path(folder, "site.txt").write_text(site, encoding="utf-8")
        command, environment = [*under, program, "serve", "definitions.txt", "site.txt"], os.environ | (more or {})
        process = subprocess.Popen(command, cwd=folder, stdout=subprocess.PIPE, text=True, env=environment)
        try:
            if process.stdout.readline() != "READY\n":
                sys.exit("bench: the program has no serve")
            yield process, api, out, ports
            Server(api).ask("stop_server")
            process.wait(120)
        finally:
            process.kill()
            process.wait()


def most_memory(pid):
    [line] = [line for line in Path(f"/proc/{pid}/status").read_text().splitlines() if line.startswith("VmHWM")]
    return int(line.split()[1]) * 1024


def reach(port):
    for _ in range(200):
        with contextlib.suppress(OSError):
            peer = socket.create_connection((HOST, port), 5)
            peer.settimeout(60)
            return peer
        time.sleep(0.02)
    sys.exit(f"bench: nobody listens on {port}")


@contextlib.contextmanager
def nginx(answer):
    """nginx with one worker, which gives this answer on connections that it keeps."""
    [port] = free_ports(1)
    with tempfile.TemporaryDirectory() as folder:
        Path(folder, "index.html").write_text(answer, encoding="utf-8")
        os.chmod(folder, 0o755)
        Path(folder, "nginx.conf").write_text(
            f"daemon off; master_process off; pid {folder}/pid; error_log {folder}/error; events {{}} http {{ access_log off; keepalive_requests 100000000; "
            f"server {{ listen {HOST}:{port}; root {folder}; }} }}\n",
            encoding="utf-8",
        )
        process = subprocess.Popen([shutil.which("nginx") or "/usr/sbin/nginx", "-c", f"{folder}/nginx.conf"], stderr=subprocess.DEVNULL)
        try:
            reach(port)
            yield process, port
        finally:
            process.terminate()
            process.wait()


def post(method, *params):
    body = json.dumps({"jsonrpc": "2.0", "id": 1, "method": method, "params": list(params)}).encode()
    return b"POST / HTTP/1.1\r\nHost: x\r\nContent-Length: %d\r\n\r\n" % len(body) + body


def response_size(peer):
    """The bytes of the next response, which is read."""
    data = b""
    while (end := data.find(b"\r\n\r\n")) < 0:
        data += peer.recv(65536)
    size = end + 4 + int(re.search(rb"content-length: (\d+)", data[:end], re.I).group(1))
    while len(data) < size:
        data += peer.recv(65536)
    return size


def frames(count, first=0):
    return b"".join(struct.pack(">HI", PACKET, first + number) + bytes(PACKET - 6) for number in range(count))


def device(door, count, start):
    """Gives so many frames to whoever connects, from the start on where one is given, and waits for its end."""
    data = frames(count)
    with door:
        peer, _ = door.accept()
        with peer:
            if start:
                start.wait()
            peer.sendall(data)
            peer.shutdown(socket.SHUT_WR)
            while peer.recv(65536):
                pass


def started(ports, count, start=None):
    processes = [multiprocessing.Process(target=device, args=(socket.create_server((HOST, port)), count, start), daemon=True) for port in ports]
    for process in processes:
        process.start()
    return processes


def joined(processes):
    for process in processes:
        process.join()

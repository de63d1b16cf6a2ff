#!/usr/bin/env python3
"""A client of the server's JSON methods, by python's own http.client. `client.py METHOD PARAM ..` asks one method, as in
`client.py tlm_with_units "SAT HOUSEKEEPING BUS"`: each param is taken as JSON where it is JSON, else as a text. Printed are the result or the
error, and the front: how many entries the history had when it was asked."""
import argparse
import http.client
import json
import select
import sys

HOST = "127.0.0.1"


class Server:
    """One connection, which is made again where the server has ended it. A request is sent once: where its reply is lost that is an error."""

    def __init__(self, port, timeout=60):
        self.connection = http.client.HTTPConnection(HOST, port, timeout=timeout)
        self.number = 0
        self.front = 0

    def post(self, body):
        """The response to a body. A connection that ended between two requests, which has something to read then, is made again."""
        if self.connection.sock and select.select([self.connection.sock], [], [], 0)[0]:
            self.connection.close()
        self.connection.request("POST", "/", body, {"Content-Type": "application/json-rpc"})
        return self.connection.getresponse()

    def ask(self, method, *params):
        """What a method answers: its result, or its error."""
        self.number += 1
        response = self.post(json.dumps({"jsonrpc": "2.0", "id": self.number, "method": method, "params": list(params)}))
        text = response.read()
        if response.status != 200:
            raise RuntimeError(f"{method}: status {response.status}")
        front = int(response.headers["X-Cts-Front"])
        if front < self.front:
            raise RuntimeError(f"{method}: the front fell from {self.front} to {front}")
        self.front = front
        reply = json.loads(text)
        if reply["id"] != self.number:
            raise RuntimeError(f"{method}: the id is {reply['id']}")
        return reply["result"] if "result" in reply else reply["error"]


def as_param(word):
    try:
        return json.loads(word)
    except ValueError:
        return word


def main():
    words = argparse.ArgumentParser(description=__doc__)
    words.add_argument("--port", type=int, default=7777)
    words.add_argument("method")
    words.add_argument("params", nargs="*")
    words = words.parse_args()
    server = Server(words.port)
    found = server.ask(words.method, *map(as_param, words.params))
    print(json.dumps(found), f"(front {server.front})")
    return 0


if __name__ == "__main__":
    sys.exit(main())

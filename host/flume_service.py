"""What a service of flume-host imports. Each function asks the host, and raises Refused."""
import json
import os
import socket
from typing import Any


class Refused(Exception):
    """The host refused a request: why, as F8 or 'no such name', and the tag or right it names."""
    def __init__(self, why: str, names: str) -> None:
        super().__init__(f"{why} {names}".strip())
        self.why, self.names = why, names


class Host:
    """The host. One request is under way at a time. A message has 1,024 bytes at most, and goes
    under the labels of the service, or under secrecy=[..] and integrity=[..] where these are
    given. Tags are given as alice/calendar or by handles, and rights as -alice/calendar."""
    def __init__(self) -> None:
        self.socket = socket.socket(fileno=int(os.environ["FLUME_SOCKET"]))

    def ask(self, do: str, **keys: Any) -> dict[str, Any]:
        """Returns the answer to a request. Raises Refused, and EOFError where the host is gone."""
        self.socket.send(json.dumps({"do": do, **keys}).encode())
        answer: dict[str, Any] = json.loads(self.socket.recv(65_536) or b"{}")
        if not answer:
            raise EOFError
        if "refused" in answer:
            raise Refused(answer["refused"], answer.get("names", ""))
        return answer

    def label(self, **labels: list[str]) -> None:
        self.ask("label", **labels)

    def tag(self, policy: str = "export") -> str:
        return str(self.ask("tag", policy=policy)["tag"])

    def send(self, to: str, content: bytes, **labels: list[str]) -> None:
        self.ask("send", to=to, bytes=content.hex(), **labels)

    def emit(self, to: str, content: bytes, **labels: list[str]) -> None:
        self.ask("emit", to=to, bytes=content.hex(), **labels)

    def grant(self, to: str, rights: list[str], **labels: list[str]) -> None:
        self.ask("grant", to=to, rights=rights, **labels)

    def receive(self, wait: bool = True) -> tuple[bytes, list[str]] | None:
        """Returns the bytes and the rights of the next message, or none where it does not wait."""
        answer = self.ask("receive", wait=wait)
        return (bytes.fromhex(answer["bytes"]), answer["rights"]) if answer["is"] else None

    def may(self, right: str) -> bool:
        return bool(self.ask("ask", right=right)["is"])

    def spawn(self, service: str, rights: list[str]) -> str:
        return str(self.ask("spawn", service=service, rights=rights)["service"])

    def exit(self) -> None:
        self.ask("exit")

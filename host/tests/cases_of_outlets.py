"""Outlets: nothing goes out but by an emission of the outlet's process, each with its number."""
import contextlib
import json
import socket
import threading

from rig import ALICE, SIGNALS, Room, case, expect, outlet, service

HERS = outlet("hers", 'secrecy = ["alice/calendar"]', 'rights = ["-alice/calendar"]')


def emissions(room: Room, name):
    """Returns the bytes of an outlet's emissions, in order, each behind the node's answer `out`."""
    found, out, pids = [], None, {}
    for it in room.journal():
        if it["kind"] == "started" and "outlet" in it:
            pids[it["pid"]] = it["outlet"]
        if it["kind"] == "line" and it["answer"][0].startswith("out "):
            out = pids[it["line"].split(" ")[1]], it["answer"][0][4:]
        if it["kind"] == "emission" and it["outlet"] == name:
            expect(out == (name, it["bytes"] or "none"), "an emission behind", out, it)
            found.append(bytes.fromhex(it["bytes"]))
    return found


@case
def nothing_goes_out_without_an_emission(room):
    """A message to the outlet arrives, the node says `out`, and then it is in the file."""
    code = "for k in range(20): host.emit('out', b'%d' % k * (k * 20))\ntell('end')\nstay()"
    room.configure(outlet("out") + service("one", code)).init().start()
    room.until(lambda: room.read("out").endswith("end\n"), "all that it says")
    room.until(lambda: len(room.entries("done")) == 21, "all is done")
    expect(room.end() == 0, room.said())
    wanted = [b"%d" % k * (k * 20) for k in range(20)] + [b"end\n"]
    expect(emissions(room, "out") == wanted, emissions(room, "out"))
    expect(room.read("out").encode() == b"".join(wanted), room.read("out"))
    numbers = [it["number"] for it in room.entries("emission")]
    expect(numbers == list(range(1, 22)) == [it["number"] for it in room.entries("done")], numbers)


@case
def one_outlet_tells_nothing_of_another(room):
    """Emissions are numbered by outlet: a log that all read does not count Alice's."""
    code = "for k in range(7): tell('secret', 'hers')\nhost.send('two', b'')\nstay()"
    text = ALICE + HERS + outlet("log", kind="log")
    text += service("one", code, 'secrecy = ["alice/calendar"]')
    two = "time.sleep(2)\nfor k in range(3): host.emit('log', b'x')\nstay()"
    room.configure(text + service("two", two)).init().start()
    room.until(lambda: room.read("log").count("\n") == 3, "the log")
    room.until(lambda: room.read("hers").count("secret") == 7, "her outlet")
    numbers = [json.loads(line)["emission"] for line in room.read("log").splitlines()]
    expect(numbers == [1, 2, 3], numbers)


@case
def a_log_and_standard_output(room):
    code = "for to in ('log', 'screen'): host.emit(to, b'\\xff\\n hi')\nstay()"
    text = outlet("log", kind="log") + outlet("screen", kind="standard-output")
    room.configure(text + service("one", code)).init().start()
    room.until(lambda: room.read("wrote") and room.read("log"), "both")
    [entry] = [json.loads(line) for line in room.read("log").splitlines()]
    expect(entry["bytes"] == "ff0a206869" and entry["emission"] == 1, entry)
    expect((room.folder / "wrote").read_bytes() == b"\xff\n hi\n", room.read("wrote"))


@case
def outlets_and_labels(room):
    """What Alice's data goes to: an outlet with her tag and her right, and no other."""
    code = "for to in ('out', 'marked', 'hers'): host.emit(to, b'secret')\nstay()"
    text = ALICE + outlet("out") + outlet("marked", 'secrecy = ["alice/calendar"]') + HERS
    text += service("one", code, 'secrecy = ["alice/calendar"]')
    room.configure(text).init().start()
    room.until(lambda: room.read("hers") == "secret", "what goes out")
    expect(room.end() == 0, room.said())
    expect(room.read("out") == room.read("marked") == "", "what must not go out")
    emitted = [answer for _, answer in room.lines("emit")]
    expect(emitted == ["refused F8 1.1", "out 736563726574"], emitted)
    expect([it["outlet"] for it in room.entries("emission")] == ["hers"], "emissions")


@case
def an_outlet_that_lowers_a_label(room):
    """A declassifier writes under a lower label than its own; another one may not."""
    code = "tell(tried(host.emit, 'out', b'day', secrecy=[]), 'hers')\nstay()"
    text = ALICE + outlet("out") + HERS
    text += service("right", code, 'secrecy = ["alice/calendar"]', 'rights = ["-alice/calendar"]')
    text += service("wrong", code, 'secrecy = ["alice/calendar"]')
    room.configure(text).init().start()
    room.until(lambda: room.read("hers").count("\n") == 2, "what both tell")
    expect(sorted(room.read("hers").split("\n")) == ["", "F4 alice/calendar", "ok"], "of both")
    expect(room.read("out") == "day", room.read("out"))


class Listener:
    """A TCP server that keeps what it is sent, by connection."""

    def __init__(self, port=0):
        self.socket = socket.create_server(("127.0.0.1", port))
        self.port, self.heard, self.open = self.socket.getsockname()[1], [], []
        threading.Thread(target=self.listen, daemon=True).start()

    def listen(self):
        while True:
            try:
                connection, _ = self.socket.accept()
            except OSError:
                return
            self.open.append(connection)
            self.heard.append(b"")
            # one is reset that is closed before its other end has read what was said here
            with contextlib.suppress(ConnectionResetError):
                while content := connection.recv(65536):
                    self.heard[-1] += content

    def end(self):
        self.socket.shutdown(socket.SHUT_RDWR)
        self.socket.close()
        for it in self.open:
            with contextlib.suppress(OSError):
                it.shutdown(socket.SHUT_RDWR)


@case
def an_address(room):
    """Bytes go to a TCP address that the host dials, by one connection. Where something was said
    there, or it was closed, the host dials anew, and while nobody listens they wait."""
    listener = Listener()
    code = "for k in range(3): host.emit('far', b'%d.' % k)\nhost.receive()"
    later = "wait_for('said')\nhost.emit('far', b'3.')\nwait_for('go')\n" \
            "for it in b'4.', b'5.': host.emit('far', it)\nstay()"
    far = f'[outlets.far]\nkind = "tcp"\nto = "127.0.0.1:{listener.port}"\n'
    room.let("")
    room.configure(far + service("one", code) + service("two", later, SIGNALS)).init().start()
    room.until(lambda: listener.heard == [b"0.1.2."], f"three, of {listener.heard}")
    listener.open[0].sendall(b"hi")
    room.let("said")
    room.until(lambda: listener.heard == [b"0.1.2.", b"3."], f"one more, of {listener.heard}")
    listener.end()
    room.let("go")
    room.until(lambda: len(room.entries("emission")) >= 5, "an emission to nobody")
    again = Listener(listener.port)
    room.until(lambda: again.heard == [b"4.5."], f"the rest, of {again.heard}")
    again.end()


@case
def what_was_left_undone_is_done_after_a_crash(room):
    """An emission is at least once: the host is killed between the verdict and the deed."""
    listener = Listener()
    port = listener.port
    listener.end()
    far = f'[outlets.far]\nkind = "tcp"\nto = "127.0.0.1:{port}"\n'
    room.configure(far + service("one", "host.emit('far', b'once')", "restarts = false")).init()
    room.start()
    room.until(lambda: room.entries("emission"), "an emission")
    room.end(9)
    expect(not room.entries("done"), "it went out to nobody")
    again = Listener(port)
    room.configure(far).start()
    room.until(lambda: again.heard == [b"once"], "what was left undone")
    room.until(lambda: room.entries("done", number=1), "that it is done")
    expect(room.end() == 0, room.said())
    again.end()


@case
def a_journal_that_is_full_begins_anew(room):
    """What is undone goes along, and numbers go on."""
    code = "for k in range(150): host.emit('out', b'x' * 1000)\ntell('end')\nstay()"
    listener = Listener()
    port = listener.port
    listener.end()
    far = f'[outlets.far]\nkind = "tcp"\nto = "127.0.0.1:{port}"\n'
    text = outlet("out") + far + service("one", "host.emit('far', b'once')\n" + code)
    head = "journal_bytes = 65536\njournal_files = 3\n"
    room.configure(text, head=head).init().start()
    room.until(lambda: room.read("out").endswith("end\n"), "all that it says")
    expect(len(list((room.folder / "it").glob("journal*"))) == 3, "files")
    sizes = [it.stat().st_size for it in (room.folder / "it").glob("journal*")]
    expect(max(sizes) < 90_000, sizes)
    expect(room.end() == 0, room.said())
    again = Listener(port)
    room.configure(far).start()
    room.until(lambda: again.heard == [b"once"], "what was left undone")
    expect(room.end() == 0, room.said())
    again.end()

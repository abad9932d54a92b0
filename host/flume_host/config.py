"""The configuration of a host: what its TOML says, by a table of its keys, or all that is wrong."""
import contextlib
import importlib.util
import os
import pathlib
import re
import tomllib
import types
from typing import Any, Iterator

Table = types.SimpleNamespace
NAME, TEXT, ADDRESS = r"[a-z][a-z0-9_]{0,31}", r"[^\0]*", r"[a-z0-9.-]{1,255}:[1-9][0-9]{0,4}"
TAG, RIGHT, POLICY = f"{NAME}/{NAME}", f"[+-]{NAME}/{NAME}", "export|read|integrity"
NUMBER, COUNT, GIFT_BYTES = range(1, 1 << 32), range(0, 1 << 31), 65_536

# Each key of docs/HOST.md, with the kind of its value, and what it is where it lacks, if it may. A
# kind is the form of a text, the range of a number, bool, a list of one, a table of keys, or names.
NODE = {"number": (NUMBER, ...), "directory": (TEXT, ...), "program": (TEXT, "flume-node"),
        "keys": ([TEXT], ()), "journal_bytes": (range(65_536, 1 << 40), 64 << 20),
        "journal_files": (range(2, 1001), 8)}
CLUSTER = {"name": (NAME, ...), "broker": (ADDRESS, ...), "ca": (TEXT, ""), "patience": (COUNT, 10),
           "certificate": (TEXT, ""), "private_key": (TEXT, ""), "seconds": (range(1, 3600), 5)}
PEER = {"number": (NUMBER, ...), "services": ([NAME], ()), "tags": ([TAG], ())}
GIFT = {"to": (TEXT, ...), "file": (TEXT, ""), "tags": ([TAG], ()), "rights": ([RIGHT], ())}
OWNER: dict[str, Any] = {"tags": ({NAME: POLICY}, {}), "gives": ([GIFT], ())}
START = {"secrecy": ([TAG], ()), "integrity": ([TAG], ()), "rights": ([RIGHT], ())}
SERVICE = START | {
    "command": ([TEXT], ...), "sees": ([TEXT], ()), "tags": ([TAG], ()), "spawns": ([NAME], ()),
    "children": (COUNT, 16), "starts": (bool, True), "restarts": (bool, True),
    "memory": (range(1 << 20, 1 << 50), 512 << 20), "processes": (range(3, 1 << 20), 32),
    "seconds": (COUNT, 0), "orders": (COUNT, 0), "orders_an_hour": (COUNT, 0)}
OUTLET = START | {"kind": ("file|log|standard-output|tcp", ...), "to": (TEXT, "")}
CONFIG = {"node": (NODE, ...), "peers": ({NAME: PEER}, {}), "owners": ({NAME: OWNER}, {}),
          "services": ({NAME: SERVICE}, {}), "outlets": ({NAME: OUTLET}, {}),
          "cluster": (CLUSTER, Table(name="", ca="", certificate="", private_key=""))}
TYPES: dict[Any, Any] = {str: (str, "a text"), list: (list, "a list"), dict: (dict, "a table"),
                         type: (bool, "true or false"), range: (int, "a whole number")}


class Unfit(Exception):
    """Why a host cannot run, a problem a line, and perhaps the status with which it ends."""


@contextlib.contextmanager
def unfit(what: object) -> Iterator[None]:
    """Raises Unfit, with what it is about, in place of OSError and ValueError."""
    try:
        yield
    except (OSError, ValueError) as why:
        raise Unfit(f"{what}: {why}") from None


def read_config(path: pathlib.Path) -> Table:
    """Returns the configuration of a file, and goes to its folder. Raises Unfit with each problem,
    by key, or by line where it is no TOML."""
    problems: list[str] = []
    with unfit(path):
        os.chdir(path.parent)
        config: Table = value(CONFIG, tomllib.loads(path.read_text("utf-8")), "", problems)
    if not problems:
        # how the node starts, tags of owners here, services that are no children, each one's number
        place = ["--node", str(config.node.number), "--dir", os.path.abspath(config.node.directory)]
        config.path, config.node.words = path, [config.node.program, *place]
        config.tags = {f"{name}/{it}" for name, one in config.owners.items() for it in one.tags}
        config.started = [name for name, it in config.services.items() if it.starts]
        config.places = dict.fromkeys(config.started, config.node.number) | {
            it: peer.number for peer in config.peers.values() for it in peer.services}
        problems = [str(it) for it in (*wrong_names(config), *wrong_files(config)) if it]
    if problems:
        raise Unfit("\n".join(problems))
    return config


def value(kind: Any, content: Any, key: str, problems: list[str]) -> Any:
    """Returns a value of a kind, with the keys of a table as names, or notes what is wrong."""
    wanted, called = TYPES[type(kind)]
    if type(content) is not wanted:
        problems.append(f"{key}: must be {called}")
    elif wanted is list:
        return tuple(value(kind[0], it, f"{key}[{at}]", problems) for at, it in enumerate(content))
    elif wanted is dict:
        by_name, dot, no_key = NAME in kind, f"{key}." if key else "", "is no key here"
        if by_name:
            kind = {it: (kind[NAME], ...) for it in content if re.fullmatch(NAME, it)}
            no_key = "is no name of lower-case letters, digits and _, at most 32"
        problems += [f"{dot}{it}: {no_key}" for it in content if it not in kind]
        found = {it: value(inner, content[it], dot + it, problems) if it in content else default
                 for it, (inner, default) in kind.items()}
        problems += [f"{dot}{it}: is missing" for it in found if found[it] is ...]
        return found if by_name else Table(key=key, **found)
    elif wanted is int and content not in kind:
        problems.append(f"{key}: must be from {kind.start} to {kind.stop - 1}")
    elif wanted is str and not re.fullmatch(kind, content):
        problems.append(f"{key}: must be one of {kind.replace('|', ', ')}" if "|" in kind else
                        f"{key}: {content!r} is none of its texts")
    return content


def wrong_names(config: Table) -> Iterator[object]:
    """Yields a text of each name that is not there, or twice, and of all others what is false."""
    here, far = config.tags, {it for peer in config.peers.values() for it in peer.tags}
    names = [*config.tags, *config.services, f"the number {config.node.number}"]
    for peer in config.peers.values():
        names += [*peer.services, *peer.tags, f"the number {peer.number}"]
    for name in {*names}:
        yield names.count(name) > 1 and f"peers: {name} is here, or at two"
    for name, owner in config.owners.items():
        own = {f"{name}/{it}" for it in owner.tags}
        for gift in owner.gives:
            is_file = os.path.isfile(gift.file) and os.path.getsize(gift.file) <= GIFT_BYTES
            yield (not is_file and (gift.file or not gift.rights)
                   and f"{gift.key}: {gift.file} is no file of at most {GIFT_BYTES} bytes")
            yield gift.to not in config.places and f"{gift.key}: no service {gift.to} is started"
            for tag in {*gift.tags, *(it[1:] for it in gift.rights)} - own:
                yield f"{gift.key}: {tag} is no tag of its own"
    for it in config.services.values():
        handed = {*it.integrity, *(right[1:] for right in it.rights)}
        for tag in handed - here | {*it.secrecy, *it.tags} - here - far:
            yield f"{it.key}: no owner has the tag {tag}"
        for child in {*it.spawns} - {*config.services}.difference(config.started):
            yield f"{it.key}.spawns: {child} is no service with starts = false"
        yield not it.starts and (it.secrecy or it.integrity) and f"{it.key}: inherits its labels"
    for it in config.outlets.values():
        for tag in {*it.secrecy, *it.integrity, *(right[1:] for right in it.rights)} - here:
            yield f"{it.key}: no owner here has the tag {tag}"


def wrong_files(config: Table) -> Iterator[object]:
    """Yields the same of files, also where a service sees what the host keeps, or a socket."""
    cluster, has_name = config.cluster, bool(config.cluster.name)
    files = [cluster.ca, cluster.certificate, cluster.private_key]
    yield config.peers and not has_name and "cluster: is missing"
    yield has_name and not config.node.keys and "node.keys: is missing"
    yield (has_name and not importlib.util.find_spec("asyncio_mqtt")
           and "cluster: python3-asyncio-mqtt lacks, which host/install installs")
    yield (any(files) and not all(map(os.path.isfile, files))
           and f"cluster: ca, certificate and private_key must be files: {files}")
    hidden = [config.node.directory, *config.node.keys, cluster.private_key or os.devnull]
    for out in config.outlets.values():
        is_file, is_address = out.kind in ("file", "log"), re.fullmatch(ADDRESS, out.to)
        yield is_file and not out.to and f"{out.key}.to: is missing"
        yield out.kind == "tcp" and not is_address and f"{out.key}.to: must be a host and a port"
        hidden += [out.to] * is_file
    for it in config.services.values():
        yield not it.command and f"{it.key}.command: must have a program"
        paths = [pathlib.Path(path).resolve() for path in it.sees]
        for path in paths:
            is_there = path.exists() and not path.is_socket()
            yield not is_there and f"{it.key}.sees: {path} is not there, or a socket"
            for kept in (pathlib.Path(it).resolve() for it in hidden):
                shows = path.is_relative_to(kept) or kept.is_relative_to(path)
                yield shows and f"{it.key}.sees: {path} shows {kept}"
        called = ["flume_service.py", *(path.name for path in paths)]
        for one in {*called}:
            yield called.count(one) > 1 and f"{it.key}.sees: two are called {one}"

"""The tables of FRR's routers: what is asked of a router's shell, and what the answers say in the topology's names.

A router's tables are a file NODE.json: {"router": NODE, "tables": {COMMAND: its answer}}; an answer is JSON, or text where FRR has no JSON.
"""

import concurrent.futures
import ipaddress
import json
import re
import subprocess
from dataclasses import dataclass
from pathlib import Path

from mplsnet.files import Fault, bytes_of

VERSION, PORTS, LFIB_TEXT = "show version", "show interface json", "show mpls table"
ROUTES, ADJACENCIES, LDP = "show ip route json", "show ip ospf neighbor json", "show mpls ldp neighbor json"
BINDINGS, LFIB, SESSIONS = "show mpls ldp binding json", "show mpls table json", "show bgp ipv4 vpn summary json"
VPN, VRF_PATHS, VRF_ROUTES = "show bgp ipv4 vpn json", "show bgp vrf all ipv4 unicast json", "show ip route vrf all json"
COMMANDS = (VERSION, PORTS, ROUTES, ADJACENCIES, LDP, BINDINGS, LFIB, LFIB_TEXT, SESSIONS, VPN, VRF_PATHS, VRF_ROUTES)
IMPLICIT_NULL, EXPLICIT_NULL = 3, 0
NULLS = {"imp-null": IMPLICIT_NULL, "exp-null": EXPLICIT_NULL}
SECONDS = 60  # for an answer


# Collected.


def answer(words, command):
    """What a router's shell answers to the command."""
    try:
        ran = subprocess.run([*words, "-c", command], stdin=subprocess.DEVNULL, capture_output=True, text=True, timeout=SECONDS, errors="replace")
    except OSError as error:
        raise Fault(f"{words[0]}: {error.strerror}", 3)
    except subprocess.TimeoutExpired:
        raise Fault(f"{' '.join(words)} -c '{command}': no answer in {SECONDS} seconds", 3)
    said = (ran.stderr + ran.stdout).strip().splitlines()
    if any(line.endswith("is not running") for line in said):
        return None  # a router without this daemon
    if ran.returncode != 0:
        said = said or [f"status {ran.returncode}"]
        raise Fault(f"{' '.join(words)} -c '{command}': {said[-1]}", 3)
    return read_answer(f"{' '.join(words)} -c '{command}'", command, ran.stdout)


def read_answer(place, command, text):
    """An answer as it is kept: of JSON its value, of several values a list of them; else its lines."""
    if not command.endswith(" json"):
        return text.rstrip().splitlines()
    if text.lstrip().startswith("%"):
        return None  # FRR says so where it has no such table
    decoder, found, at = json.JSONDecoder(), [], 0
    while text[at:].strip():
        at += len(text[at:]) - len(text[at:].lstrip())
        try:
            value, at = decoder.raw_decode(text, at)
        except ValueError as error:
            raise Fault(f"{place}: not JSON: {error}", 3)
        found.append(value)
    return found[0] if len(found) == 1 else found or {}


def collected(routers, commands=COMMANDS, jobs=8):
    """The tables of each router, by its shell's words."""
    with concurrent.futures.ThreadPoolExecutor(jobs) as pool:
        asked = {(name, command): pool.submit(answer, words, command) for name, words in routers.items() for command in commands}
        try:
            return {name: {command: asked[name, command].result() for command in commands} for name in routers}
        except Fault:
            pool.shutdown(cancel_futures=True)
            raise


def write_tables(folder, tables):
    """A file for each router."""
    try:
        Path(folder).mkdir(parents=True, exist_ok=True)
        for name, found in tables.items():
            (Path(folder) / f"{name}.json").write_text(json.dumps({"router": name, "tables": found}, indent=1) + "\n")
    except OSError as error:
        raise Fault(f"{error.filename or folder}: {error.strerror}", 3)


# Read.


@dataclass(frozen=True)
class Hop:
    """A next hop of a route: its address, its interface, the VRF in which it is, its labels, and whether another one leads to it."""

    address: str | None
    port: str | None
    vrf: str | None
    labels: tuple
    is_recursive: bool


def hop_of(found):
    labels = found.get("labels") or ()
    return Hop(found.get("ip"), found.get("interfaceName"), found.get("vrf"), tuple(int(label) for label in labels), bool(found.get("recursive")))


class Router:
    """What a router's tables say, by addresses."""

    def __init__(self, path, found):
        self.path, self.found = path, found

    def table(self, command):
        """The answer to the command, of the kind that it has to be; an empty one where the router has no such table."""
        value = self.found.get(command)
        empty = [] if command in (LFIB_TEXT, VERSION, VRF_ROUTES) else {}
        if value is None:
            return empty
        if command == VRF_ROUTES and isinstance(value, dict):
            value = [value]
        if not isinstance(value, type(empty)):
            raise Fault(f"{self.path}: '{command}': isn't {'an object' if empty == {} else 'a list'}", 3)
        return value

    def version(self):
        """FRR's version as a tuple of numbers, none where it isn't told."""
        for line in self.table(VERSION):
            told = re.match(r"FRRouting (\d+)\.(\d+)(?:\.(\d+))?", line)
            if told:
                return tuple(int(number or 0) for number in told.groups())
        return None

    def addresses(self):
        """The router's own addresses of IPv4."""
        ports = self.table(PORTS).values()
        return [one["address"].partition("/")[0] for port in ports for one in port.get("ipAddresses", []) if ":" not in one["address"]]

    def near(self):
        """Of each neighbour of OSPF that is Full (its router's identifier, its address on the link)."""
        found = self.table(ADJACENCIES).get("neighbors", {})
        all_of = [(name, one) for name, ends in found.items() for one in ends]
        return [(name, one.get("ifaceAddress") or one.get("address")) for name, one in all_of if str(one.get("nbrState") or one.get("state")).startswith("Full")]

    def ldp(self):
        """The identifiers of neighbours whose LDP session is operational."""
        return {one["neighborId"] for one in self.table(LDP).get("neighbors", []) if one.get("state") == "OPERATIONAL"}

    def bindings(self):
        """The labels given for prefixes, and those heard: {prefix: label}, {(prefix, identifier): label}."""
        given, heard = {}, {}
        for one in self.table(BINDINGS).get("bindings", []):
            local, remote = (label_of(one.get(key)) for key in ("localLabel", "remoteLabel"))
            if local is not None:
                given[one["prefix"]] = local
            if remote is not None:
                heard[one["prefix"], one["neighborId"]] = remote
        return given, heard

    def lfib(self):
        """What becomes of a label: {label: [(its protocol, the labels that go out, the next hop's address or none, the interface or VRF or none)]}."""
        found = {}
        for label, entry in self.table(LFIB).items():
            for one in entry.get("nexthops", []):
                out = one.get("outLabelStack") or ([one["outLabel"]] if "outLabel" in one else [])
                found.setdefault(int(label), []).append((one.get("type"), tuple(map(int, out)), one.get("nexthop"), one.get("interface")))
        for line in self.table(LFIB_TEXT):
            told = re.match(r"\s*(\d+)\s+BGP\s+(\S+)\s+\S+\s*\Z", line)
            if told and not is_address(told[2]):
                found[int(told[1])] = [("BGP", (), None, told[2])]
        return found

    def sessions(self):
        """The addresses of BGP's peers with which a session is Established."""
        return {peer for peer, one in self.table(SESSIONS).get("peers", {}).items() if one.get("state") == "Established"}

    def vpn(self):
        """The VPN routes: {(RD, prefix): [path]}."""
        routes = self.table(VPN).get("routes", {}).get("routeDistinguishers", {})
        return {(rd, prefix): paths for rd, found in routes.items() for prefix, paths in found.items()}

    def vrf_paths(self):
        """BGP's paths in VRFs: {(VRF, prefix): [path]}."""
        return {(vrf, prefix): paths for vrf, found in self.table(VRF_PATHS).items() for prefix, paths in found.get("routes", {}).items()}

    def routes(self):
        """The selected routes: {prefix: (protocol, metric, [hop])}."""
        return selected(self.table(ROUTES))

    def vrf_routes(self):
        """The selected routes in VRFs: {(VRF, prefix): (protocol, metric, [hop])}."""
        found = {}
        for table in self.table(VRF_ROUTES):
            for prefix, entries in table.items():
                for entry in entries:
                    if entry.get("selected"):
                        found[entry.get("vrfName"), prefix] = route_of(entry)
        return found


def label_of(word):
    """A label as it is told; none where none is."""
    word = str(word)
    return NULLS[word] if word in NULLS else int(word) if word.isdecimal() else None


def is_address(word):
    try:
        return bool(ipaddress.ip_address(word))
    except ValueError:
        return False


def selected(table):
    return {prefix: route_of(entry) for prefix, entries in table.items() for entry in entries if entry.get("selected")}


def route_of(entry):
    """A route: its protocol, its metric, and the next hops that are in use."""
    hops = [hop_of(one) for one in entry.get("nexthops", []) if one.get("active", True) and not one.get("duplicate")]
    return entry.get("protocol"), entry.get("metric"), hops


def read_tables(folder, names):
    """The router of each name, by the folder's files."""
    folder = Path(folder)
    if not folder.is_dir():
        raise Fault(f"{folder}: not a folder", 3)
    found = {}
    for name in names:
        path = folder / f"{name}.json"
        try:
            table = json.loads(bytes_of(path))
        except Fault as fault:
            raise Fault(f"{fault}: there are no tables of router {name}", 3)
        except ValueError as error:
            raise Fault(f"{path}: not JSON: {error}", 3)
        if not isinstance(table, dict) or not isinstance(table.get("tables"), dict):
            raise Fault(f"{path}: isn't an object with 'tables', as 'mplsnet-lab collect' writes it", 3)
        found[name] = Router(path, table["tables"])
    return found

"""Topologies as other tools write them: containerlab YAML, a CSV of links, GraphML."""
from __future__ import annotations

import csv
import io
import os
import xml.etree.ElementTree as xml
from dataclasses import dataclass, field
from typing import Any, Dict, List, NamedTuple, Optional, Sequence

from fabriclib.script import Unusable


class Edge(NamedTuple):
    """A link between two nodes, with a metric where the file tells one, and where it stands in the file."""

    a: str
    b: str
    metric: Optional[int]
    where: str


@dataclass
class Topology:
    """Nodes by the name that the file has for them, with a label each, and the links between them."""

    nodes: Dict[str, str] = field(default_factory=dict)
    edges: List[Edge] = field(default_factory=list)
    notes: List[str] = field(default_factory=list)

    def add(self, a: str, b: str, metric: Optional[int], where: str) -> None:
        """Adds a link, and its nodes where they are new."""
        for name in (a, b):
            self.nodes.setdefault(name, name)
        self.edges.append(Edge(a, b, metric, where))


def read(path: str, kind: str) -> Topology:
    """The topology of a file. The kind is containerlab, csv or graphml, or auto, by the file's ending."""
    try:
        with open(path, encoding="utf-8-sig") as file:
            content = file.read()
    except (OSError, UnicodeDecodeError) as fault:
        raise Unusable(f"{path} can't be read: {fault}") from fault
    kind = _kind_of(path, content) if kind == "auto" else kind
    return {"containerlab": _containerlab, "csv": _csv, "graphml": _graphml}[kind](path, content)


def _kind_of(path: str, content: str) -> str:
    ending = os.path.splitext(path)[1].lower()
    kinds = {".yml": "containerlab", ".yaml": "containerlab", ".csv": "csv", ".graphml": "graphml", ".xml": "graphml"}
    if ending in kinds:
        return kinds[ending]
    if content.lstrip().startswith("<"):
        return "graphml"
    raise Unusable(f"{path} ends neither in .yml, .yaml, .csv nor .graphml; --format tells what it is")


# containerlab


def _containerlab(path: str, content: str) -> Topology:
    try:
        import yaml  # type: ignore[import-untyped]
    except ImportError as fault:
        raise Unusable(
            "YAML is read by PyYAML, which isn't there (Debian: python3-yaml; or pip install pyyaml)"
        ) from fault
    try:
        told = yaml.safe_load(content)
    except yaml.YAMLError as fault:
        raise Unusable(f"{path} is no YAML: {' '.join(str(fault).split())}") from fault
    parts = told.get("topology") if isinstance(told, dict) else None
    if not isinstance(parts, dict) or not isinstance(parts.get("nodes"), dict):
        raise Unusable(f"{path} is no containerlab file: it has no topology with nodes")
    topology = Topology({str(name): str(name) for name in parts["nodes"]})
    for number, link in enumerate(parts.get("links") or [], 1):
        _containerlab_link(topology, link, f"link {number}")
    return topology


def _containerlab_link(topology: Topology, link: Any, where: str) -> None:
    ends = link.get("endpoints") if isinstance(link, dict) else None
    names = [_end(end) for end in ends] if isinstance(ends, list) else []
    if len(names) != 2 or not all(name in topology.nodes for name in names):
        topology.notes.append(f"{where} is left out: its ends aren't two of the nodes ({', '.join(names) or 'none'})")
        return
    labels = [link.get("vars"), link.get("labels")]
    metric = next((_number(own.get("metric")) for own in labels if isinstance(own, dict)), None)
    topology.add(names[0], names[1], metric, where)


def _end(end: Any) -> str:
    """The node of an end, `node:interface`, or a record of both."""
    return str(end.get("node", "")) if isinstance(end, dict) else str(end).split(":")[0]


# CSV

# The names of the columns that are known, in lower case without anything but letters.
_COLUMNS = {
    "a": ("a", "from", "source", "src", "nodea", "bridgea", "devicea", "locala", "localdevice", "local", "node1"),
    "b": ("b", "to", "target", "dst", "destination", "nodeb", "bridgeb", "deviceb", "remotedevice", "remote", "node2"),
    "metric": ("metric", "cost", "weight", "l1metric", "igpmetric"),
}


def _csv(path: str, content: str) -> Topology:
    sample = content[:4096]
    delimiter = max(",;\t", key=sample.count)
    rows = [[cell.strip() for cell in row] for row in csv.reader(io.StringIO(content), delimiter=delimiter)]
    numbered = [(number, row) for number, row in enumerate(rows, 1) if any(row) and not row[0].startswith("#")]
    if not numbered:
        raise Unusable(f"{path} has no links")
    columns = _columns(numbered[0][1])
    topology = Topology()
    for number, row in numbered[1 if columns else 0 :]:
        _csv_link(topology, row, columns or _plain_columns(row), f"line {number}")
    return topology


def _columns(head: Sequence[str]) -> Optional[Dict[str, int]]:
    """Which column has what, by a first line of names; none where that isn't one."""
    names = ["".join(c for c in cell.lower() if c.isalnum()) for cell in head]
    found = {what: next((names.index(name) for name in known if name in names), -1) for what, known in _COLUMNS.items()}
    return found if found["a"] >= 0 and found["b"] >= 0 else None


def _plain_columns(row: Sequence[str]) -> Dict[str, int]:
    """Without a first line of names: A, B and perhaps a metric; or A, its port, B, its port and perhaps a metric."""
    if len(row) >= 4:
        return {"a": 0, "b": 2, "metric": 4 if len(row) > 4 else -1}
    return {"a": 0, "b": 1, "metric": 2 if len(row) > 2 else -1}


def _csv_link(topology: Topology, row: Sequence[str], columns: Dict[str, int], where: str) -> None:
    def cell(what: str) -> str:
        return row[columns[what]] if 0 <= columns[what] < len(row) else ""

    if not cell("a") or not cell("b"):
        topology.notes.append(f"{where} is left out: it doesn't name two ends")
        return
    metric = _number(cell("metric"))
    if cell("metric") and metric is None:
        topology.notes.append(f"{where}: the metric {cell('metric')} is no number, and the usual one is taken")
    topology.add(cell("a"), cell("b"), metric, where)


def _number(word: Any) -> Optional[int]:
    try:
        return int(float(word)) if word not in (None, "") else None
    except (TypeError, ValueError, OverflowError):
        return None


# GraphML


def _graphml(path: str, content: str) -> Topology:
    try:
        root = xml.fromstring(content)
    except xml.ParseError as fault:
        raise Unusable(f"{path} is no XML: {fault}") from fault
    keys = {key.get("id"): (key.get("attr.name") or "").lower() for key in root.iter() if _tag(key) == "key"}
    topology = Topology()
    for node in (part for part in root.iter() if _tag(part) == "node"):
        name = node.get("id") or ""
        label = _data(node, keys).get("label", "").strip()
        topology.nodes[name] = label if label and label.lower() != "none" else name
    for number, edge in enumerate((part for part in root.iter() if _tag(part) == "edge"), 1):
        a, b = edge.get("source") or "", edge.get("target") or ""
        if a not in topology.nodes or b not in topology.nodes:
            topology.notes.append(f"edge {number} is left out: {a} or {b} is no node")
            continue
        data = _data(edge, keys)
        metric = next((_number(data[key]) for key in ("metric", "cost", "weight") if key in data), None)
        topology.add(a, b, metric, f"edge {number}")
    return topology


def _tag(part: xml.Element) -> str:
    return part.tag.rpartition("}")[2] if isinstance(part.tag, str) else ""


def _data(part: xml.Element, keys: Dict[Optional[str], str]) -> Dict[str, str]:
    """What a node or an edge has in its `data`, by the names of the keys in lower case."""
    return {keys.get(own.get("key"), ""): own.text or "" for own in part if _tag(own) == "data"}

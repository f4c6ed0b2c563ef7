"""Examples in JSON as the same in XML: the bodies of their requests, and what they are answered. What an example says
in JSON are the facts that `documents` spells."""

import json
import re
from itertools import groupby

from .bodies import Body
from .codes import CODES
from .documents import CONTENT_TYPES, DECLARATION, JSON, NAMESPACE, S3, document, escaped, in_json

XML_NAME = re.compile("[A-Za-z_][A-Za-z0-9_.-]*")


class Unspeakable(ValueError):
    """JSON that XML has no elements for."""


class Members(list):
    """The members of an object, in their order."""


def spoken(name, value):
    """The elements of a member: one for each row of an array, an empty one for null, and a number as it is written."""
    if not XML_NAME.fullmatch(name):
        raise Unspeakable
    if isinstance(value, Members):
        inner = "".join(it for member in value for it in spoken(*member))
    elif isinstance(value, list):
        if any(isinstance(it, list) and not isinstance(it, Members) for it in value):
            raise Unspeakable
        return [it for row in value for it in spoken(name, row)]
    else:
        inner = {None: "", True: "true", False: "false"}[value] if value in (None, True, False) else escaped(value)
    return [f"<{name}>{inner}</{name}>"]


def root_of(method, target):
    """The root of the body that a request has, where it has a document."""
    if method == "PUT" and re.fullmatch("/[^/?]*/?([?].*)?", target):
        return "VersioningConfiguration" if "?versioning" in target else "CreateBucketConfiguration"
    if method == "POST" and re.search("[?&]uploadId=", target):
        return "CompleteMultipartUpload"
    return None


def body_lines(method, target, lines):
    """The lines of a body, as `Body` reads them. XML, and JSON that XML has no elements for, stay as they are. A body
    for which JSON has no use, since it makes a bucket, is an empty configuration."""
    root = root_of(method, target)
    if root is None or not any(lines) or lines[0].startswith("<"):
        return lines
    if root == "CreateBucketConfiguration":
        return [f'<{root} xmlns="{NAMESPACE}"></{root}>']
    try:
        text = Body.read(lines).bytes().decode()
        said = json.loads(text, object_pairs_hook=Members, parse_int=str, parse_float=str, parse_constant=str)
        if not isinstance(said, Members):
            raise Unspeakable
        told = [it for name, value in said for it in spoken("Part" if name == "Parts" else name, value)]
        # Half of a pair of surrogates is no text.
        "".join(told).encode()
    except ValueError:
        return lines
    # What stands there over and over is told so.
    groups = [(row, len(list(same))) for row, same in groupby(told)]
    runs = [f"{row}*{len(row) * count}" if count > 9 else row * count for row, count in groups]
    runs = [f'<{root} xmlns="{NAMESPACE}">', *runs, f"</{root}>"]
    return runs if any("*" in run for run in runs) else ["".join(runs)]


def facts_of(status, size, body, guess):
    """The facts of a document. That of a HEAD isn't there, and is known by its size, or by a guess that fits it."""
    if body:
        facts = json.loads(body)
    else:
        told = [{"Code": code, "Message": text} for code, (number, text) in CODES.items() if number == status]
        told = [it for it in told if len(in_json(it).encode()) == size]
        facts = guess if guess in told else told[0]
        assert facts == guess or len(told) == 1, told
    if facts.get("Code") == "MalformedBody":
        facts = {"Code": "MalformedXML", "Message": CODES["MalformedXML"][1]}
    return facts


def reply_lines(lines, added=(), guess=None):
    """The lines of a reply, in which each line of a body has a bar at its end. Before its type stand the lines that are
    added."""
    end = lines.index("")
    head, body = lines[:end], "".join(line[:-1] for line in lines[end + 1 :])
    told = f"Content-Type: {CONTENT_TYPES[JSON]}"
    if told not in head or "Accept-Ranges: bytes" in head:
        return lines
    values = dict(line.split(": ", 1) for line in head[1:])
    facts = facts_of(int(head[0].split(" ")[1]), int(values["Content-Length"]), body, guess)
    text = document(S3, facts, values["x-amz-request-id"])
    at = head.index(told)
    head[at : at + 2] = [*added, f"Content-Type: {CONTENT_TYPES[S3]}", f"Content-Length: {len(text.encode())}"]
    return [*head, "", *([*DECLARATION.splitlines(), f"{text.removeprefix(DECLARATION)}|"] if body else [])]


def replies(lines):
    """The lines of each reply."""
    found = []
    for line in lines:
        if line.startswith("HTTP/1.1 "):
            found.append([])
        found[-1].append(line)
    return found


def bytes_of(lines):
    """What the lines of replies stand for."""
    told = []
    for line in lines:
        end = "\n" if line.startswith("<") else "\r\n"
        told.append(Body.read([line[:-1]]).bytes().decode() if line.endswith("|") else line + end)
    return "".join(told)

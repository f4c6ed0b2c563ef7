"""What `interop/run` asks of each client stands in `Client`, and beside it what several of them share."""

import os
import re
import subprocess
import tempfile

from documents import JSON, page_of, page_query
from server import SECRET

MIB = 1024 * 1024
# Seconds that one command of a client may take.
PATIENCE = 120


class Missing(Exception):
    """There is nothing under the key."""


class Refused(Exception):
    """The credentials were refused."""


class Unchanged(Exception):
    """The object is the one that the client has: 304."""


class Unmet(Exception):
    """The object isn't the one that a condition asks for: 412."""


class Unread(Exception):
    """What was asked for is done, and the client can't read the answer."""


class Lacking(Exception):
    """The client has no such operation."""


# For how many seconds an address is signed.
HOUR = 3600
# The size of the parts that are sent here, where a client doesn't choose it.
PART = 8 * MIB
# What a status tells.
TOLD = {304: Unchanged, 403: Refused, 404: Missing, 412: Unmet}
XML = "what was asked for is done, and the answer can't be read: it is JSON where XML is expected"
# What clients say where the server has no such call.
NO_CALL = re.compile(r"NotImplemented|Not Implemented|\b501\b")


class Client:
    """A client of S3. Each method raises `Missing`, `Refused`, `Unchanged` or `Unmet` where the server says so, and
    any other error where the client fails."""

    name = ""
    # What the client can't do here, in any dialect and in JSON: the names of checks, and why. They are tried, and count
    # only where they pass.
    limits, limits_in_json = {}, {}
    # The checks for which it asks for a call that this server doesn't have, in the dialect s3. They are tried, and
    # have to be answered NotImplemented where they don't pass.
    calls = {}
    # Whether its copies with other metadata have that of their source besides.
    adds_metadata = False
    # Why it isn't tried at all where documents are JSON.
    skipped_in_json = ""
    # How many bytes are put in parts.
    large = 200 * MIB
    # Where the certificate stands of a proxy in front of the server, and where the server itself listens then; and
    # whether the client can be told here to speak TLS by such a certificate.
    certificate, behind, takes_certificate = None, None, False

    def __init__(self, address, folder, secret=SECRET, dialect=JSON):
        self.address, self.folder, self.secret, self.dialect = address, folder, secret, dialect

    def endpoint(self):
        """The address of the server, or of the proxy in front of it, as a URL."""
        return f"{'https' if self.certificate else 'http'}://{self.address}"

    def direct_address(self):
        """Where the server itself listens, also where the client asks a proxy."""
        return self.behind or self.address

    @classmethod
    def absent(cls):
        """Why the client can't be tried on this machine, or None."""

    @classmethod
    def version(cls):
        """Its version, in its own words."""
        return ""

    def part(self, key, first, count):
        """So many bytes of an object, from this place on."""
        raise Lacking()

    def get_unless(self, key, tag):
        """An object's bytes, unless it has this tag."""
        raise Lacking()

    def head_if(self, key, tag):
        """An object's size, if it has this tag."""
        raise Lacking()

    def copy(self, key, other):
        """Copies an object to another key."""
        raise Lacking()

    def put_new(self, key, data):
        """Puts an object, where there is none under its key."""
        raise Lacking()

    def put_if(self, key, data, tag):
        """Puts an object, where the one under its key has this tag."""
        raise Lacking()

    def delete_if(self, key, tag):
        """Deletes an object, where it has this tag."""
        raise Lacking()

    def told_as(self, key, named):
        """What a get tells of an object where it asks for these lines in the place of those that are kept."""
        raise Lacking()

    def told_summed(self, key):
        """What a get tells of an object where it asks for checksums, which it compares."""
        raise Lacking()

    def presigned(self, method, key):
        """An address that is signed for a request with this method, for an hour."""
        raise Lacking()

    def listed(self, prefix, delimiter, page=None):
        """The objects whose keys begin so, with their sizes, and the common prefixes, with None, in their order; the
        server is asked for so many at a time, or for as many as the client asks for."""
        raise Lacking()

    def listed_first(self, prefix, delimiter, page=None):
        """The same by the first version of the call, ListObjects."""
        raise Lacking()

    def total(self, prefix):
        """How many bytes the objects have together whose keys begin so."""
        raise Lacking()

    def put_parts(self, key, data):
        """Puts an object in parts."""
        raise Lacking()

    def get_parts(self, key):
        """An object's bytes, got range by range, several at a time."""
        raise Lacking()

    def begin(self, key):
        """The id of an upload that begins."""
        raise Lacking()

    def send_part(self, key, upload, data, number=1):
        """Sends a part of an upload that was begun, and gives its tag."""
        raise Lacking()

    def complete(self, key, upload, tags):
        """Completes an upload by its parts with these tags."""
        raise Lacking()

    def abort(self, key, upload):
        """Aborts an upload that was begun."""
        raise Lacking()

    def copy_part(self, key, upload, number, source, span=None):
        """Sends a part of an upload that is a copy of an object, or of a span of it: the places of the first byte and
        the last. Gives its tag."""
        raise Lacking()

    def copy_anew(self, key, other, media, metadata):
        """Copies an object, with another media type and other metadata."""
        raise Lacking()

    def copy_if(self, key, other, conditions):
        """Copies an object under conditions on it, by how the names of their header lines end."""
        raise Lacking()

    def copy_version(self, bucket, key, version, other):
        """Copies a version to another key of its bucket."""
        raise Lacking()

    def copy_large(self, key, bucket, other):
        """Copies an object to a key of a bucket as the client copies large ones: part by part."""
        raise Lacking()

    def move_large(self, key, other):
        """Moves an object to another key so."""
        raise Lacking()

    def move(self, key, other):
        """Moves an object to another key."""
        raise Lacking()

    def remove_all(self, prefix):
        """Deletes all objects whose keys begin so."""
        raise Lacking()

    def sync_up(self, folder, prefix):
        """Has the objects whose keys begin so be the files of a folder."""
        raise Lacking()

    def sync_down(self, prefix, folder):
        """Has the files of a folder be the objects whose keys begin so."""
        raise Lacking()

    def add_up(self, folder, prefix):
        """Has the files of a folder be objects whose keys begin so, and deletes none."""
        raise Lacking()

    def copy_all(self, prefix, bucket, other):
        """Copies all objects whose keys begin so to another bucket, to keys that begin otherwise."""
        raise Lacking()

    def touch(self, key, moment):
        """Has an object be changed at a moment, in seconds."""
        raise Lacking()

    def moment(self, key):
        """When an object was changed, in seconds."""
        raise Lacking()

    def set_mode(self, key, mode):
        """Sets who may do what with an object that is a file."""
        raise Lacking()

    def mode(self, key):
        """Who may do what with it."""
        raise Lacking()

    def patch(self, key, first, data):
        """Writes bytes into an object that is a file, from this place on."""
        raise Lacking()

    def back_up(self, folder):
        """Keeps the files of a folder, and gives the id of this backup."""
        raise Lacking()

    def backups(self):
        """The ids of the backups that are kept."""
        raise Lacking()

    def restore(self, backup, folder):
        """Writes the files of a backup to a folder."""
        raise Lacking()

    def forget(self, backup):
        """Drops a backup, and what no other one needs."""
        raise Lacking()

    def new_after_empty(self, key, other):
        """Puts an empty object, and another one where there is none under its key, over one connection."""
        raise Lacking()

    def make_bucket(self, bucket, region=None):
        """Makes a bucket, in a region where one is said."""
        raise Lacking()

    def set_versioning(self, bucket, status):
        """Has a bucket keep versions, or keep them no more, and gives what it then tells of that."""
        raise Lacking()

    def put_version(self, bucket, key, data):
        """The id of the version that a put makes."""
        raise Lacking()

    def delete_version(self, bucket, key, version=None):
        """Deletes a version, or puts a delete marker and gives its id."""
        raise Lacking()

    def get_version(self, bucket, key, version):
        """The bytes of a version."""
        raise Lacking()

    def versions(self, bucket, page):
        """The keys and ids of versions, and then those of delete markers, in pages of so many."""
        raise Lacking()

    def remove_bucket(self, bucket):
        """Deletes a bucket."""
        raise Lacking()

    def purge(self, bucket):
        """Deletes a bucket with all that is in it."""
        raise Lacking()

    def location(self):
        """The region of the bucket, by GetBucketLocation."""
        raise Lacking()

    def configuration(self, resource, call):
        """Asks for a configuration of the bucket by the name of its sub-resource, or by that of the call."""
        raise Lacking()

    def delete_many(self, keys):
        """Deletes several objects by one call, DeleteObjects."""
        raise Lacking()

    def path(self, data=b""):
        """The path of a new file with these bytes."""
        handle, path = tempfile.mkstemp(dir=self.folder)
        os.write(handle, data)
        os.close(handle)
        return path


def ran(words, env=None, stdin=subprocess.DEVNULL, folder=None):
    """Runs a command, and gives its status, what it wrote and what it said."""
    done = subprocess.run(words, env=env, stdin=stdin, cwd=folder, capture_output=True, timeout=PATIENCE)
    return done.returncode, done.stdout, done.stderr.decode(errors="replace")


def first_line(words):
    """The first line that a command writes."""
    _, wrote, said = ran(words)
    return (wrote.decode(errors="replace") + said).strip().splitlines()[0]


def told(status, said, missing=(), refused=(), unchanged=(), unmet=(), unread=()):
    """Raises what a failed command told."""
    if status == 0:
        return
    kinds = [(Missing, missing), (Refused, refused), (Unchanged, unchanged), (Unmet, unmet)]
    for kind, words in kinds:
        if any(word in said for word in words):
            raise kind(said)
    if any(word in said for word in unread):
        raise Unread(XML)
    raise RuntimeError(f"status {status}: {said.strip()}")


def in_order(objects, prefixes):
    """Objects with their sizes, and common prefixes, in their order."""
    return sorted([*objects, *((prefix, None) for prefix in prefixes)], key=lambda item: item[0].encode())


def in_parts(client, key, data, size=PART):
    """Puts an object in parts of a size, one request each."""
    upload = client.begin(key)
    parts = [data[first : first + size] for first in range(0, len(data), size)]
    client.complete(key, upload, [client.send_part(key, upload, part, number) for number, part in enumerate(parts, 1)])


def copied_in_parts(client, key, other, spans):
    """Makes an object of spans of another one, each a part of an upload."""
    upload = client.begin(other)
    try:
        tags = [client.copy_part(other, upload, number, key, span) for number, span in enumerate(spans, 1)]
    except Exception:
        client.abort(other, upload)
        raise
    client.complete(other, upload, tags)


def span_told(span):
    """The places of the first byte and the last as a range is told."""
    return f"bytes={span[0]}-{span[1]}"


def in_pages(dialect, ask, prefix, delimiter, page, version=2):
    """A list whose pages `ask` gives by their queries, by this version of the call."""
    items, told, after = [], {"IsTruncated": True}, None
    while told["IsTruncated"]:
        told = page_of(dialect, ask(page_query(dialect, prefix, delimiter, page, after, version)))
        items += of_page(told)
        after = told.get("NextContinuationToken") if version == 2 else marker_after(told)
    return items


def marker_after(page):
    """Where a list of the first version goes on: it tells that itself where it has common prefixes, and else its last
    key does."""
    if not page["IsTruncated"]:
        return None
    return page["NextMarker"] if page.get("Delimiter") else page["Contents"][-1]["Key"]


def of_page(page):
    """The same of the document of a list, where it is JSON, or was made of XML."""
    objects = [(row["Key"], row["Size"]) for row in page.get("Contents", [])]
    return in_order(objects, [row["Prefix"] for row in page.get("CommonPrefixes", [])])

"""What the store does with a command, and how it is answered: the tables "Versions", "Uploads", "Lists", "Replies" and
"By the store" of docs/PROTOCOL.md."""

import calendar
import hashlib
import re
import time

from .bodies import Body
from .codes import CODES
from .documents import JSON, S3, document
from .replies import INSTEAD, OF_UNCHANGED, START, of_got, of_stored, of_told, of_unmodified, reply
from .requests import CONFIGURATIONS, Refused, is_s3, operation, refuse
from .sums import CHECKSUM

# The region of the servers of scenarios.
REGION = "us-east-1"
# The least size of a part, but for the last one, in the servers of scenarios.
MIN_PART = 5


class Denied(Exception):
    """The store refuses the command."""

    def __init__(self, code, lines=()):
        super().__init__(code)
        self.lines = lines


def deny(is_so, code, lines=()):
    if is_so:
        raise Denied(code, lines)


MARKER = ["x-amz-delete-marker: true"]


def shown(name):
    """The line that tells a version's id, where there is one to tell."""
    return [] if name is None else [f"x-amz-version-id: {name}"]


def of_summed(request):
    """The line that tells the checksum that was found of a body."""
    return [f"{name}: {value}" for name, value in request.summed.items()]


def quoted(tag):
    return f'"{tag}"'


def stamp(moment):
    """A moment as documents tell it."""
    return time.strftime("%Y-%m-%dT%H:%M:%S.000Z", time.gmtime(moment))


def page_of(entries, most):
    """The first so many, and whether the page is truncated."""
    return entries[:most], len(entries) > most > 0


def matches(value, tag):
    """Whether an item of a condition is this tag."""
    items = [item.strip(" \t").removeprefix("W/").strip('"') for item in value.split(",")]
    return "*" in items or tag in items


# The three forms of a date of HTTP.
DATES = ("%a, %d %b %Y %H:%M:%S GMT", "%A, %d-%b-%y %H:%M:%S GMT", "%a %b %d %H:%M:%S %Y")


def moment_of_date(value):
    """The moment of a date; any other value is as if it weren't there."""
    for form in DATES:
        try:
            moment = calendar.timegm(time.strptime(value or "", form))
        except ValueError:
            continue
        # Python takes any day of the week.
        if time.strftime(form, time.gmtime(moment)) == value:
            return moment
    return None


def judged(request, front, version):
    """How a read of a version is answered by the conditions whose names begin so: 412, 304, or 200."""
    match, none = request.line(f"{front}if-match"), request.line(f"{front}if-none-match")
    after, until = (moment_of_date(request.line(f"{front}if-{it}-since")) for it in ("modified", "unmodified"))
    if not matches(match, version.data.tag) if match is not None else until is not None and version.moment > until:
        return 412
    if matches(none, version.data.tag) if none is not None else after is not None and version.moment <= after:
        return 304
    return 200


def range_of(value, size, lines):
    """The first byte and the last one that are asked for, where a range is; one without a byte is refused with these
    lines."""
    found = re.fullmatch("bytes=(?:([0-9]{1,18})-([0-9]{1,18})?|-([0-9]{1,18}))", value or "")
    if not found or (found[2] and int(found[1]) > int(found[2])):
        return None
    if found[3]:
        deny(int(found[3]) == 0 or size == 0, "InvalidRange", lines)
        return max(size - int(found[3]), 0), size - 1
    deny(int(found[1]) >= size, "InvalidRange", lines)
    return int(found[1]), min(int(found[2] or size), size - 1)


class Data:
    """What a version stores that is no delete marker."""

    def __init__(self, tag, description, body):
        self.tag, (self.content_type, self.metadata), self.body = tag, description, body


def id_of(number):
    """The id of a version that the command of this number makes where versioning is enabled."""
    return f"v{number:016x}"


class Version:
    """An object, or a delete marker, which has no data, and the number of the command that made it."""

    def __init__(self, name, number, moment, data):
        self.name, self.number, self.moment, self.data = name, number, moment, data


class Part:
    """A part of an upload. The digest of one that is copied is that of a text which stands for its bytes."""

    def __init__(self, body, moment, text=None):
        self.body, self.moment = body, moment
        self.digest = hashlib.md5(body.bytes() if text is None else text.encode()).digest()


class Upload:
    """An upload that was begun."""

    def __init__(self, description, moment):
        self.description, self.moment, self.parts = description, moment, {}

    def joined(self, listed):
        """What the listed parts make."""
        numbers = [number for number, _ in listed]
        deny(any(number >= behind for number, behind in zip(numbers, numbers[1:])), "InvalidPartOrder")
        for number, tag in listed:
            deny(number not in self.parts or self.parts[number].digest.hex() != tag, "InvalidPart")
        parts = [self.parts[number] for number in numbers]
        deny(any(part.body.size < MIN_PART for part in parts[:-1]), "EntityTooSmall")
        tag = hashlib.md5(b"".join(part.digest for part in parts)).hexdigest()
        return Data(f"{tag}-{len(parts)}", self.description, sum((part.body for part in parts), Body()))


class Bucket:
    """A bucket: the versions under its keys, newest first, and its uploads by their keys and ids."""

    def __init__(self, moment=0):
        self.moment, self.mode, self.keys, self.uploads = moment, None, {}, {}

    def current(self):
        """The objects that a get without an id finds, by their keys, in the order of bytes."""
        heads = {key: versions[0] for key, versions in self.keys.items() if versions}
        return {key: heads[key] for key in sorted(heads) if heads[key].data is not None}

    def put(self, key, number, moment, data):
        """Puts an object, or a delete marker, in front, and gives the id that is told."""
        versions = self.keys.setdefault(key, [])
        if self.mode != "Enabled":
            versions[:] = [version for version in versions if version.name != "null"]
        if data is not None or self.mode is not None:
            versions.insert(0, Version(id_of(number) if self.mode == "Enabled" else "null", number, moment, data))
        return versions[0].name if self.mode is not None else None

    def delete(self, key, name, number, moment):
        """Deletes a key, or its version of this id, and gives the id of the delete marker that is made, or is gone."""
        if name is None:
            return self.put(key, number, moment, None)
        versions = self.keys.setdefault(key, [])
        gone = [version for version in versions if version.name == name]
        versions[:] = [version for version in versions if version.name != name]
        return name if gone and gone[0].data is None else None

    def spares(self, key, name, number):
        """Whether a deletion is of what the same command made, which stays."""
        is_made = any(version.number == number for version in self.keys.get(key, []))
        return is_made if name is None else name == id_of(number)

    def admit(self, key, wants_none, tags):
        """Refuses a write that wants no object, or one with one of some tags, where the key has another."""
        found = self.current().get(key)
        deny(wants_none and found is not None, "PreconditionFailed")
        deny(tags is not None and found is None, "NoSuchKey")
        deny(tags is not None and not matches(tags, found.data.tag), "PreconditionFailed")

    def picked(self, key, name):
        """The version that a get finds."""
        versions = self.keys.get(key, [])
        if name is None:
            deny(not versions, "NoSuchKey")
            deny(versions[0].data is None, "NoSuchKey", MARKER)
            return versions[0]
        found = [version for version in versions if version.name == name]
        deny(not found, "NoSuchVersion")
        deny(found[0].data is None, "MethodNotAllowed", MARKER)
        return found[0]


class Store:
    """The bucket `pail` and others, how many commands were answered, and the facts of the last document. Each operation
    gives the lines of its reply."""

    def __init__(self, dialect=JSON, moment=START):
        self.buckets, self.number, self.moment = {b"pail": Bucket()}, 0, moment
        self.dialect, self.facts = dialect, None

    def answer(self, request, judge=lambda: None):
        """The lines of what a request is answered, and whether the connection ends with it. Its head may be refused
        before that, by `judge`."""
        self.facts, request.dialect = None, self.dialect
        try:
            judge()
            lines, is_over = getattr(self, operation(request))(request), False
        except Refused as refused:
            lines, is_over = self.refusal(str(refused), ["Connection: close"]), True
        except Denied as denied:
            lines, is_over = self.refusal(str(denied), denied.lines), False
        self.number += 0 if is_over else 1
        return lines[: lines.index("") + 1] if request.method == "HEAD" else lines, is_over

    # Replies.

    def reply(self, status, lines=(), body=Body()):
        """The lines of a reply. One that ends the connection is to no command, and has no number."""
        return reply(status, 0 if "Connection: close" in lines else self.number, lines, body, self.moment)

    def told(self, facts, lines=(), status=200, root=None):
        """The lines of a reply with a document, which may have a root of its own."""
        self.facts = facts
        number = 0 if "Connection: close" in lines else self.number
        text = document(self.dialect, facts, f"{number:016x}", root)
        return self.reply(status, [*lines, *of_told(self.dialect)], Body.of(text))

    def refusal(self, code, lines):
        status, message = CODES[code]
        return self.told({"Code": code, "Message": message}, lines, status)

    # Buckets.

    def list_buckets(self, _request):
        buckets = sorted(self.buckets.items())
        rows = [{"CreationDate": stamp(bucket.moment), "Name": name.decode()} for name, bucket in buckets]
        return self.told({"Buckets": rows})

    def bucket(self, request):
        deny(request.bucket not in self.buckets, "NoSuchBucket")
        return self.buckets[request.bucket]

    def create_bucket(self, request):
        request.judge_location()
        deny(request.bucket in self.buckets, "BucketAlreadyOwnedByYou")
        self.buckets[request.bucket] = Bucket(self.moment)
        return self.reply(200, [f"Location: /{request.bucket.decode()}"])

    def head_bucket(self, request):
        self.bucket(request)
        return self.reply(200, [f"x-amz-bucket-region: {REGION}"] if self.dialect == S3 else [])

    def delete_bucket(self, request):
        bucket = self.bucket(request)
        deny(any(bucket.keys.values()) or bucket.uploads, "BucketNotEmpty")
        del self.buckets[request.bucket]
        return self.reply(204)

    def put_bucket_versioning(self, request):
        mode = request.versioning()
        self.bucket(request).mode = mode
        return self.reply(200)

    def get_bucket_versioning(self, request):
        mode = self.bucket(request).mode
        return self.told({} if mode is None else {"Status": mode})

    def get_bucket_location(self, request):
        self.bucket(request)
        # S3 tells this region by no letters.
        return self.told({"LocationConstraint": "" if REGION == "us-east-1" else REGION})

    def get_bucket_configuration(self, request):
        self.bucket(request)
        raise Denied(next(code for name, code in CONFIGURATIONS.items() if name in request.asked))

    # Objects.

    def put_object(self, request):
        (content_type, metadata), condition, body = request.description(), request.condition(), request.received()
        description = content_type, metadata | request.summed
        data, bucket = Data(hashlib.md5(body.bytes()).hexdigest(), description, body), self.bucket(request)
        bucket.admit(request.key, *condition)
        name = bucket.put(request.key, self.number, self.moment, data)
        return self.reply(200, [*shown(name), *of_stored(data.tag), *of_summed(request)])

    def source(self, request, place):
        """The version that a copy is of, which has to be as the request's conditions say."""
        bucket, key, name = place
        deny(bucket not in self.buckets, "NoSuchBucket")
        try:
            version = self.buckets[bucket].picked(key, name)
        except Denied as denied:
            # A line about a delete marker would be read as one about what is made.
            raise Denied(str(denied).replace("MethodNotAllowed", "InvalidRequest")) from None
        deny(judged(request, "x-amz-copy-source-", version) != 200, "PreconditionFailed")
        return version

    def copy_object(self, request):
        replaces, place = request.replaces(), request.source()
        is_same = place == (request.bucket, request.key, None)
        refuse(is_s3(request) and is_same and not replaces, "InvalidRequest")
        description, bucket = request.description() if replaces else None, self.bucket(request)
        data = self.source(request, place).data
        data = Data(data.tag, description or (data.content_type, data.metadata), data.body)
        name = bucket.put(request.key, self.number, self.moment, data)
        return self.told({"ETag": quoted(data.tag), "LastModified": stamp(self.moment)}, shown(name))

    def get_object(self, request):
        name, overrides = request.version_id(), request.overrides()
        bucket = self.bucket(request)
        version = bucket.picked(request.key, name)
        data, told = version.data, shown(bucket.mode and version.name)
        kept = {name: f"{name}: {value}" for name, value in data.metadata.items() if name not in overrides}
        kept |= {name: f"{INSTEAD}{name}: {value}" for name, value in overrides.items()}
        content_type = None if "content-type" in overrides else data.content_type
        status = judged(request, "", version)
        deny(status == 412, "PreconditionFailed")
        if status == 304:
            told += [line for name, line in kept.items() if name in OF_UNCHANGED]
            return self.reply(304, [*told, *of_unmodified(data.tag, version.moment)])
        size_told = [f"Content-Range: bytes */{data.body.size}"] if self.dialect == S3 else []
        part = range_of(request.line("range"), data.body.size, size_told)
        sums = [line for name, line in kept.items() if name.startswith(CHECKSUM)]
        told += [*of_got(data.tag, version.moment, content_type), *(line for line in kept.values() if line not in sums)]
        if part is None:
            return self.reply(200, told + sums * request.wants_checksums(), data.body)
        told.append(f"Content-Range: bytes {part[0]}-{part[1]}/{data.body.size}")
        return self.reply(206, told, data.body.cut(*part))

    def get_object_tagging(self, request):
        name = request.version_id()
        bucket = self.bucket(request)
        version = bucket.picked(request.key, name)
        return self.told({"TagSet": {}}, shown(bucket.mode and version.name))

    def delete_object(self, request):
        name, tags = request.version_id(), request.tags_wanted()
        refuse(name is not None and tags is not None, "NotImplemented")
        bucket = self.bucket(request)
        bucket.admit(request.key, False, tags)
        marker = bucket.delete(request.key, name, self.number, self.moment)
        return self.reply(204, [*shown(bucket.mode and (name or marker)), *(MARKER if marker else [])])

    def delete_objects(self, request):
        is_quiet, objects = request.deletion()
        bucket = self.bucket(request)
        told = [self.deleted(bucket, *named) for named in objects]
        return self.told({"Results": [row for row in told if "Code" in row or not is_quiet]})

    def deleted(self, bucket, key, name, fault):
        """What is told of an object that is deleted with others, or that can't be."""
        told = {"Key": key.decode()} | ({} if name is None else {"VersionId": name})
        if fault is not None:
            return told | {"Code": fault, "Message": CODES[fault][1]}
        is_left = bucket.spares(key, name, self.number)
        marker = None if is_left else bucket.delete(key, name, self.number, self.moment)
        return told | ({} if marker is None else {"DeleteMarker": True, "DeleteMarkerVersionId": marker})

    # Uploads.

    def upload(self, request, name):
        deny((request.key, name) not in self.bucket(request).uploads, "NoSuchUpload")
        return self.buckets[request.bucket].uploads[request.key, name]

    def create_multipart_upload(self, request):
        upload, name = Upload(request.description(), self.moment), f"u{self.number:016x}"
        self.bucket(request).uploads[request.key, name] = upload
        return self.told({"Bucket": request.bucket.decode(), "Key": request.key.decode(), "UploadId": name})

    def upload_part(self, request):
        number, name = request.part_number(), request.upload_id()
        part = Part(request.received(), self.moment)
        self.upload(request, name).parts[number] = part
        return self.reply(200, [*of_stored(part.digest.hex()), *of_summed(request)])

    def upload_part_copy(self, request):
        number, name = request.part_number(), request.upload_id()
        place, asked = request.source(), request.source_range()
        upload, version = self.upload(request, name), self.source(request, place)
        first, last = asked or (0, version.data.body.size - 1)
        deny(asked and not first <= last < version.data.body.size, "InvalidArgument")
        text = version.data.tag + (f"bytes={first}-{last}" if asked else "")
        part = upload.parts[number] = Part(version.data.body.cut(first, last), self.moment, text)
        lines = [f"x-amz-copy-source-version-id: {version.name}"] if self.buckets[place[0]].mode else []
        facts = {"ETag": quoted(part.digest.hex()), "LastModified": stamp(self.moment)}
        return self.told(facts, lines, root="CopyPartResult")

    def complete_multipart_upload(self, request):
        name, condition, listed = request.upload_id(), request.condition(), request.listed_parts()
        upload, bucket = self.upload(request, name), self.bucket(request)
        bucket.admit(request.key, *condition)
        data = upload.joined(listed)
        del bucket.uploads[request.key, name]
        version = bucket.put(request.key, self.number, self.moment, data)
        told = {"Bucket": request.bucket.decode(), "ETag": quoted(data.tag), "Key": request.key.decode()}
        return self.told(told, shown(version))

    def abort_multipart_upload(self, request):
        name = request.upload_id()
        self.upload(request, name)
        del self.bucket(request).uploads[request.key, name]
        return self.reply(204)

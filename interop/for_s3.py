"""The checks of `interop/run` that it makes with `--dialect s3` alone, where documents are XML: of lists with odd keys,
of copies, of buckets and versions, and of several deletions by one call. `folders.py` has those of folders."""

import base64
import os
import re
import time
import zlib
from hashlib import md5

from clients import MIB, Lacking, Missing, Unmet, copied_in_parts, in_parts
from documents import Direct
from expected import expect, same, same_bytes
from server import BUCKET, REGION

# Keys that are told otherwise in a query, in a header line or in XML than they are.
ODD = ["a b", "a+b", "a%b", "a%20b", "a&b", "a&amp;b", "a<b>", "a'b\"c", "ü €/漢字", "😀", "~!*()", "x=1;y,z:@$"]
# No character of XML 1.0 is one of these bytes but for the last.
CONTROL = ["a\x01b", "a\x1fb", "a\x7fb"]
# The greatest body of one request.
LARGEST = 64 * MIB
# An object has at most so many bytes that is got, copied or moved part by part.
LARGE = 100_000_000
# Seconds after which a put that follows an empty one came too late: a client of botocore waits for 60.
SOON = 20
# A media type and metadata, and what takes their place.
KEPT = ("text/css", {"a": "1", "old": "x"})
NEW = ("text/html", {"a": "2", "new": "v w"})
# Lines that are kept with an object.
KEPT_LINES = {"content-type": "text/css", "content-language": "en", "cache-control": "max-age=60"}
# A moment before all copies, and one at which a file may have been changed.
BEFORE, CHANGED_AT = "Thu, 01 Jan 2015 00:00:00 GMT", 1_234_567_890
# Spans of an object of 12 MiB that make another one: all of it; a middle, the front and one byte.
SPANS = [[None], [(6 * MIB, 12 * MIB - 1), (0, 5 * MIB - 1), (1, 1)]]
# Configurations that no bucket has: the sub-resource, the call that asks for it, and the code of its absence.
ABSENT = [
    ("policy", "get-bucket-policy", "NoSuchBucketPolicy"),
    ("cors", "get-bucket-cors", "NoSuchCORSConfiguration"),
    ("lifecycle", "get-bucket-lifecycle-configuration", "NoSuchLifecycleConfiguration"),
    ("tagging", "get-bucket-tagging", "NoSuchTagSet"),
    ("encryption", "get-bucket-encryption", "ServerSideEncryptionConfigurationNotFoundError"),
    ("publicAccessBlock", "get-public-access-block", "NoSuchPublicAccessBlockConfiguration"),
    ("object-lock", "get-object-lock-configuration", "ObjectLockConfigurationNotFoundError"),
    ("website", "get-bucket-website", "NoSuchWebsiteConfiguration"),
    ("replication", "get-bucket-replication", "ReplicationConfigurationNotFoundError"),
    ("ownershipControls", "get-bucket-ownership-controls", "OwnershipControlsNotFoundError"),
]


def new_name():
    return os.urandom(4).hex()


def filled(client, names):
    """The connection that looks at the bucket, and a new folder in it with such objects."""
    direct, folder = Direct(client.direct_address(), client.dialect), f"{new_name()}/"
    for name in names:
        direct.put(folder + name, b"hello")
    return direct, folder


def new_bucket(direct):
    bucket = f"vat-{new_name()}"
    direct.make_bucket(bucket)
    return bucket


def large_data(client):
    return os.urandom(min(client.large, LARGE))


def lists_odd(client, names):
    _, folder = filled(client, names)
    told = client.listed(folder, "")
    same(sorted(told), sorted((folder + name, 5) for name in names), "the list")


def odd_names(client, _other):
    lists_odd(client, ODD)


def control_bytes(client, _other):
    lists_odd(client, CONTROL)


def whole(client, _other):
    data = os.urandom(LARGEST)
    client.put("largest", data)
    same_bytes(client.get("largest"), data)


def got_in_parts(client, _other):
    direct, folder = filled(client, [])
    data = large_data(client)
    in_parts(direct, f"{folder}a", data)
    same_bytes(client.get_parts(f"{folder}a"), data)


def after_empty(client, _other):
    first, folder = filled(client, [])
    before = time.monotonic()
    expect(Unmet, lambda: client.new_after_empty(f"{folder}empty", f"{folder}new"))
    took = time.monotonic() - before
    same(first.objects(folder), {"empty": b"", "new": b"other"}, "the objects")
    if took > SOON:
        raise AssertionError(f"four puts took {took:.0f} seconds")


def total(client, _other):
    direct, folder = filled(client, ["a", "b/c"])
    direct.put(f"{folder}d", bytes(1234))
    same(client.total(folder), 1244, "the sum of the sizes")


def bucket_here(client, _other):
    bucket = f"vat-{new_name()}"
    client.make_bucket(bucket, REGION)
    same(Direct(client.direct_address(), client.dialect).is_bucket(bucket), True, "the bucket is there")


def bucket_elsewhere(client, _other):
    # Who also signs by that region is refused for the signature's.
    codes = ("InvalidLocationConstraint", "AuthorizationHeaderMalformed")
    error = expect(RuntimeError, lambda: client.make_bucket(f"vat-{new_name()}", "eu-west-1"))
    if not any(code in str(error) for code in codes):
        raise error


def bucket_gone(client, _other):
    direct, _ = filled(client, [])
    bucket = new_bucket(direct)
    direct.put("k", b"hello", bucket)
    # Some ask for a list first, and say in their own words that the bucket isn't empty.
    expect(RuntimeError, lambda: client.remove_bucket(bucket))
    same(direct.objects("", bucket), {"k": b"hello"}, "the objects")
    direct.asked("DELETE", "k", bucket=bucket)
    client.remove_bucket(bucket)
    same(direct.is_bucket(bucket), False, "the bucket is there")


def purged(client, _other):
    direct, _ = filled(client, [])
    bucket = new_bucket(direct)
    for key in ("a", "b/c", "b/d e+%"):
        direct.put(key, b"hello", bucket)
    client.purge(bucket)
    same(direct.is_bucket(bucket), False, "the bucket is there")


def location(client, _other):
    same(client.location(), REGION, "the region")


def absences(client, _other):
    for resource, call, code in ABSENT:
        try:
            client.configuration(resource, call)
        except Lacking:
            raise
        except (Missing, RuntimeError) as error:
            if code not in str(error):
                raise
        else:
            raise AssertionError(f"the bucket has a configuration {resource}")


def versions(client, _other):
    bucket = f"vat-{new_name()}"
    client.make_bucket(bucket)
    same(client.set_versioning(bucket, "Enabled"), "Enabled", "the bucket's versioning")
    ids = [client.put_version(bucket, "k", data) for data in (b"first", b"", b"third")]
    marker = client.delete_version(bucket, "k")
    odd = client.put_version(bucket, "a +%&<", b"odd")
    for page in (1, 1000):
        told = client.versions(bucket, page)
        same(told, [[("a +%&<", odd), *(("k", it) for it in reversed(ids))], [("k", marker)]], "the versions")
    same([client.get_version(bucket, "k", it) for it in ids], [b"first", b"", b"third"], "the bytes")
    client.delete_version(bucket, "k", marker)
    client.delete_version(bucket, "k", ids[1])
    same(client.versions(bucket, 1000), [[("a +%&<", odd), ("k", ids[2]), ("k", ids[0])], []], "the versions")
    same(client.set_versioning(bucket, "Suspended"), "Suspended", "the bucket's versioning")
    same(client.put_version(bucket, "k", b"null"), "null", "the version")


def copy_version(client, _other):
    direct, bucket = Direct(client.direct_address(), client.dialect), f"vat-{new_name()}"
    client.make_bucket(bucket)
    client.set_versioning(bucket, "Enabled")
    ids = [client.put_version(bucket, "k", data) for data in (b"first", b"second")]
    for version, data in zip(ids, (b"first", b"second"), strict=True):
        client.copy_version(bucket, "k", version, "copy")
        same_bytes(direct.get("copy", bucket), data)


def new_metadata(client, _other):
    direct, folder = filled(client, [])
    media, metadata = KEPT
    lines = {"content-type": media, **{f"x-amz-meta-{name}": value for name, value in metadata.items()}}
    direct.put(f"{folder}a", b"hello", lines=lines)
    client.copy(f"{folder}a", f"{folder}b")
    same(direct.told(f"{folder}b")[:2], KEPT, "what is told of the copy")
    # The second copy is one of the object onto itself.
    for name in ("b", "a"):
        client.copy_anew(f"{folder}a", f"{folder}{name}", *NEW)
        wanted = (NEW[0], {**(metadata if client.adds_metadata else {}), **NEW[1]})
        same(direct.told(f"{folder}{name}")[:2], wanted, "what is told of the copy")
    same(direct.objects(folder), {"a": b"hello", "b": b"hello"}, "the objects")


def conditions(tag, moment):
    """Conditions that an object of this tag and moment meets, and such that it doesn't."""
    other = '"5d41402abc4b2a76b9719d911017c593"'
    met = [{"if-match": tag}, {"if-none-match": other}, {"if-modified-since": BEFORE}, {"if-unmodified-since": moment}]
    met += [{"if-match": tag, "if-unmodified-since": BEFORE}]
    unmet = [{"if-match": other}, {"if-none-match": tag}, {"if-modified-since": moment}]
    unmet += [{"if-unmodified-since": BEFORE}, {"if-none-match": tag, "if-modified-since": BEFORE}]
    return met, unmet


def copy_if(client, _other):
    direct, folder = filled(client, ["a"])
    met, unmet = conditions(*direct.told(f"{folder}a")[2:])
    for number, asked in enumerate(met):
        client.copy_if(f"{folder}a", f"{folder}{number}", asked)
    for asked in unmet:
        expect(Unmet, lambda asked=asked: client.copy_if(f"{folder}a", f"{folder}none", asked))
    wanted = dict.fromkeys(["a", *(str(number) for number in range(len(met)))], b"hello")
    same(direct.objects(folder), wanted, "the objects")


def part_copied(client, _other):
    direct, folder = filled(client, [])
    data = os.urandom(12 * MIB)
    direct.put(f"{folder}a", data)
    for spans in SPANS:
        copied_in_parts(client, f"{folder}a", f"{folder}b", spans)
        wanted = [data if span is None else data[span[0] : span[1] + 1] for span in spans]
        same_bytes(direct.get(f"{folder}b"), b"".join(wanted))
    outside = [(0, len(data))]
    expect(RuntimeError, lambda: copied_in_parts(client, f"{folder}a", f"{folder}c", outside))
    expect(Missing, lambda: copied_in_parts(client, f"{folder}none", f"{folder}c", [None]))
    same(direct.keys(folder), [f"{folder}a", f"{folder}b"], "the keys")


def with_large(client):
    """The connection, a new folder, and the bytes of the object `a` in it, which was put in parts of a size that no
    client takes."""
    direct, folder = filled(client, [])
    data = large_data(client)
    in_parts(direct, f"{folder}a", data, 6 * MIB)
    return direct, folder, data


def same_in_parts(direct, key, bucket, data):
    """The object has these bytes, and was copied part by part: in one call its tag would tell as many parts as that of
    its source."""
    same_bytes(direct.get(key, bucket), data)
    told = re.fullmatch('"[0-9a-f]{32}-([0-9]+)"', tag := direct.told(key, bucket)[2])
    if told is None or int(told[1]) == -(-len(data) // (6 * MIB)):
        raise AssertionError(f"a copy with the tag {tag} isn't made of parts")


def large_copy(client, _other):
    direct, folder, data = with_large(client)
    for bucket in (BUCKET, new_bucket(direct)):
        client.copy_large(f"{folder}a", bucket, f"{folder}b")
        same_in_parts(direct, f"{folder}b", bucket, data)


def large_move(client, _other):
    direct, folder, data = with_large(client)
    client.move_large(f"{folder}a", f"{folder}b")
    same(direct.keys(folder), [f"{folder}b"], "the keys")
    same_in_parts(direct, f"{folder}b", BUCKET, data)


def patched(client, _other):
    direct, folder, data = with_large(client)
    at = len(data) // 2
    client.patch(f"{folder}a", at, b"patched")
    same_bytes(direct.get(f"{folder}a"), data[:at] + b"patched" + data[at + 7 :])


def touched(client, _other):
    direct, folder = filled(client, ["a"])
    client.touch(f"{folder}a", CHANGED_AT)
    same(client.moment(f"{folder}a"), CHANGED_AT, "the moment")
    same(direct.objects(folder), {"a": b"hello"}, "the objects")


def moded(client, _other):
    direct, folder = filled(client, ["a"])
    for mode in (0o600, 0o754):
        client.set_mode(f"{folder}a", mode)
        same(client.mode(f"{folder}a"), mode, "the mode")
    same(direct.objects(folder), {"a": b"hello"}, "the objects")


def move(client, _other):
    direct, folder = filled(client, ["a b+%"])
    client.move(f"{folder}a b+%", f"{folder}c &<d")
    same(direct.objects(folder), {"c &<d": b"hello"}, "the objects")


def delete_many(client, _other):
    direct, folder = filled(client, ["a", "b"])
    client.delete_many([f"{folder}a", f"{folder}b"])
    same(direct.keys(folder), [], "the keys")


def tag(data):
    return f'"{md5(data).hexdigest()}"'


def write_if(client, _other):
    """Writes that change an object only where it is the one that the client knows."""
    key = f"{new_name()}/k"
    expect(Missing, lambda: client.put_if(key, b"first", tag(b"first")))
    client.put(key, b"first")
    expect(Unmet, lambda: client.put_if(key, b"second", tag(b"other")))
    expect(Unmet, lambda: client.delete_if(key, tag(b"other")))
    same_bytes(client.get(key), b"first")
    client.put_if(key, b"second", tag(b"first"))
    expect(Unmet, lambda: client.put_if(key, b"third", tag(b"first")))
    same_bytes(client.get(key), b"second")
    client.delete_if(key, tag(b"second"))
    expect(Missing, lambda: client.get(key))


def told_instead(client, _other):
    """Lines that a get asks for in the place of those that are kept with the object."""
    direct, folder = filled(client, [])
    direct.put(f"{folder}a", b"hello", lines=KEPT_LINES)
    named = {"ContentType": "text/html", "ContentDisposition": 'attachment; filename="a b.txt"', "CacheControl": "no-store"}
    told = client.told_as(f"{folder}a", named)
    same({name: told.get(name) for name in named}, named, "what is told")
    same(told.get("ContentLanguage"), KEPT_LINES["content-language"], "the language")


def checksum_told(client, _other):
    """The checksum that a client sends of what it puts is told to its get."""
    _, folder = filled(client, [])
    client.put(f"{folder}a", b"hello")
    sum_of = base64.b64encode(zlib.crc32(b"hello").to_bytes(4, "big")).decode()
    same(client.told_summed(f"{folder}a").get("ChecksumCRC32"), sum_of, "the checksum")


# By name, in their order, as those of `interop/run`.
CHECKS_FOR_S3 = {
    "64 MiB": whole,
    "got in parts": got_in_parts,
    "odd names": odd_names,
    "control bytes": control_bytes,
    "new after empty": after_empty,
    "write if": write_if,
    "told instead": told_instead,
    "checksum told": checksum_told,
    "sum of sizes": total,
    "move": move,
    "new metadata": new_metadata,
    "copy if": copy_if,
    "copy version": copy_version,
    "part copied": part_copied,
    "large copy": large_copy,
    "large move": large_move,
    "moment": touched,
    "mode": moded,
    "patch": patched,
    "versions": versions,
    "bucket here": bucket_here,
    "bucket else": bucket_elsewhere,
    "bucket gone": bucket_gone,
    "purge": purged,
    "location": location,
    "absences": absences,
    "delete many": delete_many,
}

"""The lists of a server: the tables "Lists" and "Documents" of docs/PROTOCOL.md. All entries are sorted, and then
those that are asked for are picked, rolled up and counted. (Python orders texts as their bytes of UTF-8.)"""

from .documents import JSON, OWNED, url_encoded
from .requests import UPLOAD_ID, refuse, token_of
from .store import Store, page_of, quoted, stamp


def object_row(key, version):
    """What a list tells of an object, but for whom it belongs to."""
    data = version.data
    return {"ETag": quoted(data.tag), "Key": key, "LastModified": stamp(version.moment), "Size": data.body.size}


def version_row(key, version, is_latest):
    """What a list of versions tells of one."""
    told = {"Key": key, "LastModified": stamp(version.moment)} if version.data is None else object_row(key, version)
    return told | {"DeleteMarker": version.data is None, "IsLatest": is_latest, "VersionId": version.name}


def part_row(number, part):
    """What a list of parts tells of one."""
    tag = quoted(part.digest.hex())
    return {"ETag": tag, "LastModified": stamp(part.moment), "PartNumber": number, "Size": part.body.size}


def common_prefix(key, prefix, delimiter):
    """What a key has up to the end of the first delimiter after the prefix, where it holds one there."""
    before, found, _ = key[len(prefix) :].partition(delimiter) if delimiter else ("", "", "")
    return prefix + before + found if found else None


def rolled(rows, asked, marker):
    """The items of rows, each with its key: themselves, or their common prefixes, each once, and only where it is greater
    than the key of the marker."""
    items = []
    for key, row in rows:
        common = common_prefix(key, *asked)
        if common is None:
            items.append((key, row))
        elif common > marker and (common, None) not in items[-1:]:
            items.append((common, None))
    return items


class Server(Store):
    """A server: its store, and the lists of that."""

    def listed(self, facts, is_encoded):
        """The lines of a reply with a list, whose texts may have been asked for UriEncoded."""
        lines, self.facts = self.told(url_encoded(facts) if is_encoded else facts), facts
        return lines

    def objects(self, request, start, behind, owned):
        """What either list of objects tells of the keys that are greater than one text, and among the items that they
        make of those that are greater than another; and these items."""
        prefix, delimiter = request.value("prefix", otherwise=""), request.value("delimiter", otherwise="")
        most, items = request.count("max-keys"), {}
        for key, version in self.bucket(request).current().items():
            key = key.decode()
            if key.startswith(prefix) and key > start:
                common = common_prefix(key, prefix, delimiter)
                items[common or key] = None if common else version
        given, is_truncated = page_of(sorted(item for item in items if item > behind), most)
        told = {
            "CommonPrefixes": [{"Prefix": item} for item in given if items[item] is None],
            "Contents": [object_row(item, items[item]) | owned for item in given if items[item] is not None],
            "IsTruncated": is_truncated,
            "MaxKeys": most,
            "Name": request.bucket.decode(),
            "Prefix": prefix,
        }
        return told | ({} if delimiter == "" else {"Delimiter": delimiter}), given

    def list_objects(self, request):
        marker, is_encoded = request.value("marker", otherwise=""), request.is_encoded()
        told, given = self.objects(request, "", marker, OWNED)
        is_marked = told["IsTruncated"] and "Delimiter" in told
        return self.listed(told | {"Marker": marker} | ({"NextMarker": given[-1]} if is_marked else {}), is_encoded)

    def list_objects_v2(self, request):
        is_encoded, owned = request.is_encoded(), OWNED if request.wants_owners() else {}
        start, token = request.value("start-after"), request.value("continuation-token", token_of)
        first = start if token is None and start is not None else ""
        told, given = self.objects(request, first, token or "", owned)
        told |= {"KeyCount": len(given)}
        told |= {} if token is None else {"ContinuationToken": token.encode().hex()}
        told |= {} if start is None else {"StartAfter": start}
        told |= {"NextContinuationToken": given[-1].encode().hex()} if told["IsTruncated"] else {}
        return self.listed(told, is_encoded)

    def rolling(self, request):
        """By what keys are rolled up in a list of versions or of uploads, where it has common prefixes."""
        refuse(self.dialect == JSON and request.value("delimiter", bytes, b"") != b"", "NotImplemented")
        return request.value("prefix", otherwise=""), request.value("delimiter", otherwise="")

    @staticmethod
    def prefixes(given, delimiter):
        """What is told of a delimiter and of the common prefixes of a page."""
        told = [{"Prefix": text} for text, row in given if row is None]
        return {} if delimiter == "" else {"CommonPrefixes": told, "Delimiter": delimiter}

    def list_object_versions(self, request):
        asked = self.rolling(request)
        is_encoded = request.is_encoded()
        prefix, key_marker = asked[0], request.value("key-marker", otherwise="")
        marker, most, entries = request.version_id("version-id-marker"), request.count("max-keys"), []
        refuse(marker is not None and key_marker == "")
        for key, versions in sorted(self.bucket(request).keys.items()):
            key, names = key.decode(), [version.name for version in versions]
            behind = names.index(marker) + 1 if key == key_marker and marker in names else 0
            if key.startswith(prefix) and (key > key_marker or behind):
                entries += [(key, (version, version is versions[0])) for version in versions[behind:]]
        given, is_truncated = page_of(rolled(entries, asked, key_marker), most)
        told = {
            "IsTruncated": is_truncated,
            "KeyMarker": key_marker,
            "MaxKeys": most,
            "Name": request.bucket.decode(),
            "Prefix": prefix,
            "VersionIdMarker": marker or "",
            "Versions": [version_row(key, *row) for key, row in given if row is not None],
        }
        if is_truncated:
            key, row = given[-1]
            told |= {"NextKeyMarker": key} | ({} if row is None else {"NextVersionIdMarker": row[0].name})
        return self.listed(told | self.prefixes(given, asked[1]), is_encoded)

    def list_multipart_uploads(self, request):
        asked = self.rolling(request)
        is_encoded = request.is_encoded()
        prefix, key_marker = asked[0], request.value("key-marker", otherwise="")
        marker, most = request.value("upload-id-marker", bytes), request.count("max-uploads")
        refuse(marker is not None and (key_marker == "" or not UPLOAD_ID.fullmatch(marker)))
        marker, entries = (marker or b"").decode(), []
        for (key, name), upload in sorted(self.bucket(request).uploads.items()):
            is_behind = (key.decode(), name) > (key_marker, marker) if marker else key.decode() > key_marker
            if key.decode().startswith(prefix) and is_behind:
                row = {"Initiated": stamp(upload.moment), "Key": key.decode(), "UploadId": name}
                entries.append((key.decode(), row))
        given, is_truncated = page_of(rolled(entries, asked, key_marker), most)
        told = {
            "Bucket": request.bucket.decode(),
            "IsTruncated": is_truncated,
            "KeyMarker": key_marker,
            "MaxUploads": most,
            "Prefix": prefix,
            "UploadIdMarker": marker,
            "Uploads": [row for _, row in given if row is not None],
        }
        if is_truncated:
            key, row = given[-1]
            told |= {"NextKeyMarker": key} | ({} if row is None else {"NextUploadIdMarker": row["UploadId"]})
        return self.listed(told | self.prefixes(given, asked[1]), is_encoded)

    def list_parts(self, request):
        marker, most = request.digits("part-number-marker", b"0"), request.count("max-parts")
        name = request.upload_id()
        parts = self.upload(request, name).parts
        entries = [part_row(number, part) for number, part in sorted(parts.items()) if number > marker]
        given, is_truncated = page_of(entries, most)
        told = {
            "Bucket": request.bucket.decode(),
            "IsTruncated": is_truncated,
            "Key": request.key.decode(),
            "MaxParts": most,
            "PartNumberMarker": marker,
            "Parts": given,
            "UploadId": name,
        }
        return self.told(told | ({"NextPartNumberMarker": given[-1]["PartNumber"]} if is_truncated else {}))

"""The clients of S3 that are libraries, for `interop/run`."""

from pathlib import Path

from clients import HOUR, MIB, PART, TOLD, XML, Client, Lacking, Refused, Unread
from clients import in_order, in_parts, of_page, span_told
from server import BUCKET, ID, REGION, SECRET


def raise_told(error):
    """Raises what an error of boto3's tells."""
    status = error.response["ResponseMetadata"]["HTTPStatusCode"]
    raise TOLD.get(status, RuntimeError)(str(error)) from error


class Boto3(Client):
    """AWS's library for Python."""

    name = "boto3"
    takes_certificate = True

    @classmethod
    def absent(cls):
        try:
            import boto3  # noqa: F401
        except ImportError:
            return "not installed"
        return None

    @classmethod
    def version(cls):
        import boto3

        return boto3.__version__

    def client(self, **more):
        import boto3

        return boto3.client("s3", **self.settings(**more))

    def settings(self, **more):
        """What clients and resources of this library are made with."""
        from botocore.config import Config

        config = Config(**{"s3": {"addressing_style": "path"}, "retries": {"total_max_attempts": 1}, "proxies": {}, **more})
        place = {"endpoint_url": self.endpoint(), "region_name": REGION, "verify": self.certificate}
        return {**place, "aws_access_key_id": ID, "aws_secret_access_key": self.secret, "config": config}

    def call(self, operation, key, **more):
        from botocore.exceptions import ClientError

        try:
            return getattr(self.client(), operation)(Bucket=BUCKET, Key=key, **more)
        except ClientError as error:
            raise_told(error)

    def put(self, key, data):
        self.call("put_object", key, Body=data)

    def get(self, key):
        return self.call("get_object", key)["Body"].read()

    def part(self, key, first, count):
        return self.call("get_object", key, Range=f"bytes={first}-{first + count - 1}")["Body"].read()

    def get_unless(self, key, tag):
        return self.call("get_object", key, IfNoneMatch=tag)["Body"].read()

    def head(self, key, **more):
        return self.call("head_object", key, **more)["ContentLength"]

    def head_if(self, key, tag):
        return self.head(key, IfMatch=tag)

    def put_new(self, key, data):
        self.call("put_object", key, Body=data, IfNoneMatch="*")

    def put_if(self, key, data, tag):
        self.call("put_object", key, Body=data, IfMatch=tag)

    def delete_if(self, key, tag):
        self.call("delete_object", key, IfMatch=tag)

    def told_as(self, key, named):
        return self.call("get_object", key, **{f"Response{name}": value for name, value in named.items()})

    def told_summed(self, key):
        told = self.call("get_object", key, ChecksumMode="ENABLED")
        told["Body"].read()
        return told

    def presigned(self, method, key):
        # Without the version it signs an address by the second one, where the region is this.
        operation = {"GET": "get_object", "PUT": "put_object", "HEAD": "head_object"}[method]
        named = {"Bucket": BUCKET, "Key": key}
        return self.client(signature_version="s3v4").generate_presigned_url(operation, Params=named, ExpiresIn=HOUR)

    def read(self, operation, key, **more):
        """Calls what is answered with a document: one that is no XML is told as an answer with the status 500."""
        try:
            return self.call(operation, key, **more)
        except RuntimeError as error:
            raise Unread(XML) if "(500)" in str(error) else error from error

    def copy(self, key, other, **more):
        self.read("copy_object", other, CopySource={"Bucket": BUCKET, "Key": key}, **more)

    def copy_anew(self, key, other, media, metadata):
        self.copy(key, other, MetadataDirective="REPLACE", ContentType=media, Metadata=metadata)

    def copy_if(self, key, other, conditions):
        named = {f"copy-source-{name}".title().replace("-", ""): value for name, value in conditions.items()}
        self.copy(key, other, **named)

    def copy_version(self, bucket, key, version, other):
        source = {"Bucket": bucket, "Key": key, "VersionId": version}
        self.of_bucket("copy_object", bucket, Key=other, CopySource=source)

    def copy_part(self, key, upload, number, source, span=None):
        named = {"CopySource": {"Bucket": BUCKET, "Key": source}, "PartNumber": number, "UploadId": upload}
        named |= {"CopySourceRange": span_told(span)} if span else {}
        return self.call("upload_part_copy", key, **named)["CopyPartResult"]["ETag"]

    def put_parts(self, key, data):
        in_parts(self, key, data)

    def begin(self, key):
        return self.read("create_multipart_upload", key)["UploadId"]

    def send_part(self, key, upload, data, number=1):
        return self.call("upload_part", key, UploadId=upload, PartNumber=number, Body=data)["ETag"]

    def complete(self, key, upload, tags):
        parts = [{"ETag": tag, "PartNumber": number} for number, tag in enumerate(tags, 1)]
        self.read("complete_multipart_upload", key, UploadId=upload, MultipartUpload={"Parts": parts})

    def abort(self, key, upload):
        self.call("abort_multipart_upload", key, UploadId=upload)

    def listed(self, prefix, delimiter, page=None, operation="list_objects_v2"):
        from botocore.exceptions import ClientError

        asked = {"Bucket": BUCKET, "Prefix": prefix, "Delimiter": delimiter, "PaginationConfig": {"PageSize": page}}
        try:
            pages = list(self.client().get_paginator(operation).paginate(**asked))
        except ClientError as error:
            # So is an answer to a request for a list.
            raise Unread(XML) if "(500)" in str(error) else error from error
        return [item for page in pages for item in of_page(page)]

    def listed_first(self, prefix, delimiter, page=None):
        return Boto3.listed(self, prefix, delimiter, page, "list_objects")

    def delete(self, key):
        self.call("delete_object", key)

    def new_after_empty(self, key, other):
        # Where the server doesn't answer the `Expect` of an empty put as this library has it, the next put of the
        # same connection waits for an answer that has come already.
        client = self.client()
        client.put_object(Bucket=BUCKET, Key=key, Body=b"")
        client.put_object(Bucket=BUCKET, Key=other, Body=b"other", IfNoneMatch="*")
        client.put_object(Bucket=BUCKET, Key=key, Body=b"")
        try:
            client.put_object(Bucket=BUCKET, Key=other, Body=b"", IfNoneMatch="*")
        except client.exceptions.ClientError as error:
            raise_told(error)

    def of_bucket(self, operation, bucket, **more):
        from botocore.exceptions import ClientError

        try:
            return getattr(self.client(), operation)(Bucket=bucket, **more)
        except ClientError as error:
            raise_told(error)

    def make_bucket(self, bucket, region=None):
        place = {"CreateBucketConfiguration": {"LocationConstraint": region}} if region else {}
        self.of_bucket("create_bucket", bucket, **place)

    def remove_bucket(self, bucket):
        self.of_bucket("delete_bucket", bucket)

    def set_versioning(self, bucket, status):
        self.of_bucket("put_bucket_versioning", bucket, VersioningConfiguration={"Status": status})
        return self.of_bucket("get_bucket_versioning", bucket).get("Status")

    def put_version(self, bucket, key, data):
        return self.of_bucket("put_object", bucket, Key=key, Body=data)["VersionId"]

    def delete_version(self, bucket, key, version=None):
        named = {"VersionId": version} if version else {}
        return self.of_bucket("delete_object", bucket, Key=key, **named)["VersionId"]

    def get_version(self, bucket, key, version):
        return self.of_bucket("get_object", bucket, Key=key, VersionId=version)["Body"].read()

    def versions(self, bucket, page):
        asked = {"Bucket": bucket, "PaginationConfig": {"PageSize": page}}
        pages = list(self.client().get_paginator("list_object_versions").paginate(**asked))
        kinds = ("Versions", "DeleteMarkers")
        return [[(row["Key"], row["VersionId"]) for page in pages for row in page.get(kind, [])] for kind in kinds]

    def location(self):
        return self.of_bucket("get_bucket_location", BUCKET)["LocationConstraint"] or REGION

    def configuration(self, resource, call):
        self.of_bucket(call.replace("-", "_"), BUCKET)

    def delete_many(self, keys):
        self.of_bucket("delete_objects", BUCKET, Delete={"Objects": [{"Key": key} for key in keys]})


class Boto3Files(Boto3):
    """The same library's transfers of files, which ask for an object before they get it, and its resources."""

    name = "boto3 files"

    def transfer(self, operation, *words, **settings):
        from boto3.s3.transfer import TransferConfig
        from botocore.exceptions import ClientError

        try:
            getattr(self.client(), operation)(*words, Config=TransferConfig(**settings))
        except ClientError as error:
            raise_told(error)
        except Exception as error:
            if "403" in str(error) or "SignatureDoesNotMatch" in str(error):
                raise Refused(str(error)) from error
            raise

    def put(self, key, data):
        self.transfer("upload_file", self.path(data), BUCKET, key, multipart_threshold=1024 * MIB)

    def put_parts(self, key, data):
        try:
            self.transfer("upload_file", self.path(data), BUCKET, key)
        except Exception as error:
            raise Unread(XML) if "(500)" in str(error) else error from error

    def get(self, key, threshold=1024 * MIB):
        path = self.path()
        self.transfer("download_file", BUCKET, key, path, multipart_threshold=threshold)
        return Path(path).read_bytes()

    def get_parts(self, key):
        return self.get(key, PART)

    def copy_large(self, key, bucket, other):
        self.transfer("copy", {"Bucket": BUCKET, "Key": key}, bucket, other)

    def objects(self, prefix, page=None):
        """The objects whose keys begin so, as a resource has them."""
        import boto3

        found = boto3.resource("s3", **self.settings()).Bucket(BUCKET).objects.filter(Prefix=prefix)
        return found if page is None else found.page_size(page)

    def listed_first(self, prefix, delimiter, page=None):
        if delimiter:
            raise Lacking()
        return in_order([(found.key, found.size) for found in self.objects(prefix, page)], [])

    def total(self, prefix):
        return sum(found.size for found in self.objects(prefix))

    def remove_all(self, prefix):
        self.objects(prefix).delete()

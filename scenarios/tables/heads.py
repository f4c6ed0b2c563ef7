"""What the connection refuses of a head before it looks at what is asked for, and of a request that is signed by its
query: "Presigned requests" and the table "By the connection" of docs/PROTOCOL.md. `examples/signing.py` signs."""

import calendar
import re
import time

from signing import ALGORITHM, CHUNKED, UNSIGNED, canonical_request, signature, stamp_of

from .chains import KEYS
from .codings import is_coded, judge_coding
from .payloads import BODY_LIMIT, TRAILED_CHUNKS, UNSIGNED_CHUNKS
from .requests import is_presigned, is_s3, refuse
from .sums import CHECKSUM, KINDS, is_read, read

REGION = b"us-east-1"
TOKEN = rb"[-!#$%&'*+.^_`|~0-9a-z]+"
# The parameters of a signing query, and the forms of their values.
FORMS = {
    b"X-Amz-Algorithm": ALGORITHM.encode(),
    b"X-Amz-Credential": rb"([^/,]+)/([^/,]*)/([^/,]*)/([^/,]*)/aws4_request",
    b"X-Amz-Date": rb"[0-9]{8}T[0-9]{6}Z",
    b"X-Amz-Expires": rb"[0-9]{1,6}",
    b"X-Amz-SignedHeaders": TOKEN + rb"(;" + TOKEN + rb")*",
    b"X-Amz-Signature": rb"[0-9a-f]{64}",
}
LONGEST, SKEW = 604_800, 900
MD5_SIZE = 16


def lines_of(request, names):
    """The lines of these names, with their values, as they are signed."""
    return [(name, ",".join(value for behind, value in request.values(name) if behind == "")) for name in names]


def moment_of(stamp):
    """The moment of a stamp, where it is one."""
    try:
        moment = calendar.timegm(time.strptime(stamp.decode(), "%Y%m%dT%H%M%SZ"))
    except ValueError:
        return None
    # Python takes a second 60, too.
    return moment if moment >= 0 and stamp_of(moment).encode() == stamp else None


def value_of(request, name):
    """The value of a parameter of the signing query, which has to be there once, in its form."""
    values = [value for other, value in request.pairs if other == name]
    refuse(len(values) != 1 or not re.fullmatch(FORMS[name], values[0]), "AuthorizationQueryParametersError")
    return values[0]


def verify(request, moment):
    """Refuses a presigned request for the first fault of its table."""
    refuse(request.line("authorization") is not None)
    malformed = "AuthorizationQueryParametersError"
    _, credential, stamp, expires, names, told = (value_of(request, name) for name in FORMS)
    names, made = names.decode().split(";"), moment_of(stamp)
    refuse(made is None or not 1 <= int(expires) <= LONGEST or sorted(set(names)) != names, malformed)
    key_id, _, scope = credential.partition(b"/")
    refuse(scope != b"/".join([stamp[:8], REGION, b"s3", b"aws4_request"]), malformed)
    refuse(key_id not in KEYS, "InvalidAccessKeyId")
    refuse(made > moment + SKEW or moment > made + int(expires), "AccessDenied")
    words = [value for behind, value in request.values("x-amz-content-sha256") if behind == ""]
    refuse(any(word != UNSIGNED for word in words), "NotImplemented")
    sent = ["host", *(f"x-amz-{behind}" for behind, _ in request.values("x-amz-"))]
    refuse(not set(sent) <= set(names), "AccessDenied")
    lines = lines_of(request, names)
    canonical = canonical_request(request.method, request.target, lines, UNSIGNED)
    refuse(told.decode() != signature(KEYS[key_id], scope, stamp, canonical), "SignatureDoesNotMatch")


def judge_head(request, moment):
    """Refuses a request whose head the connection refuses, before it looks at what is asked for."""
    if is_coded(request):
        judge_coding(request, BODY_LIMIT)
    refuse(re.search("%(?![0-9A-Fa-f]{2})", request.target), "InvalidURI")
    if is_presigned(request):
        verify(request, moment)
    else:
        refuse(request.line("authorization") is None, "AccessDenied")
    judge_payload(request)


def judge_payload(request):
    """Refuses a request whose head tells of its body what can't be."""
    word = request.line("x-amz-content-sha256") or UNSIGNED
    words = {CHUNKED, UNSIGNED_CHUNKS, TRAILED_CHUNKS} if is_s3(request) else {CHUNKED}
    if word in words:
        judge_chunks(request, word != CHUNKED)
        return
    refuse(word.startswith("STREAMING-"), "NotImplemented")
    refuse(word != UNSIGNED and not re.fullmatch("[0-9a-f]{64}", word))
    told, sums = request.all_of("content-md5"), request.checksums()
    refuse(len(told) > 1 or not all(read(value, MD5_SIZE) for value in told), "InvalidDigest")
    refuse(len(sums) > 1 or not all(is_read(*it) for it in sums), "InvalidRequest")


def judge_chunks(request, are_trailed):
    """Refuses a request whose head tells of the chunks of its body what can't be."""
    sizes, names = request.all_of("x-amz-decoded-content-length"), request.all_of("x-amz-trailer")
    refuse(len(sizes) != 1 or not re.fullmatch("[0-9]{1,18}", sizes[0]), "InvalidRequest")
    refuse(int(sizes[0]) > BODY_LIMIT, "EntityTooLarge")
    says_one = is_s3(request) and any(kind in KINDS for kind, _ in request.values(CHECKSUM))
    if not are_trailed:
        refuse(says_one, "NotImplemented")
    else:
        is_named = len(names) == 1 and names[0].lower() in {f"{CHECKSUM}{kind}" for kind in KINDS}
        refuse(not is_named or says_one, "InvalidRequest")

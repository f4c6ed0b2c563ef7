"""What checks of `interop/run` expect."""


def expect(kinds, call):
    """The error of one of these kinds that the call raises."""
    try:
        call()
    except kinds as error:
        return error
    raise AssertionError("it succeeds, and should not")


def same(told, wanted, what):
    if told != wanted:
        raise AssertionError(f"{what}: {str(told)[:150]} in place of {str(wanted)[:150]}")


def same_bytes(got, wanted):
    if got != wanted:
        raise AssertionError(f"{len(got)} bytes came in place of {len(wanted)}, or other ones")

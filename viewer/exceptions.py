"""The exceptions with which a reply begins, of Java and libbinder."""

EXCEPTIONS = {-1: "EX_SECURITY", -2: "EX_BAD_PARCELABLE", -3: "EX_ILLEGAL_ARGUMENT", -4: "EX_NULL_POINTER",
              -5: "EX_ILLEGAL_STATE", -6: "EX_NETWORK_MAIN_THREAD", -7: "EX_UNSUPPORTED_OPERATION",
              -8: "EX_SERVICE_SPECIFIC", -9: "EX_PARCELABLE", -129: "EX_TRANSACTION_FAILED"}


def exception_name(number: int) -> str:
    """An exception of these, with its number."""
    return f"{EXCEPTIONS[number]} ({number})"

"""The methods that an interface has besides its own, by name, with their codes: in AIDL if it has a version, in HIDL
always."""

ADDED = {"getInterfaceHash": 16777214, "getInterfaceVersion": 16777215}

# The methods of android.hidl.base@1.0::IBase, which each interface has. Their codes are in Interface.cpp of Debian's
# source package android-platform-system-tools-hidl 10.0.0+r36, and `checks/methods --compilers` compares them.
BASE = "android.hidl.base@1.0::IBase"
OF_BASE = {name: int.from_bytes(b"\x0f" + letters, "big") for name, letters in {
    "ping": b"PNG", "interfaceChain": b"CHN", "interfaceDescriptor": b"DSC", "notifySyspropsChanged": b"SYS",
    "linkToDeath": b"LTD", "unlinkToDeath": b"UTD", "setHALInstrumentation": b"INT", "getDebugInfo": b"REF",
    "debug": b"DBG", "getHashChain": b"HSH"}.items()}

#include "forms.h"

#define IMPLEMENT_META_INTERFACE(NO, NAME) enum { WRONG = IBinder::FIRST_CALL_TRANSACTION };

IMPLEMENT_META_INTERFACE(Plain, "check.hand.IPlain");
IMPLEMENT_HYBRID_META_INTERFACE(Tagged,
    "check.hand."
    "Tagged",
    "check.hand.hidl")
DO_NOT_DIRECTLY_USE_ME_IMPLEMENT_META_INTERFACE(Conditional, "check.hand.IConditional")
IMPLEMENT_META_INTERFACE(Twice, "check.hand.ITwice");
IMPLEMENT_META_INTERFACE(Reckoned, "check.hand.IReckoned");
IMPLEMENT_META_INTERFACE(Late, "check.hand.ILate");
IMPLEMENT_META_INTERFACE(Clash, "check.hand.IClash");
IMPLEMENT_META_INTERFACE(Lonely, "check.hand.ILonely");
IMPLEMENT_META_INTERFACE(Named, NAME_OF_NAMED);
// What the compiler of AIDL made has the names of the source.
IMPLEMENT_META_INTERFACE(Made, "check.forms.ISome");

// Interfaces that are written by hand. What is here is read and never compiled.
#pragma once
#include <binder/IInterface.h>

namespace check {

class INowhere;
template <class T> class Box {};

/* class IComment { enum { NO = IBinder::FIRST_CALL_TRANSACTION }; }; */
class IPlain : public android::IInterface {
public:
    DECLARE_META_INTERFACE(Plain)
    enum { COLOUR = 7, SHAPE };
    enum {
        FIRST = IBinder::FIRST_CALL_TRANSACTION,
        SECOND,  // a comment, with a comma
        TENTH = android::IBinder::FIRST_CALL_TRANSACTION + 9,
        ELEVENTH /* { */,
        AGAIN = SECOND,
        THIRD,
        LAST = THIRD
    };
    virtual const char* name() { return "} enum { NO = IBinder::FIRST_CALL_TRANSACTION"; }
};

struct ITagged final : IInterface {
    DECLARE_META_INTERFACE(Tagged);
};

class BnTagged : public BnInterface<ITagged, Box<int>> {
    enum class Tag : uint32_t { One = ::android::IBinder::FIRST_CALL_TRANSACTION, Two, Last };
};

class IConditional : public IInterface {
    DECLARE_META_INTERFACE(Conditional)
    enum {
        ALWAYS = IBinder::FIRST_CALL_TRANSACTION,
#ifdef SOMETIMES
        PERHAPS,
#endif
        AFTERWARDS,
    };
};

class ITwice : public IInterface {
    DECLARE_META_INTERFACE(Twice)
    enum { ONE = IBinder::FIRST_CALL_TRANSACTION };
    enum { UNO = IBinder::FIRST_CALL_TRANSACTION };
};

class IReckoned : public IInterface {
    DECLARE_META_INTERFACE(Reckoned)
    enum { ONE = IBinder::FIRST_CALL_TRANSACTION, OTHER = base() + 4 };
};

class ILate : public IInterface {
    DECLARE_META_INTERFACE(Late)
    enum { SECOND = IBinder::FIRST_CALL_TRANSACTION + 1 };
};

class IClash : public IInterface {
    DECLARE_META_INTERFACE(Clash)
    enum { ONE = IBinder::FIRST_CALL_TRANSACTION, TWO, ALSO = IBinder::FIRST_CALL_TRANSACTION + 1 };
};

class IMade : public IInterface {
    DECLARE_META_INTERFACE(Made)
    enum Call { SOME = IBinder::FIRST_CALL_TRANSACTION + 0 };
};

}  // namespace check

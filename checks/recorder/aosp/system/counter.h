// An interface that is written by hand, as libbinder's own are, without AIDL.
#pragma once
#include <binder/IInterface.h>
#include <utils/String16.h>

namespace check {

class ISlot : public android::IInterface {
public:
    DECLARE_META_INTERFACE(Slot)
    enum {
        ADD = android::IBinder::FIRST_CALL_TRANSACTION,
        READ,
    };
    virtual void add(int32_t number) = 0;
    virtual int32_t read() = 0;
};

class ICounter : public android::IInterface {
public:
    DECLARE_META_INTERFACE(Counter)
    enum {
        COUNT = android::IBinder::FIRST_CALL_TRANSACTION,
        NEW_SLOT,
    };
    virtual int32_t count() = 0;
    virtual android::sp<ISlot> newSlot() = 0;
};

android::sp<ICounter> newCounter();

}  // namespace check

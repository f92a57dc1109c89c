#include "counter.h"

#include <atomic>

#include <binder/Parcel.h>

using namespace android;

namespace check {

class BpSlot : public BpInterface<ISlot> {
public:
    explicit BpSlot(const sp<IBinder>& object) : BpInterface<ISlot>(object) {}
    void add(int32_t number) override {
        Parcel data, reply;
        data.writeInterfaceToken(getInterfaceDescriptor());
        data.writeInt32(number);
        remote()->transact(ADD, data, &reply);
    }
    int32_t read() override {
        Parcel data, reply;
        data.writeInterfaceToken(getInterfaceDescriptor());
        remote()->transact(READ, data, &reply);
        return reply.readInt32();
    }
};

class BpCounter : public BpInterface<ICounter> {
public:
    explicit BpCounter(const sp<IBinder>& object) : BpInterface<ICounter>(object) {}
    int32_t count() override {
        Parcel data, reply;
        data.writeInterfaceToken(getInterfaceDescriptor());
        remote()->transact(COUNT, data, &reply);
        return reply.readInt32();
    }
    sp<ISlot> newSlot() override {
        Parcel data, reply;
        data.writeInterfaceToken(getInterfaceDescriptor());
        remote()->transact(NEW_SLOT, data, &reply);
        return interface_cast<ISlot>(reply.readStrongBinder());
    }
};

IMPLEMENT_META_INTERFACE(Slot, "check.ISlot")
IMPLEMENT_META_INTERFACE(Counter, "check.ICounter")

class Slot : public BnInterface<ISlot> {
public:
    void add(int32_t number) override { sum += number; }
    int32_t read() override { return sum; }
    status_t onTransact(uint32_t code, const Parcel& data, Parcel* reply, uint32_t flags) override {
        switch (code) {
            case ADD:
                CHECK_INTERFACE(ISlot, data, reply);
                add(data.readInt32());
                return NO_ERROR;
            case READ:
                CHECK_INTERFACE(ISlot, data, reply);
                return reply->writeInt32(read());
        }
        return BBinder::onTransact(code, data, reply, flags);
    }

private:
    std::atomic<int32_t> sum{0};
};

class Counter : public BnInterface<ICounter> {
public:
    int32_t count() override { return ++counted; }
    sp<ISlot> newSlot() override { return new Slot; }
    status_t onTransact(uint32_t code, const Parcel& data, Parcel* reply, uint32_t flags) override {
        switch (code) {
            case COUNT:
                CHECK_INTERFACE(ICounter, data, reply);
                return reply->writeInt32(count());
            case NEW_SLOT:
                CHECK_INTERFACE(ICounter, data, reply);
                return reply->writeStrongBinder(IInterface::asBinder(newSlot()));
        }
        return BBinder::onTransact(code, data, reply, flags);
    }

private:
    std::atomic<int32_t> counted{0};
};

sp<ICounter> newCounter() { return new Counter; }

}  // namespace check

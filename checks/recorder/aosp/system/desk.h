// The service on interfaces that aidl compiled.
#pragma once
#include <map>
#include <string>
#include <vector>

#include <check/BnDesk.h>
#include <check/BnListener.h>
#include <check/BnSession.h>
#include <unistd.h>
#include <utils/Mutex.h>

namespace check {

using android::BBinder;
using android::IBinder;
using android::IInterface;
using android::Mutex;
using android::sp;
using android::String16;
using android::wp;
using android::binder::Status;

class Session : public BnSession {
public:
    Status work(int32_t number, int32_t* answer) override {
        *answer = number + 1;
        return Status::ok();
    }
    Status close() override { return Status::ok(); }
};

// Tells its listeners. It hears of their deaths and forgets the dead, unless it keeps them.
class Desk : public BnDesk, public IBinder::DeathRecipient {
public:
    explicit Desk(bool keepsDead) : keepsDead(keepsDead) {}
    Status echo(int32_t number, int32_t* answer) override {
        if (number % 50 == 49) return Status::fromExceptionCode(Status::EX_ILLEGAL_ARGUMENT, "not this one");
        *answer = number;
        return Status::ok();
    }
    Status open(const String16&, sp<ISession>* session) override {
        *session = new Session;
        return Status::ok();
    }
    Status listen(const sp<IListener>& listener) override {
        Mutex::Autolock held(lock);
        if (!keepsDead) IInterface::asBinder(listener)->linkToDeath(this);
        listeners[IInterface::asBinder(listener)] = listener;
        return Status::ok();
    }
    Status forget(const sp<IListener>& listener) override {
        Mutex::Autolock held(lock);
        if (!keepsDead) IInterface::asBinder(listener)->unlinkToDeath(this);
        listeners.erase(IInterface::asBinder(listener));
        return Status::ok();
    }
    Status tell(int32_t number) override {
        for (auto& listener : all()) listener->event(number);
        return Status::ok();
    }
    Status askAll(int32_t number, int32_t* answer) override {
        *answer = 0;
        for (auto& listener : all()) {
            int32_t one = 0;
            listener->ask(number, &one);
            *answer += one;
        }
        return Status::ok();
    }
    Status describe(int32_t number, String16* text) override {
        *text = String16(("number " + std::to_string(number)).c_str());
        return Status::ok();
    }
    Status rest(int32_t milliseconds, int32_t* answer) override {
        usleep(milliseconds * 1000);
        *answer = milliseconds;
        return Status::ok();
    }
    Status restAfterwards(int32_t milliseconds) override {
        usleep(milliseconds * 1000);
        return Status::ok();
    }
    void binderDied(const wp<IBinder>& who) override {
        Mutex::Autolock held(lock);
        listeners.erase(who);
    }
    android::status_t dump(int file, const android::Vector<String16>&) override {
        Mutex::Autolock held(lock);
        dprintf(file, "%zu listeners\n", listeners.size());
        return android::NO_ERROR;
    }

private:
    std::vector<sp<IListener>> all() {
        Mutex::Autolock held(lock);
        std::vector<sp<IListener>> found;
        for (auto& entry : listeners) found.push_back(entry.second);
        return found;
    }
    const bool keepsDead;
    Mutex lock;
    std::map<wp<IBinder>, sp<IListener>> listeners;
};

}  // namespace check

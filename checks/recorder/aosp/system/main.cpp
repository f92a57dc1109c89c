// A small system on AOSP's libbinder: services, and clients with and without a fault.
//
//     ROLE [SECONDS]
//
// The program is called by the name of a role; ROLES at the end says what each does. A client works for so many seconds,
// by default to its end, and then rests.
#include <stdio.h>
#include <stdlib.h>
#include <sys/wait.h>
#include <time.h>

#include <atomic>
#include <map>
#include <string>
#include <thread>

#include <binder/IPCThreadState.h>
#include <binder/IResultReceiver.h>
#include <binder/IServiceManager.h>
#include <binder/IShellCallback.h>
#include <binder/ProcessState.h>

#include "counter.h"
#include "desk.h"

using namespace android;
using namespace check;

static const useconds_t TURN = 40000;
static double until = 1e9;

static double now() {
    timespec time;
    clock_gettime(CLOCK_MONOTONIC, &time);
    return time.tv_sec + time.tv_nsec / 1e9;
}

// The next turn of a client, or its rest.
static int turns() {
    static std::atomic<int> number;
    usleep(TURN);
    while (now() > until) sleep(1);
    return ++number;
}

static void serve(const char* name, const sp<IBinder>& object) {
    defaultServiceManager()->addService(String16(name), object);
    ProcessState::self()->startThreadPool();
    IPCThreadState::self()->joinThreadPool();
}

static sp<IBinder> found(const char* name) {
    sp<IBinder> object;
    while ((object = defaultServiceManager()->checkService(String16(name))) == nullptr) usleep(TURN);
    return object;
}

static sp<IDesk> desk() { return interface_cast<IDesk>(found("check.desk")); }

static sp<ISession> opened(const sp<IDesk>& desk) {
    sp<ISession> session;
    int32_t answer;
    desk->open(String16("somebody"), &session);
    session->work(1, &answer);
    return session;
}

class Listener : public BnListener {
public:
    explicit Listener(useconds_t delay = 0) : delay(delay) {}
    Status event(int32_t) override {
        usleep(delay);
        return Status::ok();
    }
    Status ask(int32_t number, int32_t* answer) override {
        *answer = number;
        return Status::ok();
    }

private:
    const useconds_t delay;
};

class Recipient : public IBinder::DeathRecipient {
    void binderDied(const wp<IBinder>&) override {}
};

// ---- clients without a fault

static void dumped(const sp<IBinder>& object) {
    int file = ::open("/dev/null", O_RDWR);
    object->dump(file, Vector<String16>());
    Vector<String16> words;
    words.add(String16("help"));
    IBinder::shellCommand(object, file, file, file, words, nullptr, nullptr);
    ::close(file);
}

static void client() {
    sp<IDesk> service = desk();
    sp<Listener> listener = new Listener;
    service->listen(listener);
    for (int turn; (turn = turns());) {
        int32_t answer;
        String16 text;
        sp<ISession> session = opened(service);
        session->close();
        service->echo(turn, &answer);
        service->describe(turn, &text);
        if (turn % 4 == 0) service->tell(turn);
        if (turn % 8 == 0) service->askAll(turn, &answer);
        if (turn % 10 == 0) IInterface::asBinder(service)->pingBinder();
        if (turn % 30 == 0) dumped(IInterface::asBinder(service));
    }
}

static void guest() {
    sp<IDesk> service = desk();
    for (;;) {
        sp<Listener> listener = new Listener;
        service->listen(listener);
        turns();
        service->forget(listener);
    }
}

static void cache() {
    sp<IDesk> service = desk();
    std::map<int, sp<ISession>> kept;
    for (int turn; (turn = turns());) {
        auto& session = kept[turn % 20];
        int32_t answer;
        if (session == nullptr) session = opened(service);
        session->work(turn, &answer);
    }
}

static void weak() {
    sp<IDesk> service = desk();
    sp<ISession> session = opened(service);
    wp<ISession> weakly = session;
    for (int turn; (turn = turns());) {
        int32_t answer;
        if (turn % 10 == 0) weakly = session = opened(service);
        weakly.promote()->work(turn, &answer);
    }
}

static void linker() {
    sp<IDesk> service = desk();
    while (turns()) {
        sp<ISession> session = opened(service);
        sp<Recipient> recipient = new Recipient;
        IInterface::asBinder(session)->linkToDeath(recipient);
        IInterface::asBinder(session)->unlinkToDeath(recipient);
    }
}

static void at_once(int count, int32_t milliseconds) {
    sp<IDesk> service = desk();
    std::vector<std::thread> threads;
    for (int i = 0; i < count; i++)
        threads.emplace_back([=] {
            int32_t answer;
            while (turns()) service->rest(milliseconds, &answer);
        });
    for (auto& thread : threads) thread.join();
}

static void parallel() { at_once(8, 20); }

static void teller() {
    sp<IDesk> service = desk();
    for (;;) {
        service->restAfterwards(700);
        usleep(700000);
    }
}

static void counting() {
    sp<ICounter> counter = interface_cast<ICounter>(found("check.counter"));
    while (turns()) {
        sp<ISlot> slot = counter->newSlot();
        slot->add(counter->count());
        slot->read();
    }
}

// Each of these says that it is there, is heard of, and ends.
static void short_lived() {
    for (int i = 0; i < 14; i++) {
        if (fork() == 0) {
            sp<IDesk> service = desk();
            ProcessState::self()->startThreadPool();
            service->listen(new Listener);
            service->tell(i);
            usleep(300000);
            exit(0);
        }
        wait(nullptr);
    }
}

static void services() {
    for (int i = 0; i < 5; i++) {
        pid_t child = fork();
        if (child == 0) serve(("check.service" + std::to_string(i)).c_str(), new Desk(false));
        sleep(1);
        kill(child, SIGKILL);
        wait(nullptr);
    }
}

// ---- clients with a fault

static void leaker() {
    sp<IDesk> service = desk();
    std::vector<sp<ISession>> kept;
    while (turns()) kept.push_back(opened(service));
}

static void increaser() {
    sp<IDesk> service = desk();
    while (turns()) opened(service)->incStrong(&service);
}

static void slot_leaker() {
    sp<ICounter> counter = interface_cast<ICounter>(found("check.counter"));
    std::vector<sp<ISlot>> kept;
    while (turns()) {
        kept.push_back(counter->newSlot());
        kept.back()->add(1);
    }
}

// Keeps the replies of the seventh method, describe.
static void parcel_keeper() {
    sp<IDesk> service = desk();
    std::vector<Parcel*> kept;
    for (int turn; (turn = turns());) {
        Parcel data;
        int32_t answer;
        data.writeInterfaceToken(IDesk::descriptor);
        data.writeInt32(turn);
        kept.push_back(new Parcel);
        IInterface::asBinder(service)->transact(IBinder::FIRST_CALL_TRANSACTION + 6, data, kept.back());
        service->echo(turn, &answer);
    }
}

static void linked_leaker() {
    sp<IDesk> service = desk();
    while (turns()) IInterface::asBinder(opened(service))->linkToDeath(new Recipient);
}

static void crowd() { at_once(17, 3600000); }

static void slow_listener() {
    desk()->listen(new Listener(150000));
    for (;;) sleep(1);
}

static void flood() {
    sp<IDesk> service = desk();
    for (int turn; (turn = turns());)
        for (int i = 0; i < 5; i++) service->tell(turn);
}

static Mutex clientLock;

class LockingListener : public Listener {
    Status ask(int32_t number, int32_t* answer) override {
        Mutex::Autolock held(clientLock);
        *answer = number;
        return Status::ok();
    }
};

// Holds its lock over a call that comes back to it.
static void locker() {
    sp<IDesk> service = desk();
    service->listen(new LockingListener);
    for (int turn; (turn = turns());) {
        int32_t answer;
        service->echo(turn, &answer);
        if (turn == 50) {
            Mutex::Autolock held(clientLock);
            service->askAll(turn, &answer);
        }
    }
}

class LockingDesk : public Desk {
public:
    LockingDesk() : Desk(false) {}
    Status echo(int32_t number, int32_t* answer) override {
        Mutex::Autolock held(clientLock);
        *answer = number;
        return Status::ok();
    }
};

// One of two services; each holds its lock over a call to the other, which takes the lock there.
static void peer(const char* own, const char* other) {
    defaultServiceManager()->addService(String16(own), new LockingDesk);
    sp<IDesk> service = interface_cast<IDesk>(found(other));
    for (int turn; (turn = turns());) {
        int32_t answer;
        service->describe(turn, new String16);
        if (turn < 50) continue;
        Mutex::Autolock held(clientLock);
        usleep(TURN);
        service->echo(turn, &answer);
    }
}

struct Role {
    const char* name;
    void (*play)();
    const char* what;
};

static const Role ROLES[] = {
    {"desk", [] { serve("check.desk", new Desk(false)); }, "the service check.desk"},
    {"desk-that-keeps", [] { serve("check.desk", new Desk(true)); }, "the same, which keeps listeners that are dead"},
    {"counter", [] { serve("check.counter", IInterface::asBinder(newCounter())); }, "the service check.counter"},
    {"client", client, "opens sessions, listens, asks, pings, dumps"},
    {"guest", guest, "listens, and is forgotten"},
    {"cache", cache, "keeps 20 sessions, and uses each again and again"},
    {"weak", weak, "promotes a weak pointer to a session"},
    {"linker", linker, "links a recipient to each session, and unlinks it"},
    {"parallel", parallel, "calls by 8 threads"},
    {"teller", teller, "sends for which the service takes 0.7 s each"},
    {"counting", counting, "uses the counter, and drops its slots"},
    {"short-lived", short_lived, "14 processes that listen and end"},
    {"services", services, "five services, which are killed"},
    {"leaker", leaker, "keeps a strong pointer to each session"},
    {"increaser", increaser, "increases the strong count of each session by hand"},
    {"slot-leaker", slot_leaker, "keeps a strong pointer to each slot of the counter"},
    {"parcel-keeper", parcel_keeper, "keeps the replies of describe"},
    {"linked-leaker", linked_leaker, "links a recipient to each session, and never unlinks it"},
    {"crowd", crowd, "17 calls that never end"},
    {"slow-listener", slow_listener, "a listener that takes 0.15 s for each event"},
    {"flood", flood, "tells the listeners more than that one can hear"},
    {"locker", locker, "holds its lock over a call that comes back and takes it"},
    {"one", [] { peer("check.one", "check.two"); }, "holds its lock over calls to the other"},
    {"two", [] { peer("check.two", "check.one"); }, "the same"},
};

int main(int count, char** words) {
    const char* slash = strrchr(words[0], '/');
    const std::string name = slash ? slash + 1 : words[0];
    if (count > 1) until = now() + atof(words[1]);
    for (const Role& role : ROLES) {
        if (role.name != name) continue;
        // Those that make processes of their own must not open the driver before.
        if (role.play != short_lived && role.play != services) ProcessState::self()->startThreadPool();
        role.play();
        return 0;
    }
    for (const Role& role : ROLES) printf("%-16s %s\n", role.name, role.what);
    return 64;
}

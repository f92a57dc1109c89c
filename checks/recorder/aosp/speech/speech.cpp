// Speaks by libbinder, and prints what it says: of each transaction and reply, as sender and as receiver, a line with the
// values, written as viewer/arguments writes them. Numbers of objects and descriptors are left out.
//
//     speech
//
// A process of its own is the service. NEWER is defined for Android 14, whose AIDL has unions, enums and more.
#include <fcntl.h>
#include <signal.h>
#include <stdio.h>
#include <unistd.h>

#include <memory>
#include <optional>
#include <string>
#include <vector>

#include <binder/IPCThreadState.h>
#include <binder/IServiceManager.h>
#include <binder/ProcessState.h>
#include <speech/BnEar.h>
#include <speech/BnSpeech.h>
#include <utils/String8.h>
#ifdef NEWER
#include <speech/BnNewer.h>
#endif

using namespace android;
using android::binder::Status;
using android::os::ParcelFileDescriptor;
using namespace speech;

static const int ROUNDS = 12;

// ---- how values are written

#ifdef NEWER
template <typename T>
using Maybe = std::optional<T>;
template <typename T>
Maybe<T> some(T value) {
    return value;
}
typedef base::unique_fd Raw;
#else
template <typename T>
using Maybe = std::unique_ptr<T>;
template <typename T>
Maybe<T> some(T value) {
    return std::make_unique<T>(std::move(value));
}
typedef const base::unique_fd& Raw;
#endif

static std::string show(const std::string& text) {
    std::string made;
    for (char sign : text) {
        if (sign == '"' || sign == '\\') made += '\\';
        made += sign;
    }
    return "\"" + made + "\"";
}
static std::string plain(const String8& text) { return static_cast<const char*>(text); }
static std::string show(const String16& text) { return show(plain(String8(text))); }
static std::string show(bool flag) { return flag ? "true" : "false"; }
static std::string show(int8_t number) { return std::to_string(number); }
static std::string show(char16_t letter) { return "'" + plain(String8(String16(&letter, 1))) + "'"; }
static std::string show(int32_t number) { return std::to_string(number); }
static std::string show(int64_t number) { return std::to_string(number); }
static std::string show(double number) {
    char made[32];
    snprintf(made, sizeof made, "%.9g", number);
    return made;
}
static std::string show(float number) { return show(static_cast<double>(number)); }
static std::string show(const sp<IBinder>& object) {
    return object == nullptr ? "null" : object->localBinder() ? "BINDER" : "HANDLE";
}
static std::string show(const sp<IEar>& ear) { return show(IInterface::asBinder(ear)); }
static std::string show(const ParcelFileDescriptor&) { return "FD"; }
static std::string show(const base::unique_fd&) { return "FD"; }
static std::string show(const std::vector<uint8_t>& bytes) {
    std::string made = "0x";
    char digits[3];
    for (size_t at = 0; at < bytes.size() && at < 32; at++) {
        snprintf(digits, sizeof digits, "%02x", bytes[at]);
        made += digits;
    }
    return made + (bytes.size() > 32 ? ".." : "") + " (" + std::to_string(bytes.size()) + " bytes)";
}

static std::string show(const Note& note);
template <typename T>
static std::string show(const Maybe<T>& value);
template <typename T>
static std::string show(const std::vector<T>& values);
static std::string show(const std::vector<bool>& values);
#ifdef NEWER
static std::string show(Mood mood);
static std::string show(Step step);
static std::string show(const Choice& choice);
static std::string show(const Box::Inner& inner);
static std::string show(const Box& box);
template <typename T, size_t N>
static std::string show(const std::array<T, N>& values);
template <size_t N>
static std::string show(const std::array<uint8_t, N>& bytes);
#endif

template <typename Values>
static std::string show_all(const Values& values) {
    std::string made = "[";
    size_t at = 0;
    for (const auto& value : values) {
        if (at < 16) made += (at ? ", " : "") + show(value);
        at++;
    }
    return made + (at > 16 ? ", .. " + std::to_string(at - 16) + " more" : "") + "]";
}
template <typename T>
static std::string show(const Maybe<T>& value) {
    return value ? show(*value) : "null";
}
template <typename T>
static std::string show(const std::vector<T>& values) {
    return show_all(values);
}
static std::string show(const std::vector<bool>& values) {
    std::string made = "[";
    for (size_t at = 0; at < values.size(); at++) made += (at ? ", " : "") + show(static_cast<bool>(values[at]));
    return made + "]";
}
static std::string show(const Note& note) {
    return "Note{text=" + show(note.text) + ", number=" + show(note.number) + ", times=" + show(note.times) +
           ", words=" + show(note.words) + ", good=" + show(note.good) + ", small=" + show(note.small) +
           ", weight=" + show(note.weight) + "}";
}
template <typename T>
static std::string room(const std::vector<T>* values) {
    return "room for " + std::to_string(values->size());
}

// A line: who, `says` or `hears`, the method, and the values with their names.
static void line(const char* how, const char* method, std::vector<std::pair<const char*, std::string>> values) {
    std::string made = std::string("speech ") + how + " " + method + "\t";
    for (size_t at = 0; at < values.size(); at++)
        made += (at ? ", " : "") + (*values[at].first ? std::string(values[at].first) + "=" : "") + values[at].second;
    made += "\n";
    write(STDOUT_FILENO, made.data(), made.size());
}

static std::string failed(const Status& status) {
    if (status.exceptionCode() == Status::EX_TRANSACTION_FAILED)
        return "status=" + std::to_string(status.transactionError());
    std::string made = "exception=" + std::to_string(status.exceptionCode()) +
                       ", message=" + show(plain(status.exceptionMessage()));
    if (status.exceptionCode() == Status::EX_SERVICE_SPECIFIC)
        made += ", error=" + std::to_string(status.serviceSpecificErrorCode());
    return made;
}

// What comes back, or how it failed.
static void came(const char* method, const Status& status, std::vector<std::pair<const char*, std::string>> values) {
    if (!status.isOk()) values = {{"", failed(status)}};
    line("is-answered", method, values);
}

// ---- the service

static Status answered(const char* method, std::vector<std::pair<const char*, std::string>> values) {
    line("answers", method, values);
    return Status::ok();
}

class Ear : public BnEar {
public:
    Status hear(const String16& text) override {
        line("gets", "IEar.hear", {{"text", show(text)}});
        return answered("IEar.hear", {{"", "no exception"}});
    }
};

class Speech : public BnSpeech {
public:
    Status say(const String16& text, const std::string& plain, const Maybe<String16>& perhaps,
               String16* answer) override {
        line("gets", "ISpeech.say", {{"text", show(text)}, {"plain", show(plain)}, {"perhaps", show(perhaps)}});
        *answer = text;
        answer->append(String16("!"));
        return answered("ISpeech.say", {{"return", show(*answer)}});
    }
    Status count(bool flag, int8_t small, char16_t letter, int32_t number, int64_t large, float real, double exact,
                 int64_t* answer) override {
        line("gets", "ISpeech.count",
             {{"flag", show(flag)}, {"small", show(small)}, {"letter", show(letter)}, {"number", show(number)},
              {"large", show(large)}, {"real", show(real)}, {"exact", show(exact)}});
        *answer = large - number;
        return answered("ISpeech.count", {{"return", show(*answer)}});
    }
    Status arrays(const std::vector<bool>& flags, const std::vector<uint8_t>& bytes,
                  const std::vector<char16_t>& letters, const std::vector<int32_t>& numbers,
                  const std::vector<int64_t>& larges, const std::vector<float>& reals,
                  const std::vector<double>& exacts, const std::vector<String16>& words,
                  const Maybe<std::vector<int32_t>>& perhaps, std::vector<int32_t>* answer) override {
        line("gets", "ISpeech.arrays",
             {{"flags", show(flags)}, {"bytes", show(bytes)}, {"letters", show(letters)}, {"numbers", show(numbers)},
              {"larges", show(larges)}, {"reals", show(reals)}, {"exacts", show(exacts)}, {"words", show(words)},
              {"perhaps", show(perhaps)}});
        answer->assign(numbers.rbegin(), numbers.rend());
        return answered("ISpeech.arrays", {{"return", show(*answer)}});
    }
    Status lists(const std::vector<String16>& words, const std::vector<std::string>& plain,
                 std::vector<String16>* answer) override {
        line("gets", "ISpeech.lists", {{"words", show(words)}, {"plain", show(plain)}});
        answer->assign(words.begin(), words.end());
        return answered("ISpeech.lists", {{"return", show(*answer)}});
    }
    Status objects(const sp<IBinder>& object, const sp<IEar>& ear, const sp<IBinder>& perhaps,
                   sp<IBinder>* answer) override {
        line("gets", "ISpeech.objects",
             {{"object", show(object)}, {"ear", show(ear)}, {"perhaps", show(perhaps)}});
        const String16 heard("from within");
        line("calls", "IEar.hear", {{"text", show(heard)}});
        came("IEar.hear", ear->hear(heard), {{"", "no exception"}});
        *answer = perhaps == nullptr ? object : new Ear;
        return answered("ISpeech.objects", {{"return", show(*answer)}});
    }
    Status files(const ParcelFileDescriptor& file, Raw raw, ParcelFileDescriptor* answer) override {
        line("gets", "ISpeech.files", {{"file", show(file)}, {"raw", show(raw)}});
        answer->reset(base::unique_fd(dup(file.get())));
        return answered("ISpeech.files", {{"return", show(*answer)}});
    }
    Status notes(const Note& note, Note* copy, Note* changed, const std::vector<Note>& all,
                 const Maybe<Note>& perhaps, std::vector<int32_t>* counts, Note* answer) override {
        line("gets", "ISpeech.notes",
             {{"note", show(note)}, {"changed", show(*changed)}, {"all", show(all)}, {"perhaps", show(perhaps)},
              {"counts", room(counts)}});
        for (size_t at = 0; at < counts->size(); at++) (*counts)[at] = note.number * static_cast<int32_t>(at);
        assign(copy, note);
        changed->number++;
        assign(answer, *changed);
        answer->text = String16("an answer");
        return answered("ISpeech.notes", {{"return", show(*answer)}, {"copy", show(*copy)},
                                          {"changed", show(*changed)}, {"counts", show(*counts)}});
    }
    Status tell(int32_t number, const Note& note) override {
        line("gets", "ISpeech.tell", {{"number", show(number)}, {"note", show(note)}});
        return Status::ok();
    }
    Status fail(int32_t how, int32_t* answer) override {
        line("gets", "ISpeech.fail", {{"how", show(how)}});
        *answer = how;
        const Status status = how == 0   ? Status::ok()
                              : how == 1 ? Status::fromExceptionCode(Status::EX_ILLEGAL_ARGUMENT, "not this one")
                              : how == 2 ? Status::fromServiceSpecificError(42, "of its own")
                              : how == 3 ? Status::fromExceptionCode(Status::EX_SECURITY)
                                         : Status::fromStatusT(PERMISSION_DENIED);
        line("answers", "ISpeech.fail", {{how ? "" : "return", how ? failed(status) : show(*answer)}});
        return status;
    }
    Status rest() override {
        line("gets", "ISpeech.rest", {{"", "no arguments"}});
        return answered("ISpeech.rest", {{"", "no exception"}});
    }

private:
    // What holds a std::unique_ptr can't be copied.
    static void assign(Note* to, const Note& from) {
        to->text = from.text;
        to->number = from.number;
        to->times = from.times;
        to->good = from.good;
        to->small = from.small;
        to->weight = from.weight;
#ifdef NEWER
        to->words = from.words;
#endif
    }
};

// ---- the client

// Values that are different in each round, and the same in each run.
static uint32_t chance = 1;
static int upTo(int most) {
    chance = chance * 1664525 + 1013904223;
    return static_cast<int>((chance >> 8) % (most + 1));
}

static const char* const WORDS[] = {"", "a", "word", "a \"quoted\" one", "a\\b", "gr\xc3\xbc\xc3\x9f", "\xe2\x9c\x93 done",
                                    "a clef: \xf0\x9d\x84\x9e", "one of more letters than others"};

static std::string word() { return WORDS[upTo(8)]; }
static String16 word16() { return String16(word().c_str()); }

template <typename T, typename Make>
static std::vector<T> many(Make make) {
    std::vector<T> made;
    for (int count = upTo(20) - 2; count > 0; count--) made.push_back(make());
    return made;
}
static int32_t whole() { return upTo(200000) * (upTo(1) ? 3001 : -3001); }
static int64_t large() { return static_cast<int64_t>(whole()) * whole(); }
static float real() { return static_cast<float>(upTo(4000) - 2000) / 4; }

static Note note() {
    Note made;
    made.text = word16();
    made.number = whole();
    made.times = many<int64_t>(large);
    if (upTo(1)) {
#ifdef NEWER
        std::vector<std::optional<String16>> words;
        for (int count = upTo(4); count > 0; count--)
            words.push_back(upTo(3) ? std::optional<String16>(word16()) : std::nullopt);
        made.words = words;
#else
        auto words = std::make_unique<std::vector<std::unique_ptr<String16>>>();
        for (int count = upTo(4); count > 0; count--)
            words->push_back(upTo(3) ? std::make_unique<String16>(word16()) : nullptr);
        made.words = std::move(words);
#endif
    }
    made.good = upTo(1);
    made.small = static_cast<int8_t>(upTo(255) - 128);
    made.weight = real();
    return made;
}

static void speak(const sp<ISpeech>& service) {
    const String16 text = word16();
    const std::string plain = word();
    const Maybe<String16> perhaps = upTo(2) ? some(word16()) : Maybe<String16>();
    String16 said;
    line("calls", "ISpeech.say", {{"text", show(text)}, {"plain", show(plain)}, {"perhaps", show(perhaps)}});
    came("ISpeech.say", service->say(text, plain, perhaps, &said), {{"return", show(said)}});

    const bool flag = upTo(1);
    const int8_t small = static_cast<int8_t>(upTo(255) - 128);
    const char16_t letter = static_cast<char16_t>(u'a' + upTo(25));
    const int32_t number = whole();
    const int64_t far = large();
    const float fraction = real();
    const double exact = real() * 1024.0;
    int64_t counted = 0;
    line("calls", "ISpeech.count",
         {{"flag", show(flag)}, {"small", show(small)}, {"letter", show(letter)}, {"number", show(number)},
          {"large", show(far)}, {"real", show(fraction)}, {"exact", show(exact)}});
    const Status status = service->count(flag, small, letter, number, far, fraction, exact, &counted);
    came("ISpeech.count", status, {{"return", show(counted)}});
}

static void speakOfArrays(const sp<ISpeech>& service) {
    std::vector<bool> flags;
    for (int count = upTo(12); count > 0; count--) flags.push_back(upTo(1));
    const auto bytes = many<uint8_t>([] { return static_cast<uint8_t>(upTo(255)); });
    const auto letters = many<char16_t>([] { return static_cast<char16_t>(u'A' + upTo(25)); });
    const auto numbers = many<int32_t>(whole);
    const auto larges = many<int64_t>(large);
    const auto reals = many<float>(real);
    const auto exacts = many<double>([] { return static_cast<double>(real()); });
    const auto words = many<String16>(word16);
    const auto perhaps = upTo(1) ? some(many<int32_t>(whole)) : Maybe<std::vector<int32_t>>();
    std::vector<int32_t> answer;
    line("calls", "ISpeech.arrays",
         {{"flags", show(flags)}, {"bytes", show(bytes)}, {"letters", show(letters)}, {"numbers", show(numbers)},
          {"larges", show(larges)}, {"reals", show(reals)}, {"exacts", show(exacts)}, {"words", show(words)},
          {"perhaps", show(perhaps)}});
    const Status status = service->arrays(flags, bytes, letters, numbers, larges, reals, exacts, words, perhaps, &answer);
    came("ISpeech.arrays", status, {{"return", show(answer)}});

    const auto plain = many<std::string>(word);
    std::vector<String16> listed;
    line("calls", "ISpeech.lists", {{"words", show(words)}, {"plain", show(plain)}});
    const Status heard = service->lists(words, plain, &listed);
    came("ISpeech.lists", heard, {{"return", show(listed)}});
}

static void speakOfObjects(const sp<ISpeech>& service) {
    const sp<IBinder> own = upTo(1) ? sp<IBinder>(new BBinder) : IInterface::asBinder(service);
    const sp<IEar> ear = new Ear;
    const sp<IBinder> perhaps = upTo(1) ? own : nullptr;
    sp<IBinder> object;
    line("calls", "ISpeech.objects", {{"object", show(own)}, {"ear", show(ear)}, {"perhaps", show(perhaps)}});
    const Status status = service->objects(own, ear, perhaps, &object);
    came("ISpeech.objects", status, {{"return", show(object)}});

    const ParcelFileDescriptor file(base::unique_fd(open("/dev/null", O_RDWR)));
    base::unique_fd raw(open("/dev/zero", O_RDONLY));
    ParcelFileDescriptor answer;
    line("calls", "ISpeech.files", {{"file", show(file)}, {"raw", show(raw)}});
#ifdef NEWER
    const Status heard = service->files(file, std::move(raw), &answer);
#else
    const Status heard = service->files(file, raw, &answer);
#endif
    came("ISpeech.files", heard, {{"return", show(answer)}});
}

static void speakOfNotes(const sp<ISpeech>& service) {
    const Note one = note();
    Note copy, changed = note(), answer;
    std::vector<Note> all;
    for (int count = upTo(4); count > 0; count--) all.push_back(note());
    const Maybe<Note> perhaps = upTo(1) ? some(note()) : Maybe<Note>();
    std::vector<int32_t> counts(static_cast<size_t>(upTo(6)));
    line("calls", "ISpeech.notes",
         {{"note", show(one)}, {"changed", show(changed)}, {"all", show(all)}, {"perhaps", show(perhaps)},
          {"counts", room(&counts)}});
    const Status status = service->notes(one, &copy, &changed, all, perhaps, &counts, &answer);
    came("ISpeech.notes", status,
         {{"return", show(answer)}, {"copy", show(copy)}, {"changed", show(changed)}, {"counts", show(counts)}});
    line("calls", "ISpeech.tell", {{"number", "7"}, {"note", show(one)}});
    service->tell(7, one);
}

static void speakOfFaults(const sp<ISpeech>& service) {
    for (int how = 0; how < 5; how++) {
        int32_t answer = 0;
        line("calls", "ISpeech.fail", {{"how", show(how)}});
        const Status status = service->fail(how, &answer);
        came("ISpeech.fail", status, {{"return", show(answer)}});
    }
    line("calls", "ISpeech.rest", {{"", "no arguments"}});
    came("ISpeech.rest", service->rest(), {{"", "no exception"}});
}

#ifdef NEWER
#include "newer.h"
#endif

static void serve() {
    defaultServiceManager()->addService(String16("speech"), new Speech);
#ifdef NEWER
    defaultServiceManager()->addService(String16("newer"), new Newer);
#endif
    ProcessState::self()->startThreadPool();
    IPCThreadState::self()->joinThreadPool();
}

static sp<IBinder> found(const char* name) {
    sp<IBinder> object;
    while ((object = defaultServiceManager()->checkService(String16(name))) == nullptr) usleep(50000);
    return object;
}

int main() {
    const pid_t child = fork();
    if (child == 0) {
        serve();
        return 1;
    }
    ProcessState::self()->startThreadPool();
    const sp<ISpeech> service = interface_cast<ISpeech>(found("speech"));
    for (int round = 0; round < ROUNDS; round++) {
        speak(service);
        speakOfArrays(service);
        speakOfObjects(service);
        speakOfNotes(service);
        speakOfFaults(service);
#ifdef NEWER
        speakNewer(interface_cast<INewer>(found("newer")));
#endif
    }
    usleep(200000);
    kill(child, SIGKILL);
    return 0;
}

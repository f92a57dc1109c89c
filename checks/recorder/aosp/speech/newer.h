// What AIDL has since Android 11 to 13: enums, unions, arrays of fixed length, arrays of interfaces, types within others,
// and ParcelableHolder. speech.cpp includes it.
#pragma once

static std::string show(Mood mood) {
    return mood == Mood::SAD    ? "Mood.SAD"
           : mood == Mood::CALM ? "Mood.CALM"
           : mood == Mood::GLAD ? "Mood.GLAD"
                                : "Mood(" + std::to_string(static_cast<int>(mood)) + ")";
}
static std::string show(Step step) {
    return step == Step::FIRST ? "Step.FIRST" : step == Step::LAST ? "Step.LAST" : "Step(" + show(int64_t(step)) + ")";
}
static std::string show(const Choice& choice) {
    switch (choice.getTag()) {
        case Choice::number: return "Choice{number=" + show(choice.get<Choice::number>()) + "}";
        case Choice::text: return "Choice{text=" + show(choice.get<Choice::text>()) + "}";
        case Choice::note: return "Choice{note=" + show(choice.get<Choice::note>()) + "}";
        case Choice::all: return "Choice{all=" + show(choice.get<Choice::all>()) + "}";
        case Choice::mood: return "Choice{mood=" + show(choice.get<Choice::mood>()) + "}";
    }
    return "no Choice";
}
template <typename T, size_t N>
static std::string show(const std::array<T, N>& values) {
    return show_all(values);
}
template <size_t N>
static std::string show(const std::array<uint8_t, N>& bytes) {
    return show(std::vector<uint8_t>(bytes.begin(), bytes.end()));
}
static std::string show(const Box::Inner& inner) {
    return "Inner{depth=" + show(inner.depth) + ", mood=" + show(inner.mood) +
           ", choices=" + show(inner.choices) + "}";
}
static std::string show(const Box& box) {
    std::shared_ptr<Note> held;
    box.held.getParcelable(&held);
    return "Box{held=ParcelableHolder{" + (held ? show(*held) : "") + "}, inner=" +
           (box.inner ? show(*box.inner) : "null") + ", pair=" + show(box.pair) + "}";
}

class Newer : public BnNewer {
public:
    Status choose(const Choice& choice, const std::optional<Choice>& perhaps, Choice* other, Choice* answer) override {
        line("gets", "INewer.choose", {{"choice", show(choice)}, {"perhaps", perhaps ? show(*perhaps) : "null"}});
        *other = Choice::make<Choice::text>(String16("another"));
        *answer = choice;
        return answered("INewer.choose", {{"return", show(*answer)}, {"other", show(*other)}});
    }
    Status feel(Mood mood, Step step, const std::vector<Mood>& moods, const std::vector<Step>& steps,
                Mood* answer) override {
        line("gets", "INewer.feel",
             {{"mood", show(mood)}, {"step", show(step)}, {"moods", show(moods)}, {"steps", show(steps)}});
        *answer = moods.empty() ? Mood::CALM : moods.back();
        return answered("INewer.feel", {{"return", show(*answer)}});
    }
    Status grids(const std::array<std::array<int32_t, 3>, 2>& grid, const std::array<String16, 2>& pair,
                 const std::array<uint8_t, 4>& four, std::array<int32_t, 3>* counts,
                 std::array<std::array<int32_t, 3>, 2>* answer) override {
        line("gets", "INewer.grids", {{"grid", show(grid)}, {"pair", show(pair)}, {"four", show(four)}});
        *counts = grid[1];
        *answer = {grid[1], grid[0]};
        return answered("INewer.grids", {{"return", show(*answer)}, {"counts", show(*counts)}});
    }
    Status ears(const std::vector<sp<IEar>>& ears, const std::vector<sp<IBinder>>& objects,
                const std::vector<ParcelFileDescriptor>& files, std::vector<sp<IEar>>* answer) override {
        line("gets", "INewer.ears",
             {{"ears", show(ears)}, {"objects", show(objects)}, {"files", show(files)}});
        *answer = ears;
        answer->push_back(new Ear);
        return answered("INewer.ears", {{"return", show(*answer)}});
    }
    Status pack(const Box& box, const Box::Inner& inner, const std::vector<Note>& notes, Box* answer) override {
        line("gets", "INewer.pack", {{"box", show(box)}, {"inner", show(inner)}, {"notes", show(notes)}});
        std::shared_ptr<Note> held;
        box.held.getParcelable(&held);
        if (held) answer->held.setParcelable(held);
        answer->inner = inner;
        answer->pair = box.pair;
        return answered("INewer.pack", {{"return", show(*answer)}});
    }
};

static Mood mood() { return static_cast<Mood>(upTo(7) - 1); }

static Choice choice() {
    switch (upTo(4)) {
        case 0: return Choice::make<Choice::number>(whole());
        case 1: return Choice::make<Choice::text>(word16());
        case 2: return Choice::make<Choice::note>(note());
        case 3: return Choice::make<Choice::all>(many<int32_t>(whole));
        default: return Choice::make<Choice::mood>(mood());
    }
}

static Box::Inner inner() {
    Box::Inner made;
    made.depth = upTo(9);
    made.mood = mood();
    for (int count = upTo(3); count > 0; count--) made.choices.push_back(choice());
    return made;
}

static void speakOfChoices(const sp<INewer>& service) {
    const Choice one = choice();
    const auto perhaps = upTo(1) ? std::optional<Choice>(choice()) : std::nullopt;
    Choice other, chosen;
    line("calls", "INewer.choose", {{"choice", show(one)}, {"perhaps", perhaps ? show(*perhaps) : "null"}});
    const Status status = service->choose(one, perhaps, &other, &chosen);
    came("INewer.choose", status, {{"return", show(chosen)}, {"other", show(other)}});

    const Mood own = mood();
    const Step step = upTo(1) ? Step::LAST : Step::FIRST;
    std::vector<Mood> moods;
    for (int count = upTo(9); count > 0; count--) moods.push_back(mood());
    const std::vector<Step> steps = {Step::FIRST, Step::LAST, static_cast<Step>(large())};
    Mood felt;
    line("calls", "INewer.feel",
         {{"mood", show(own)}, {"step", show(step)}, {"moods", show(moods)}, {"steps", show(steps)}});
    const Status heard = service->feel(own, step, moods, steps, &felt);
    came("INewer.feel", heard, {{"return", show(felt)}});
}

static void speakOfGrids(const sp<INewer>& service) {
    std::array<std::array<int32_t, 3>, 2> grid, answer;
    for (auto& row : grid)
        for (auto& number : row) number = whole();
    const std::array<String16, 2> pair = {word16(), word16()};
    const std::array<uint8_t, 4> four = {1, 2, static_cast<uint8_t>(upTo(255)), 0};
    std::array<int32_t, 3> counts;
    line("calls", "INewer.grids", {{"grid", show(grid)}, {"pair", show(pair)}, {"four", show(four)}});
    const Status status = service->grids(grid, pair, four, &counts, &answer);
    came("INewer.grids", status, {{"return", show(answer)}, {"counts", show(counts)}});
}

static void speakOfBoxes(const sp<INewer>& service) {
    Box box, packed;
    if (upTo(1)) box.held.setParcelable(std::make_shared<Note>(note()));
    if (upTo(1)) box.inner = inner();
    box.pair = {whole(), whole()};
    const Box::Inner own = inner();
    const std::vector<Note> notes = {note(), note()};
    line("calls", "INewer.pack", {{"box", show(box)}, {"inner", show(own)}, {"notes", show(notes)}});
    const Status status = service->pack(box, own, notes, &packed);
    came("INewer.pack", status, {{"return", show(packed)}});

    const std::vector<sp<IEar>> ears = {new Ear};
    const std::vector<sp<IBinder>> objects = {IInterface::asBinder(service), new BBinder};
    std::vector<ParcelFileDescriptor> files;
    for (int count = upTo(2); count > 0; count--)
        files.push_back(ParcelFileDescriptor(base::unique_fd(open("/dev/null", O_RDWR))));
    std::vector<sp<IEar>> answered;
    line("calls", "INewer.ears",
         {{"ears", show(ears)}, {"objects", show(objects)}, {"files", show(files)}});
    const Status heard = service->ears(ears, objects, files, &answered);
    came("INewer.ears", heard, {{"return", show(answered)}});
}

static void speakNewer(const sp<INewer>& service) {
    speakOfChoices(service);
    speakOfGrids(service);
    speakOfBoxes(service);
}

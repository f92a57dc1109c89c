package check.forms;

interface INested {
    @Backing(type="int") enum Level { LOW = 1, MIDDLE = LOW + 1, HIGH, }
    void first(Level level);
    union Either {
        int number = 3;
        String text;
        parcelable Inner { byte[] data = {1, 2, 3}; enum Deep { A } }
    }
    parcelable Data {
        const int LIMIT = 4;
        int[] numbers = {1, 2,};
        String text = "a; b() {";
        char sign = ';';
        char quote = '"';
        Level level = Level.LOW;
        @nullable List<String> names;
        int[LIMIT] fixed;
    }
    oneway interface ICallback {
        void done(in Data data);
        void failed(int why);
        interface IDeep { void only(); }
    }
    Either second(in Either either, in Data data);
    @Descriptor(value="check.other.IRenamed") interface IOld { void kept(); oneway void told(); }
    void third(ICallback callback);
}

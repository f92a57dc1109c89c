package speech;

parcelable Note {
    String text;
    int number;
    long[] times;
    @nullable String[] words;
    boolean good;
    byte small;
    double weight;
}

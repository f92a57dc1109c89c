package speech;

import speech.Choice;
import speech.Mood;

parcelable Box {
    ParcelableHolder held;
    @nullable Inner inner;
    int[2] pair;

    parcelable Inner {
        int depth;
        Mood mood = Mood.CALM;
        Choice[] choices;
    }
}

package speech;

import speech.Mood;
import speech.Note;

union Choice {
    int number = 0;
    String text;
    Note note;
    int[] all;
    Mood mood;
}

package speech;

import speech.Box;
import speech.Choice;
import speech.IEar;
import speech.Mood;
import speech.Note;
import speech.Step;

interface INewer {
    const int TWO = 2;
    Choice choose(in Choice choice, in @nullable Choice perhaps, out Choice other);
    Mood feel(Mood mood, Step step, in Mood[] moods, in Step[] steps);
    int[TWO][3] grids(in int[TWO][3] grid, in String[2] pair, in byte[4] four, out int[3] counts);
    IEar[] ears(in IEar[] ears, in List<IBinder> objects, in ParcelFileDescriptor[] files);
    Box pack(in Box box, in Box.Inner inner, in List<Note> notes);
}

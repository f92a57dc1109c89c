package speech;

import speech.IEar;
import speech.Note;

interface ISpeech {
    String say(String text, @utf8InCpp String plain, @nullable String perhaps);
    long count(boolean flag, byte small, char letter, int number, long large, float real, double exact);
    int[] arrays(in boolean[] flags, in byte[] bytes, in char[] letters, in int[] numbers, in long[] larges,
            in float[] reals, in double[] exacts, in String[] words, in @nullable int[] perhaps);
    List<String> lists(in List<String> words, in @utf8InCpp List<String> plain);
    IBinder objects(IBinder object, IEar ear, @nullable IBinder perhaps);
    ParcelFileDescriptor files(in ParcelFileDescriptor file, in FileDescriptor raw);
    Note notes(in Note note, out Note copy, inout Note changed, in Note[] all, in @nullable Note perhaps,
            out int[] counts);
    oneway void tell(int number, in Note note);
    int fail(int how);
    void rest();
}

package check.forms;

interface IPlain {
    void first();
    int second(int count, String name, boolean flag, char sign, long far, float part, double exact, byte small);
    IBinder third(IBinder token);
}

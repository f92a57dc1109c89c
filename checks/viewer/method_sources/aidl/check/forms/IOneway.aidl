package check.forms;

oneway interface IOneway {
    void first();
    oneway void second(in int[] numbers);
    void third();
}

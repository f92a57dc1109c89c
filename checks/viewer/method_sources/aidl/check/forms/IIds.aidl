package check.forms;

interface IIds {
    void last() = 16777114;
    void first() = 0;
    oneway void tenth() = 9;
    void eighth(in String text, int number) = 007;
    int third() = /* = 5 */ 2;
}

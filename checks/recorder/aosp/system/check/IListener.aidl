package check;

interface IListener {
    oneway void event(int number);
    int ask(int number);
}

package check;

interface ISession {
    int work(int number);
    void close();
}

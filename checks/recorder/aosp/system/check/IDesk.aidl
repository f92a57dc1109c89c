package check;

import check.IListener;
import check.ISession;

interface IDesk {
    int echo(int number);
    ISession open(String who);
    void listen(IListener listener);
    void forget(IListener listener);
    oneway void tell(int number);
    int askAll(int number);
    String describe(int number);
    int rest(int milliseconds);
    oneway void restAfterwards(int milliseconds);
}

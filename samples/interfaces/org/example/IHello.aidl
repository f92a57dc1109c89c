package org.example;

import org.example.ICallback;
import org.example.ISession;

interface IHello {
    String echo(String text);
    int callBack(ICallback callback);
    oneway void note(int turn);
    ISession open();
    void keep(ICallback callback);
    void waitForever();
}

package org.example;

interface ICallback {
    void call();
}

package org.example;

interface IClock {
    void tick();
}

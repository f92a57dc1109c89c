package org.example;

interface ISession {
    void use();
}

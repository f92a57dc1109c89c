package speech;

interface IEar {
    void hear(String text);
}

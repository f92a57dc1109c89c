package check.forms;

interface IConstants {
    const String BRACES = "} void wrong(); {";
    const String COMMENT = "/* // ";
    const String LINE = "// ";
    const int SHIFTED = (1 << 3) | 0x10 & ~(2 + -1) * 4 % 3;
    void first();
    const @utf8InCpp String JOINED = "a;" + "b'" + "";
    const int COMPARED = 3 >= 2;
    const long FAR = 0xFFFFFFFFFL;
    const byte SMALL = 3u8;
    void second();
    const float PART = 1.5f;
    const double EXACT = -1.0e-5;
    const int OTHER = SHIFTED + 1;
    const int HALVED = 64 >> 2;
    void third();
}

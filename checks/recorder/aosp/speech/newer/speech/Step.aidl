package speech;

@Backing(type="long")
enum Step {
    FIRST,
    LAST = 0x123456789ab,
}

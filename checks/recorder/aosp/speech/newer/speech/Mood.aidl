package speech;

@Backing(type="byte")
enum Mood {
    SAD = -1,
    CALM,
    GLAD = 5,
}

package crew;

/** A call that was refused: the number that crew.h names, its group, and the words for it. */
public final class Refused extends Exception {
    private static final long serialVersionUID = 1;
    public final int number;
    public final String group;

    Refused(int number, String group, String text) {
        super(text);
        this.number = number;
        this.group = group;
    }
}

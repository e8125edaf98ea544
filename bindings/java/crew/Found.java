package crew;

import java.util.List;

/** What the finder answers: the plan; or the pairs left; or the candidate as plan, its rival, and the candidate's vote against it. */
public final class Found {
    public enum Kind { PLAN, LEFT, RIVALLED }

    /** A surveyor, a stand and a shift. */
    public static final class Pair {
        public final int surveyor;
        public final int stand;
        public final int shift;

        Pair(byte[] bytes, int at) {
            surveyor = bytes[at];
            stand = bytes[at + 1];
            shift = bytes[at + 2];
        }

        @Override
        public String toString() {
            return surveyor + " " + stand + " " + shift;
        }
    }

    /** A step of the diary: what became of a pair, and by which rule. */
    public static final class Step {
        public final boolean fixed;
        public final Pair pair;
        public final int rule;

        Step(byte[] bytes, int at) {
            fixed = bytes[at] == 1;
            pair = new Pair(bytes, at + 1);
            rule = bytes[at + 4];
        }

        @Override
        public String toString() {
            return (fixed ? "fix " : "strike ") + pair + " " + rule;
        }
    }

    public final Kind kind;
    public final int vote;
    public final List<Step> diary;
    public final List<Pair> left;
    public final List<Pair> plan;
    public final List<Pair> rival;

    Found(Kind kind, int vote, List<Step> diary, List<Pair> left, List<Pair> plan, List<Pair> rival) {
        this.kind = kind;
        this.vote = vote;
        this.diary = diary;
        this.left = left;
        this.plan = plan;
        this.rival = rival;
    }
}

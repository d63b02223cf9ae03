/** One rule for the classes below a class, and one from it on: 0 Open, 1 Floor, 2 Ceiling. */
final class Policy {
    private final int fromClass;
    private final int below;
    private final int from;

    Policy(int fromClass, int below, int from) {
        if (below > 2 || from > 2) {
            throw new IllegalArgumentException("no such policy");
        }
        this.fromClass = fromClass;
        this.below = below;
        this.from = from;
    }

    /** Volumes here are at most the top, so that no sum of two or three passes 64 bits. */
    boolean admits(int ofClass, long limit, long dp, long dq, long cp, long cq) {
        int rule = ofClass < fromClass ? below : from;
        return switch (rule) {
            case 1 -> dp + dq <= cq + limit;
            case 2 -> cp + cq <= dq + limit;
            default -> true;
        };
    }
}

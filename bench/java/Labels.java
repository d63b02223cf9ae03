/** Labels: 1 to 8 characters, filled with spaces. */
final class Labels {
    private Labels() {}

    static boolean isLabel(long label) {
        int length = 8;
        while (length > 0 && at(label, length - 1) == ' ') {
            length--;
        }
        for (int place = 0; place < length; place++) {
            int c = at(label, place);
            if (!(c >= 'A' && c <= 'Z' || c >= '0' && c <= '9' || c == '-')) {
                return false;
            }
        }
        return length > 0;
    }

    private static int at(long label, int place) {
        return (int) (label >>> 56 - 8 * place) & 0xFF;
    }
}

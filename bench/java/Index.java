/** Finds places in an array of numbers: open addressing, at most half full. */
final class Index {
    private final int[] numbers;
    /** 0 where free, else the place and 1. */
    private final short[] slots;
    private final int mask;
    private final int shift;

    /** The array's length is a power of two; its numbers are put in one after another. */
    Index(int[] numbers) {
        this.numbers = numbers;
        this.slots = new short[2 * numbers.length];
        this.mask = slots.length - 1;
        this.shift = 32 - Integer.numberOfTrailingZeros(slots.length);
    }

    /** The place of a number, or -1. */
    int find(int number) {
        int slot = first(number);
        while (true) {
            int place = slots[slot] - 1;
            if (place < 0 || numbers[place] == number) {
                return place;
            }
            slot = (slot + 1) & mask;
        }
    }

    void insert(int number, int place) {
        int slot = first(number);
        while (slots[slot] != 0) {
            slot = (slot + 1) & mask;
        }
        slots[slot] = (short) (place + 1);
        numbers[place] = number;
    }

    private int first(int number) {
        return (number * 0x9E3779B1) >>> shift;
    }
}

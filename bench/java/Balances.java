/** Accounts and reservations in tables, and how orders change them. Answers are numbers of refusals, 0 where taken. */
final class Balances {
    static final int TRANSFER = 2;
    static final int RESERVE = 3;
    static final int POST = 4;
    static final long TOP = (1L << 56) - 1;
    private static final int ACCOUNTS = 64;
    private static final int RESERVATIONS = 256;
    private static final byte LIVE = 0;
    private static final byte POSTED = 1;

    private final Policy policy;
    private int highest;

    private int accounts;
    private final Index byAccount = new Index(new int[ACCOUNTS]);
    private final int[] ledger = new int[ACCOUNTS];
    private final int[] classOf = new int[ACCOUNTS];
    private final long[] limit = new long[ACCOUNTS];
    private final long[] debitsPending = new long[ACCOUNTS];
    private final long[] debitsPosted = new long[ACCOUNTS];
    private final long[] creditsPending = new long[ACCOUNTS];
    private final long[] creditsPosted = new long[ACCOUNTS];

    private int reservations;
    private final Index byReservation = new Index(new int[RESERVATIONS]);
    private final int[] debitOf = new int[RESERVATIONS];
    private final int[] creditOf = new int[RESERVATIONS];
    private final long[] reserved = new long[RESERVATIONS];
    private final byte[] fate = new byte[RESERVATIONS];

    Balances(Policy policy) {
        this.policy = policy;
    }

    /** The refusals of an opening, but for those of journal and policy. */
    int checkOpening(int number, int inLedger, long withLimit, long label) {
        if (number == 0 || byAccount.find(number) >= 0) {
            return 41;
        }
        if (inLedger == 0) {
            return 42;
        }
        if (Long.compareUnsigned(withLimit, TOP) > 0) {
            return 43;
        }
        if (!Labels.isLabel(label)) {
            return 44;
        }
        return accounts == ACCOUNTS ? 45 : 0;
    }

    int checkAdmitted(int ofClass, long withLimit) {
        return policy.admits(ofClass, withLimit, 0, 0, 0, 0) ? 0 : 47;
    }

    void open(int number, int inLedger, int ofClass, long withLimit) {
        int place = accounts++;
        byAccount.insert(number, place);
        ledger[place] = inLedger;
        classOf[place] = ofClass;
        limit[place] = withLimit;
    }

    /** Takes an order, or changes nothing. */
    int take(int kind, int number, int first, int second, long amount) {
        if (Integer.compareUnsigned(number, highest) <= 0) {
            return 21;
        }
        int refusal;
        if (kind == POST) {
            refusal = post(first, amount);
        } else {
            refusal = flow(kind == RESERVE, number, first, second, amount);
        }
        if (refusal == 0) {
            highest = number;
        }
        return refusal;
    }

    private int flow(boolean pends, int number, int first, int second, long amount) {
        if (Long.compareUnsigned(amount - 1, TOP) >= 0) {
            return 22;
        }
        int debit = byAccount.find(first);
        if (debit < 0) {
            return 23;
        }
        int credit = byAccount.find(second);
        if (credit < 0) {
            return 24;
        }
        if (debit == credit) {
            return 25;
        }
        if (ledger[debit] != ledger[credit]) {
            return 26;
        }
        int refusal = checkAfter(pends, debit, credit, amount);
        if (refusal != 0) {
            return refusal;
        }
        if (!pends) {
            debitsPosted[debit] += amount;
            creditsPosted[credit] += amount;
            return 0;
        }
        return reserve(number, debit, credit, amount);
    }

    /** The refusals that look at totals as they are after the leg. */
    private int checkAfter(boolean pends, int debit, int credit, long amount) {
        long pending = pends ? amount : 0;
        long posted = amount - pending;
        long dp = debitsPending[debit] + pending;
        long dq = debitsPosted[debit] + posted;
        long cp = creditsPending[credit] + pending;
        long cq = creditsPosted[credit] + posted;
        if (dp + dq > TOP || cp + cq > TOP) {
            return 27;
        }
        long otherPending = creditsPending[debit];
        long otherPosted = creditsPosted[debit];
        if (!policy.admits(classOf[debit], limit[debit], dp, dq, otherPending, otherPosted)) {
            return 28;
        }
        otherPending = debitsPending[credit];
        otherPosted = debitsPosted[credit];
        if (!policy.admits(classOf[credit], limit[credit], otherPending, otherPosted, cp, cq)) {
            return 29;
        }
        return 0;
    }

    private int reserve(int number, int debit, int credit, long amount) {
        if (reservations == RESERVATIONS) {
            return 30;
        }
        int place = reservations++;
        byReservation.insert(number, place);
        debitOf[place] = debit;
        creditOf[place] = credit;
        reserved[place] = amount;
        debitsPending[debit] += amount;
        creditsPending[credit] += amount;
        return 0;
    }

    private int post(int reservation, long amount) {
        int place = byReservation.find(reservation);
        if (place < 0) {
            return 31;
        }
        if (fate[place] != LIVE) {
            return 32;
        }
        long whole = reserved[place];
        if (Long.compareUnsigned(amount - 1, whole) >= 0) {
            return 35;
        }
        fate[place] = POSTED;
        debitsPending[debitOf[place]] -= whole;
        debitsPosted[debitOf[place]] += amount;
        creditsPending[creditOf[place]] -= whole;
        creditsPosted[creditOf[place]] += amount;
        return 0;
    }
}

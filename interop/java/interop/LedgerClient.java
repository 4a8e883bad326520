package interop;

import static interop.Checks.check;
import static interop.Checks.equal;
import static interop.Checks.faultOf;

import example.Account;
import example.Ledger;
import java.lang.ref.Reference;
import java.rmi.registry.LocateRegistry;

/** A client of a ledger on 127.0.0.1: LedgerClient PORT. It prints a line for each check, and ends with status 1 where one failed. */
public final class LedgerClient {
    private LedgerClient() {
    }

    private static void add(Ledger ledger) throws Exception {
        Account one = ledger.open();
        Account other = ledger.open();
        long balance = one.add(5);
        equal(5L, balance);
        equal(-2L, one.add(-7));
        equal(3L, other.add(3));
        equal(1L, ledger.total());
        equal("java.lang.ArithmeticException: overflow", faultOf(() -> other.add(Long.MAX_VALUE)));
        equal(1L, ledger.total());
        Reference.reachabilityFence(one);
        Reference.reachabilityFence(other);
    }

    private static void forget(Ledger ledger) throws Exception {
        for (int i = 0; i < 100 && ledger.total() != 0; i++) {
            System.gc();
            Thread.sleep(100);
        }
        equal(0L, ledger.total());
    }

    public static void main(String[] words) throws Exception {
        Ledger ledger = (Ledger) LocateRegistry.getRegistry("127.0.0.1", Integer.parseInt(words[0])).lookup("ledger");
        check("accounts of a ledger add by themselves", () -> add(ledger));
        check("a ledger forgets accounts that no client holds", () -> forget(ledger));
        System.out.flush();
        Runtime.getRuntime().halt(Checks.failed() == 0 ? 0 : 1);
    }
}

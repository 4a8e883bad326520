package interop;

import static interop.Checks.check;
import static interop.Checks.equal;
import static interop.Checks.faultOf;

import example.Texts;
import java.rmi.registry.LocateRegistry;
import java.util.List;

/** A client of a list of texts on 127.0.0.1: TextsClient PORT. It prints a line for each check, and ends with status 1 where one failed. */
public final class TextsClient {
    private TextsClient() {
    }

    public static void main(String[] words) throws Exception {
        Texts texts = (Texts) LocateRegistry.getRegistry("127.0.0.1", Integer.parseInt(words[0])).lookup("texts");
        check("texts are added and read", () -> {
            equal(0, texts.add("one"));
            equal(1, texts.add("zw\u00f6lf"));
            equal("zw\u00f6lf", texts.get(1));
            equal(List.of("one", "zw\u00f6lf"), List.of(texts.all()));
        });
        check("a null text is refused, and the connection goes on", () -> {
            equal("java.rmi.UnmarshalException: argument 0 is no String", faultOf(() -> texts.add(null)));
            equal(2, texts.all().length);
        });
        check("a place without a text is refused", () -> {
            equal("java.lang.IndexOutOfBoundsException: no such text", faultOf(() -> texts.get(2)));
            equal("java.lang.IndexOutOfBoundsException: no such text", faultOf(() -> texts.get(-1)));
        });
        System.out.flush();
        Runtime.getRuntime().halt(Checks.failed() == 0 ? 0 : 1);
    }
}
